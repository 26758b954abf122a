//! Text in a lent output, behind what is already written.

/// A text that grows in an output with room for it.
pub struct Text<'a> {
    out: &'a mut [u8],
    length: usize,
}

impl<'a> Text<'a> {
    /// No text yet.
    pub fn new(out: &'a mut [u8]) -> Text<'a> {
        Text { out, length: 0 }
    }

    /// How many bytes the text has.
    pub fn length(&self) -> usize {
        self.length
    }

    /// The bytes as they are.
    pub fn put(&mut self, bytes: &[u8]) {
        self.out[self.length..][..bytes.len()].copy_from_slice(bytes);
        self.length += bytes.len();
    }

    /// A number in decimal, and the byte that ends it.
    pub fn put_field(&mut self, number: u64, end: u8) {
        // Most numbers are members or resends: of one digit or two.
        if number < 10 {
            return self.put(&[b'0' + number as u8, end]);
        }
        if number < 100 {
            return self.put(&[b'0' + (number / 10) as u8, b'0' + (number % 10) as u8, end]);
        }
        let mut digits = [0; 21];
        digits[20] = end;
        let mut from = 20;
        let mut rest = number;
        while rest > 0 {
            from -= 1;
            digits[from] = b'0' + (rest % 10) as u8;
            rest /= 10;
        }
        self.put(&digits[from..]);
    }
}
