//! The words that a vector line is made of: numbers, lists of numbers, bytes, and fields `name=value`.

use std::fmt::Display;
use std::str::{FromStr, SplitWhitespace};

/// What cannot be read, and why.
pub type Parsed<T> = Result<T, String>;

/// No list and no room in a line is longer; a slip of the pen in `1*1000000000000` is told instead of filling the memory.
const LONGEST: usize = 1 << 20;

/// How a writer shows numbers; a reader takes both everywhere.
#[derive(Clone, Copy, PartialEq, Eq)]
pub enum Base {
    Decimal,
    Hexadecimal,
}

/// A number in decimal, or in hexadecimal after `0x`.
pub fn number<T: TryFrom<u64>>(text: &str) -> Parsed<T> {
    // The standard library would take a sign as well.
    if !text.bytes().all(|digit| digit.is_ascii_alphanumeric()) {
        return Err(format!("`{text}` is no number"));
    }
    let number = match text.strip_prefix("0x") {
        Some(digits) => u64::from_str_radix(digits, 16),
        None => u64::from_str(text),
    };
    let wide = number.map_err(|error| format!("`{text}`: {error}"))?;
    T::try_from(wide).map_err(|_| format!("`{text}` is too large for its place"))
}

fn number_text(number: u64, base: Base) -> String {
    match base {
        Base::Decimal => format!("{number}"),
        Base::Hexadecimal => format!("{number:#x}"),
    }
}

/// Numbers with commas between, `value*times` for a value that is repeated, `-` for no number at all.
pub fn numbers<T: TryFrom<u64> + Clone>(text: &str) -> Parsed<Vec<T>> {
    pieces(text, |piece| Ok(vec![number(piece)?]))
}

pub fn numbers_text<T: Copy + Into<u64>>(numbers: &[T], base: Base) -> String {
    let wide: Vec<u64> = numbers.iter().map(|&number| number.into()).collect();
    let runs = wide.chunk_by(|a, b| a == b);
    join(runs.flat_map(|run| {
        let value = number_text(run[0], base);
        // Few numbers are easier to read one by one.
        if run.len() < 5 {
            vec![(value, 1); run.len()]
        } else {
            vec![(value, run.len())]
        }
    }))
}

/// Bytes in hexadecimal, two digits each, with commas between pieces of any length, `piece*times` for a piece that is
/// repeated, `-` for no byte at all.
pub fn bytes(text: &str) -> Parsed<Vec<u8>> {
    pieces(text, |piece| {
        if piece.len() % 2 != 0 || !piece.bytes().all(|digit| digit.is_ascii_hexdigit()) {
            return Err(format!("`{piece}` is no even number of hexadecimal digits"));
        }
        let pairs = piece.as_bytes().chunks_exact(2);
        Ok(pairs.map(|pair| hex_digit(pair[0]) * 16 + hex_digit(pair[1])).collect())
    })
}

/// The value of a character that is known to be a hexadecimal digit.
pub fn hex_digit(digit: u8) -> u8 {
    char::from(digit).to_digit(16).unwrap_or(0) as u8
}

/// Bytes in pieces of the size of a record, so that a reader finds the records; pieces of one repeated byte are written
/// as that byte and how often it stands.
pub fn bytes_text(bytes: &[u8], record: usize) -> String {
    let pieces: Vec<&[u8]> = bytes.chunks(record).collect();
    let uniform = |piece: &[u8]| piece.iter().all(|&byte| byte == piece[0]);
    let joined = pieces.chunk_by(|a, b| if uniform(a) { uniform(b) && a[0] == b[0] } else { a == b });
    join(joined.map(|run| {
        let first = run[0];
        if uniform(first) {
            (format!("{:02x}", first[0]), run.iter().map(|piece| piece.len()).sum())
        } else {
            (first.iter().map(|byte| format!("{byte:02x}")).collect(), run.len())
        }
    }))
}

fn join(pieces: impl Iterator<Item = (String, usize)>) -> String {
    let shown = pieces.map(|(piece, times)| if times == 1 { piece } else { format!("{piece}*{times}") });
    let text = shown.collect::<Vec<_>>().join(",");
    if text.is_empty() {
        "-".to_string()
    } else {
        text
    }
}

fn pieces<T: Clone>(text: &str, read: impl Fn(&str) -> Parsed<Vec<T>>) -> Parsed<Vec<T>> {
    let mut all = Vec::new();
    if text == "-" {
        return Ok(all);
    }
    for piece in text.split(',') {
        let (value, times) = piece.split_once('*').unwrap_or((piece, "1"));
        let (values, times) = (read(value)?, number::<usize>(times)?);
        if times.saturating_mul(values.len()) > LONGEST - all.len() {
            return Err(format!("`{piece}` makes the list too long"));
        }
        all.extend(std::iter::repeat_n(values, times).flatten());
    }
    Ok(all)
}

/// `name=value`.
pub fn field(name: &str, value: impl Display) -> String {
    format!("{name}={value}")
}

/// The words of a line, taken one after another.
pub struct Tokens<'a> {
    words: SplitWhitespace<'a>,
}

impl<'a> Tokens<'a> {
    pub fn new(line: &'a str) -> Tokens<'a> {
        Tokens {
            words: line.split_whitespace(),
        }
    }

    pub fn word(&mut self) -> Parsed<&'a str> {
        self.words.next().ok_or_else(|| "the line ends too early".to_string())
    }

    /// The value of the next field, which must have this name.
    pub fn value(&mut self, name: &str) -> Parsed<&'a str> {
        let word = self.word()?;
        match word.split_once('=') {
            Some((found, value)) if found == name => Ok(value),
            _ => Err(format!("`{word}` stands where `{name}=` is expected")),
        }
    }

    pub fn number<T: TryFrom<u64>>(&mut self, name: &str) -> Parsed<T> {
        number(self.value(name)?)
    }

    pub fn numbers<T: TryFrom<u64> + Clone>(&mut self, name: &str) -> Parsed<Vec<T>> {
        numbers(self.value(name)?)
    }

    pub fn bytes(&mut self, name: &str) -> Parsed<Vec<u8>> {
        bytes(self.value(name)?)
    }

    /// How many places or bytes a lent output has.
    pub fn room(&mut self) -> Parsed<usize> {
        let room = self.number("room")?;
        if room > LONGEST {
            return Err(format!("a room of {room} is too large"));
        }
        Ok(room)
    }

    pub fn expect(&mut self, expected: &str) -> Parsed<()> {
        let word = self.word()?;
        if word != expected {
            return Err(format!("`{word}` stands where `{expected}` is expected"));
        }
        Ok(())
    }

    pub fn end(mut self) -> Parsed<()> {
        match self.words.next() {
            None => Ok(()),
            Some(word) => Err(format!("`{word}` stands after the line's end")),
        }
    }
}
