//! What a call answered, and its text form: the right side of a vector line.
//!
//! After `->` stands the number that the call returned (0 for `fresh`, which returns none), then what it wrote:
//!
//! ```text
//! counts            -> N out=NUMBERS                all places of the output, as they are after the call
//! first_pair        -> N answer=SENDER,RECEIVER
//! resend_pair       -> N answer=SENDER,RECEIVER,RUN
//! open              -> N WINDOW
//! judge             -> N
//! send              -> N WINDOW                     or `same` in the window's place, where no word changed
//! report            -> N answer=VERDICTS WINDOW out=BYTES
//! fresh             -> 0 holdings=NUMBER,MASK
//! arrive            -> N holdings=NUMBER,MASK
//! receiver_report   -> N answer=NUMBER,MASK
//! read              -> N answer=KIND,MEMBER,NUMBER,MASK
//! write             -> N out=BYTES
//! plan              -> LENGTH text=TEXT rest=BYTES  the first LENGTH bytes of the output, then the others
//! ```
//!
//! In a text a letter or digit stands for itself, `_` for a space, `/` for a newline, and `\xx` for any other byte.

use crate::call::{holdings, holdings_text, Call, RECORD_BYTES};
use crate::layout::{window_fields, window_text, Words};
use crate::text::{bytes_text, hex_digit, number, numbers_text, Base, Parsed, Tokens};

/// A verdict's size, by which a report's output is written in pieces.
pub const VERDICT_BYTES: usize = 16;

/// Everything that is there after a call. What a call does not have is empty.
#[derive(Clone, Debug, Default, PartialEq, Eq)]
pub struct Answer {
    /// The returned number: a refusal's, 0 for none; for a plan the length of its text.
    pub returned: u64,
    /// The answer array.
    pub numbers: Vec<u64>,
    /// The window or the holdings.
    pub state: Vec<u64>,
    /// The lent output of counts.
    pub places: Vec<u32>,
    /// The lent output of the other calls.
    pub bytes: Vec<u8>,
}

impl Answer {
    /// The window after a call that writes one.
    pub fn window(&self) -> Box<Words> {
        let words = self.state.clone().into_boxed_slice();
        words.try_into().expect("the call writes a window")
    }

    /// The holdings after a call that writes them.
    pub fn holdings(&self) -> [u64; 2] {
        self.state.as_slice().try_into().expect("the call writes holdings")
    }

    /// The text that a plan wrote, as far as the output reaches.
    pub fn plan_text(&self) -> &[u8] {
        let length = usize::try_from(self.returned).unwrap_or(usize::MAX);
        &self.bytes[..length.min(self.bytes.len())]
    }

    /// The refusal's number, which a plan writes instead of returning it.
    pub fn refusal(&self, call: &Call) -> u64 {
        match call {
            Call::Plan { .. } => refused_number(self.plan_text()),
            _ => self.returned,
        }
    }

    pub fn text(&self, call: &Call) -> String {
        let Answer {
            returned,
            numbers,
            state,
            places,
            bytes,
        } = self;
        let answer = || format!("answer={}", numbers_text(numbers, Base::Decimal));
        match call {
            Call::Counts { .. } => format!("{returned} out={}", numbers_text(places, Base::Decimal)),
            Call::FirstPair { .. } | Call::ResendPair { .. } | Call::ReceiverReport { .. } | Call::Read { .. } => {
                format!("{returned} {}", answer())
            }
            Call::Open { .. } | Call::Send { .. } => format!("{returned} {}", self.window_text(call)),
            Call::Judge { .. } => format!("{returned}"),
            Call::Report { .. } => {
                let out = bytes_text(bytes, VERDICT_BYTES);
                format!("{returned} {} {} out={out}", answer(), self.window_text(call))
            }
            Call::Fresh | Call::Arrive { .. } => format!("{returned} {}", holdings_text(&[state[0], state[1]])),
            Call::Write { .. } => format!("{returned} out={}", bytes_text(bytes, RECORD_BYTES)),
            Call::Plan { .. } => {
                let text = self.plan_text();
                let rest = &bytes[text.len()..];
                format!("{returned} text={} rest={}", text_text(text), bytes_text(rest, 1))
            }
        }
    }

    fn window_text(&self, call: &Call) -> String {
        if call
            .altered_window()
            .is_some_and(|before| before.as_slice() == self.state)
        {
            "same".to_string()
        } else {
            window_text(&self.window())
        }
    }

    /// Reads the words after `->`.
    pub fn parse(call: &Call, tokens: &mut Tokens) -> Parsed<Answer> {
        let mut answer = Answer {
            returned: number(tokens.word()?)?,
            ..Answer::default()
        };
        match call {
            Call::Counts { .. } => answer.places = tokens.numbers("out")?,
            Call::FirstPair { .. } | Call::ResendPair { .. } | Call::ReceiverReport { .. } | Call::Read { .. } => {
                answer.numbers = tokens.numbers("answer")?;
            }
            Call::Open { .. } | Call::Send { .. } => answer.state = window_after(call, tokens)?,
            Call::Judge { .. } => {}
            Call::Report { .. } => {
                answer.numbers = tokens.numbers("answer")?;
                answer.state = window_after(call, tokens)?;
                answer.bytes = tokens.bytes("out")?;
            }
            Call::Fresh | Call::Arrive { .. } => answer.state = holdings(tokens)?.to_vec(),
            Call::Write { .. } => answer.bytes = tokens.bytes("out")?,
            Call::Plan { .. } => {
                answer.bytes = text_bytes(tokens.value("text")?)?;
                answer.bytes.extend(tokens.bytes("rest")?);
            }
        }
        Ok(answer)
    }
}

/// A whole line.
pub fn line(call: &Call, answer: &Answer) -> String {
    format!("{call} -> {}", answer.text(call))
}

/// Reads a whole line.
pub fn parse_line(line: &str) -> Parsed<(Call, Answer)> {
    let mut tokens = Tokens::new(line);
    let call = Call::parse(&mut tokens)?;
    tokens.expect("->")?;
    let answer = Answer::parse(&call, &mut tokens)?;
    tokens.end()?;
    Ok((call, answer))
}

fn window_after(call: &Call, tokens: &mut Tokens) -> Parsed<Vec<u64>> {
    match (tokens.word()?, call.altered_window()) {
        ("{", _) => Ok(window_fields(tokens)?.to_vec()),
        ("same", Some(before)) => Ok(before.to_vec()),
        (word, _) => Err(format!("`{word}` stands where a window is expected")),
    }
}

fn refused_number(text: &[u8]) -> u64 {
    let refused = std::str::from_utf8(text)
        .ok()
        .and_then(|text| text.strip_prefix("refused "));
    refused.and_then(|number| number.trim_end().parse().ok()).unwrap_or(0)
}

fn text_text(bytes: &[u8]) -> String {
    let shown = |&byte: &u8| match byte {
        b' ' => "_".to_string(),
        b'\n' => "/".to_string(),
        byte if byte.is_ascii_alphanumeric() => char::from(byte).to_string(),
        byte => format!("\\{byte:02x}"),
    };
    bytes.iter().map(shown).collect()
}

fn text_bytes(text: &str) -> Parsed<Vec<u8>> {
    let mut bytes = Vec::new();
    let mut rest = text.as_bytes();
    while let Some((&first, others)) = rest.split_first() {
        rest = others;
        bytes.push(match (first, others) {
            (b'_', _) => b' ',
            (b'/', _) => b'\n',
            (b'\\', [high, low, others @ ..]) if high.is_ascii_hexdigit() && low.is_ascii_hexdigit() => {
                rest = others;
                hex_digit(*high) * 16 + hex_digit(*low)
            }
            (byte, _) if byte.is_ascii_alphanumeric() => byte,
            _ => return Err(format!("`{text}` has something that is no text")),
        });
    }
    Ok(bytes)
}
