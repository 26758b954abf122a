//! The window's 457 words: the header's fields by name, and a text form that is short where words are zero or repeated.

use crate::text::{field, numbers, numbers_text, Base, Parsed, Tokens};

pub const WORDS: usize = 457;
pub type Words = [u64; WORDS];

pub const PLACES: usize = 64;

pub const SENDING_MEMBERS: usize = 0;
pub const SENDING_U: usize = 1;
pub const SENDING_R: usize = 2;
pub const SENDING_SHARES: usize = 3;
pub const RECEIVING_MEMBERS: usize = 67;
pub const RECEIVING_U: usize = 68;
pub const RECEIVING_R: usize = 69;
pub const RECEIVING_SHARES: usize = 70;
pub const QUANTUM: usize = 134;
pub const SENT: usize = 135;
pub const POINT: usize = 136;
pub const REPORT_NUMBERS: usize = 137;
pub const REPORT_MASKS: usize = 201;
pub const HAS_REPORTED: usize = 265;
pub const RESEND_COUNTS: usize = 329;
pub const COMPLAINTS: usize = 393;

/// A field: its name, its first word, how many words it has, and how they are shown.
struct Field {
    name: &'static str,
    at: usize,
    words: usize,
    base: Base,
}

const fn one(name: &'static str, at: usize) -> Field {
    Field {
        name,
        at,
        words: 1,
        base: Base::Decimal,
    }
}

const fn list(name: &'static str, at: usize, base: Base) -> Field {
    Field {
        name,
        at,
        words: PLACES,
        base,
    }
}

/// All fields; together they have each word once.
const FIELDS: [Field; 16] = [
    one("sending_members", SENDING_MEMBERS),
    one("sending_u", SENDING_U),
    one("sending_r", SENDING_R),
    list("sending_shares", SENDING_SHARES, Base::Decimal),
    one("receiving_members", RECEIVING_MEMBERS),
    one("receiving_u", RECEIVING_U),
    one("receiving_r", RECEIVING_R),
    list("receiving_shares", RECEIVING_SHARES, Base::Decimal),
    one("quantum", QUANTUM),
    one("sent", SENT),
    one("point", POINT),
    list("report_numbers", REPORT_NUMBERS, Base::Decimal),
    list("report_masks", REPORT_MASKS, Base::Hexadecimal),
    list("has_reported", HAS_REPORTED, Base::Decimal),
    list("resend_counts", RESEND_COUNTS, Base::Decimal),
    list("complaints", COMPLAINTS, Base::Hexadecimal),
];

/// `{ name=list ... }`: the zeros at a list's end are left out, and so is a field that has nothing but zeros.
pub fn window_text(window: &Words) -> String {
    let mut text = "{ ".to_string();
    for Field { name, at, words, base } in FIELDS {
        let words = &window[at..at + words];
        let shown = words.iter().rposition(|&word| word != 0).map_or(0, |last| last + 1);
        if shown > 0 {
            text += &field(name, numbers_text(&words[..shown], base));
            text += " ";
        }
    }
    text + "}"
}

/// Reads what stands after the opening brace.
pub fn window_fields(tokens: &mut Tokens) -> Parsed<Box<Words>> {
    let mut window = Box::new([0; WORDS]);
    loop {
        let word = tokens.word()?;
        if word == "}" {
            return Ok(window);
        }
        let (name, list) = word
            .split_once('=')
            .ok_or_else(|| format!("`{word}` is no field of a window"))?;
        let field = FIELDS.iter().find(|field| field.name == name);
        let field = field.ok_or_else(|| format!("a window has no field `{name}`"))?;
        let words: Vec<u64> = numbers(list)?;
        if words.len() > field.words {
            return Err(format!("`{name}` has more than {} words", field.words));
        }
        window[field.at..field.at + words.len()].copy_from_slice(&words);
    }
}
