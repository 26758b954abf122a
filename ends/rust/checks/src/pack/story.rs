//! A window that lives through several reports, each of them a line.

use super::inputs::REPORT_BYTES;
use super::sheet::Sheet;
use crate::answer::{Answer, VERDICT_BYTES};
use crate::call::Call;
use crate::layout::{Words, POINT};

pub struct Story<'a> {
    sheet: &'a mut Sheet,
    window: Box<Words>,
}

impl Story<'_> {
    /// Begins a group of lines with this window.
    pub fn begin<'a>(sheet: &'a mut Sheet, about: &str, window: Box<Words>) -> Story<'a> {
        sheet.group(about);
        Story { sheet, window }
    }

    /// An accepted report that brings this many verdicts and leaves the collecting point here.
    pub fn report(&mut self, member: u32, number: u64, mask: u64, verdicts: u64, point: u64) -> Answer {
        let window = self.window.clone();
        let answer = self.sheet.accepts(Call::Report {
            window,
            member,
            number,
            mask,
            room: REPORT_BYTES,
        });
        self.window = answer.window();
        assert_eq!(
            (answer.numbers[0], self.window[POINT]),
            (verdicts, point),
            "member {member} reports {number}"
        );
        answer
    }

    pub fn window(self) -> Box<Words> {
        self.window
    }
}

/// The verdicts in an answer: message, sender, receiver and resend number.
pub fn verdicts(answer: &Answer) -> Vec<(u64, u8, u8, u8)> {
    let parts = answer
        .bytes
        .chunks_exact(VERDICT_BYTES)
        .take(answer.numbers[0] as usize);
    parts
        .map(|part| {
            (
                u64::from_le_bytes(part[..8].try_into().unwrap()),
                part[8],
                part[9],
                part[10],
            )
        })
        .collect()
}
