//! judge.txt

use super::damage::{broken_states, sound_states};
use super::inputs::{collected, e, full, opened, sent};
use super::sheet::Sheet;
use crate::call::Call;

pub fn judge_sheet() -> String {
    let mut sheet = Sheet::new("judge: whether a state is well formed");
    sheet.group("Opened windows, empty and full; collected ones.");
    for window in [
        opened(&e()),
        opened(&full()),
        sent(opened(&e()), 64),
        sent(opened(&full()), 64),
    ] {
        sheet.accepts(Call::Judge { window });
    }
    for number in [1, 63, 64, 65, 999_999_999_999] {
        sheet.accepts(Call::Judge {
            window: collected(&full(), number),
        });
    }
    sheet.group("Well-formed states, most of them one step inside a limit.");
    for (about, window) in sound_states() {
        sheet.remark(about);
        sheet.accepts(Call::Judge { window });
    }
    sheet.group("Each clause broken, one at a time, in the state that is told as unchanged above or in one like it.");
    for (about, window) in broken_states() {
        sheet.remark(about);
        sheet.answers(17, Call::Judge { window });
    }
    sheet.text()
}
