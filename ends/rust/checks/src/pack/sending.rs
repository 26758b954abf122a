//! send.txt

use super::damage::{broken_states, sound_states};
use super::inputs::{changed, collected, e, full, opened, reported, sent, uneven, worn, LAST_MESSAGE};
use super::sheet::Sheet;
use crate::call::Call;
use crate::layout::{Words, POINT, QUANTUM, SENT};

fn send(window: Box<Words>, k: u64) -> Call {
    Call::Send { window, k }
}

pub fn send_sheet() -> String {
    let mut sheet = Sheet::new("send: message k, which must be S + 1 and at most p + 64");
    sheet.group("The first messages, and one in a window with some of everything.");
    for window in [opened(&e()), opened(&full()), sent(opened(&e()), 1), worn()] {
        let k = window[SENT] + 1;
        sheet.accepts(send(window, k));
    }
    window_limits(&mut sheet);
    message_limits(&mut sheet);
    sheet.group("From each well-formed state of judge.txt.");
    for (about, window) in sound_states() {
        let k = window[SENT] + 1;
        let refusal = if k > LAST_MESSAGE {
            6
        } else if k > window[POINT] + 64 {
            9
        } else {
            0
        };
        sheet.remark(about);
        sheet.answers(refusal, send(window, k));
    }
    sheet.group("From each state that is not well formed.");
    for (about, window) in broken_states() {
        sheet.remark(about);
        sheet.answers(17, send(window, 7));
    }
    sheet.order(
        &(sent(opened(&e()), 64), 65),
        &[
            (17, |(window, _)| window[QUANTUM] = 0),
            (6, |(_, k)| *k = LAST_MESSAGE + 1),
            (10, |(_, k)| *k = 67),
            (9, |_| {}),
        ],
        |(window, k)| send(window, k),
    );
    sheet.text()
}

fn window_limits(sheet: &mut Sheet) {
    sheet.group("The document's example: 64 passes with p = 0, 65 is 9.");
    let window = sheet.accepts(send(sent(opened(&e()), 63), 64)).window();
    sheet.answers(9, send(window.clone(), 65));

    sheet.group("Two members collect message 1: 65 takes its place again, 66 is 9.");
    let window = reported(reported(window, 0, 1, 0), 3, 1, 0);
    let window = sheet.accepts(send(window, 65)).window();
    sheet.answers(9, send(window.clone(), 66));

    sheet.group("k = p + 64 and p + 65 in a window that has moved on.");
    let window = sent(collected(&uneven(), 1_000), 63);
    let window = sheet.accepts(send(window, 1_064)).window();
    sheet.answers(9, send(window, 1_065));

    sheet.group("k is not S + 1.");
    for k in [1, 5, 6, 8, 65, 66, LAST_MESSAGE] {
        sheet.answers(10, send(worn(), k));
    }
}

fn message_limits(sheet: &mut Sheet) {
    sheet.group("Message numbers: 1 to 1,000,000,000,000.");
    let window = collected(&e(), LAST_MESSAGE - 1);
    let window = sheet.accepts(send(window, LAST_MESSAGE)).window();
    for k in [0, LAST_MESSAGE + 1, u64::MAX] {
        sheet.answers(6, send(window.clone(), k));
    }
    sheet.answers(10, send(window.clone(), LAST_MESSAGE));
    sheet.answers(
        17,
        send(changed(&window, &[(SENT, LAST_MESSAGE + 1)]), LAST_MESSAGE + 2),
    );
}
