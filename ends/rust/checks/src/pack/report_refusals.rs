//! report.txt, continued: which reports are refused.

use super::damage::{broken_states, sound_states};
use super::inputs::*;
use super::sheet::Sheet;
use crate::call::Call;
use crate::layout::{Words, HAS_REPORTED, REPORT_MASKS, REPORT_NUMBERS};

fn report(window: Box<Words>, member: u32, number: u64, mask: u64) -> Call {
    Call::Report {
        window,
        member,
        number,
        mask,
        room: REPORT_BYTES,
    }
}

pub fn refusals(sheet: &mut Sheet) {
    limits(sheet);
    former_reports(sheet);
    states(sheet);
    order(sheet);
}

fn limits(sheet: &mut Sheet) {
    sheet.group("Room: 1,024 bytes, however many verdicts there are; later bytes stay.");
    for (refusal, room) in [(5, 0), (5, 16), (5, 1_023), (0, 1_024), (0, 1_025), (0, 2_000)] {
        let window = sent(opened(&uneven()), 3);
        sheet.answers(
            refusal,
            Call::Report {
                window,
                member: 0,
                number: 0,
                mask: 2,
                room,
            },
        );
    }
    sheet.group("Members: the receiving cluster's.");
    for (refusal, member) in [(0, 3), (8, 4), (8, 63), (8, 64), (8, 256), (8, u32::MAX)] {
        sheet.answers(refusal, report(sent(opened(&uneven()), 3), member, 1, 0));
    }
    sheet.accepts(report(sent(opened(&full()), 3), 63, 1, 0));
    sheet.answers(8, report(sent(opened(&full()), 3), 64, 1, 0));

    sheet.group("Bit 0.");
    for (refusal, mask) in [(12, 1), (12, 3), (0, 2), (12, u64::MAX)] {
        sheet.answers(refusal, report(sent(opened(&uneven()), 64), 0, 0, mask));
    }
    sheet.group("Nothing above S, by number or by mark.");
    let reports = [
        (0, 3, 0),
        (11, 4, 0),
        (11, 3, 2),
        (0, 1, 2),
        (11, 1, 4),
        (11, 0, 1 << 63),
        (11, u64::MAX, 0),
        (11, u64::MAX, u64::MAX - 1),
        (11, u64::MAX - 2, 2),
        (11, LAST_MESSAGE, 0),
    ];
    for (refusal, number, mask) in reports {
        sheet.answers(refusal, report(sent(opened(&uneven()), 3), 0, number, mask));
    }
    sheet.group("Bit 63: message 64 with S = 64 passes, with S = 63 it is above S.");
    sheet.accepts(report(sent(opened(&uneven()), 64), 0, 0, 1 << 63));
    sheet.answers(11, report(sent(opened(&uneven()), 63), 0, 0, 1 << 63));
}

fn former_reports(sheet: &mut Sheet) {
    sheet.group(
        "Nothing that the member's former report held may be lacking; the former is number 2 with 4 and 6 marked.",
    );
    let reports = [
        (0, 2, 0xa),
        (0, 2, 0xe),
        (13, 2, 0x2),
        (13, 2, 0x8),
        (13, 2, 0x4),
        (13, 1, 0x14),
        (13, 1, 0x16),
        (13, 0, 0),
        (0, 4, 0x2),
        (13, 4, 0),
        (13, 5, 0),
        (0, 6, 0),
        (13, 3, 0x4),
    ];
    for (refusal, number, mask) in reports {
        sheet.answers(refusal, report(worn(), 0, number, mask));
    }
    sheet.group("A member that has not reported held nothing.");
    sheet.accepts(report(worn(), 2, 0, 0));
    sheet.group("The former held message 64 by bit 63: a number below 64 must still mark it.");
    let window = reported(sent(opened(&uneven()), 64), 0, 0, 1 << 63);
    for (refusal, number, mask) in [(13, 1, 0), (0, 1, 1 << 62), (13, 63, 0), (0, 64, 0), (13, 0, 1 << 62)] {
        sheet.answers(refusal, report(window.clone(), 0, number, mask));
    }
    sheet.group("A number far below the former one.");
    let window = sent(collected(&uneven(), LAST_MESSAGE - 10), 10);
    for number in [0, 1, LAST_MESSAGE - 100, LAST_MESSAGE - 11] {
        sheet.answers(13, report(window.clone(), 1, number, 0));
    }
    sheet.answers(13, report(window, 1, LAST_MESSAGE - 75, u64::MAX - 1));
}

fn states(sheet: &mut Sheet) {
    sheet.group("From each well-formed state of judge.txt.");
    for (about, window) in sound_states() {
        let number = window[REPORT_NUMBERS + 1];
        let mask = window[REPORT_MASKS + 1];
        sheet.remark(about);
        sheet.accepts(report(window, 1, number, mask));
    }
    sheet.group("From each state that is not well formed.");
    for (about, window) in broken_states() {
        sheet.remark(about);
        sheet.answers(17, report(window, 1, 1, 0x8));
    }
}

fn order(sheet: &mut Sheet) {
    sheet.order(
        &(worn(), (0, 2, 0xa), REPORT_BYTES),
        &[
            (17, |(window, ..)| window[HAS_REPORTED] = 2),
            (5, |(.., room)| *room = 1_023),
            (8, |(_, (member, ..), _)| *member = 4),
            (12, |(_, (.., mask), _)| *mask |= 1),
            (11, |(_, (.., mask), _)| *mask |= 1 << 63),
            (13, |(_, (_, number, _), _)| *number = 1),
        ],
        |(window, (member, number, mask), room)| Call::Report {
            window,
            member,
            number,
            mask,
            room,
        },
    );
}
