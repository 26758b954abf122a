//! fresh.txt, arrive.txt and receiver_report.txt

use super::inputs::LAST_MESSAGE;
use super::sheet::Sheet;
use crate::call::Call;

/// Holdings on both sides of "well formed: bit 0 clear, nothing held above 1,000,000,000,000".
const JUDGED: [(u64, [u64; 2]); 16] = [
    (0, [0, 0]),
    (17, [0, 1]),
    (0, [0, 2]),
    (17, [0, u64::MAX]),
    (0, [0, u64::MAX - 1]),
    (0, [LAST_MESSAGE, 0]),
    (17, [LAST_MESSAGE, 2]),
    (17, [LAST_MESSAGE + 1, 0]),
    (0, [LAST_MESSAGE - 2, 2]),
    (17, [LAST_MESSAGE - 2, 4]),
    (0, [LAST_MESSAGE - 64, 1 << 63]),
    (17, [LAST_MESSAGE - 63, 1 << 63]),
    (17, [LAST_MESSAGE - 1, 2]),
    (17, [u64::MAX, 0]),
    (17, [u64::MAX, u64::MAX - 1]),
    (17, [u64::MAX - 1, 2]),
];

fn arrive(holdings: [u64; 2], k: u64) -> Call {
    Call::Arrive { holdings, k }
}

pub fn fresh_sheet() -> String {
    let mut sheet = Sheet::new("fresh: the holdings of a member that has received nothing");
    sheet.group("There is one such call.");
    sheet.example(Call::Fresh, "0 holdings=0,0x0");
    sheet.text()
}

pub fn receiver_report_sheet() -> String {
    let mut sheet = Sheet::new("receiver_report: the number and the mask of a receiving member");
    sheet.group("Well formed and not: bit 0, and the last message by number and by mark.");
    for (refusal, holdings) in JUDGED {
        sheet.answers(refusal, Call::ReceiverReport { holdings });
    }
    sheet.text()
}

pub fn arrive_sheet() -> String {
    let mut sheet = Sheet::new("arrive: message k arrives at a receiving member");
    arrival_examples(&mut sheet);
    sheet.group("Already held, by number or by mark: nothing changes.");
    for k in [1, 4, 5, 7] {
        sheet.accepts(arrive([5, 0x2], k));
    }
    sheet.group("Marked; and k = c + 1, which rises over the marked run and no further.");
    let rises = [
        ([5, 0x2], 6),
        ([5, 0x2], 8),
        ([5, 0x12], 6),
        ([5, 0xfe], 6),
        ([5, 0x4], 6),
        ([5, 1 << 63], 6),
    ];
    for (holdings, k) in rises {
        sheet.accepts(arrive(holdings, k));
    }
    sheet.group("All but one of 64 are marked.");
    for (holdings, k) in [
        ([7, u64::MAX - 1], 8),
        ([7, u64::MAX - 1], 71),
        ([7, u64::MAX - 3], 8),
        ([7, u64::MAX - 3], 9),
    ] {
        sheet.accepts(arrive(holdings, k));
    }
    sheet.group("Up to c + 64.");
    for (refusal, k) in [(0, 1_063), (0, 1_064), (18, 1_065), (18, LAST_MESSAGE)] {
        sheet.answers(refusal, arrive([1_000, 0], k));
    }
    sheet.group("Message numbers: 1 to 1,000,000,000,000.");
    for (refusal, k) in [(6, 0), (0, LAST_MESSAGE), (6, LAST_MESSAGE + 1), (6, u64::MAX)] {
        sheet.answers(refusal, arrive([LAST_MESSAGE - 1, 0], k));
        sheet.answers(refusal, arrive([LAST_MESSAGE, 0], k));
    }
    sheet.group("The last messages fill up.");
    sheet.accepts(arrive([LAST_MESSAGE - 64, u64::MAX - 1], LAST_MESSAGE - 63));
    sheet.group("Well formed and not.");
    for (refusal, holdings) in JUDGED {
        sheet.answers(refusal, arrive(holdings, 1));
    }
    sheet.order(
        &([1_000, 0x2], 1_001),
        &[
            (17, |(holdings, _)| holdings[1] |= 1),
            (6, |(_, k)| *k = LAST_MESSAGE + 1),
            (18, |(_, k)| *k = 1_065),
        ],
        |(holdings, k)| arrive(holdings, k),
    );
    sheet.text()
}

fn arrival_examples(sheet: &mut Sheet) {
    sheet.group("The document's example: messages 2 to 64 arrive, then 1.");
    let mut holdings = [0, 0];
    for k in 2..=64 {
        holdings = sheet.accepts(arrive(holdings, k)).holdings();
    }
    sheet.example(arrive(holdings, 1), "0 holdings=64,0x0");
    sheet.group("The document's example: with c = 0 arrival 64 passes, 65 is 18.");
    sheet.accepts(arrive([0, 0], 64));
    sheet.answers(18, arrive([0, 0], 65));
}
