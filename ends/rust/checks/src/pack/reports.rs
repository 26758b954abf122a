//! report.txt: what accepted reports do.

use super::inputs::*;
use super::report_refusals::refusals;
use super::sheet::Sheet;
use super::story::{verdicts, Story};
use crate::layout::{Words, COMPLAINTS, PLACES, RESEND_COUNTS};

pub fn report_sheet() -> String {
    let mut sheet = Sheet::new("report: a receiving member's report, the collecting point, complaints and verdicts");
    examples(&mut sheet);
    points(&mut sheet);
    gaps(&mut sheet);
    repeats(&mut sheet);
    removals(&mut sheet);
    quacks(&mut sheet);
    resend_counts(&mut sheet);
    full_windows(&mut sheet);
    large_clusters(&mut sheet);
    last_messages(&mut sheet);
    refusals(&mut sheet);
    sheet.text()
}

fn examples(sheet: &mut Sheet) {
    let about = "The document's example: E, S = 4; p is 0 and then 1, and a verdict on message 2.";
    let mut story = Story::begin(sheet, about, sent(opened(&e()), 4));
    story.report(0, 1, 0, 0, 0);
    story.report(3, 4, 0, 0, 1);
    story.report(1, 1, 0, 0, 1);
    story.report(1, 1, 0, 0, 1);
    let answer = story.report(0, 1, 0, 1, 1);
    assert_eq!(verdicts(&answer), [(2, 2, 2, 1)]);
}

fn points(sheet: &mut Sheet) {
    let about =
        "The collecting point: cumulative numbers with share u + 1 = 3, not marks; collected entries are emptied.";
    let mut story = Story::begin(sheet, about, sent(opened(&uneven()), 8));
    story.report(0, 5, 0, 0, 0);
    story.report(1, 3, 0x12, 0, 3);
    story.report(2, 0, 0xfe, 0, 3);
    story.report(3, 4, 0, 0, 4);
    story.report(1, 8, 0, 0, 5);
    story.report(2, 8, 0, 0, 5);
    story.report(3, 8, 0, 0, 8);

    let about = "Two members of share 1 are not u + 1: shares are added, not members.";
    let mut story = Story::begin(sheet, about, sent(opened(&uneven()), 3));
    story.report(1, 3, 0, 0, 0);
    story.report(2, 3, 0, 0, 0);
    story.report(0, 1, 0, 0, 1);

    let about = "A report that collects what has counts and complaints.";
    let mut story = Story::begin(sheet, about, worn());
    story.report(3, 4, 0, 0, 4);
    story.report(2, 6, 0, 0, 4);
    story.report(0, 6, 0, 0, 6);
}

fn gaps(sheet: &mut Sheet) {
    let about =
        "Gaps: of what lies below a held message; share r is not enough, r + 1 is; message 6 has nothing later.";
    let mut story = Story::begin(sheet, about, sent(opened(&uneven()), 6));
    story.report(1, 0, 0x10, 0, 0);
    let answer = story.report(2, 0, 0x10, 4, 0);
    assert_eq!(
        verdicts(&answer).iter().map(|verdict| verdict.0).collect::<Vec<_>>(),
        [1, 2, 3, 4]
    );

    let about =
        "The same report again complains again; after a verdict the set starts anew and the resend number rises.";
    let window = story.window();
    let mut story = Story::begin(sheet, about, window);
    story.report(2, 0, 0x10, 0, 0);
    let answer = story.report(1, 0, 0x10, 4, 0);
    assert!(verdicts(&answer).iter().all(|verdict| verdict.3 == 2));

    let about = "A member of share r + 1 is enough on its own, and with r = 0 any member is.";
    let mut story = Story::begin(sheet, about, sent(opened(&uneven()), 3));
    story.report(0, 0, 0x2, 1, 0);
    let mut story = Story::begin(
        sheet,
        "The same in a cluster with r = 0.",
        sent(opened(&three_to_five()), 3),
    );
    story.report(4, 0, 0x6, 1, 0);
}

fn repeats(sheet: &mut Sheet) {
    let about = "Repeats: a first report of 0 is none; the second is, of message 1, and with r = 0 it is a verdict.";
    let mut story = Story::begin(sheet, about, sent(opened(&three_to_five()), 2));
    story.report(0, 0, 0, 0, 0);
    story.report(0, 0, 0, 1, 0);
    story.report(0, 0, 0, 1, 0);
    story.report(1, 0, 0, 0, 0);
    story.report(1, 0, 0, 1, 0);

    let about = "The same number with another mask is a repeat; one above p is none.";
    let mut story = Story::begin(sheet, about, sent(opened(&three_to_five()), 5));
    story.report(0, 0, 0, 0, 0);
    story.report(0, 0, 0x2, 1, 0);
    story.report(1, 1, 0, 0, 0);
    story.report(1, 1, 0, 0, 0);
    story.report(2, 1, 0, 0, 0);
    story.report(3, 1, 0, 0, 1);
    story.report(1, 1, 0, 1, 1);
    story.report(1, 2, 0, 0, 1);
    story.report(1, 2, 0, 0, 1);

    let about = "A repeat below p complains of nothing, and one of S has nothing to complain of.";
    let mut story = Story::begin(sheet, about, collected(&three_to_five(), 4));
    story.report(0, 4, 0, 0, 4);
    let mut story = Story::begin(
        sheet,
        "The same, below p.",
        reported(sent(opened(&three_to_five()), 4), 0, 1, 0),
    );
    story.report(1, 4, 0, 0, 0);
    story.report(2, 4, 0, 0, 1);
    story.report(3, 4, 0, 0, 4);
    story.report(0, 1, 0, 0, 4);
}

fn removals(sheet: &mut Sheet) {
    let about =
        "A member leaves the sets of what it comes to hold, by its number or by a mark, and stays in the others.";
    let mut story = Story::begin(sheet, about, sent(opened(&uneven()), 6));
    story.report(1, 0, 0x20, 0, 0);
    story.report(1, 0, 0x28, 0, 0);
    story.report(1, 2, 0xa, 0, 0);
    story.report(1, 6, 0, 0, 0);

    let about =
        "A complaint of a member that has not reported stays when its first report neither holds nor complains.";
    let window = changed(&sent(opened(&uneven()), 2), &[(COMPLAINTS, 1 << 2)]);
    let mut story = Story::begin(sheet, about, window);
    story.report(2, 0, 0, 0, 0);
    story.report(1, 0, 0, 0, 0);
    story.report(1, 0, 0, 1, 0);
}

fn quacks(sheet: &mut Sheet) {
    let about = "QUACKed by marks: members of share u + 1 = 3 hold 2 and 3 but not 1, so only 1 is lost; p stays.";
    let mut story = Story::begin(sheet, about, sent(opened(&uneven()), 5));
    story.report(3, 0, 0x6, 1, 0);
    story.report(1, 0, 0x8, 0, 0);
    story.report(2, 0, 0x8, 1, 0);

    let about = "Holders of share u = 2 are no QUACK: the message that they hold is lost all the same.";
    let mut story = Story::begin(sheet, about, sent(opened(&uneven()), 5));
    story.report(0, 0, 0x2, 1, 0);
    let answer = story.report(3, 0, 0x8, 3, 0);
    assert_eq!(
        verdicts(&answer).iter().map(|verdict| verdict.0).collect::<Vec<_>>(),
        [1, 2, 3]
    );

    let about = "Where u is above r: holders of share r + 1 = 2 are no QUACK, complaints of share 2 are a loss.";
    let link = link(cluster(&[1], 0, 0), cluster(&[1; 8], 3, 1), 1);
    let mut story = Story::begin(sheet, about, sent(opened(&link), 3));
    for member in 0..3 {
        story.report(member, 2, 0, 0, 0);
    }
    story.report(4, 0, 0x4, 0, 0);
    story.report(5, 0, 0x4, 2, 0);
    story.report(3, 2, 0, 0, 2);
}

fn resend_counts(sheet: &mut Sheet) {
    let about = "A resend count of 253: it rises to 254 and to 255; then the set is kept and there is no verdict.";
    let window = changed(
        &sent(opened(&uneven()), 3),
        &[(RESEND_COUNTS, 253), (RESEND_COUNTS + 1, 255)],
    );
    let mut story = Story::begin(sheet, about, window);
    let answer = story.report(0, 0, 0x4, 1, 0);
    assert_eq!(verdicts(&answer)[0].3, 254);
    let answer = story.report(3, 0, 0x4, 1, 0);
    assert_eq!(verdicts(&answer)[0].3, 255);
    story.report(3, 0, 0x4, 0, 0);
    story.report(0, 0, 0x4, 0, 0);
    story.report(0, 3, 0, 0, 0);
    story.report(3, 3, 0, 0, 3);
}

/// Each of the 64 messages has complaints of members 1 and 2, and counts that differ.
fn all_complained_of(window: &Words) -> Box<Words> {
    let mut window = Box::new(*window);
    for place in 0..PLACES {
        window[RESEND_COUNTS + place] = place as u64 * 4;
        window[COMPLAINTS + place] = 0x6;
    }
    window
}

fn full_windows(sheet: &mut Sheet) {
    let about = "A full window: two members hold 64 and nothing else, which is 63 verdicts.";
    let mut story = Story::begin(sheet, about, sent(opened(&e()), 64));
    story.report(1, 0, 1 << 63, 0, 0);
    story.report(2, 0, 1 << 63, 63, 0);

    let about = "A full window in which all 64 messages are lost: the output is filled to its last byte.";
    let mut story = Story::begin(sheet, about, all_complained_of(&sent(opened(&e()), 64)));
    story.report(0, 0, 0, 64, 0);

    let about = "The same in a window that has moved on: message 65 has place 0, and verdicts go by message number.";
    let window = all_complained_of(&sent(collected(&e(), 37), 64));
    let mut story = Story::begin(sheet, about, window);
    let answer = story.report(3, 37, 0, 64, 37);
    assert!((38..=101).eq(verdicts(&answer).into_iter().map(|verdict| verdict.0)));

    let about = "A report collects all 64 messages.";
    let mut story = Story::begin(sheet, about, all_complained_of(&sent(opened(&e()), 64)));
    story.report(0, 64, 0, 64, 0);
    story.report(3, 64, 0, 0, 64);
}

fn large_clusters(sheet: &mut Sheet) {
    let about = "Sixty-four members: bit 63 of a complaint set, share 1,000,000 against r + 1 = 1,000,001.";
    let mut story = Story::begin(sheet, about, sent(opened(&full()), 3));
    story.report(63, 0, 0x4, 0, 0);
    story.report(0, 0, 0x4, 2, 0);
    story.report(0, 0, 0x6, 0, 0);
    story.report(31, 0, 0x4, 1, 0);

    let about = "Thirty-one members are u, the next one moves p.";
    let mut window = sent(opened(&full()), 2);
    for member in 0..31 {
        window = reported(window, member, 2, 0);
    }
    let mut story = Story::begin(sheet, about, window);
    story.report(31, 1, 0, 0, 1);
    story.report(63, 2, 0, 0, 2);
}

fn last_messages(sheet: &mut Sheet) {
    let about = "The last messages: numbers up to 1,000,000,000,000 in marks and verdicts.";
    let window = sent(collected(&uneven(), LAST_MESSAGE - 64), 64);
    let mut story = Story::begin(sheet, about, window);
    story.report(0, LAST_MESSAGE - 64, 1 << 63, 63, LAST_MESSAGE - 64);
    story.report(3, LAST_MESSAGE - 1, 0, 0, LAST_MESSAGE - 1);
    story.report(1, LAST_MESSAGE - 1, 0, 0, LAST_MESSAGE - 1);
    let answer = story.report(1, LAST_MESSAGE - 1, 0, 0, LAST_MESSAGE - 1);
    assert!(answer.bytes.iter().all(|&byte| byte == crate::end::FILL));
    let answer = story.report(3, LAST_MESSAGE - 1, 0, 1, LAST_MESSAGE - 1);
    assert_eq!(verdicts(&answer)[0].0, LAST_MESSAGE);
    story.report(3, LAST_MESSAGE, 0, 0, LAST_MESSAGE);
}
