//! A report from a receiving member: complaints, and the verdicts that follow from them.

use crate::circle::{Circle, Resend};
use crate::deal::{deal_slots, sending_slot};
use crate::limits::{LAST_RESEND, PLACES};
use crate::marks::Marks;
use crate::refusals::{number as refusal_number, BIT_0, LACKS_FORMER, NOT_SENT, NO_MEMBER, SHORT_OUTPUT};
use crate::window::{place, Report, Window, EMPTY_ENTRY};
use crate::words::WORDS;

/// "Report: 1,024 bytes", room for a verdict on each of 64 messages.
const NEEDED_BYTES: usize = 1_024;
const VERDICT_BYTES: usize = 16;

/// A message that is lost, and which resend is due.
struct Loss {
    k: u64,
    resend_number: u32,
}

/// Takes a report; the answer says how many verdicts were written. Refusals in the order 17, 5, 8, 12, 11, 13.
pub fn report(
    window: &mut [u64; WORDS],
    member: u32,
    number: u64,
    mask: u64,
    out: &mut [u8],
    answer: &mut [u64; 1],
) -> u32 {
    *answer = [0];
    refusal_number(accepted_report(window, member, Marks { number, mask }, out, answer))
}

fn accepted_report(
    words: &mut [u64; WORDS],
    member: u32,
    marks: Marks,
    out: &mut [u8],
    answer: &mut [u64; 1],
) -> Result<(), u32> {
    let mut window = Window::accepted(words)?;
    if out.len() < NEEDED_BYTES {
        return Err(SHORT_OUTPUT);
    }
    if member >= window.receiving.members {
        return Err(NO_MEMBER);
    }
    judge_report(&window, member as usize, marks)?;
    let losses = take_report(&mut window, member as usize, marks);
    write_verdicts(&window, &losses, out);
    *answer = [losses.len() as u64];
    *words = window.to_words();
    Ok(())
}

fn judge_report(window: &Window, member: usize, marks: Marks) -> Result<(), u32> {
    if marks.bit(0) {
        return Err(BIT_0);
    }
    if marks.highest_held() > u128::from(window.sent) {
        return Err(NOT_SENT);
    }
    if lacks(marks, window.reports[member].marks) {
        return Err(LACKS_FORMER);
    }
    Ok(())
}

/// "Report lacks a message that the member's former report held". A report lacks nothing up to its own number, and the
/// former held nothing past its 64 bits. Where the former's number is the higher one, the first k decides: bit 0 being
/// clear, the report lacks it.
fn lacks(marks: Marks, former: Marks) -> bool {
    let last = former.number + PLACES as u64;
    (marks.number + 1..=last).any(|k| former.holds(k) && !marks.holds(k))
}

/// "Steps of an accepted report: store it; work out p and empty collected entries; take the member out of the complaint
/// sets of what it holds and add it where it complains, p being the new one; then for k from p + 1 up to S," the
/// losses.
fn take_report(window: &mut Window, member: usize, marks: Marks) -> Vec<Loss> {
    let former = window.reports[member];
    window.reports[member] = Report {
        marks,
        has_reported: true,
    };

    let former_point = window.point;
    window.point = window.point_of_reports();
    for k in former_point + 1..=window.point {
        window.entries[place(k)] = EMPTY_ENTRY;
    }

    for k in window.open_messages() {
        if marks.holds(k) {
            window.entries[place(k)].complaints[member] = false;
        } else if complains(window, former, marks, k) {
            window.entries[place(k)].complaints[member] = true;
        }
    }

    window.open_messages().filter_map(|k| judge_loss(window, k)).collect()
}

/// "A report complains of k, for p < k ≤ S, if it does not hold k and either (gap) it holds some later message, or
/// (repeat) the member has reported before, with the same c, and k = c + 1 and c = p."
fn complains(window: &Window, former: Report, marks: Marks, k: u64) -> bool {
    let gap = marks.highest_held() > u128::from(k);
    let repeat = former.has_reported
        && former.marks.number == marks.number
        && k == marks.number + 1
        && marks.number == window.point;
    !marks.holds(k) && (gap || repeat)
}

/// "If k is not QUACKed, its complaint share is at least r + 1 and its resend count is below 255: raise the count,
/// empty the set, write a verdict." The writing follows once all losses are known; no message's loss changes another's.
fn judge_loss(window: &mut Window, k: u64) -> Option<Loss> {
    let quacked = window.quacked(k);
    let receiving = window.receiving.lent();
    let entry = &mut window.entries[place(k)];
    let complaint_share = receiving.share_of(|member| entry.complaints[member]);
    if quacked || complaint_share < u64::from(receiving.r) + 1 || entry.count >= LAST_RESEND {
        return None;
    }
    entry.count += 1;
    entry.complaints = [false; PLACES];
    Some(Loss {
        k,
        resend_number: entry.count,
    })
}

/// "Verdicts fill the lent output one after another, each into the part not yet written; later bytes stay."
fn write_verdicts(window: &Window, losses: &[Loss], out: &mut [u8]) {
    if losses.is_empty() {
        return;
    }
    let slots = deal_slots(&window.sending.lent(), window.q);
    let circle = Circle::new(&window.sending.lent(), &window.receiving.lent());
    for (loss, part) in losses.iter().zip(out.chunks_exact_mut(VERDICT_BYTES)) {
        let original_sender = slots[sending_slot(window.q, loss.k)];
        part.copy_from_slice(&verdict(loss, &circle.resend(original_sender, loss.resend_number)));
    }
}

/// "Verdict, 16 bytes: message number (8, little-endian), sender, receiver, resend number, five zeros."
fn verdict(loss: &Loss, resend: &Resend) -> [u8; VERDICT_BYTES] {
    let mut bytes = [0; VERDICT_BYTES];
    bytes[..8].copy_from_slice(&loss.k.to_le_bytes());
    bytes[8] = resend.sender as u8;
    bytes[9] = resend.receiver as u8;
    bytes[10] = loss.resend_number as u8;
    bytes
}
