//! Calls without a season: each group draws its own inputs.

use crate::call::{Call, Link};
use crate::draw::clusters::{any_link, link};
use crate::draw::records::{link_record, plan_input};
use crate::draw::windows::{beginning, damage, grown_report, window};
use crate::layout::{RECEIVING_MEMBERS, SENT};
use crate::random::Random;
use crate::season::Ask;
use crate::states::{LAST_MESSAGE, REPORT_BYTES};

/// Counts, pairs and an opening of one link, which may be wrong.
pub fn pairs(random: &Random, ask: Ask) {
    let link = any_link(random, 15);
    ask(Call::Open { link: link.clone() });
    for cluster in [&link.sending, &link.receiving] {
        let members = cluster.shares.len();
        let room = random.pick(&[
            members,
            members,
            members + 3,
            members.saturating_sub(1),
            random.place(70),
        ]);
        ask(Call::Counts {
            cluster: cluster.clone(),
            q: link.q,
            room,
        });
    }
    for _ in 0..4 {
        ask(Call::FirstPair {
            link: link.clone(),
            k: message(random),
        });
        ask(Call::ResendPair {
            link: link.clone(),
            k: message(random),
            n: resend_number(random),
        });
    }
}

/// A message's number, mostly one that is allowed.
fn message(random: &Random) -> u64 {
    random.pick(&[random.between(1, 5_000), random.between(1, LAST_MESSAGE), random.wild()])
}

fn resend_number(random: &Random) -> u32 {
    random.pick(&[
        random.between(1, 20) as u32,
        random.between(1, 255) as u32,
        random.wild_32(),
    ])
}

/// A window with anything that a well-formed one may have, and some calls on it.
pub fn drawn_windows(random: &Random, ask: Ask) {
    let link: Link = link(random);
    let mut window = window(random, &link);
    ask(Call::Judge { window: window.clone() });
    for _ in 0..8 {
        let mut damaged = window.clone();
        damage(random, &mut damaged);
        ask(Call::Judge { window: damaged });
        let member = random.place(window[RECEIVING_MEMBERS] as usize);
        let (number, mask) = grown_report(random, &window, member);
        let report = Call::Report {
            window,
            member: member as u32,
            number,
            mask,
            room: REPORT_BYTES,
        };
        window = ask(report).window();
        let k = window[SENT] + 1;
        window = ask(Call::Send { window, k }).window();
    }
}

/// A receiving member, well formed or not, and some arrivals.
pub fn members(random: &Random, ask: Ask) {
    let mut holdings = match random.between(0, 3) {
        0 => ask(Call::Fresh).holdings(),
        1 => [random.wild(), random.bits()],
        _ => [beginning(random), random.bits() & !1],
    };
    for _ in 0..random.between(1, 70) {
        let near = holdings[0].saturating_add(random.between(0, 66));
        let next = holdings[0].saturating_add(1);
        let k = random.pick(&[next, near, near, near, random.wild()]);
        holdings = ask(Call::Arrive { holdings, k }).holdings();
        if random.chance(20) {
            ask(Call::ReceiverReport { holdings });
        }
    }
}

/// Records written and read back, and bytes that are nearly records.
pub fn records(random: &Random, ask: Ask) {
    for _ in 0..8 {
        let kind = random.pick(&[0, 1, 1, 2, 2, random.word() as u8]);
        let unused = kind == 0 && random.chance(70);
        let write = Call::Write {
            kind,
            member: if unused {
                0
            } else {
                random.pick(&[0, random.word() as u8])
            },
            number: if unused { 0 } else { random.pick(&[0, random.wild()]) },
            mask: if unused || kind == 2 && random.chance(70) {
                0
            } else {
                random.bits()
            },
            room: random.pick(&[24, 24, 24, 23, 25, random.place(60)]),
        };
        let mut bytes = ask(write).bytes;
        bytes.truncate(24);
        ask(Call::Read { bytes });
        ask(Call::Read {
            bytes: link_record(random),
        });
    }
}

/// Inputs of the plan program, right or nearly right.
pub fn plans(random: &Random, ask: Ask) {
    ask(Call::Plan {
        input: plan_input(random),
    });
}
