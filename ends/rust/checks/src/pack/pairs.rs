//! first_pair.txt and resend_pair.txt

use super::inputs::{cluster, e, full, link, three_to_five, uneven, LAST_MESSAGE, MOST_SHARE};
use super::sheet::{Cause, Sheet};
use crate::call::{Call, Cluster, Link};

fn first(link: &Link, k: u64) -> Call {
    Call::FirstPair { link: link.clone(), k }
}

fn resend(link: &Link, k: u64, n: u32) -> Call {
    Call::ResendPair {
        link: link.clone(),
        k,
        n,
    }
}

/// What the causes spoil: clusters and quantum, a message and a resend number.
type Inputs = (Link, u64, u32);

fn spoil_members(cluster: &mut Cluster) {
    cluster.shares.resize(65, 1);
}

fn spoil_share(cluster: &mut Cluster) {
    cluster.shares[0] = MOST_SHARE + 1;
}

fn spoil_bounds(cluster: &mut Cluster) {
    cluster.u = u32::MAX;
}

/// The causes of refusals that all pairs have, in their order.
const CAUSES: [Cause<Inputs>; 8] = [
    (1, |(link, ..)| spoil_members(&mut link.sending)),
    (2, |(link, ..)| spoil_share(&mut link.sending)),
    (3, |(link, ..)| spoil_bounds(&mut link.sending)),
    (1, |(link, ..)| spoil_members(&mut link.receiving)),
    (2, |(link, ..)| spoil_share(&mut link.receiving)),
    (3, |(link, ..)| spoil_bounds(&mut link.receiving)),
    (4, |(link, ..)| link.q = 1_025),
    (6, |(_, k, _)| *k = 0),
];

pub fn first_pair_sheet() -> String {
    let mut sheet = Sheet::new("first_pair: sender and receiver of a message's first copy");
    first_examples(&mut sheet);
    first_rotation(&mut sheet);

    sheet.group("Message numbers: 1 to 1,000,000,000,000.");
    for (refusal, k) in [(6, 0), (0, 1), (0, LAST_MESSAGE), (6, LAST_MESSAGE + 1), (6, u64::MAX)] {
        sheet.answers(refusal, first(&uneven(), k));
    }
    cluster_limits(&mut sheet, |link| first(&link, 7));
    sheet.order(&(e(), 6, 1), &CAUSES, |(link, k, _)| first(&link, k));
    sheet.text()
}

fn first_examples(sheet: &mut Sheet) {
    sheet.group("The document's examples. Counts 2, 1, 3 deal 0, 1, 2, 0, 2, 2.");
    sheet.example(first(&e(), 6), "0 answer=1,2");
    sheet.example(first(&three_to_five(), 3), "0 answer=2,2");
    let dealt = link(cluster(&[2, 1, 3], 0, 0), cluster(&[1], 0, 0), 6);
    for (k, sender) in (1..).zip([0, 1, 2, 0, 2, 2]) {
        sheet.example(first(&dealt, k), &format!("0 answer={sender},0"));
    }
}

fn first_rotation(sheet: &mut Sheet) {
    sheet.group("Each quantum turns the receiving deal by one slot.");
    for k in 1..=17 {
        sheet.accepts(first(&e(), k));
    }
    sheet.group("Unequal deals, for more than one turn.");
    for k in 1..=26 {
        sheet.accepts(first(&uneven(), k));
    }
    sheet.group("A quantum of 1, and one that is smaller than the clusters; large clusters and large quanta.");
    let single = link(cluster(&[1, 2, 3], 0, 0), cluster(&[3, 2, 1], 0, 0), 1);
    let small = link(cluster(&[1; 9], 0, 0), cluster(&[1; 7], 0, 0), 3);
    for k in [1, 2, 3, 4, 5, 10, LAST_MESSAGE] {
        sheet.accepts(first(&single, k));
        sheet.accepts(first(&small, k));
    }
    for k in [
        1,
        64,
        65,
        1_023,
        1_024,
        1_025,
        2_048,
        1_048_576,
        1_048_577,
        999_999_999_999,
        LAST_MESSAGE,
    ] {
        sheet.accepts(first(&full(), k));
    }
}

/// Each limit of the clusters and of the quantum, on both sides of it and on both sides of the link.
fn cluster_limits(sheet: &mut Sheet, call: impl Fn(Link) -> Call) {
    let clusters: [(u64, Cluster); 11] = [
        (1, cluster(&[], 0, 0)),
        (0, cluster(&[1], 0, 0)),
        (0, cluster(&[1; 64], 21, 21)),
        (1, cluster(&[1; 65], 21, 21)),
        (2, cluster(&[1, 1, 0], 0, 0)),
        (0, cluster(&[1, 1, MOST_SHARE], 0, 0)),
        (2, cluster(&[1, 1, MOST_SHARE + 1], 0, 0)),
        (0, cluster(&[2, 2, 1], 2, 0)),
        (3, cluster(&[2, 2, 1], 2, 1)),
        (3, cluster(&[2, 2, 1], 0, 1)),
        (3, cluster(&[2, 2, 1], u32::MAX, u32::MAX)),
    ];
    sheet.group("Limits of the sending cluster.");
    for (refusal, sending) in clusters.clone() {
        sheet.answers(refusal, call(Link { sending, ..e() }));
    }
    sheet.group("Limits of the receiving cluster.");
    for (refusal, receiving) in clusters {
        sheet.answers(refusal, call(Link { receiving, ..e() }));
    }
    sheet.group("Quantum: 1 to 1,024.");
    for (refusal, q) in [(4, 0), (0, 1), (0, 1_024), (4, 1_025), (4, u32::MAX)] {
        sheet.answers(refusal, call(Link { q, ..e() }));
    }
}

pub fn resend_pair_sheet() -> String {
    let mut sheet = Sheet::new("resend_pair: sender, receiver and run of a resend");
    resend_examples(&mut sheet);
    resend_walks(&mut sheet);

    sheet.group("Message numbers: 1 to 1,000,000,000,000.");
    for (refusal, k) in [(6, 0), (0, 1), (0, LAST_MESSAGE), (6, LAST_MESSAGE + 1), (6, u64::MAX)] {
        sheet.answers(refusal, resend(&uneven(), k, 1));
    }
    sheet.group("Resend numbers: 1 to 255.");
    for (refusal, n) in [(7, 0), (0, 1), (0, 255), (7, 256), (7, u32::MAX)] {
        sheet.answers(refusal, resend(&uneven(), 7, n));
    }
    cluster_limits(&mut sheet, |link| resend(&link, 7, 3));
    let mut causes = CAUSES.to_vec();
    causes.push((7, |(.., n)| *n = 256));
    sheet.order(&(e(), 6, 1), &causes, |(link, k, n)| resend(&link, k, n));
    sheet.text()
}

fn resend_examples(sheet: &mut Sheet) {
    sheet.group("The document's examples: E, message 6.");
    for (n, end) in (1..).zip([2, 3, 0, 1]) {
        sheet.example(resend(&e(), 6, n), &format!("0 answer={end},{end},1"));
    }

    sheet.group("The document's examples: the seven resends of its plan.");
    let plan = ["0,0,3", "0,1,2", "1,1,1", "1,2,3", "1,3,1", "2,3,2", "2,4,3"];
    for (n, answer) in (1..).zip(plan) {
        sheet.example(resend(&three_to_five(), 3, n), &format!("0 answer={answer}"));
    }

    sheet.group("The document's examples: E to four shares of a million, from unit 0.");
    let million = Link {
        receiving: cluster(&[MOST_SHARE; 4], 1_333_333, 1_333_333),
        ..e()
    };
    for (n, end) in (1..).zip([0, 1, 2]) {
        sheet.example(resend(&million, 4, n), &format!("0 answer={end},{end},1000000"));
    }
}

fn resend_walks(sheet: &mut Sheet) {
    sheet.group("More than once round the circle, from each sender's end.");
    for k in [1, 2, 3] {
        for n in 1..=16 {
            sheet.accepts(resend(&uneven(), k, n));
        }
    }
    sheet.group("Totals without a common divisor, one a multiple of the other, and clusters of one member.");
    let links = [
        link(cluster(&[5, 2], 0, 0), cluster(&[3, 1, 1], 0, 0), 7),
        link(cluster(&[1, 2], 0, 0), cluster(&[4, 4, 1, 3], 0, 0), 2),
        link(cluster(&[1], 0, 0), cluster(&[1], 0, 0), 1),
        link(cluster(&[7], 0, 0), cluster(&[MOST_SHARE, 1], 0, 0), 1),
    ];
    for link in links {
        for n in [1, 2, 3, 4, 5, 6, 255] {
            sheet.accepts(resend(&link, 2, n));
        }
    }
    sheet.group("Sixty-four members on both sides: a circle of about 4,096,000,000,000,000 units.");
    for k in [1, 40, 64, 1_024, LAST_MESSAGE] {
        for n in [1, 2, 63, 64, 126, 127, 128, 255] {
            sheet.accepts(resend(&full(), k, n));
        }
    }
}

pub fn open_sheet() -> String {
    let mut sheet = Sheet::new("open: a window between two clusters; a refused one is a state of zeros");
    let open = |link: Link| Call::Open { link };
    sheet.group("Some openings.");
    for link in [e(), three_to_five(), uneven(), full()] {
        sheet.accepts(open(link));
    }
    cluster_limits(&mut sheet, open);
    let causes = &CAUSES[..7];
    sheet.order(&(e(), 1, 1), causes, |(link, ..)| open(link));
    sheet.text()
}
