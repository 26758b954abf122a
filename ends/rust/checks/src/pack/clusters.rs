//! counts.txt

use super::inputs::{cluster, MOST_SHARE};
use super::sheet::Sheet;
use crate::call::{Call, Cluster};

fn counts(cluster: Cluster, q: u32, room: usize) -> Call {
    Call::Counts { cluster, q, room }
}

/// A call with just the room it needs.
fn fitting(shares: &[u32], u: u32, r: u32, q: u32) -> Call {
    counts(cluster(shares, u, r), q, shares.len())
}

pub fn counts_sheet() -> String {
    let mut sheet = Sheet::new("counts: dealing first copies by Hamilton's method");
    examples(&mut sheet);
    limits(&mut sheet);
    remainders(&mut sheet);
    let accepted = (cluster(&[1; 4], 1, 1), 4, 4);
    sheet.order(
        &accepted,
        &[
            (1, |(cluster, ..)| cluster.shares.resize(65, 1)),
            (2, |(cluster, ..)| cluster.shares[0] = 0),
            (3, |(cluster, ..)| cluster.r = cluster.u + 1),
            (4, |(_, q, _)| *q = 0),
            (5, |(.., room)| *room = 3),
        ],
        |(cluster, q, room)| counts(cluster, q, room),
    );
    sheet.text()
}

fn examples(sheet: &mut Sheet) {
    sheet.group("The document's examples.");
    sheet.example(fitting(&[25; 4], 0, 0, 100), "0 out=25,25,25,25");
    sheet.example(fitting(&[250; 4], 0, 0, 100), "0 out=25,25,25,25");
    sheet.example(fitting(&[214, 262, 262, 262], 0, 0, 100), "0 out=22,26,26,26");
    sheet.example(fitting(&[97, 1, 1, 1], 0, 0, 10), "0 out=10,0,0,0");
    sheet.example(fitting(&[1, 1, 1], 1, 0, 4), "0 out=2,1,1");
    sheet.example(fitting(&[2, 1, 3], 0, 0, 6), "0 out=2,1,3");
    sheet.example(fitting(&[MOST_SHARE], 0, 0, 1), "0 out=1");
    sheet.answers(2, fitting(&[MOST_SHARE + 1], 0, 0, 1));
    sheet.answers(3, fitting(&[1; 4], 2, 1, 4));
}

fn limits(sheet: &mut Sheet) {
    sheet.group("Members: 1 to 64.");
    sheet.answers(1, fitting(&[], 0, 0, 4));
    sheet.accepts(fitting(&[1], 0, 0, 4));
    sheet.accepts(fitting(&[1; 64], 21, 21, 4));
    sheet.answers(1, fitting(&[1; 65], 21, 21, 4));

    sheet.group("Shares: 1 to 1,000,000, the last member's too.");
    sheet.answers(2, fitting(&[1, 0], 0, 0, 4));
    sheet.accepts(fitting(&[1, MOST_SHARE], 0, 0, 4));
    sheet.answers(2, fitting(&[1, MOST_SHARE + 1], 0, 0, 4));
    sheet.answers(2, fitting(&[1, u32::MAX], 0, 0, 4));

    sheet.group("Bounds: r at most u, D at least 2u + r + 1; sums that 32 bits do not hold.");
    sheet.accepts(fitting(&[3, 3], 2, 1, 4));
    sheet.answers(3, fitting(&[3, 2], 2, 1, 4));
    sheet.accepts(fitting(&[3, 3], 1, 1, 4));
    sheet.answers(3, fitting(&[3, 3], 1, 2, 4));
    sheet.accepts(fitting(&[1], 0, 0, 4));
    sheet.answers(3, fitting(&[1], 1, 0, 4));
    sheet.answers(3, fitting(&[3, 3], u32::MAX, u32::MAX, 4));
    sheet.answers(3, fitting(&[3, 3], 1 << 31, 0, 4));
    sheet.answers(3, fitting(&[3, 3], 1 << 31, 1 << 31, 4));
    sheet.accepts(fitting(&[MOST_SHARE; 64], 31_999_999, 1, 4));
    sheet.answers(3, fitting(&[MOST_SHARE; 64], 31_999_999, 2, 4));

    sheet.group("Quantum: 1 to 1,024.");
    sheet.answers(4, fitting(&[1, 2], 0, 0, 0));
    sheet.accepts(fitting(&[1, 2], 0, 0, 1));
    sheet.accepts(fitting(&[1, 2], 0, 0, 1_024));
    sheet.answers(4, fitting(&[1, 2], 0, 0, 1_025));
    sheet.answers(4, fitting(&[1, 2], 0, 0, u32::MAX));

    sheet.group("Room: one place for each member; later places stay.");
    sheet.answers(5, counts(cluster(&[1, 2], 0, 0), 9, 0));
    sheet.answers(5, counts(cluster(&[1, 2], 0, 0), 9, 1));
    sheet.accepts(counts(cluster(&[1, 2], 0, 0), 9, 2));
    sheet.accepts(counts(cluster(&[1, 2], 0, 0), 9, 5));
    sheet.answers(5, counts(cluster(&[1; 64], 0, 0), 9, 63));
}

fn remainders(sheet: &mut Sheet) {
    sheet.group("Undealt messages: the largest remainders first, equal ones to the lower member.");
    sheet.accepts(fitting(&[1, 2, 3, 4], 0, 0, 7));
    sheet.accepts(fitting(&[5, 5, 5, 1], 0, 0, 3));
    sheet.accepts(fitting(&[1, 5, 5, 5], 0, 0, 2));
    sheet.accepts(fitting(&[1; 64], 0, 0, 63));
    sheet.accepts(fitting(&[1; 64], 0, 0, 65));
    sheet.accepts(fitting(&[1; 7], 0, 0, 1_024));
    sheet.accepts(fitting(&[MOST_SHARE, MOST_SHARE - 1, 1, 999_983], 0, 0, 1_024));
    let climbing: Vec<u32> = (1..=64).map(|member| member * member * 200).collect();
    sheet.accepts(fitting(&climbing, 0, 0, 1_000));
    let mut one_large = [1; 64];
    one_large[40] = MOST_SHARE;
    sheet.accepts(fitting(&one_large, 0, 0, 1_024));
}
