//! plan.txt

use super::inputs::{cluster, e, full, link, three_to_five, uneven, MOST_SHARE};
use super::sheet::Sheet;
use crate::call::{Call, Link};

/// A record of the plan's input: kind and two numbers.
pub type Record = (u8, u32, u32);

pub fn bytes_of((kind, first, second): Record) -> Vec<u8> {
    [[kind, 0, 0, 0], first.to_le_bytes(), second.to_le_bytes()].concat()
}

/// The records for the plan of a message.
pub fn records_of(Link { sending, receiving, q }: &Link, message: u32) -> Vec<Record> {
    let mut records = vec![(1, sending.u, sending.r)];
    records.extend(sending.shares.iter().map(|&share| (2, share, 0)));
    records.push((3, receiving.u, receiving.r));
    records.extend(receiving.shares.iter().map(|&share| (4, share, 0)));
    records.push((5, *q, message));
    records
}

fn plan(records: &[Record]) -> Call {
    Call::Plan {
        input: records.iter().copied().flat_map(bytes_of).collect(),
    }
}

pub fn plan_sheet() -> String {
    let mut sheet = Sheet::new("plan: the plan program's text");
    let text = "resend_from_to_run/0_2_2_0/1_0_0_3/2_0_1_2/3_1_1_1/4_1_2_3/5_1_3_1/6_2_3_2/7_2_4_3/";
    sheet.group("The document's example.");
    sheet.example(
        plan(&records_of(&three_to_five(), 3)),
        &format!("83 text={text} rest=aa*3375"),
    );
    sheet.group("More plans, one of 127 resends among them.");
    let single = link(cluster(&[1], 0, 0), cluster(&[1], 0, 0), 1);
    for (link, message) in [(e(), 6), (uneven(), 7), (single, u32::MAX), (full(), 1_000_000_000)] {
        sheet.accepts(plan(&records_of(&link, message)));
    }
    sheet.group("Message 0; larger ones fit into 32 bits and are no cause.");
    sheet.answers(6, plan(&records_of(&e(), 0)));
    sheet.accepts(plan(&records_of(&e(), 1)));
    sheet.accepts(plan(&records_of(&e(), u32::MAX)));
    other_builds(&mut sheet);
    lengths(&mut sheet);
    nonzero_bytes(&mut sheet);
    members(&mut sheet);
    order(&mut sheet);
    sheet.text()
}

fn other_builds(sheet: &mut Sheet) {
    let whole = records_of(&link(cluster(&[3, 1, 2], 0, 0), cluster(&[2, 1, 4, 3], 0, 0), 3), 3);
    sheet.group("One record is missing: without a share it is another plan, otherwise it is 19.");
    for at in 0..whole.len() {
        let mut records = whole.clone();
        let (kind, ..) = records.remove(at);
        let refusal = if kind == 2 || kind == 4 { 0 } else { 19 };
        sheet.answers(refusal, plan(&records));
    }
    sheet.group("One record stands twice: with a share more it is another plan, otherwise it is 19.");
    for at in 0..whole.len() {
        let mut records = whole.clone();
        records.insert(at, records[at]);
        let (kind, ..) = records[at];
        let refusal = if kind == 2 || kind == 4 { 0 } else { 19 };
        sheet.answers(refusal, plan(&records));
    }
    sheet.group("Neighbours of different kinds change places.");
    for at in 1..whole.len() {
        let mut records = whole.clone();
        if records[at - 1].0 != records[at].0 {
            records.swap(at - 1, at);
            sheet.answers(19, plan(&records));
        }
    }
    sheet.group("Kinds that do not exist.");
    for kind in [0, 6, 255] {
        for at in 0..whole.len() {
            let mut records = whole.clone();
            records[at].0 = kind;
            sheet.answers(19, plan(&records));
        }
    }
}

fn lengths(sheet: &mut Sheet) {
    let plan = |input: Vec<u8>| Call::Plan { input };
    let whole: Vec<u8> = records_of(&three_to_five(), 3).into_iter().flat_map(bytes_of).collect();
    sheet.group("No input, and inputs that are no whole number of records.");
    sheet.answers(19, plan(Vec::new()));
    sheet.answers(19, plan(whole[..1].to_vec()));
    sheet.answers(19, plan(whole[..whole.len() - 1].to_vec()));
    sheet.answers(19, plan([whole.clone(), vec![0]].concat()));
    sheet.answers(19, plan([whole, vec![0; 12]].concat()));

    sheet.group("At most 4,096 bytes: 341 records make 4,092, with too many members; 342 are too long.");
    let many = |shares: usize| {
        let records = records_of(&link(cluster(&vec![1; shares], 0, 0), cluster(&[1], 0, 0), 1), 1);
        records.into_iter().flat_map(bytes_of).collect::<Vec<u8>>()
    };
    sheet.answers(1, plan(many(337)));
    sheet.answers(19, plan([many(337), vec![0; 4]].concat()));
    sheet.answers(19, plan([many(337), vec![0; 5]].concat()));
    sheet.answers(19, plan(many(338)));
    sheet.answers(19, plan(vec![0; 10_000]));
}

fn nonzero_bytes(sheet: &mut Sheet) {
    sheet.group(
        "A nonzero byte where zero is named: in each kind's three zeros, and in the second number of kinds 2 and 4.",
    );
    let whole = records_of(&link(cluster(&[1], 0, 0), cluster(&[1], 0, 0), 1), 1);
    for at in 0..whole.len() {
        let mut named = vec![1, 2, 3];
        if whole[at].0 == 2 || whole[at].0 == 4 {
            named.extend(8..12);
        }
        for byte in named {
            let mut input: Vec<u8> = whole.iter().copied().flat_map(bytes_of).collect();
            input[at * 12 + byte] = 1;
            sheet.answers(19, Call::Plan { input });
        }
    }
}

fn members(sheet: &mut Sheet) {
    sheet.group("No kind 2, no kind 4, neither; and 64 or 65 of them.");
    let plan_of = |sending: &[u32], receiving: &[u32]| {
        plan(&records_of(
            &link(cluster(sending, 0, 0), cluster(receiving, 0, 0), 4),
            6,
        ))
    };
    sheet.answers(1, plan_of(&[], &[1]));
    sheet.answers(1, plan_of(&[1], &[]));
    sheet.answers(1, plan_of(&[], &[]));
    sheet.accepts(plan_of(&[1; 64], &[1]));
    sheet.answers(1, plan_of(&[1; 65], &[1]));
    sheet.accepts(plan_of(&[1], &[1; 64]));
    sheet.answers(1, plan_of(&[1], &[1; 65]));
    sheet.group("No kind 4, after a sending cluster that is refused by itself.");
    sheet.answers(2, plan_of(&[0], &[]));
}

fn order(sheet: &mut Sheet) {
    sheet.order(
        &(e(), 6, Vec::new()),
        &[
            (19, |(.., more)| more.push((5, 1, 1))),
            (1, |(link, ..)| link.sending.shares.resize(65, 1)),
            (2, |(link, ..)| link.sending.shares[0] = MOST_SHARE + 1),
            (3, |(link, ..)| link.sending.u = u32::MAX),
            (1, |(link, ..)| link.receiving.shares.resize(65, 1)),
            (2, |(link, ..)| link.receiving.shares[0] = 0),
            (3, |(link, ..)| link.receiving.r = 2),
            (4, |(link, ..)| link.q = 1_025),
            (6, |(_, message, _)| *message = 0),
        ],
        |(link, message, more)| plan(&[records_of(&link, message), more].concat()),
    );
}
