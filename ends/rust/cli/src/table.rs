//! The plan as a table.

use crate::asked::{Asked, Side};
use crate::plan::{Plan, Step};
use crate::promise::{beyond, units, Promise};

/// The columns, in the plan program's words, and the units spent before a resend.
const HEADS: [&str; 5] = ["resend", "from", "to", "run", "before"];

/// A line of the table: its fields, and what there is to say about it.
struct Row {
    fields: [String; 5],
    note: String,
}

/// The whole text.
pub fn of(asked: &Asked, plan: &Plan) -> String {
    let promise = Promise::of(asked);
    let (quantum, message) = (asked.quantum, asked.message);
    [
        cluster_line(&asked.sending),
        cluster_line(&asked.receiving),
        format!(
            "quantum    {quantum}\nmessage    {message}\ncircle     {}\n\n",
            units(promise.units)
        ),
        aligned(&rows(asked, plan)),
        format!("\n{}\n", found(plan)),
        format!("{}\n", promised(asked, plan, &promise)),
    ]
    .concat()
}

fn cluster_line(side: &Side) -> String {
    let failed: Vec<String> = side.failed.iter().map(u32::to_string).collect();
    let failed = match failed.join(", ") {
        none if none.is_empty() => none,
        list => format!("; failed: {list} (share {})", side.failed_share()),
    };
    format!("{:<10} {}{failed}\n", side.name, side.described())
}

/// A row of heads, one for the first copy, and one for each resend.
fn rows(asked: &Asked, plan: &Plan) -> Vec<Row> {
    let first = &plan.first;
    let spoilt = ends(
        asked.sending.has_failed(first.sender),
        asked.receiving.has_failed(first.receiver),
    );
    let head = Row {
        fields: HEADS.map(String::from),
        note: String::new(),
    };
    let copy = Row {
        fields: ["0", &first.sender.to_string(), &first.receiver.to_string(), "0", "-"].map(String::from),
        note: ["first copy", spoilt.unwrap_or_default()].join(if spoilt.is_some() { ", " } else { "" }),
    };
    let first_good = plan.first_good().map(|step| step.number);
    let resend = |step: &Step| Row {
        fields: [
            step.number.into(),
            step.sender.into(),
            step.receiver.into(),
            step.run,
            step.before,
        ]
        .map(|field: u64| field.to_string()),
        note: match ends(step.sender_failed, step.receiver_failed) {
            Some(spoilt) => spoilt.to_string(),
            None if first_good == Some(step.number) => "first good".to_string(),
            None => "good".to_string(),
        },
    };
    [head, copy]
        .into_iter()
        .chain(plan.resends.iter().map(resend))
        .collect()
}

/// Which ends have failed, if any has.
fn ends(sender: bool, receiver: bool) -> Option<&'static str> {
    match (sender, receiver) {
        (true, true) => Some("both ends failed"),
        (true, false) => Some("sender failed"),
        (false, true) => Some("receiver failed"),
        (false, false) => None,
    }
}

/// The rows as lines, every column as wide as it needs to be.
fn aligned(rows: &[Row]) -> String {
    let width = |column: usize| rows.iter().map(|row| row.fields[column].len()).max().unwrap_or(0);
    let widths = [0, 1, 2, 3, 4].map(width);
    let line = |row: &Row| {
        let cell = |(field, width): (&String, usize)| format!("{field:>width$}  ");
        let cells: String = row.fields.iter().zip(widths).map(cell).collect();
        format!("{}\n", (cells + &row.note).trim_end())
    };
    rows.iter().map(line).collect()
}

/// The first good resend, and what was spent before it.
fn found(plan: &Plan) -> String {
    match plan.first_good() {
        Some(step) => format!(
            "The first good resend is {}, after {}.",
            step.number,
            units(step.before)
        ),
        None => format!("None of the {} resends is good.", plan.resends.len()),
    }
}

/// What demand 3 promises.
fn promised(asked: &Asked, plan: &Plan, promise: &Promise) -> String {
    match beyond(asked) {
        Some(side) => format!(
            "Demand 3 promises nothing here: the failed {} members have share {}, above u = {}.",
            side.name,
            side.failed_share(),
            side.u
        ),
        None => format!(
            "Demand 3: one of the first {} is good, after at most {} + {} = {}.",
            plan.resends.len(),
            promise.sending,
            promise.receiving,
            units(promise.bound())
        ),
    }
}
