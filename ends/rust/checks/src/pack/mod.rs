//! The conformance pack: what the files under `vectors/` hold, call by call.

mod clusters;
mod damage;
mod holdings;
mod inputs;
mod judging;
mod pairs;
mod plans;
mod records;
mod report_refusals;
mod reports;
mod sending;
mod sheet;
mod story;

pub use plans::{bytes_of, records_of, Record};

use std::path::PathBuf;

/// Where the pack lies.
pub fn folder() -> PathBuf {
    PathBuf::from(env!("CARGO_MANIFEST_DIR")).join("../../vectors")
}

/// The files of the pack, each with the name of its call and its text.
pub fn files() -> [(&'static str, String); 13] {
    [
        ("counts", clusters::counts_sheet()),
        ("first_pair", pairs::first_pair_sheet()),
        ("resend_pair", pairs::resend_pair_sheet()),
        ("open", pairs::open_sheet()),
        ("judge", judging::judge_sheet()),
        ("send", sending::send_sheet()),
        ("report", reports::report_sheet()),
        ("fresh", holdings::fresh_sheet()),
        ("arrive", holdings::arrive_sheet()),
        ("receiver_report", holdings::receiver_report_sheet()),
        ("read", records::read_sheet()),
        ("write", records::write_sheet()),
        ("plan", plans::plan_sheet()),
    ]
}
