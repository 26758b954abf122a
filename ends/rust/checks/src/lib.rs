//! The library against the reference: calls and answers as text, the conformance pack, and long random seasons.

#![forbid(unsafe_code)]

pub mod answer;
pub mod call;
pub mod draw;
pub mod end;
pub mod layout;
pub mod pack;
pub mod random;
pub mod season;
pub mod singles;
pub mod states;
pub mod tally;
pub mod text;
