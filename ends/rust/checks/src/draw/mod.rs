//! Random inputs of calls: mostly right, some of them wrong in one way or in several.

pub mod clusters;
pub mod records;
pub mod windows;
