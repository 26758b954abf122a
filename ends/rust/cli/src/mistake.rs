//! What can go wrong, in words.

use havdorlek::Refusal;
use std::process::ExitCode;
use std::{fmt, io};

/// Why there is no plan.
pub enum Mistake {
    /// An argument that is not understood: which, and what is expected.
    Usage(String),
    /// The library refuses, and for which cluster, if it is for one.
    Refused(Refusal, Option<&'static str>),
    /// Something cannot be written.
    Unwritten(String, io::Error),
}

impl Mistake {
    /// The exit status.
    pub fn code(&self) -> ExitCode {
        match self {
            Mistake::Refused(..) => ExitCode::from(1),
            Mistake::Usage(_) | Mistake::Unwritten(..) => ExitCode::from(2),
        }
    }
}

impl fmt::Display for Mistake {
    fn fmt(&self, f: &mut fmt::Formatter) -> fmt::Result {
        match self {
            Mistake::Usage(words) => write!(f, "{words}; see havdorlek --help"),
            Mistake::Refused(refusal, Some(cluster)) => write!(f, "{refusal} ({cluster} cluster)"),
            Mistake::Refused(refusal, None) => write!(f, "{refusal}"),
            Mistake::Unwritten(what, error) => write!(f, "cannot write {what}: {error}"),
        }
    }
}
