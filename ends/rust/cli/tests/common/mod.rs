//! Running the program.

use std::process::Command;

/// What a run of the program said, and its exit status.
pub struct Run {
    pub out: Vec<u8>,
    pub err: String,
    pub code: Option<i32>,
}

impl Run {
    /// Standard output as text.
    pub fn text(&self) -> &str {
        std::str::from_utf8(&self.out).unwrap()
    }
}

/// Runs the program with these arguments, which spaces part.
pub fn run(arguments: &str) -> Run {
    run_all(&arguments.split_whitespace().collect::<Vec<_>>())
}

/// Runs the program with these arguments.
pub fn run_all(arguments: &[&str]) -> Run {
    let output = Command::new(env!("CARGO_BIN_EXE_havdorlek"))
        .args(arguments)
        .output()
        .unwrap();
    Run {
        out: output.stdout,
        err: String::from_utf8(output.stderr).unwrap(),
        code: output.status.code(),
    }
}
