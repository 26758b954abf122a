//! Writes the conformance pack: `cargo run --release --bin vectors`, or with another folder as its argument.

use std::path::PathBuf;

fn main() -> std::io::Result<()> {
    let folder = std::env::args().nth(1).map_or_else(checks::pack::folder, PathBuf::from);
    for (name, text) in checks::pack::files() {
        let calls = text
            .lines()
            .filter(|line| !line.is_empty() && !line.starts_with('#'))
            .count();
        std::fs::write(folder.join(format!("{name}.txt")), text)?;
        println!("{name}.txt: {calls} calls");
    }
    Ok(())
}
