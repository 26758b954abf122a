//! `havdorlek`: sending plans on the command line.

mod arguments;
mod asked;
mod lists;
mod mistake;
mod picture;
mod plan;
mod promise;
mod records;
mod table;

use arguments::{read, Output, Wanted};
use asked::Asked;
use mistake::Mistake;
use plan::Plan;
use std::io::{self, Write};
use std::process::ExitCode;
use std::{env, fs};

const HELP: &str = include_str!("help.txt");

fn main() -> ExitCode {
    match run() {
        Ok(()) => ExitCode::SUCCESS,
        Err(mistake) => {
            eprintln!("havdorlek: {mistake}");
            mistake.code()
        }
    }
}

fn run() -> Result<(), Mistake> {
    match read(env::args_os().skip(1))? {
        Wanted::Help => print(HELP.as_bytes()),
        Wanted::Plan(asked, Output::Records) => print(&records::of(&asked)?),
        Wanted::Plan(asked, Output::Table) => print_table(&asked).map(|_| ()),
        Wanted::Plan(asked, Output::TableAndPicture(file)) => {
            let plan = print_table(&asked)?;
            let svg = picture::draw(&asked, &plan);
            fs::write(&file, svg).map_err(|error| Mistake::Unwritten(file.display().to_string(), error))
        }
    }
}

fn print_table(asked: &Asked) -> Result<Plan, Mistake> {
    let plan = Plan::of(asked)?;
    print(table::of(asked, &plan).as_bytes())?;
    Ok(plan)
}

fn print(bytes: &[u8]) -> Result<(), Mistake> {
    let mut out = io::stdout().lock();
    let written = out.write_all(bytes).and_then(|()| out.flush());
    written.map_err(|error| Mistake::Unwritten("standard output".to_string(), error))
}
