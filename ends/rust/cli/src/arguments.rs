//! The command line.

use crate::asked::{Asked, Side};
use crate::lists::{members, number, shares};
use crate::mistake::Mistake;
use std::collections::BTreeMap;
use std::ffi::{OsStr, OsString};
use std::path::PathBuf;

/// What the command line asks for.
pub enum Wanted {
    Help,
    Plan(Asked, Output),
}

/// What is made of a plan.
pub enum Output {
    Table,
    TableAndPicture(PathBuf),
    Records,
}

/// The options with a value, and what is expected of it.
const OPTIONS: [(&str, &str); 11] = [
    ("--sending", "shares, as 1,1,1"),
    ("--sending-u", "a number, as 1"),
    ("--sending-r", "a number, as 0"),
    ("--receiving", "shares, as 1,1,1"),
    ("--receiving-u", "a number, as 1"),
    ("--receiving-r", "a number, as 0"),
    ("--quantum", "a number, as 100"),
    ("--message", "a number, as 1"),
    ("--failed-senders", "members, as 0,1"),
    ("--failed-receivers", "members, as 0,1"),
    ("--svg", "a file's name"),
];

/// Short names.
const SHORT: [(&str, &str); 4] = [
    ("--su", "--sending-u"),
    ("--sr", "--sending-r"),
    ("--ru", "--receiving-u"),
    ("--rr", "--receiving-r"),
];

/// The values by their options' names, and whether records are asked for.
struct Given {
    values: BTreeMap<&'static str, OsString>,
    records: bool,
}

/// Reads the arguments behind the program's name.
pub fn read(arguments: impl Iterator<Item = OsString>) -> Result<Wanted, Mistake> {
    let arguments: Vec<OsString> = arguments.collect();
    let help = |argument: &OsString| argument == "--help" || argument == "-h";
    if arguments.iter().any(help) {
        return Ok(Wanted::Help);
    }
    match arguments.split_first() {
        Some((command, options)) if command == "plan" => {
            let given = Given::from(options)?;
            Ok(Wanted::Plan(given.asked()?, given.output()?))
        }
        Some((command, _)) => Err(usage(format!("unknown command '{}'; expected plan", command.display()))),
        None => Err(usage("no command; expected plan")),
    }
}

fn usage(words: impl Into<String>) -> Mistake {
    Mistake::Usage(words.into())
}

/// An option's full name and what is expected of it.
fn option(argument: &OsStr) -> Option<(&'static str, &'static str)> {
    let short = SHORT.iter().find(|(short, _)| argument == *short);
    let full = |&&(name, _): &&(&str, &str)| short.map_or(argument == name, |(_, long)| *long == name);
    OPTIONS.iter().find(full).copied()
}

impl Given {
    fn from(options: &[OsString]) -> Result<Given, Mistake> {
        let mut given = Given {
            values: BTreeMap::new(),
            records: false,
        };
        let mut rest = options.iter();
        while let Some(argument) = rest.next() {
            if argument == "--records" {
                given.records = true;
                continue;
            }
            let unknown = || usage(format!("unknown argument '{}'", argument.display()));
            let (name, expected) = option(argument).ok_or_else(unknown)?;
            let missing = || usage(format!("{name}: nothing behind it; expected {expected}"));
            let value = rest.next().ok_or_else(missing)?;
            if given.values.insert(name, value.clone()).is_some() {
                return Err(usage(format!("{name}: given twice; expected once")));
            }
        }
        Ok(given)
    }

    /// The value of an option, as text; `None` where it was not given.
    fn text(&self, name: &'static str) -> Result<Option<&str>, Mistake> {
        let Some(value) = self.values.get(name) else {
            return Ok(None);
        };
        let text = value.to_str();
        text.map(Some)
            .ok_or_else(|| usage(format!("{name}: expected plain text, got '{}'", value.display())))
    }

    /// The value of an option that must be there.
    fn needed(&self, name: &'static str) -> Result<&str, Mistake> {
        let expected = OPTIONS
            .iter()
            .find(|option| option.0 == name)
            .map_or("", |option| option.1);
        self.text(name)?
            .ok_or_else(|| usage(format!("{name}: missing; expected {expected}")))
    }

    fn number(&self, name: &'static str) -> Result<u32, Mistake> {
        number(name, self.needed(name)?, u32::MAX)
    }

    /// One cluster, by the names of its four options.
    fn side(&self, name: &'static str, [of, u, r, failed]: [&'static str; 4]) -> Result<Side, Mistake> {
        Ok(Side {
            name,
            shares: shares(of, self.needed(of)?)?,
            u: self.number(u)?,
            r: self.number(r)?,
            failed: members(failed, self.text(failed)?.unwrap_or(""))?,
        })
    }

    fn asked(&self) -> Result<Asked, Mistake> {
        let sending = ["--sending", "--sending-u", "--sending-r", "--failed-senders"];
        let receiving = ["--receiving", "--receiving-u", "--receiving-r", "--failed-receivers"];
        Ok(Asked {
            sending: self.side("sending", sending)?,
            receiving: self.side("receiving", receiving)?,
            quantum: self.number("--quantum")?,
            message: number("--message", self.needed("--message")?, u64::MAX)?,
        })
    }

    fn output(&self) -> Result<Output, Mistake> {
        match (self.values.get("--svg"), self.records) {
            (Some(_), true) => Err(usage(
                "--records: writes nothing else; expected no --svg with it".to_string(),
            )),
            (Some(file), false) => Ok(Output::TableAndPicture(file.into())),
            (None, true) => Ok(Output::Records),
            (None, false) => Ok(Output::Table),
        }
    }
}
