//! The words of a command line, for every command in the same way.
use crate::files::{self, Inputs};
use crate::names::{of_bytes, shown};
use crate::{Failure, Status};
use std::ffi::{OsStr, OsString};

/// A command: its name, its part of the usage, its own options, which may be flags or have a value, and what it does.
pub struct Verb {
    pub name: &'static str,
    pub usage: &'static str,
    pub flags: &'static [&'static str],
    pub values: &'static [&'static str],
    pub run: fn(Args) -> Result<Status, Failure>,
}

/// What every command takes besides: where its files come from, and how many at a time.
const FLAGS: [&str; 2] = ["--all", "--null"];
const VALUES: [&str; 2] = ["--files-from", "--jobs"];

/// More threads than this help nobody.
const MOST_JOBS: usize = 1024;

/// A command line that was understood.
pub struct Args {
    verb: &'static str,
    pub names: Vec<OsString>,
    flags: Vec<&'static str>,
    values: Vec<(&'static str, OsString)>,
}

impl Args {
    /// Takes the words of a command apart; nothing where they ask for help.
    ///
    /// `--name value` and `--name=value` are the same; after `--` no word is an option; `-` is a name, of standard input.
    pub fn of(verb: &Verb, words: &[OsString]) -> Result<Option<Args>, Failure> {
        let mut args = Args { verb: verb.name, names: Vec::new(), flags: Vec::new(), values: Vec::new() };
        let mut words = words.iter();
        while let Some(word) = words.next() {
            let bytes = word.as_encoded_bytes();
            if bytes == b"--" {
                args.names.extend(words.cloned());
                break;
            }
            if bytes == b"-" || !bytes.starts_with(b"-") {
                args.names.push(word.clone());
                continue;
            }
            let (option, joined) = halves(word);
            if matches!(option.to_str(), Some("--help" | "-h")) && joined.is_none() {
                return Ok(None);
            }
            let of = |known: &[&'static str]| known.iter().find(|known| option == **known).copied();
            if let Some(flag) = of(verb.flags).or(of(&FLAGS)) {
                if joined.is_some() {
                    return Err(Failure::Usage(format!("{flag} takes no value")));
                }
                args.flags.push(flag);
            } else if let Some(option) = of(verb.values).or(of(&VALUES)) {
                let value = joined.or_else(|| words.next().cloned()).filter(|value| !value.is_empty());
                let value = value.ok_or_else(|| Failure::Usage(format!("{option} needs a value")))?;
                if args.value(option).is_some() {
                    return Err(Failure::Usage(format!("{option} is there twice")));
                }
                args.values.push((option, value));
            } else {
                return Err(Failure::Usage(format!("`crn {}` has no option {}", verb.name, shown(option))));
            }
        }
        Ok(Some(args))
    }

    pub fn flag(&self, flag: &str) -> bool {
        self.flags.contains(&flag)
    }

    pub fn value(&self, option: &str) -> Option<&OsStr> {
        self.values.iter().find(|value| value.0 == option).map(|value| value.1.as_os_str())
    }

    /// An option's number, of those that it may be.
    pub fn number(&self, option: &str, may_be: std::ops::RangeInclusive<usize>) -> Result<Option<usize>, Failure> {
        let Some(value) = self.value(option) else { return Ok(None) };
        let number = value.to_str().filter(|text| text.bytes().all(|b| b.is_ascii_digit())).and_then(|text| text.parse().ok());
        let wrong = || Failure::Usage(format!("{option} is {}, and may be {} to {}", shown(value), may_be.start(), may_be.end()));
        number.filter(|number| may_be.contains(number)).map(Some).ok_or_else(wrong)
    }

    /// How many files are worked on at a time: as asked, or one for each processor.
    pub fn jobs(&self) -> Result<usize, Failure> {
        let cores = || std::thread::available_parallelism().map_or(1, |n| n.get()).min(MOST_JOBS);
        Ok(self.number("--jobs", 1..=MOST_JOBS)?.unwrap_or_else(cores))
    }

    /// The files that are asked for, to be found one after another.
    pub fn inputs(&self) -> Result<Inputs, Failure> {
        let usage = |why: &str| Err(Failure::Usage(why.into()));
        let list = self.value("--files-from");
        if self.names.is_empty() && list.is_none() {
            return usage(&format!("`crn {}` needs a file or a folder", self.verb));
        }
        if self.flag("--null") && list.is_none() {
            return usage("--null is for --files-from");
        }
        if self.names.iter().chain(list.map(OsStr::to_owned).iter()).filter(|name| *name == "-").count() > 1 {
            return usage("standard input is there twice, and can be read once");
        }
        let end = if self.flag("--null") { 0 } else { b'\n' };
        let list = list.map(|list| files::List::open(list, end)).transpose().map_err(Failure::Trouble)?;
        Ok(Inputs::new(self.names.clone(), list, self.flag("--all")))
    }
}

/// An option, and the value that stands behind its `=`.
fn halves(word: &OsStr) -> (OsString, Option<OsString>) {
    let bytes = word.as_encoded_bytes();
    let at = bytes.iter().position(|byte| *byte == b'=').filter(|_| bytes.starts_with(b"--"));
    match at.and_then(|at| of_bytes(&bytes[..at]).zip(of_bytes(&bytes[at + 1..]))) {
        Some((option, value)) => (option, Some(value)),
        None => (word.into(), None),
    }
}
