//! `crn`: CRN files on the command line. See `crn help`.
#![deny(unsafe_code)]

mod args;
mod bar;
mod check;
mod dds;
mod each;
mod fault;
mod files;
#[path = "../../grouped.rs"]
mod grouped;
mod info;
mod json;
mod look;
mod names;
mod png;
mod say;
// the only `unsafe` of the command: what std lacks to leave nothing behind at a signal
#[allow(unsafe_code)]
mod signals;
mod unpack;
mod write;

use args::{Args, Verb};
use std::ffi::OsString;
use std::process::ExitCode;

const ABOUT: &str = "crn: what CRN files (crunched DXT textures) hold\n";

const INFO: &str = "
  crn info [--json] INPUT..
      a table for each file: its header, palettes and levels, also of a file that is refused, as far as it can be told
";

const LOOK: &str = "
  crn look [--json] INPUT..
      a line for each file: its format, pixels, levels and faces, by its header alone. Of a file on disk no more is read
      than its first 122 bytes: a file that is accepted here may be refused by the other commands
";

const CHECK: &str = "
  crn check [--json] INPUT..
      unpacks every level of every file, tells which are refused and why, and how many are accepted
";

const UNPACK: &str = "
  crn unpack [--level N] [--out DIR] [--force] INPUT..
      the raw blocks of every level (or of level N): NAME-levelN.dxt1, or NAME-levelN-faceF.dxt1 of a cube map, into DIR
      (or the current folder). Of a level that is refused, or has a file that is there already, nothing is written
";

const DDS: &str = "
  crn dds [-o OUT | -d DIR] [--force] INPUT..
      a DDS file of each file: NAME.dds into DIR (or the current folder), or OUT of one file; -o - is standard output.
      Of a file that is refused, or whose DDS file is there already, nothing is written
";

const PNG: &str = "
  crn png [--level N] [--face N | --all-faces [--strip]] [-o OUT | -d DIR] [--force] INPUT..
      a picture of each file, of level 0 or N: NAME.png into DIR (or the current folder), or OUT of one file; -o - is
      standard output. Of a cube map all faces, as a cross: +Y above and -Y below +Z, in a row of -X, +Z, +X, -Z; with
      --strip side by side: +X, -X, +Y, -Y, +Z, -Z; with --face N only that one. Channels are as stored: where a format
      has them exchanged, that is told. Of a file that is refused, or whose picture is there already, nothing is written
";

const SHARED: &str = "
  INPUT is a file; a folder, for all files below it whose names end in .crn; or -, for standard input.
      --all               all files below a folder, whatever their names
      --files-from LIST   also each INPUT that the file LIST (or -, standard input) names, one a line
      --null              names in LIST end with a zero byte
      --jobs N            so many files at a time, 1 to 1024; if not given, one for each processor
      --json              a line of JSON for each file (info, look, check)
      --force             replace files that are there (unpack, dds, png)
      --                  all words after it are INPUT
      -h, --help          this, for one command

  Exit status: 0 if all was accepted, 1 if a file or a level was refused, 2 if the command line makes no sense, 3 if
  something could not be read or written, whatever else was refused.
";

const OTHERS: &str = "
  crn help [COMMAND]
  crn version
";

const VERBS: [Verb; 6] = [info::VERB, look::VERB, check::VERB, unpack::VERB, dds::VERB, png::VERB];

/// How a command ended that made sense; of several the worst counts.
#[derive(Clone, Copy, PartialEq, Eq, PartialOrd, Ord)]
enum Status {
    Done = 0,
    /// A file or a level was refused.
    Refused = 1,
    /// Something could not be read or written.
    Trouble = 3,
}

/// Why a command did not come to an end.
enum Failure {
    /// The command line makes no sense.
    Usage(String),
    /// Something that it needs could not be read.
    Trouble(String),
    /// What was to be written to standard output was not.
    Output(std::io::Error),
}

impl From<std::io::Error> for Failure {
    fn from(error: std::io::Error) -> Failure {
        Failure::Output(error)
    }
}

/// The usage: of one command, or of all.
fn help(verb: Option<&Verb>) -> Result<Status, Failure> {
    let parts = match verb {
        Some(verb) => vec![verb.usage, SHARED],
        None => [ABOUT].into_iter().chain(VERBS.iter().map(|verb| verb.usage)).chain([OTHERS, SHARED]).collect(),
    };
    say::all(parts.concat().trim_start_matches('\n'))?;
    Ok(Status::Done)
}

fn run(words: &[OsString]) -> Result<Status, Failure> {
    let Some((command, words)) = words.split_first() else {
        return Err(Failure::Usage("it needs a command".into()));
    };
    let find = |name: &OsString| VERBS.iter().find(|verb| name == verb.name);
    let extra = |known: &str| Failure::Usage(format!("`crn {known}` has no use for the words after it"));
    let none = |name: &OsString| Failure::Usage(format!("there is no command {}", names::shown(name)));
    if let Some(verb) = find(command) {
        return Args::of(verb, words)?.map_or_else(|| help(Some(verb)), verb.run);
    }
    match (command.to_str(), words) {
        (Some("help" | "--help" | "-h"), []) => help(None),
        (Some("help"), [name]) => help(Some(find(name).ok_or_else(|| none(name))?)),
        (Some("version" | "--version" | "-V"), []) => {
            say::all(concat!("crn ", env!("CARGO_PKG_VERSION"), "\n"))?;
            Ok(Status::Done)
        }
        (Some(known @ ("help" | "--help" | "-h" | "version" | "--version" | "-V")), _) => Err(extra(known)),
        _ => Err(none(command)),
    }
}

fn main() -> ExitCode {
    let words: Vec<OsString> = std::env::args_os().skip(1).collect();
    let trouble = Status::Trouble as u8;
    ExitCode::from(match run(&words) {
        Ok(status) => status as u8,
        Err(Failure::Usage(why)) => {
            say::wrong(&format!("{why}; `crn help` has them all"));
            2
        }
        Err(Failure::Trouble(why)) => {
            say::wrong(&why);
            trouble
        }
        // who reads has read enough
        Err(Failure::Output(error)) if error.kind() == std::io::ErrorKind::BrokenPipe => trouble,
        Err(Failure::Output(error)) => {
            say::wrong(&format!("standard output: {}", files::trouble(&error)));
            trouble
        }
    })
}
