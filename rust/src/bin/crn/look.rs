//! `crn look`: what a file's header says, by its first bytes alone.
use crate::args::{Args, Verb};
use crate::bar::Bar;
use crate::fault::{self, Fault};
use crate::files::{in_order, Found, Input};
use crate::{info, Failure, Status};
use crunch_proved::Header;
use std::io::Write;

pub const VERB: Verb = Verb { name: "look", usage: crate::LOOK, flags: &["--json"], values: &[], run };

/// What is known of a file, as far as it came, and what the look said.
struct Seen {
    header: Option<Header>,
    bytes: Option<u64>,
    looked: Result<Header, Fault>,
}

fn run(args: Args) -> Result<Status, Failure> {
    let lines_of_json = args.flag("--json");
    let (mut bar, mut status, mut refused) = (Bar::new(), Status::Done, 0);
    let mut out = std::io::BufWriter::new(std::io::stdout());
    let work = |_: &mut (), found: &Found| {
        let (header, bytes, looked) = match &found.trouble {
            Some(why) => (None, None, Err(Fault::Trouble(why.clone()))),
            None => fault::look(&found.input),
        };
        Seen { header, bytes, looked }
    };
    in_order(
        args.jobs()?,
        args.inputs()?,
        || (),
        work,
        |found, seen| {
            if let Err(fault) = &seen.looked {
                status = status.max(fault.status());
                refused += u64::from(fault.status() == Status::Refused);
            }
            bar.clear();
            writeln!(out, "{}", if lines_of_json { as_json(&found.input, &seen) } else { as_text(&found.input, &seen) })?;
            if bar.shown {
                out.flush()?;
            }
            bar.step(refused);
            Ok(())
        },
    )?;
    bar.clear();
    out.flush()?;
    Ok(status)
}

fn as_text(input: &Input, seen: &Seen) -> String {
    match &seen.looked {
        Ok(header) => format!("{}: {header}", input.shown()),
        Err(fault) => format!("{}: {fault}", input.shown()),
    }
}

fn as_json(input: &Input, seen: &Seen) -> String {
    let about = info::as_json(seen.looked.is_ok(), seen.bytes, seen.header.as_ref());
    let fault = seen.looked.as_ref().err().map_or(String::new(), |fault| format!(",{}", fault.json()));
    format!("{{{},{about}{fault}}}", input.json())
}
