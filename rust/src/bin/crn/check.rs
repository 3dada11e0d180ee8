//! `crn check`: every level of every file.
use crate::args::{Args, Verb};
use crate::bar::Bar;
use crate::fault::{self, Fault};
use crate::files::{in_order, Found, Input};
use crate::{json, say, Failure, Status};
use crunch_proved::Buffers;
use std::collections::BTreeMap;
use std::io::Write;

pub const VERB: Verb = Verb { name: "check", usage: crate::CHECK, flags: &["--json"], values: &[], run };

/// What a file holds that was accepted whole.
struct Accepted {
    format: &'static str,
    width: u32,
    height: u32,
    levels: u32,
    faces: u32,
    symbols: u64,
    cutouts: u64,
}

/// What a thread keeps from one file to the next: both grow to the largest file, and are not made anew.
#[derive(Default)]
struct Kept {
    buffers: Buffers,
    blocks: Vec<u8>,
}

fn run(args: Args) -> Result<Status, Failure> {
    let lines_of_json = args.flag("--json");
    let (mut bar, mut tally) = (Bar::new(), Tally::default());
    let mut out = std::io::BufWriter::new(std::io::stdout());
    let work = |kept: &mut Kept, found: &Found| match &found.trouble {
        Some(why) => Err(Fault::Trouble(why.clone())),
        None => whole(kept, &found.input),
    };
    in_order(args.jobs()?, args.inputs()?, Kept::default, work, |found, answer| {
        tally.count(&answer);
        let line = if lines_of_json { Some(as_json(&found.input, &answer)) } else { as_text(&found.input, &answer) };
        if let Some(line) = line {
            bar.clear();
            writeln!(out, "{line}")?;
            if bar.shown {
                out.flush()?;
            }
        }
        bar.step(tally.refusals());
        Ok(())
    })?;
    bar.clear();
    let summary = tally.summary();
    if lines_of_json {
        out.flush()?;
        say::aside(&summary);
    } else {
        out.write_all(summary.as_bytes())?;
        out.flush()?;
    }
    Ok(tally.status())
}

fn whole(kept: &mut Kept, input: &Input) -> Result<Accepted, Fault> {
    let crn = fault::open(input, &mut kept.buffers)?;
    let counts = crn.unpack_levels_into(0, &mut kept.blocks)?;
    Ok(Accepted {
        format: crn.format().name(),
        width: crn.width(),
        height: crn.height(),
        levels: crn.levels(),
        faces: crn.faces(),
        symbols: counts.symbols,
        cutouts: counts.cutouts,
    })
}

/// A line for a file that was not accepted.
fn as_text(input: &Input, answer: &Result<Accepted, Fault>) -> Option<String> {
    answer.as_ref().err().map(|fault| format!("{}: {fault}", input.shown()))
}

fn as_json(input: &Input, answer: &Result<Accepted, Fault>) -> String {
    let told = match answer {
        Ok(a) => json::fields(&[
            ("format", &json::text(a.format)),
            ("width", &a.width),
            ("height", &a.height),
            ("levels", &a.levels),
            ("faces", &a.faces),
            ("symbols", &a.symbols),
            ("cutouts", &a.cutouts),
        ]),
        Err(fault) => fault.json(),
    };
    format!("{{{},\"accepted\":{},{told}}}", input.json(), answer.is_ok())
}

/// How many were accepted, refused by which number, and not read.
#[derive(Default)]
struct Tally {
    accepted: u64,
    refused: BTreeMap<u32, (u64, &'static str)>,
    unread: u64,
}

impl Tally {
    fn count(&mut self, answer: &Result<Accepted, Fault>) {
        match answer {
            Ok(_) => self.accepted += 1,
            Err(Fault::Refused(refused)) => self.refused.entry(refused.number()).or_insert((0, refused.sentence())).0 += 1,
            Err(Fault::Trouble(_)) => self.unread += 1,
        }
    }

    fn refusals(&self) -> u64 {
        self.refused.values().map(|r| r.0).sum()
    }

    fn status(&self) -> Status {
        match (self.unread, self.refusals()) {
            (0, 0) => Status::Done,
            (0, _) => Status::Refused,
            _ => Status::Trouble,
        }
    }

    fn summary(&self) -> String {
        let n = say::number;
        let all = self.accepted + self.refusals() + self.unread;
        let mut out = format!("{}: {} accepted, {} refused", say::count(all, "file"), n(self.accepted), n(self.refusals()));
        if self.unread > 0 {
            out += &format!(", {} not read", n(self.unread));
        }
        for (number, (count, sentence)) in &self.refused {
            out += &format!("\n  {} by {number}: {sentence}", n(*count));
        }
        out + "\n"
    }
}
