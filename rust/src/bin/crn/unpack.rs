//! `crn unpack`: raw blocks, a file for each level and face.
use crate::args::{Args, Verb};
use crate::fault::{self, Fault, Why};
use crate::files::{in_order, Found, Input};
use crate::names::shown;
use crate::write::{self, Given, Places, Whole};
use crate::{say, Failure, Status};
use crunch_proved::{Buffers, Level};
use std::path::{Path, PathBuf};

pub const VERB: Verb = Verb { name: "unpack", usage: crate::UNPACK, flags: &["--force"], values: &["--level", "--out"], run };

/// What is told of a file: the lines of what was written, those of what was not, and how it ended.
struct Told {
    out: String,
    wrong: Vec<String>,
    status: Status,
}

impl Told {
    fn wrong(&mut self, what: String, status: Status) {
        self.wrong.push(what);
        self.status = self.status.max(status);
    }
}

fn run(args: Args) -> Result<Status, Failure> {
    let only = args.number("--level", 0..=u32::MAX as usize)?.map(|level| level as u32);
    let out = PathBuf::from(args.value("--out").unwrap_or(".".as_ref()));
    let (jobs, inputs) = (args.jobs()?, args.inputs()?);
    write::leave_nothing_at_a_signal();
    let (places, found) = Places::new(args.flag("--force"), inputs);
    let mut given = Given::default();
    let task = |Found { input, trouble }: Found| {
        let taken = |first| format!("its files would have the names of those of {first}");
        let trouble = trouble.or_else(|| given.take(input.stem().into(), &input).err().map(taken));
        Found { input, trouble }
    };
    let mut status = Status::Done;
    let work = |buffers: &mut Buffers, found: &Found| {
        let mut told = Told { out: String::new(), wrong: Vec::new(), status: Status::Done };
        let trouble = found.trouble.clone().map_or(Ok(()), |why| Err(Fault::Trouble(why)));
        if let Err(fault) = trouble.and_then(|_| unpack(buffers, &found.input, only, &out, &places, &mut told)) {
            told.wrong(format!("{}: {fault}", found.input.shown()), fault.status());
        }
        told
    };
    in_order(jobs, found.map(task), Buffers::new, work, |_, told| {
        say::all(&told.out)?;
        told.wrong.iter().for_each(|what| say::wrong(what));
        status = status.max(told.status);
        Ok(())
    })?;
    Ok(status)
}

/// Unpacks and writes a file's levels, or one of them.
fn unpack(buffers: &mut Buffers, input: &Input, only: Option<u32>, out: &Path, places: &Places, told: &mut Told) -> Result<(), Fault> {
    let crn = fault::open(input, buffers)?;
    for number in only.map_or(0..=crn.levels() - 1, |level| level..=level) {
        let level = match fault::level(&crn, number) {
            Ok(level) => level,
            Err(Why(why, status)) => {
                told.wrong(format!("{}: {why}", input.shown()), status);
                continue;
            }
        };
        match write(out, input, number, &level, places) {
            Ok(lines) => told.out += &lines,
            Err(why) => told.wrong(why, Status::Trouble),
        }
    }
    Ok(())
}

/// Writes all faces of a level, or nothing; what was written, a line a file.
fn write(out: &Path, input: &Input, number: u32, level: &Level, places: &Places) -> Result<String, String> {
    let cant = |path: &Path, why: String| format!("{}: {why}", shown(path));
    let path = |face: u32| {
        let of = if level.faces() > 1 { format!("-face{face}") } else { String::new() };
        let mut name = input.stem().to_os_string();
        name.push(format!("-level{number}{of}.{}", level.format().kind().name().to_lowercase()));
        out.join(name)
    };
    let paths: Vec<PathBuf> = (0..level.faces()).map(path).collect();
    let mut replaced = Vec::new();
    for path in &paths {
        replaced.push(places.free(path).map_err(|why| cant(path, why))?);
    }
    write::folder(out)?;
    let mut whole = Whole::new(places.force);
    let mut told = String::new();
    for ((face, path), replaced) in paths.iter().enumerate().zip(replaced) {
        let blocks = level.face(face).unwrap_or_default();
        whole.write(path, blocks).map_err(|e| cant(path, write::trouble(&e)))?;
        let (bytes, replaced) = (say::count(blocks.len() as u64, "byte"), if replaced { " (replaced)" } else { "" });
        told += &format!("{}: {bytes}, {} x {} blocks{replaced}\n", shown(path), level.columns(), level.rows());
    }
    whole.done().map_err(|(path, e)| cant(&path, write::trouble(&e)))?;
    Ok(told)
}
