//! Commands that make one file of each file: where it goes, and what is told of it.
use crate::args::Args;
use crate::bar::Bar;
use crate::fault::{self, Why};
use crate::files::{in_order, Found, Input};
use crate::names::shown;
use crate::write::{self, Given, Places, Whole};
use crate::{say, Failure, Status};
use crunch_proved::{Buffers, Crn};
use std::io::Write;
use std::path::{Path, PathBuf};

/// What writes a file's bytes, wherever they go.
type Writes = Box<dyn FnOnce(&mut dyn Write) -> std::io::Result<()>>;

/// What is made of a file: its bytes, a word on what they hold and, where one is needed, what else is to be told.
pub struct Made {
    pub write: Writes,
    pub about: String,
    pub note: Option<String>,
}

/// A file, and where what is made of it goes; or why it goes nowhere.
struct Task {
    input: Input,
    out: Result<PathBuf, String>,
}

/// Makes a file of each: NAME with another ending, for people a file of that kind. Its options are `-o`, `-d` and `--force`.
pub fn run(args: &Args, ending: &str, kind: &str, make: impl Fn(&Crn) -> Result<Made, Why> + Sync) -> Result<Status, Failure> {
    let usage = |why: &str| Err(Failure::Usage(why.into()));
    let (out, folder) = (args.value("-o").map(PathBuf::from), args.value("-d").map(PathBuf::from));
    let single = args.names.len() == 1 && args.value("--files-from").is_none() && !Path::new(&args.names[0]).is_dir();
    if out.is_some() && folder.is_some() {
        return usage("it is either -o or -d");
    }
    let (jobs, mut inputs) = (args.jobs()?, args.inputs()?);
    if out.is_some() && !single {
        return usage("-o is for one file, and -d for several");
    }
    if out.as_deref() == Some(Path::new("-")) {
        return inputs.next().map_or(Ok(Status::Done), |found| to_output(&found.input, &make));
    }
    write::leave_nothing_at_a_signal();
    let (places, found) = Places::new(args.flag("--force"), inputs);
    let below = folder.as_deref().unwrap_or(Path::new(""));
    let mut given = Given::default();
    let task = |Found { input, trouble }: Found| {
        let mut name = input.stem().to_os_string();
        name.push(format!(".{ending}"));
        let place = || {
            let path = out.clone().unwrap_or_else(|| below.join(&name));
            let taken = |first| format!("its {kind} file would be {}, as that of {first}", shown(&path));
            given.take(name.clone(), &input).map_err(taken).map(|_| path.clone())
        };
        let out = trouble.map_or_else(place, Err);
        Task { input, out }
    };
    let (mut bar, mut status) = (Bar::new(), Status::Done);
    let (mut all, mut written, mut refused) = (0, 0, 0);
    let mut lines = std::io::BufWriter::new(std::io::stdout());
    in_order(
        jobs,
        found.map(task),
        Buffers::new,
        |buffers, task| write(buffers, task, &make, &places, folder.as_deref()),
        |_, answer| {
            bar.clear();
            all += 1;
            match answer {
                Ok((line, note)) => {
                    written += 1;
                    writeln!(lines, "{line}")?;
                    if let Some(note) = note {
                        lines.flush()?;
                        say::wrong(&note);
                    }
                }
                Err(Why(why, of)) => {
                    refused += u64::from(of == Status::Refused);
                    status = status.max(of);
                    lines.flush()?;
                    say::wrong(&why);
                }
            }
            if bar.shown {
                lines.flush()?;
            }
            bar.step(refused);
            Ok(())
        },
    )?;
    bar.clear();
    lines.flush()?;
    if written < all && all > 1 {
        say::wrong(&format!("{} of {} written", say::number(written), say::count(all, "file")));
    }
    Ok(status)
}

/// Writes what is made of a file, or nothing, into a folder that is made where it is missing; a line that tells it and a note, or a line
/// that tells why not.
fn write(
    buffers: &mut Buffers,
    task: &Task,
    make: impl Fn(&Crn) -> Result<Made, Why>,
    places: &Places,
    folder: Option<&Path>,
) -> Result<(String, Option<String>), Why> {
    let cant = |what: String, why: String| Why(format!("{what}: {why}"), Status::Trouble);
    let out = task.out.as_ref().map_err(|why| cant(task.input.shown(), why.clone()))?;
    let replaced = places.free(out).map_err(|why| cant(shown(out), why))?;
    let made = opened(&task.input, buffers, make)?;
    if let Some(folder) = folder {
        write::folder(folder).map_err(|why| Why(why, Status::Trouble))?;
    }
    let mut whole = Whole::new(places.force);
    let written = whole.write_by(out, made.write).and_then(|bytes| whole.done().map_err(|(_, e)| e).map(|_| bytes));
    let bytes = written.map_err(|e| cant(shown(out), write::trouble(&e)))?;
    let replaced = if replaced { " (replaced)" } else { "" };
    let line = format!("{}: {}, {}{replaced}", shown(out), say::count(bytes, "byte"), made.about);
    Ok((line, made.note))
}

/// What is made of a file; all that is told of it has its name.
fn opened(input: &Input, buffers: &mut Buffers, make: impl Fn(&Crn) -> Result<Made, Why>) -> Result<Made, Why> {
    let named = |what: String| format!("{}: {what}", input.shown());
    let made = fault::open(input, buffers).map_err(Why::from).and_then(|crn| make(&crn));
    let made = made.map_err(|Why(why, status)| Why(named(why), status))?;
    Ok(Made { note: made.note.map(named), ..made })
}

fn to_output(input: &Input, make: impl Fn(&Crn) -> Result<Made, Why>) -> Result<Status, Failure> {
    match opened(input, &mut Buffers::new(), make) {
        Ok(made) => {
            let mut out = std::io::stdout().lock();
            (made.write)(&mut out)?;
            out.flush()?;
            made.note.iter().for_each(|note| say::wrong(note));
            Ok(Status::Done)
        }
        Err(Why(why, status)) => {
            say::wrong(&why);
            Ok(status)
        }
    }
}
