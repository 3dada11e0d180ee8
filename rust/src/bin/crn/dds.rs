//! `crn dds`: a DDS file of each file.
use crate::args::{Args, Verb};
use crate::each::{self, Made};
use crate::fault::Why;
use crate::{say, Failure, Status};
use crunch_proved::Crn;

pub const VERB: Verb = Verb { name: "dds", usage: crate::DDS, flags: &["--force"], values: &["-o", "-d"], run };

fn run(args: Args) -> Result<Status, Failure> {
    each::run(&args, "dds", "DDS", made)
}

fn made(crn: &Crn) -> Result<Made, Why> {
    let bytes = crn.to_dds()?.bytes;
    let about = [(crn.levels(), "level"), (crn.faces(), "face")].map(|(n, thing)| say::count(n.into(), thing)).join(", ");
    Ok(Made { write: Box::new(move |out| out.write_all(&bytes)), about, note: None })
}
