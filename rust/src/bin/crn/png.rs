//! `crn png`: a picture of each file.
mod deflate;
mod file;
mod picture;

use crate::args::{Args, Verb};
use crate::each::{self, Made};
use crate::fault::{self, Why};
use crate::{say, Failure, Status};
use crunch_proved::Crn;
use picture::{Layout, Picture};

const FLAGS: &[&str] = &["--all-faces", "--strip", "--force"];
const VALUES: &[&str] = &["--level", "--face", "-o", "-d"];

pub const VERB: Verb = Verb { name: "png", usage: crate::PNG, flags: FLAGS, values: VALUES, run };

/// Which faces a picture shows, and how.
#[derive(Clone, Copy)]
enum Faces {
    One(u32),
    Cross,
    Strip,
}

fn run(args: Args) -> Result<Status, Failure> {
    let number = |option| args.number(option, 0..=u32::MAX as usize).map(|number| number.map(|number| number as u32));
    let (level, strip) = (number("--level")?.unwrap_or(0), args.flag("--strip"));
    let faces = match number("--face")? {
        Some(_) if strip || args.flag("--all-faces") => {
            return Err(Failure::Usage("it is either --face or all faces (--all-faces, --strip)".into()));
        }
        Some(face) => Faces::One(face),
        None if strip => Faces::Strip,
        None => Faces::Cross,
    };
    each::run(&args, "png", "PNG", |crn| made(crn, level, faces))
}

fn made(crn: &Crn, level: u32, faces: Faces) -> Result<Made, Why> {
    let level = fault::level(crn, level)?;
    let layout = match (faces, level.faces()) {
        (Faces::One(face), all) if face >= all => {
            let there = if all == 1 { "its only face is 0".into() } else { format!("its faces are 0 to {}", all - 1) };
            return Err(Why(format!("face {face}: the file has no face of this number; {there}"), Status::Refused));
        }
        (Faces::One(face), _) => Layout::one(face as usize),
        (_, 1) => Layout::one(0),
        (Faces::Cross, _) => Layout::cross(),
        (Faces::Strip, all) => Layout::strip(all as usize),
    };
    let format = level.format();
    let note = format.swizzled().then(|| format!("its format is {format}, and the picture has the channels as they are stored"));
    let picture = Picture::new(level, layout);
    let (width, height) = picture.pixels();
    let about = format!("{width} x {height} pixels, {}", say::count(picture.faces(), "face"));
    Ok(Made { write: Box::new(move |out| picture.write(out)), about, note })
}
