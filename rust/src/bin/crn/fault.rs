//! Why a file did not go through: it was refused, or could not be read or written.
use crate::files::{self, Input};
use crate::{json, Status};
use crunch_proved::raw::HEAD_BYTES;
use crunch_proved::{Buffers, Crn, Header, Level, Limits, NotRead, Refused};
use std::io::Read;

pub enum Fault {
    Refused(Refused),
    Trouble(String),
}

/// The same in words, also of what is asked for and the file does not have; with how a command then ends.
pub struct Why(pub String, pub Status);

impl From<Fault> for Why {
    fn from(fault: Fault) -> Why {
        Why(fault.to_string(), fault.status())
    }
}

impl From<Refused> for Why {
    fn from(refused: Refused) -> Why {
        Fault::Refused(refused).into()
    }
}

impl From<Refused> for Fault {
    fn from(refused: Refused) -> Fault {
        Fault::Refused(refused)
    }
}

impl From<NotRead> for Fault {
    fn from(not: NotRead) -> Fault {
        match not {
            NotRead::Refused(refused) => Fault::Refused(refused),
            NotRead::Io(e) => Fault::Trouble(files::trouble(&e)),
            other => Fault::Trouble(other.to_string()),
        }
    }
}

impl std::fmt::Display for Fault {
    fn fmt(&self, f: &mut std::fmt::Formatter<'_>) -> std::fmt::Result {
        match self {
            Fault::Refused(refused) => refused.fmt(f),
            Fault::Trouble(why) => f.write_str(why),
        }
    }
}

impl Fault {
    pub fn status(&self) -> Status {
        match self {
            Fault::Refused(_) => Status::Refused,
            Fault::Trouble(_) => Status::Trouble,
        }
    }

    /// Its fields of JSON.
    pub fn json(&self) -> String {
        let refused = match self {
            Fault::Refused(refused) => refused,
            Fault::Trouble(why) => return json::fields(&[("error", &json::text(why))]),
        };
        let place = refused.place;
        json::fields(&[
            ("refusal", &refused.number()),
            ("level", &json::or_null(refused.level)),
            ("segment", &json::or_null(place.map(|place| json::text(&place.segment.to_string())))),
            ("byte", &json::or_null(place.and_then(|place| place.byte()))),
            ("bit", &json::or_null(place.and_then(|place| place.bit))),
            ("sentence", &json::text(refused.sentence())),
            ("reason", &json::or_null(refused.reason.map(|reason| json::text(&reason.to_string())))),
        ])
    }
}

/// A file opened: its header is looked at before the rest is read, and all that it needs is kept in the buffers.
pub fn open<'a>(input: &Input, buffers: &'a mut Buffers) -> Result<Crn<'a>, Fault> {
    let (from, _) = input.open().map_err(Fault::Trouble)?;
    Ok(Crn::read_with(from, &Limits::default(), buffers)?)
}

/// A level of an opened file, unpacked; where there is none of this number, it is told which there are.
pub fn level(crn: &Crn, number: u32) -> Result<Level, Why> {
    let last = crn.levels() - 1;
    let known = if number > last { format!("; its levels are 0 to {last}") } else { String::new() };
    crn.unpack_level(number).map_err(|refused| Why(format!("{refused}{known}"), Status::Refused))
}

/// A file opened, with the header and how many bytes the file has, as far as they are known, also where it is refused.
pub fn open_with_header<'a>(input: &Input, buffers: &'a mut Buffers) -> (Option<Header>, Option<u64>, Result<Crn<'a>, Fault>) {
    let (mut from, bytes) = match input.open() {
        Ok(opened) => opened,
        Err(why) => return (None, None, Err(Fault::Trouble(why))),
    };
    let mut first = Vec::new();
    let read = from.by_ref().take(HEAD_BYTES as u64).read_to_end(&mut first).map_err(NotRead::Io);
    let crn = read.and_then(|_| Crn::read_with(first.chain(from), &Limits::default(), buffers));
    (Header::read(&first), bytes, crn.map_err(Fault::from))
}

/// A reader that counts what it gives, and keeps as much of it as a header has.
struct Watched {
    from: Box<dyn Read>,
    count: u64,
    head: Vec<u8>,
}

impl Read for Watched {
    fn read(&mut self, into: &mut [u8]) -> std::io::Result<usize> {
        let n = self.from.read(into)?;
        self.count += n as u64;
        self.head.extend(into[..n].iter().take(HEAD_BYTES - self.head.len()));
        Ok(n)
    }
}

/// A file looked at, of which no more is read than its first bytes; with its header and how many bytes it has, as far as they are known,
/// also where it is refused. The bytes of standard input are counted.
pub fn look(input: &Input) -> (Option<Header>, Option<u64>, Result<Header, Fault>) {
    let (from, bytes) = match input.open() {
        Ok(opened) => opened,
        Err(why) => return (None, None, Err(Fault::Trouble(why))),
    };
    let mut from = Watched { from, count: 0, head: Vec::with_capacity(HEAD_BYTES) };
    let looked = Crn::look_read(&mut from, bytes);
    (Header::read(&from.head), bytes.or(looked.is_ok().then_some(from.count)), looked.map_err(Fault::from))
}
