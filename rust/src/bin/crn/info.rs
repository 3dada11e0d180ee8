//! `crn info`: what a file's header says and what its levels hold, as tables or as JSON.
use crate::args::{Args, Verb};
use crate::fault::{self, Fault};
use crate::files::{in_order, Found, Input};
use crate::{json, say, Failure, Status};
use crunch_proved::raw::Part;
use crunch_proved::{Buffers, Crn, Header};
use std::fmt::Display;

pub const VERB: Verb = Verb { name: "info", usage: crate::INFO, flags: &["--json"], values: &[], run };

/// What is told of a file: for standard output, or where there is nothing to show for standard error.
struct Told {
    text: Result<String, String>,
    status: Status,
}

fn run(args: Args) -> Result<Status, Failure> {
    let as_json = args.flag("--json");
    let (mut status, mut any) = (Status::Done, false);
    let work = |buffers: &mut Buffers, found: &Found| {
        let about = About::of(found, buffers);
        Told { text: if as_json { Ok(about.json()) } else { about.text() }, status: about.status() }
    };
    in_order(args.jobs()?, args.inputs()?, Buffers::new, work, |_, told| {
        status = status.max(told.status);
        match told.text {
            Ok(text) => {
                say::all(&format!("{}{text}", if any && !as_json { "\n" } else { "" }))?;
                any = true;
            }
            Err(why) => say::wrong(&why),
        }
        Ok(())
    })?;
    Ok(status)
}

/// What is known of a file: each part as far as it came.
struct About<'a> {
    input: &'a Input,
    bytes: Option<u64>,
    header: Option<Header>,
    levels: Vec<Level>,
    fault: Option<Fault>,
}

/// A level's sizes, and the symbols and cut-outs that it has; or why it has none.
struct Level {
    pixels: (u32, u32),
    blocks: (usize, usize),
    bytes: usize,
    counts: Result<(u64, u64), Fault>,
}

impl<'a> About<'a> {
    fn of(found: &'a Found, buffers: &mut Buffers) -> About<'a> {
        let mut about = About { input: &found.input, bytes: None, header: None, levels: Vec::new(), fault: None };
        about.fault = match &found.trouble {
            Some(why) => Some(Fault::Trouble(why.clone())),
            None => about.look(buffers).err(),
        };
        about
    }

    fn look(&mut self, buffers: &mut Buffers) -> Result<(), Fault> {
        let opened;
        (self.header, self.bytes, opened) = fault::open_with_header(self.input, buffers);
        let crn = opened?;
        self.bytes = Some(crn.file().len() as u64);
        for level in 0..crn.levels() {
            self.levels.push(Level::of(&crn, level)?);
        }
        Ok(())
    }

    fn status(&self) -> Status {
        let of = |fault: &Fault| fault.status();
        let levels = self.levels.iter().filter_map(|level| level.counts.as_ref().err());
        levels.chain(&self.fault).map(of).max().unwrap_or(Status::Done)
    }

    /// The header's lines, the levels' table, and the refusal where there is one.
    fn text(&self) -> Result<String, String> {
        let told = |fault: &Fault| format!("{}: {fault}", self.input.shown());
        let Some(h) = &self.header else {
            return Err(self.fault.as_ref().map(told).unwrap_or_default());
        };
        let bytes = self.bytes.map_or(String::new(), |bytes| say::count(bytes, "byte") + ", ");
        let mut out = format!("{}: {bytes}{h}\n", self.input.shown());
        let after = after(self.bytes, h).map_or(String::new(), |after| format!(", {} after the data", say::count(after, "byte")));
        let data = say::count(h.data_size.into(), "byte");
        out += &format!(
            "  header: {}, stored CRC {:04x}; data: {data}, stored CRC {:04x}{after}\n",
            say::count(h.header_size.into(), "byte"),
            h.header_crc16,
            h.data_crc16
        );
        out += &format!("  flags: {:04x}; reserved: {:08x}; user data: {:08x} {:08x}\n", h.flags, h.reserved, h.userdata0, h.userdata1);
        let there = palettes(h).into_iter().filter(|palette| palette.2.count > 0);
        let there: Vec<String> = there.map(|(_, thing, part)| say::count(part.count.into(), thing)).collect();
        out += &format!("  palettes: {}\n", if there.is_empty() { "none".into() } else { there.join(", ") });
        if !self.levels.is_empty() {
            let mut rows = vec![["level", "pixels", "blocks", "bytes", "symbols", "cut-outs"].map(String::from).to_vec()];
            rows.extend(self.levels.iter().enumerate().map(|(n, level)| level.row(n)));
            out += &say::table(&rows);
        }
        if let Some(fault) = &self.fault {
            out += &format!("  {fault}\n");
        }
        Ok(out)
    }

    /// All of it, as one line.
    fn json(&self) -> String {
        let mut told = vec![self.input.json()];
        told.push(as_json(self.status() == Status::Done, self.bytes, self.header.as_ref()));
        if !self.levels.is_empty() {
            let levels: Vec<String> = self.levels.iter().enumerate().map(|(n, level)| level.json(n)).collect();
            told.push(format!("\"levels\":[{}]", levels.join(",")));
        }
        told.extend(self.fault.as_ref().map(Fault::json));
        format!("{{{}}}\n", told.join(","))
    }
}

impl Level {
    fn of(crn: &Crn<'_>, level: u32) -> Result<Level, Fault> {
        let (pixels, sizes) = (crn.pixels(level)?, crn.level_sizes(level)?);
        let counts = crn.unpack_level(level).map(|level| (level.counts().symbols, level.counts().cutouts)).map_err(Fault::from);
        Ok(Level { pixels, blocks: (sizes.columns, sizes.rows), bytes: sizes.bytes, counts })
    }

    fn row(&self, number: usize) -> Vec<String> {
        let (symbols, cutouts) = match &self.counts {
            Ok(counts) => counts,
            Err(fault) => return vec![fault.to_string()],
        };
        let by = |x: String, y: String| format!("{x} x {y}");
        vec![
            number.to_string(),
            by(self.pixels.0.to_string(), self.pixels.1.to_string()),
            by(self.blocks.0.to_string(), self.blocks.1.to_string()),
            say::number(self.bytes as u64),
            say::number(*symbols),
            say::number(*cutouts),
        ]
    }

    fn json(&self, number: usize) -> String {
        let ((width, height), (columns, rows)) = (&self.pixels, &self.blocks);
        let sizes: [(&str, &dyn Display); 6] =
            [("number", &number), ("width", width), ("height", height), ("columns", columns), ("rows", rows), ("bytes", &self.bytes)];
        let told = match &self.counts {
            Ok((symbols, cutouts)) => json::fields(&[("symbols", symbols), ("cutouts", cutouts)]),
            Err(fault) => fault.json(),
        };
        format!("{{{},{told}}}", json::fields(&sizes))
    }
}

/// The bytes after those that the header counts; nothing where the file is shorter or its length not known.
fn after(bytes: Option<u64>, h: &Header) -> Option<u64> {
    bytes?.checked_sub(h.data_size.into())
}

/// Whether a file was accepted, how many bytes it has and its header, as fields of JSON, as far as they are known.
pub fn as_json(accepted: bool, bytes: Option<u64>, header: Option<&Header>) -> String {
    let mut told = json::fields(&[("accepted", &accepted), ("bytes", &json::or_null(bytes))]);
    if let Some(h) = header {
        let format = h.format().map(|format| json::text(format.name()));
        let fields = json::fields(&[("bytes_after_data", &json::or_null(after(bytes, h))), ("format_name", &json::or_null(format))]);
        told += &format!(",{fields},\"header\":{}", all_fields(h));
    }
    told
}

fn palettes(h: &Header) -> [(&'static str, &'static str, Part); 4] {
    [
        ("color_endpoints", "colour endpoint", h.color_endpoints),
        ("color_selectors", "colour selector", h.color_selectors),
        ("alpha_endpoints", "alpha endpoint", h.alpha_endpoints),
        ("alpha_selectors", "alpha selector", h.alpha_selectors),
    ]
}

/// Every field of a header, as JSON.
fn all_fields(h: &Header) -> String {
    let fields = json::fields(&[
        ("header_size", &h.header_size),
        ("header_crc16", &h.header_crc16),
        ("data_size", &h.data_size),
        ("data_crc16", &h.data_crc16),
        ("width", &h.width),
        ("height", &h.height),
        ("levels", &h.levels),
        ("faces", &h.faces),
        ("format", &h.format),
        ("flags", &h.flags),
        ("reserved", &h.reserved),
        ("userdata0", &h.userdata0),
        ("userdata1", &h.userdata1),
    ]);
    let part = |(name, _, part): (&str, &str, Part)| {
        let fields = json::fields(&[("offset", &part.offset), ("size", &part.size), ("count", &part.count)]);
        format!("\"{name}\":{{{fields}}}")
    };
    let tables = json::fields(&[("offset", &h.tables_offset), ("size", &h.tables_size)]);
    let offsets: Vec<String> = h.level_offsets.iter().take(h.levels as usize).map(u32::to_string).collect();
    format!("{{{fields},{},\"tables\":{{{tables}}},\"level_offsets\":[{}]}}", palettes(h).map(part).join(","), offsets.join(","))
}
