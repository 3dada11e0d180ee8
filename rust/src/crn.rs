//! An opened file.

use crate::answers::{Counts, Dds, Level, Levels, Stopped, Written};
use crate::raw::{self, Header, LevelSizes, Room};
use crate::reading::{self, Buffers, Limits, NotRead};
use crate::{blame, Format, Refusal, Refused};
use std::borrow::Cow;
use std::fmt;
use std::fs::File;
use std::io::Read;
use std::path::Path;

/// An opened file: its record and its palettes, beside the file's bytes. Each is the value's own or lent.
#[derive(Clone)]
pub struct Crn<'a> {
    file: Cow<'a, [u8]>,
    room: Cow<'a, Room>,
    format: Format,
}

/// Opens a file into memory of its own or another's.
fn opened(file: &[u8], room: &mut Room) -> Result<Format, Refused> {
    blame::opened(room.open(file), file).map_or_else(|| Ok(format_in(room)), Err)
}

/// Loads a file by its header, in the same way.
fn loaded(header: &Header, file: &[u8], room: &mut Room) -> Result<Format, Refused> {
    blame::loaded(room.load(header, file), header, file).map_or_else(|| Ok(format_in(room)), Err)
}

/// The format of the file that is open.
fn format_in(room: &Room) -> Format {
    room.record().header.format().expect("a file that opens has a known format")
}

impl Crn<'static> {
    /// Looks at a file's header: what [`open`](Crn::open) begins with, without code tables and palettes. [`load`](Crn::load) does the rest.
    ///
    /// ```
    /// use crunch_proved::{Crn, Format};
    ///
    /// let file = std::fs::read("../samples/cube.crn")?;
    /// let header = Crn::look(&file)?;
    /// assert_eq!((header.format(), header.width, header.height), (Some(Format::Dxt1), 16, 16));
    /// assert_eq!(header.to_string(), "DXT1, 16 x 16 pixels, 5 levels, 6 faces");
    /// // the rest of the file has no say
    /// assert_eq!(Crn::look_at(&file[..122], 443), Ok(header));
    /// assert_eq!(Crn::look_at(&file[..122], 442).unwrap_err().number(), 3);
    /// # Ok::<(), Box<dyn std::error::Error>>(())
    /// ```
    ///
    /// # Errors
    ///
    /// 1, 2 and 3, as [`open`](Crn::open) has them.
    pub fn look(file: &[u8]) -> Result<Header, Refused> {
        let looked = raw::look(file);
        blame::looked(looked.refusal, file, file.len() as u64).map_or(Ok(looked.header), Err)
    }

    /// The same of a file's first bytes, and of how many it has in all. It has to be the first 122 ([`raw::HEAD_BYTES`]) or all of a
    /// shorter file, and may be more: with fewer, those that are missing count as 0.
    ///
    /// # Errors
    ///
    /// As [`look`](Crn::look).
    pub fn look_at(head: &[u8], file_bytes: u64) -> Result<Header, Refused> {
        reading::look_at(head, file_bytes)
    }

    /// The same of a file on disk, of which no more than the first 122 bytes are read.
    ///
    /// ```
    /// use crunch_proved::{Crn, NotRead};
    ///
    /// assert_eq!(Crn::look_path("../samples/dxn.crn")?.to_string(), "DXN XY, 32 x 32 pixels, 6 levels, 1 face");
    /// assert!(matches!(Crn::look_path("../samples/make.py"), Err(NotRead::Refused(no)) if no.number() == 1));
    /// assert!(matches!(Crn::look_path("../samples/none.crn"), Err(NotRead::Io(_))));
    /// # Ok::<(), Box<dyn std::error::Error>>(())
    /// ```
    ///
    /// # Errors
    ///
    /// [`NotRead::Io`] where it can't be read, and [`NotRead::Refused`] as [`look`](Crn::look). What is no regular file (a pipe, a device)
    /// is read to its end, as by [`look_read`](Crn::look_read) with nothing said.
    pub fn look_path(path: impl AsRef<Path>) -> Result<Header, NotRead> {
        let file = File::open(path)?;
        let about = file.metadata()?;
        reading::look(&file, about.is_file().then_some(about.len()))
    }

    /// The same of what a reader gives, which is said to have so many bytes in all: no more than the first 122 are read. Where nothing is
    /// said, or where that can't be, the bytes after them are read too, to be counted: none is kept.
    ///
    /// ```
    /// use crunch_proved::Crn;
    ///
    /// let file = std::fs::File::open("../samples/dxt5.crn")?;
    /// let header = Crn::look_read(&file, Some(file.metadata()?.len()))?;
    /// assert_eq!(Crn::look_read(&std::fs::read("../samples/dxt5.crn")?[..], None)?, header);
    /// # Ok::<(), Box<dyn std::error::Error>>(())
    /// ```
    ///
    /// # Errors
    ///
    /// [`NotRead::Io`] where it can't be read, and [`NotRead::Refused`] as [`look`](Crn::look). 1 and 2 are seen by the first bytes, and
    /// the rest is then not read; nor is more than 4,294,967,295 bytes, which no CRN file has.
    pub fn look_read(from: impl Read, file_bytes: Option<u64>) -> Result<Header, NotRead> {
        reading::look(from, file_bytes)
    }

    /// Opens a file that it keeps.
    ///
    /// # Errors
    ///
    /// As [`open`](Crn::open).
    pub fn from_vec(file: Vec<u8>) -> Result<Crn<'static>, Refused> {
        let mut room = Room::default();
        let format = opened(&file, &mut room)?;
        Ok(Crn { file: Cow::Owned(file), room: Cow::Owned(room), format })
    }

    /// Reads a file and opens it.
    ///
    /// ```
    /// use crunch_proved::{Crn, NotRead};
    ///
    /// let crn = Crn::read(std::fs::File::open("../samples/cube.crn")?)?;
    /// assert_eq!((crn.faces(), crn.file().len()), (6, 443));
    /// // of an endless file only the first bytes are read, since they are no CRN file's
    /// assert!(matches!(Crn::read(std::io::repeat(0)), Err(NotRead::Refused(no)) if no.number() == 1));
    /// # Ok::<(), Box<dyn std::error::Error>>(())
    /// ```
    ///
    /// # Errors
    ///
    /// [`NotRead::Io`] where it can't be read, and [`NotRead::Refused`] as [`open`](Crn::open). 1 and 2 are seen by its first bytes, and
    /// the rest is then not read; nor is more than 4,294,967,295 bytes, which no CRN file has.
    pub fn read(from: impl Read) -> Result<Crn<'static>, NotRead> {
        Crn::read_within(from, &Limits::default())
    }

    /// Reads a file and opens it, within limits.
    ///
    /// # Errors
    ///
    /// As [`read`](Crn::read); and [`NotRead::OverLimit`], before the memory is taken.
    pub fn read_within(from: impl Read, limits: &Limits) -> Result<Crn<'static>, NotRead> {
        let mut file = Vec::new();
        let len = reading::read(from, limits, &mut file)?;
        file.truncate(len);
        Ok(Crn::from_vec(file)?)
    }
}

impl<'a> Crn<'a> {
    /// Opens a file: its header, its code tables and its palettes.
    ///
    /// ```
    /// use crunch_proved::{Crn, Refusal};
    ///
    /// let no = Crn::open(b"a picture of another kind").unwrap_err();
    /// assert_eq!(no.refusal, Refusal::NotCrn);
    /// assert_eq!(no.number(), 1);
    /// assert!(no.to_string().starts_with("refused, 1: this is no CRN file"));
    /// ```
    ///
    /// # Errors
    ///
    /// 1, 2 and 3 of the header, 4 of a segment, 6 to 9 of the compressed data of the code tables and palettes.
    pub fn open(file: &'a [u8]) -> Result<Crn<'a>, Refused> {
        let mut room = Room::default();
        let format = opened(file, &mut room)?;
        Ok(Crn { file: Cow::Borrowed(file), room: Cow::Owned(room), format })
    }

    /// Loads the code tables and palettes of a file whose header was looked at before, by [`look`](Crn::look) or its likes: one after the
    /// other is what [`open`](Crn::open) is. Whether the header is this file's is looked at first.
    ///
    /// ```
    /// use crunch_proved::{Crn, Refusal};
    ///
    /// let (one, other) = (std::fs::read("../samples/dxt1.crn")?, std::fs::read("../samples/dxt5.crn")?);
    /// let header = Crn::look(&one)?;
    /// assert_eq!(Crn::load(&header, &one)?.palettes().color_endpoints.len(), 40);
    ///
    /// let no = Crn::load(&header, &other).unwrap_err();
    /// assert_eq!(no.refusal, Refusal::Disagrees);
    /// assert!(no.to_string().ends_with("(header_size is 98, and has to be 94)"));
    /// # Ok::<(), Box<dyn std::error::Error>>(())
    /// ```
    ///
    /// # Errors
    ///
    /// First of all 17 where the header is not what a look gives of this file, in any field, and also where that is refused. Then, as
    /// [`open`](Crn::open), 4 of a segment, 6 to 9 of the compressed data of the code tables and palettes.
    pub fn load(header: &Header, file: &'a [u8]) -> Result<Crn<'a>, Refused> {
        let mut room = Room::default();
        let format = loaded(header, file, &mut room)?;
        Ok(Crn { file: Cow::Borrowed(file), room: Cow::Owned(room), format })
    }

    /// The same into buffers that are used again.
    ///
    /// # Errors
    ///
    /// As [`load`](Crn::load). Nothing of a file that was in the buffers is then there to be seen.
    pub fn load_with(header: &Header, file: &'a [u8], buffers: &'a mut Buffers) -> Result<Crn<'a>, Refused> {
        let format = loaded(header, file, &mut buffers.room)?;
        Ok(Crn { file: Cow::Borrowed(file), room: Cow::Borrowed(&buffers.room), format })
    }

    /// Opens a file within limits.
    ///
    /// # Errors
    ///
    /// [`NotRead::Refused`] as [`open`](Crn::open); and [`NotRead::OverLimit`], before any memory is taken.
    pub fn open_within(file: &'a [u8], limits: &Limits) -> Result<Crn<'a>, NotRead> {
        limits.hold(file)?;
        Ok(Crn::open(file)?)
    }

    /// Opens a file into buffers that are used again.
    ///
    /// # Errors
    ///
    /// As [`open`](Crn::open).
    pub fn open_with(file: &'a [u8], buffers: &'a mut Buffers) -> Result<Crn<'a>, Refused> {
        let format = opened(file, &mut buffers.room)?;
        Ok(Crn { file: Cow::Borrowed(file), room: Cow::Borrowed(&buffers.room), format })
    }

    /// Reads a file and opens it, both into buffers that are used again, within limits: [`Buffers`] has an example.
    ///
    /// # Errors
    ///
    /// As [`read_within`](Crn::read_within).
    pub fn read_with(from: impl Read, limits: &Limits, buffers: &'a mut Buffers) -> Result<Crn<'a>, NotRead> {
        let len = reading::read(from, limits, &mut buffers.file)?;
        let file = &buffers.file[..len];
        let format = opened(file, &mut buffers.room)?;
        Ok(Crn { file: Cow::Borrowed(file), room: Cow::Borrowed(&buffers.room), format })
    }

    /// The same, which keeps all that was lent to it.
    pub fn into_owned(self) -> Crn<'static> {
        Crn { file: Cow::Owned(self.file.into_owned()), room: Cow::Owned(self.room.into_owned()), format: self.format }
    }

    /// The file's bytes.
    pub fn file(&self) -> &[u8] {
        &self.file
    }

    /// Columns of pixels of level 0.
    pub fn width(&self) -> u32 {
        self.header().width
    }

    /// Rows of pixels of level 0.
    pub fn height(&self) -> u32 {
        self.header().height
    }

    /// How many levels the file has, 1 to 13.
    pub fn levels(&self) -> u32 {
        self.header().levels
    }

    /// 1, or 6 of a cube map.
    pub fn faces(&self) -> u32 {
        self.header().faces
    }

    /// The format of the blocks.
    pub fn format(&self) -> Format {
        self.format
    }

    /// The header's fields as read.
    pub fn header(&self) -> &Header {
        &self.room.record().header
    }

    /// The four palettes: colour endpoints and selectors, a word each; alpha endpoints, a word each, and selectors, three.
    pub fn palettes(&self) -> raw::Palettes<'_> {
        self.room.palettes()
    }

    /// Columns and rows of pixels of a level.
    ///
    /// # Errors
    ///
    /// 10 for a level that the file does not have.
    pub fn pixels(&self, level: u32) -> Result<(u32, u32), Refused> {
        let side = |all: u32| (all >> level).max(1);
        self.level_sizes(level).map(|_| (side(self.width()), side(self.height())))
    }

    /// A level's blocks; the least pitch, distance and destination for them; and the full symbol allowance.
    ///
    /// # Errors
    ///
    /// 10 for a level that the file does not have.
    pub fn level_sizes(&self, level: u32) -> Result<LevelSizes, Refused> {
        let sizes = raw::level_sizes(self.header(), level);
        self.level_refused(sizes.refusal, level, 0).map_or(Ok(sizes), Err)
    }

    /// A level's refusal, with its segment and bit.
    fn level_refused(&self, number: u32, level: u32, bit: usize) -> Option<Refused> {
        let refusal = Refusal::of(number)?;
        Some(Refused::at(refusal, Some(level), blame::level_part(self.header(), &self.file, level), bit))
    }

    /// A level that has more blocks than its segment could hold symbols for: the same level with as many rows only as the segment could
    /// fill. It is refused there as it would be in full, at the same bit, since no row after them is come to.
    fn overclaimed(&self, level: u32) -> Option<Header> {
        let header = self.header();
        let (_, offset, size) = blame::level_part(header, &self.file, level);
        // one that does not lie in the file is refused before anything is read of it
        let bytes = if offset + size <= self.file.len() as u64 { size } else { 0 };
        let pixels = |all: u32| (all >> level).max(1) as u64;
        // a chunk is eight by eight pixels, and takes an endpoint and a selector a plane at least, each of a bit at least
        let row = pixels(header.width).div_ceil(8) * 2 * self.format.kind().planes();
        // the last row may have fewer blocks, and does not count
        let rows = (pixels(header.height) - 1) / 8;
        (rows * row > 8 * bytes).then(|| Header { height: (8 * (8 * bytes / row + 1) as u32) << level, ..*header })
    }

    /// Unpacks a level, all faces.
    ///
    /// ```
    /// # let file = std::fs::read("../samples/dxt5.crn")?;
    /// let crn = crunch_proved::Crn::open(&file)?;
    /// let level = crn.unpack_level(1)?;
    /// assert_eq!((level.columns(), level.rows()), (6, 4));
    /// assert_eq!(crn.unpack_level(9).unwrap_err().number(), 10);
    /// # Ok::<(), Box<dyn std::error::Error>>(())
    /// ```
    ///
    /// # Errors
    ///
    /// 10 for a level that the file does not have, 4 of its segment, 7, 8, 13 and 14 of its compressed data.
    pub fn unpack_level(&self, level: u32) -> Result<Level, Refused> {
        let (sizes, mut blocks) = (self.level_sizes(level)?, Vec::new());
        let counts = self.level_in(self.overclaimed(level), level, &mut blocks)?;
        let pixels = self.pixels(level)?;
        Ok(Level { blocks, format: self.format, faces: self.faces(), pixels, columns: sizes.columns, rows: sizes.rows, counts })
    }

    /// Unpacks a level, or tries as much of it as its segment could hold.
    fn level_in(&self, held: Option<Header>, level: u32, blocks: &mut Vec<u8>) -> Result<Counts, Refused> {
        let record = self.room.record();
        let answer = raw::level_in(held.as_ref().unwrap_or(&record.header), &record.tables, &self.file, &self.palettes(), level, blocks);
        assert!(held.is_none() || answer.refusal != 0, "a level was read from less than a bit a symbol");
        let counts = Counts { symbols: answer.symbols, cutouts: answer.cutouts };
        self.level_refused(answer.refusal, level, answer.at).map_or(Ok(counts), Err)
    }

    /// Unpacks the levels from `first` on to the last: a small file's sooner than one by one, since what they are read by is made once.
    ///
    /// ```
    /// # let file = std::fs::read("../samples/cube.crn")?;
    /// let crn = crunch_proved::Crn::open(&file)?;
    /// let levels = crn.unpack_levels(0)?;
    /// assert_eq!(levels.len(), 5);
    /// assert!(levels.iter().eq((0..5).map(|n| crn.unpack_level(n).unwrap().into_blocks())));
    /// assert_eq!(crn.unpack_levels(5).unwrap_err().refused.number(), 10);
    /// # Ok::<(), Box<dyn std::error::Error>>(())
    /// ```
    ///
    /// # Errors
    ///
    /// The first refusal of a level, as [`unpack_level`](Crn::unpack_level) has them, with the levels before it.
    #[allow(clippy::result_large_err)] // it is as large as what it stands in for
    pub fn unpack_levels(&self, first: u32) -> Result<Levels, Stopped> {
        let mut blocks = Vec::new();
        let (through, counts, refused) = self.levels_in(first, &mut blocks);
        let sizes = (0..through).map(|n| raw::level_sizes(self.header(), first + n)).collect();
        let pixels = (self.width(), self.height());
        let levels = Levels { blocks, format: self.format, faces: self.faces(), pixels, first, sizes, counts };
        match refused {
            None => Ok(levels),
            Some(refused) => Err(Stopped { refused, before: levels }),
        }
    }

    /// The same in the place of what `blocks` holds, which is used again from file to file.
    ///
    /// # Errors
    ///
    /// As [`unpack_levels`](Crn::unpack_levels); `blocks` then has the levels before the refused one, and nothing else.
    pub fn unpack_levels_into(&self, first: u32, blocks: &mut Vec<u8>) -> Result<Counts, Refused> {
        let (_, counts, refused) = self.levels_in(first, blocks);
        refused.map_or(Ok(counts), Err)
    }

    /// How many levels went through, their counts, and the refusal of the one after them.
    fn levels_in(&self, first: u32, blocks: &mut Vec<u8>) -> (u32, Counts, Option<Refused>) {
        // a level that can't be is left out of the memory that is taken, and comes to 12 in its turn
        let claim = (first..self.levels()).find_map(|level| Some((level, self.overclaimed(level)?)));
        let most = claim.as_ref().map_or(self.levels(), |(level, _)| *level).saturating_sub(first);
        let answer = raw::levels_in(self.room.record(), &self.file, &self.palettes(), (first, most), blocks);
        let counts = Counts { symbols: answer.symbols, cutouts: answer.cutouts };
        let after = first.saturating_add(answer.levels);
        let refused = match claim {
            Some((level, held)) if level == after && answer.refusal == 12 => self.level_in(Some(held), level, &mut Vec::new()).err(),
            _ => self.level_refused(answer.refusal, after, answer.at),
        };
        (answer.levels, counts, refused)
    }

    /// Unpacks a level, all faces, into `dst`: face f starts at f times the distance, and rows of blocks are a pitch apart, both in bytes. Each symbol drawn is
    /// taken off the budget; with less than the level needs the answer is [`Refusal::Budget`].
    ///
    /// Bytes that belong to no block are left as they were.
    ///
    /// ```
    /// # let file = std::fs::read("../samples/dxt1.crn")?;
    /// let crn = crunch_proved::Crn::open(&file)?;
    /// let sizes = crn.level_sizes(2)?;
    /// let mut image = vec![0xAA; 4 * 64];
    /// let mut budget = sizes.symbols;
    /// let counts = crn.unpack_level_into(2, 64, 4 * 64, &mut budget, &mut image)?;
    /// assert_eq!(budget, sizes.symbols - counts.symbols);
    /// assert!(image.chunks(64).all(|row| row[sizes.pitch..] == [0xAA; 32]));
    /// # Ok::<(), Box<dyn std::error::Error>>(())
    /// ```
    ///
    /// # Errors
    ///
    /// A level refused by 4, 10, 11 or 12, before its first draw, leaves `dst` untouched; one refused later, by 7, 8, 13, 14 or 15, leaves
    /// every block of its grid zero and all else as it was. A budget of 0 is refused at the first draw, so by [`Refusal::Budget`] with
    /// blocks zero.
    pub fn unpack_level_into(&self, level: u32, pitch: usize, distance: usize, budget: &mut u64, dst: &mut [u8]) -> Result<Counts, Refused> {
        let answer = raw::unpack_level(self.room.record(), &self.file, &self.palettes(), level, pitch, distance, budget, dst);
        let counts = Counts { symbols: answer.symbols, cutouts: answer.cutouts };
        self.level_refused(answer.refusal, level, answer.at).map_or(Ok(counts), Err)
    }

    /// How many bytes the file has as a DDS file.
    ///
    /// # Errors
    ///
    /// [`Refusal::Format`] where DDS has no letters for its format, which is so for all but [`Format::Dxt1`], [`Format::Dxt5`],
    /// [`Format::DxnXy`] and [`Format::Dxt5a`].
    pub fn dds_bytes(&self) -> Result<usize, Refused> {
        let needed = raw::dds_bytes(self.header());
        Refusal::of(needed.refusal).map_or(Ok(needed.bytes), |refusal| Err(Refused::plain(refusal, None)))
    }

    /// The file as a DDS file: the magic, a header of 124 bytes, and the blocks of each face after the other, of a face each level from
    /// large to small. They are those of [`unpack_level`](Crn::unpack_level), and go out as DXT1, DXT5, BC5U (DXN) or BC4U (DXT5A).
    ///
    /// ```
    /// # let file = std::fs::read("../samples/cube.crn")?;
    /// let crn = crunch_proved::Crn::open(&file)?;
    /// let dds = crn.to_dds()?.bytes;
    /// assert_eq!((&dds[..4], &dds[84..88]), (&b"DDS "[..], &b"DXT1"[..]));
    /// assert_eq!(dds[128..][..128], *crn.unpack_level(0)?.face(0).unwrap());
    /// # Ok::<(), Box<dyn std::error::Error>>(())
    /// ```
    ///
    /// # Errors
    ///
    /// 16 as [`dds_bytes`](Crn::dds_bytes); or the first refusal of a level, as [`unpack_level`](Crn::unpack_level) has them.
    pub fn to_dds(&self) -> Result<Dds, Refused> {
        let _ = self.dds_bytes()?;
        if (0..self.levels()).any(|level| self.overclaimed(level).is_some()) {
            return Err(self.unpack_levels(0).expect_err("a level can't be").refused);
        }
        let mut bytes = Vec::new();
        let answer = raw::dds_in(self.room.record(), &self.file, &self.palettes(), &mut bytes);
        let counts = Counts { symbols: answer.symbols, cutouts: answer.cutouts };
        self.dds_refused(&answer).map_or(Ok(Dds { bytes, counts }), Err)
    }

    /// Writes the file as a DDS file, as [`to_dds`](Crn::to_dds) has it, into the first bytes of `dst`, as many as
    /// [`dds_bytes`](Crn::dds_bytes) says. What lies beyond them stays as it was.
    ///
    /// ```
    /// use crunch_proved::{Crn, Refusal};
    ///
    /// let file = std::fs::read("../samples/dxn.crn")?;
    /// let crn = Crn::open(&file)?;
    /// let mut buffer = [0xAA; 4096];
    /// let written = crn.write_dds_into(&mut buffer)?;
    /// assert_eq!(Ok(written.bytes), crn.dds_bytes());
    /// assert!(buffer.starts_with(b"DDS ") && buffer[written.bytes..].iter().all(|byte| *byte == 0xAA));
    ///
    /// let no = crn.write_dds_into(&mut buffer[..written.bytes - 1]).unwrap_err();
    /// assert_eq!((no.refusal, no.level), (Refusal::Destination, None));
    /// # Ok::<(), Box<dyn std::error::Error>>(())
    /// ```
    ///
    /// # Errors
    ///
    /// Refused by 16 (its format) or 12 (`dst` is too short), it leaves `dst` untouched. Where a level is refused, by 4, 7, 8, 13 or 14, it
    /// leaves all those first bytes zero, also where the levels before it went through.
    pub fn write_dds_into(&self, dst: &mut [u8]) -> Result<Written, Refused> {
        let answer = raw::write_dds(self.room.record(), &self.file, &self.palettes(), dst);
        let counts = Counts { symbols: answer.symbols, cutouts: answer.cutouts };
        self.dds_refused(&answer).map_or(Ok(Written { bytes: answer.bytes, counts }), Err)
    }

    /// The refusal of a DDS file: of the call (2, 6, 12, 16), or of a level.
    fn dds_refused(&self, answer: &raw::Written) -> Option<Refused> {
        match answer.refusal {
            2 | 6 | 12 | 16 => Refusal::of(answer.refusal).map(|refusal| Refused::plain(refusal, None)),
            number => self.level_refused(number, answer.level, answer.at),
        }
    }
}

impl fmt::Debug for Crn<'_> {
    fn fmt(&self, f: &mut fmt::Formatter<'_>) -> fmt::Result {
        let mut shown = f.debug_struct("Crn");
        shown.field("format", &self.format).field("width", &self.width()).field("height", &self.height());
        shown.field("levels", &self.levels()).field("faces", &self.faces()).field("bytes", &self.file.len()).finish_non_exhaustive()
    }
}
