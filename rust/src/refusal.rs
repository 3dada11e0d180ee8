//! The refusals, by their numbers, and what each is of.

use crate::grouped::grouped;
use std::fmt;

/// Why a file, a level or a call was refused, by its number.
#[derive(Clone, Copy, Debug, PartialEq, Eq, Hash, PartialOrd, Ord)]
#[non_exhaustive]
#[repr(u32)]
pub enum Refusal {
    /// 1: under 74 bytes, or no signature.
    NotCrn = 1,
    /// 2: a header field beyond its limit; of texels, width or height.
    Limit,
    /// 3: header size or data size.
    Size,
    /// 4: a segment that is empty, backwards or past the file.
    Segment,
    /// 5: a lent palette that is too short.
    Palette,
    /// 6: a code table.
    Table,
    /// 7: bits that begin no code.
    Code,
    /// 8: a segment that ended too soon.
    Ended,
    /// 9: a selector symbol of a palette.
    Selector,
    /// 10: a level number that the file does not have.
    Level,
    /// 11: pitch or distance.
    Pitch,
    /// 12: a destination that is too short.
    Destination,
    /// 13: a chunk symbol.
    Chunk,
    /// 14: a palette index.
    Index,
    /// 15: a budget that is already spent.
    Budget,
    /// 16: a format that DDS has no letters for.
    Format,
    /// 17: a header that is not this file's.
    Disagrees,
    /// 18: a pitch below four bytes a pixel.
    TexelPitch,
    /// 28: too few bytes of blocks.
    Blocks = 28,
}

const ALL: [(Refusal, &str); 19] = [
    (Refusal::NotCrn, "this is no CRN file: it does not begin with the letters Hx, or is shorter than any CRN file"),
    (
        Refusal::Limit,
        "the header is damaged or of another edition: its width, height, levels, faces, format or a palette's size is beyond what a CRN file can have",
    ),
    (Refusal::Size, "the header is damaged or the file was cut short: its header size or data size does not fit the file"),
    (Refusal::Segment, "the file was cut short, or its header is damaged: a part of it is empty or would lie past the file's end"),
    (Refusal::Palette, "the memory lent for a palette is too short for this file"),
    (Refusal::Table, "the compressed data are damaged: a code table makes no sense"),
    (Refusal::Code, "the compressed data are damaged: there are bits that mean nothing"),
    (Refusal::Ended, "the compressed data end too soon: a part of the file is damaged or cut short"),
    (Refusal::Selector, "the compressed data are damaged: a palette has a selector that can't be"),
    (Refusal::Level, "the file has no level of this number"),
    (Refusal::Pitch, "the pitch or the distance is no multiple of 4, or too small for this level"),
    (Refusal::Destination, "the memory lent for the blocks is too short for this level or file"),
    (Refusal::Chunk, "the compressed data are damaged: a chunk is laid out in a way that can't be"),
    (Refusal::Index, "the compressed data are damaged: a block asks for an entry that its palette does not have"),
    (Refusal::Budget, "the level needs more symbols than it was allowed"),
    (Refusal::Format, "DDS has no letters for this file's format, only for DXT1, DXT5, DXN XY and DXT5A"),
    (Refusal::Disagrees, "the header that was handed over is not this file's: it is of another file, or one of the two was changed"),
    (Refusal::TexelPitch, "the pitch is too small for the picture: each pixel of a row takes four bytes"),
    (Refusal::Blocks, "there are too few blocks for a picture of this format and size"),
];

impl Refusal {
    /// The refusal of a number; nothing for 0, which is no refusal.
    pub(crate) fn of(number: u32) -> Option<Refusal> {
        let known = || ALL.iter().map(|row| row.0).find(|refusal| refusal.number() == number);
        (number != 0).then(|| known().unwrap_or_else(|| panic!("the archive gave refusal {number}, which this package does not know")))
    }

    /// The number by which the format's description knows it: 1 to 18, or 28.
    pub fn number(self) -> u32 {
        self as u32
    }

    /// What is wrong, for a person.
    pub fn sentence(self) -> &'static str {
        ALL.iter().find(|row| row.0 == self).expect("every refusal has its row").1
    }

    /// Whether it is of the compressed data, and names a bit of them.
    fn of_a_stream(self) -> bool {
        use Refusal::*;
        matches!(self, Table | Code | Ended | Selector | Chunk | Index | Budget)
    }
}

impl fmt::Display for Refusal {
    fn fmt(&self, f: &mut fmt::Formatter<'_>) -> fmt::Result {
        write!(f, "refused, {}: {}", self.number(), self.sentence())
    }
}

impl std::error::Error for Refusal {}

/// The error of every call: the refusal, of which level it is, and where or by what.
///
/// ```
/// use crunch_proved::{Crn, Refusal, Segment};
///
/// let mut file = std::fs::read("../samples/dxt1.crn")?;
/// file[12..14].copy_from_slice(&5000u16.to_be_bytes());
/// let no = Crn::open(&file).unwrap_err();
/// assert_eq!((no.refusal, no.number()), (Refusal::Limit, 2));
/// assert!(no.to_string().ends_with("(width is 5,000, and may be 1 to 4,096)"));
///
/// let mut file = std::fs::read("../samples/dxt1.crn")?;
/// // level 3 begins where level 4 does, and has no bytes
/// file.copy_within(86..90, 82);
/// let no = Crn::open(&file)?.to_dds().unwrap_err();
/// assert_eq!((no.refusal, no.level, no.place.unwrap().segment), (Refusal::Segment, Some(3), Segment::Level(3)));
/// assert!(no.to_string().starts_with("level 3: refused, 4: "));
/// # Ok::<(), Box<dyn std::error::Error>>(())
/// ```
#[derive(Clone, Copy, Debug, PartialEq, Eq, Hash)]
#[non_exhaustive]
pub struct Refused {
    /// The refusal.
    pub refusal: Refusal,
    /// The level that it is of; nothing where it is of the file or of the whole call.
    pub level: Option<u32>,
    /// Where in the file: the segment that does not stand (4), or the segment and the bit of it that are at fault (6 to 9, 13 to 15).
    pub place: Option<Place>,
    /// By which field of the file's header (2, 3); by which field of the header that was handed over with it (17); or, of texels, by which
    /// argument (2, 12, 18, 28).
    pub reason: Option<Reason>,
    /// What the file itself is refused by, whatever header is handed over with it (17, where that is so): 1, 2 or 3, whose reason it then
    /// is.
    pub file: Option<Refusal>,
}

impl Refused {
    pub(crate) fn plain(refusal: Refusal, level: Option<u32>) -> Refused {
        Refused { refusal, level, place: None, reason: None, file: None }
    }

    /// At a segment, and at a bit of it where the refusal is of a stream.
    pub(crate) fn at(refusal: Refusal, level: Option<u32>, (segment, offset, size): Part, bit: usize) -> Refused {
        let bit = refusal.of_a_stream().then_some(bit as u64);
        let placed = bit.is_some() || refusal == Refusal::Segment;
        Refused { place: placed.then_some(Place { segment, offset, size, bit }), ..Refused::plain(refusal, level) }
    }

    /// The refusal's number: 1 to 18, or 28.
    pub fn number(&self) -> u32 {
        self.refusal.number()
    }

    /// The refusal's sentence, for a person.
    pub fn sentence(&self) -> &'static str {
        self.refusal.sentence()
    }
}

impl fmt::Display for Refused {
    fn fmt(&self, f: &mut fmt::Formatter<'_>) -> fmt::Result {
        if let Some(level) = self.level {
            write!(f, "level {level}: ")?;
        }
        self.refusal.fmt(f)?;
        match (self.file, self.reason) {
            (Some(file), Some(reason)) => write!(f, " (the file itself is {file} ({reason}))")?,
            (Some(file), None) => write!(f, " (the file itself is {file})")?,
            (None, Some(reason)) => write!(f, " ({reason})")?,
            (None, None) => (),
        }
        match self.place {
            Some(place) => write!(f, " ({place})"),
            None => Ok(()),
        }
    }
}

impl std::error::Error for Refused {}

/// A segment with its first byte and how many it has, as the header says.
pub(crate) type Part = (Segment, u64, u64);

/// A part of a file that is read as one stream of bits.
#[derive(Clone, Copy, Debug, PartialEq, Eq, Hash)]
#[non_exhaustive]
pub enum Segment {
    /// The code tables of the levels.
    Tables,
    /// The colour endpoints' palette.
    ColorEndpoints,
    /// The colour selectors' palette.
    ColorSelectors,
    /// The alpha endpoints' palette.
    AlphaEndpoints,
    /// The alpha selectors' palette.
    AlphaSelectors,
    /// A level.
    Level(u32),
}

impl fmt::Display for Segment {
    fn fmt(&self, f: &mut fmt::Formatter<'_>) -> fmt::Result {
        match self {
            Segment::Tables => f.write_str("tables"),
            Segment::ColorEndpoints => f.write_str("colour endpoints"),
            Segment::ColorSelectors => f.write_str("colour selectors"),
            Segment::AlphaEndpoints => f.write_str("alpha endpoints"),
            Segment::AlphaSelectors => f.write_str("alpha selectors"),
            Segment::Level(level) => write!(f, "level {level}"),
        }
    }
}

/// Where in a file a refusal is.
#[derive(Clone, Copy, Debug, PartialEq, Eq, Hash)]
#[non_exhaustive]
pub struct Place {
    /// The segment.
    pub segment: Segment,
    /// The segment's first byte in the file, as the header says.
    pub offset: u64,
    /// How many bytes it has, as the header says; 0 where it ends before it begins.
    pub size: u64,
    /// The bit that is at fault, counted from the segment's first; nothing where the whole segment is.
    pub bit: Option<u64>,
}

impl Place {
    /// The byte of the file that the bit is in.
    pub fn byte(&self) -> Option<u64> {
        self.bit.map(|bit| self.offset + bit / 8)
    }

    /// Which bit of that byte: 0 is the highest, 7 the lowest.
    pub fn bit_of_byte(&self) -> Option<u32> {
        self.bit.map(|bit| (bit % 8) as u32)
    }
}

impl fmt::Display for Place {
    fn fmt(&self, f: &mut fmt::Formatter<'_>) -> fmt::Result {
        match (self.byte(), self.bit_of_byte()) {
            (Some(byte), Some(bit)) => write!(f, "{}, at byte {} of the file, bit {bit}", self.segment, grouped(byte)),
            _ => write!(f, "{}, {} bytes from byte {} of the file on", self.segment, grouped(self.size), grouped(self.offset)),
        }
    }
}

/// A field of the header, or the file's own length, that is not what it may be; a field of a header that was handed over with a file, and
/// has another value there; or an argument of a call for texels.
#[derive(Clone, Copy, Debug, PartialEq, Eq, Hash)]
#[non_exhaustive]
pub struct Reason {
    /// The field's name, as [`Header`](crate::Header) has it: `width`, `color_endpoints.count`, `level_offsets[3]`; or `file`, the file's
    /// length. Of texels `width`, `height`, `pitch`, and `blocks` or `rgba`, of which it is how many bytes there are.
    pub field: &'static str,
    /// Its value.
    pub value: u64,
    /// The least that it may be. With [`Refusal::Disagrees`] it and the most are the file's value.
    pub least: u64,
    /// The most, `u64::MAX` where it can't be too much. Of the faces only 1 and 6 may be, and no format has number 1.
    pub most: u64,
}

impl fmt::Display for Reason {
    fn fmt(&self, f: &mut fmt::Formatter<'_>) -> fmt::Result {
        write!(f, "{} is {}, and ", self.field, grouped(self.value))?;
        match self.field {
            // of a call for texels
            "pitch" | "blocks" | "rgba" => write!(f, "has to be at least {}", grouped(self.least)),
            _ if self.least == self.most => write!(f, "has to be {}", grouped(self.least)),
            "faces" => write!(f, "may be 1 or 6"),
            "format" => write!(f, "may be 0 or 2 to 9"),
            _ => write!(f, "may be {} to {}", grouped(self.least), grouped(self.most)),
        }
    }
}
