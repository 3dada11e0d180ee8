//! The archive's functions over plain slices, as [`Crn`](crate::Crn) calls them. They take any argument, allocate nothing and are safe to call; all that is
//! `unsafe` in this package stands here: a slice is handed over as its pointer and its length, a record by its parts.
//!
//! The structs are those of `include/crunch.h`, where each field is told.

use crate::grouped::grouped;
use crate::Format;
use std::fmt;
use std::mem::MaybeUninit;

/// Where a part of the file stands, and how many palette entries it has.
#[repr(C)]
#[derive(Clone, Copy, Debug, Default, PartialEq, Eq)]
#[non_exhaustive]
pub struct Part {
    /// Its first byte in the file.
    pub offset: u32,
    /// Its bytes.
    pub size: u32,
    /// The palette's entries.
    pub count: u32,
}

/// The header's fields as read. A level that the file does not have is at offset 0. [`Crn::look`](crate::Crn::look) gives one, and
/// [`Crn::load`](crate::Crn::load) takes it.
#[repr(C)]
#[derive(Clone, Copy, Debug, Default, PartialEq, Eq)]
#[non_exhaustive]
pub struct Header {
    /// The header's bytes, with the offsets of the levels.
    pub header_size: u32,
    /// The header's CRC as stored; it has no say.
    pub header_crc16: u32,
    /// The file's bytes, as far as they count.
    pub data_size: u32,
    /// The CRC of the data after the header, as stored; it has no say.
    pub data_crc16: u32,
    /// Columns of pixels of level 0.
    pub width: u32,
    /// Rows of pixels of level 0.
    pub height: u32,
    /// Levels, 1 to 13.
    pub levels: u32,
    /// Faces, 1 or 6.
    pub faces: u32,
    /// The format's number: [`Header::format`] has the format.
    pub format: u32,
    /// Flags; they have no say.
    pub flags: u32,
    /// Reserved; it has no say.
    pub reserved: u32,
    /// User data, the first word; it has no say.
    pub userdata0: u32,
    /// User data, the second word; it has no say.
    pub userdata1: u32,
    /// The palette of colour endpoints.
    pub color_endpoints: Part,
    /// The palette of colour selectors.
    pub color_selectors: Part,
    /// The palette of alpha endpoints.
    pub alpha_endpoints: Part,
    /// The palette of alpha selectors.
    pub alpha_selectors: Part,
    /// The bytes of the code tables.
    pub tables_size: u32,
    /// The code tables' first byte in the file.
    pub tables_offset: u32,
    /// Each level's first byte in the file.
    pub level_offsets: [u32; 13],
}

/// A code table: how many symbols it was sent for, and each symbol's code length, zero beyond the count.
#[repr(C)]
#[derive(Clone, Copy, PartialEq, Eq)]
#[non_exhaustive]
pub struct Table {
    /// Its symbols.
    pub count: u32,
    /// The bits of each symbol's code; 0 for a symbol without one.
    pub lengths: [u8; 8192],
}

/// The five code tables of a file's levels.
#[repr(C)]
#[derive(Clone, Copy, Debug, PartialEq, Eq)]
#[non_exhaustive]
pub struct Tables {
    /// Of the chunks' encodings.
    pub chunk_encoding: Table,
    /// Of the steps between colour endpoints.
    pub color_endpoint_delta: Table,
    /// Of the steps between colour selectors.
    pub color_selector_delta: Table,
    /// Of the steps between alpha endpoints.
    pub alpha_endpoint_delta: Table,
    /// Of the steps between alpha selectors.
    pub alpha_selector_delta: Table,
}

/// An opened file, without its palettes.
#[repr(C)]
#[derive(Clone, Copy, Debug, PartialEq, Eq)]
#[non_exhaustive]
pub struct Record {
    /// The header's fields.
    pub header: Header,
    /// The code tables.
    pub tables: Tables,
}

/// What [`look`] and [`look_at`] answer: refusal 0 with the header, or a refusal.
#[repr(C)]
#[derive(Clone, Copy, Debug, Default, PartialEq, Eq)]
#[non_exhaustive]
pub struct Looked {
    /// 0, 1, 2 or 3.
    pub refusal: u32,
    /// The header; zeros after a refusal.
    pub header: Header,
}

/// What [`open`] and [`load`] answer: refusal 0; or the refusal and the bit that it names, counted from its segment's first.
#[repr(C)]
#[derive(Clone, Copy, Debug, Default, PartialEq, Eq)]
#[non_exhaustive]
pub struct Opened {
    /// 0; 1 to 9 of [`open`]; 4 to 9 or 17 of [`load`].
    pub refusal: u32,
    /// The bit; 0 where the refusal is 5 or below, or 17.
    pub at: usize,
}

/// How many symbols each of a record's five tables is for.
#[repr(C)]
#[derive(Clone, Copy, Debug, Default, PartialEq, Eq)]
#[non_exhaustive]
pub struct TableCounts {
    /// Of [`Tables::chunk_encoding`].
    pub chunk_encoding: u32,
    /// Of [`Tables::color_endpoint_delta`].
    pub color_endpoint_delta: u32,
    /// Of [`Tables::color_selector_delta`].
    pub color_selector_delta: u32,
    /// Of [`Tables::alpha_endpoint_delta`].
    pub alpha_endpoint_delta: u32,
    /// Of [`Tables::alpha_selector_delta`].
    pub alpha_selector_delta: u32,
}

/// What the archive's opening answers: as [`Opened`], with the record but for the tables' lengths.
#[repr(C)]
#[derive(Clone, Copy, Debug, Default, PartialEq, Eq)]
#[non_exhaustive]
pub struct OpenedHeader {
    /// As in [`Opened`].
    pub refusal: u32,
    /// As in [`Opened`].
    pub at: usize,
    /// The header's fields.
    pub header: Header,
    /// The tables' symbols.
    pub counts: TableCounts,
}

/// What [`unpack_level`] answers: refusal 0 with the symbols drawn and the cut-outs; or the refusal, the bit that it names and the symbols drawn.
#[repr(C)]
#[derive(Clone, Copy, Debug, Default, PartialEq, Eq)]
#[non_exhaustive]
pub struct Answer {
    /// 0, or the refusal's number.
    pub refusal: u32,
    /// The bit, counted from the level's first.
    pub at: usize,
    /// The symbols drawn.
    pub symbols: u64,
    /// The cut-outs; 0 after a refusal.
    pub cutouts: u64,
}

/// What [`unpack_levels`] answers: how many levels went through, the symbols drawn in all, the cut-outs of the levels that went through; and the refusal of the
/// level after them with the bit that it names, 0 where each went through.
#[repr(C)]
#[derive(Clone, Copy, Debug, Default, PartialEq, Eq)]
#[non_exhaustive]
pub struct Several {
    /// 0, or the refusal's number.
    pub refusal: u32,
    /// The bit, counted from the refused level's first.
    pub at: usize,
    /// The levels that went through.
    pub levels: u32,
    /// The symbols drawn in all, also in the refused level.
    pub symbols: u64,
    /// The cut-outs of the levels that went through.
    pub cutouts: u64,
}

/// How many words the buffer of each palette has to hold.
#[repr(C)]
#[derive(Clone, Copy, Debug, Default, PartialEq, Eq)]
#[non_exhaustive]
pub struct PaletteWords {
    /// Colour endpoints, a word each.
    pub color_endpoints: usize,
    /// Colour selectors, a word each.
    pub color_selectors: usize,
    /// Alpha endpoints, a word each.
    pub alpha_endpoints: usize,
    /// Alpha selectors, three words each.
    pub alpha_selectors: usize,
}

/// A level's blocks; the least pitch, distance and destination for them; and the full symbol allowance, with which no level runs out. All are zero where the
/// refusal is 2 (a header beyond its limits) or 10 (a level that the file does not have).
#[repr(C)]
#[derive(Clone, Copy, Debug, Default, PartialEq, Eq)]
#[non_exhaustive]
pub struct LevelSizes {
    /// 0, 2 or 10.
    pub refusal: u32,
    /// Blocks of a row.
    pub columns: usize,
    /// Rows of blocks of a face.
    pub rows: usize,
    /// Bytes of a block.
    pub block_bytes: usize,
    /// Bytes from row to row at least.
    pub pitch: usize,
    /// Bytes from face to face at least.
    pub distance: usize,
    /// Bytes of all faces, close together.
    pub bytes: usize,
    /// The symbols that the level may draw at most.
    pub symbols: u64,
}

/// How many bytes a file takes; 0 where the refusal is 2 (a header beyond its limits) or 16 (a format that DDS has no letters for).
#[repr(C)]
#[derive(Clone, Copy, Debug, Default, PartialEq, Eq)]
#[non_exhaustive]
pub struct Needed {
    /// 0, 2 or 16.
    pub refusal: u32,
    /// The bytes.
    pub bytes: usize,
}

/// What [`write_dds`] answers: refusal 0 with the bytes written and the symbols and cut-outs of all levels; or the refusal, the level that
/// it is of, the bit in that level's segment and the symbols drawn in all levels up to it, with 0 bytes and 0 cut-outs.
#[repr(C)]
#[derive(Clone, Copy, Debug, Default, PartialEq, Eq)]
#[non_exhaustive]
pub struct Written {
    /// 0, or the refusal's number.
    pub refusal: u32,
    /// The level that the refusal is of; 0 where it came before any level.
    pub level: u32,
    /// The bit, counted from that level's first.
    pub at: usize,
    /// The bytes written.
    pub bytes: usize,
    /// The symbols drawn.
    pub symbols: u64,
    /// The cut-outs.
    pub cutouts: u64,
}

/// A face's picture in a lent buffer: its columns and rows of pixels, and how many bytes a row begins after the one before it.
#[repr(C)]
#[derive(Clone, Copy, Debug, Default, PartialEq, Eq)]
pub struct Face {
    /// Columns of pixels.
    pub width: usize,
    /// Rows of pixels.
    pub height: usize,
    /// Bytes from row to row.
    pub pitch: usize,
}

/// The four palettes' buffers, lent to be read.
#[derive(Clone, Copy, Debug)]
pub struct Palettes<'a> {
    /// Colour endpoints, a word each.
    pub color_endpoints: &'a [u32],
    /// Colour selectors, a word each.
    pub color_selectors: &'a [u32],
    /// Alpha endpoints, a word each.
    pub alpha_endpoints: &'a [u16],
    /// Alpha selectors, three words each.
    pub alpha_selectors: &'a [u16],
}

/// The four palettes' buffers, lent to be filled.
#[derive(Debug)]
pub struct PalettesMut<'a> {
    /// Colour endpoints, a word each.
    pub color_endpoints: &'a mut [u32],
    /// Colour selectors, a word each.
    pub color_selectors: &'a mut [u32],
    /// Alpha endpoints, a word each.
    pub alpha_endpoints: &'a mut [u16],
    /// Alpha selectors, three words each.
    pub alpha_selectors: &'a mut [u16],
}

#[rustfmt::skip]
extern "C" {
    fn crunch_abi_version() -> u32;
    fn crunch_look(file: *const u8, file_len: usize) -> Looked;
    fn crunch_look_at(head: *const u8, head_len: usize, file_len: usize) -> Looked;
    fn crunch_palette_words(header: Header) -> PaletteWords;
    fn crunch_level_sizes(header: Header, level: u32) -> LevelSizes;
    fn crunch_open_parts(
        file: *const u8, file_len: usize,
        color_endpoints: *mut u32, color_endpoints_len: usize, color_selectors: *mut u32, color_selectors_len: usize,
        alpha_endpoints: *mut u16, alpha_endpoints_len: usize, alpha_selectors: *mut u16, alpha_selectors_len: usize,
        chunk_encoding: *mut Lengths, color_endpoint_delta: *mut Lengths, color_selector_delta: *mut Lengths,
        alpha_endpoint_delta: *mut Lengths, alpha_selector_delta: *mut Lengths,
    ) -> OpenedHeader;
    fn crunch_load_parts(
        header: Header, file: *const u8, file_len: usize,
        color_endpoints: *mut u32, color_endpoints_len: usize, color_selectors: *mut u32, color_selectors_len: usize,
        alpha_endpoints: *mut u16, alpha_endpoints_len: usize, alpha_selectors: *mut u16, alpha_selectors_len: usize,
        chunk_encoding: *mut Lengths, color_endpoint_delta: *mut Lengths, color_selector_delta: *mut Lengths,
        alpha_endpoint_delta: *mut Lengths, alpha_selector_delta: *mut Lengths,
    ) -> OpenedHeader;
    fn crunch_unpack_level_parts(
        header: Header, counts: TableCounts, chunk_encoding: *const Lengths, color_endpoint_delta: *const Lengths, color_selector_delta: *const Lengths,
        alpha_endpoint_delta: *const Lengths, alpha_selector_delta: *const Lengths, file: *const u8, file_len: usize,
        color_endpoints: *const u32, color_endpoints_len: usize, color_selectors: *const u32, color_selectors_len: usize,
        alpha_endpoints: *const u16, alpha_endpoints_len: usize, alpha_selectors: *const u16, alpha_selectors_len: usize,
        level: u32, pitch: usize, distance: usize, budget: *mut u64, dst: *mut u8, dst_len: usize,
    ) -> Answer;
    fn crunch_unpack_levels_parts(
        header: Header, counts: TableCounts, chunk_encoding: *const Lengths, color_endpoint_delta: *const Lengths, color_selector_delta: *const Lengths,
        alpha_endpoint_delta: *const Lengths, alpha_selector_delta: *const Lengths, file: *const u8, file_len: usize,
        color_endpoints: *const u32, color_endpoints_len: usize, color_selectors: *const u32, color_selectors_len: usize,
        alpha_endpoints: *const u16, alpha_endpoints_len: usize, alpha_selectors: *const u16, alpha_selectors_len: usize,
        first: u32, budget: *mut u64, dst: *mut u8, dst_len: usize,
    ) -> Several;
    fn crunch_dds_bytes(header: Header) -> Needed;
    fn crunch_write_dds_parts(
        header: Header, counts: TableCounts, chunk_encoding: *const Lengths,
        color_endpoint_delta: *const Lengths, color_selector_delta: *const Lengths,
        alpha_endpoint_delta: *const Lengths, alpha_selector_delta: *const Lengths, file: *const u8, file_len: usize,
        color_endpoints: *const u32, color_endpoints_len: usize, color_selectors: *const u32, color_selectors_len: usize,
        alpha_endpoints: *const u16, alpha_endpoints_len: usize, alpha_selectors: *const u16, alpha_selectors_len: usize,
        dst: *mut u8, dst_len: usize,
    ) -> Written;
    fn crunch_texels(format: u32, face: Face, blocks: *const u8, blocks_len: usize, rgba: *mut u8, rgba_len: usize) -> u32;
}

/// The lengths of a table.
type Lengths = [u8; 8192];

impl Header {
    /// The format of the blocks; nothing for a number that no file has, which no look or opening gives.
    pub fn format(&self) -> Option<Format> {
        Format::of(self.format)
    }

    /// The fields as they stand in a file's first bytes, judged by nothing: for showing what a file says that is refused. Nothing where there
    /// are under 74 bytes or no signature; bytes past the end count as 0.
    ///
    /// ```
    /// # let mut file = std::fs::read("../samples/dxt1.crn")?;
    /// file[12..14].copy_from_slice(&5000u16.to_be_bytes());
    /// assert_eq!(crunch_proved::Crn::open(&file).unwrap_err().number(), 2);
    /// assert_eq!(crunch_proved::Header::read(&file).map(|header| header.width), Some(5000));
    /// # Ok::<(), Box<dyn std::error::Error>>(())
    /// ```
    pub fn read(file: &[u8]) -> Option<Header> {
        if file.len() < 74 || !file.starts_with(b"Hx") {
            return None;
        }
        let field = |at: usize, bytes: usize| (at..at + bytes).fold(0, |n, at| n << 8 | file.get(at).map_or(0, |byte| *byte as u32));
        let part = |at: usize| Part { offset: field(at, 3), size: field(at + 3, 3), count: field(at + 6, 2) };
        let levels = field(16, 1);
        Some(Header {
            header_size: field(2, 2),
            header_crc16: field(4, 2),
            data_size: field(6, 4),
            data_crc16: field(10, 2),
            width: field(12, 2),
            height: field(14, 2),
            levels,
            faces: field(17, 1),
            format: field(18, 1),
            flags: field(19, 2),
            reserved: field(21, 4),
            userdata0: field(25, 4),
            userdata1: field(29, 4),
            color_endpoints: part(33),
            color_selectors: part(41),
            alpha_endpoints: part(49),
            alpha_selectors: part(57),
            tables_size: field(65, 2),
            tables_offset: field(67, 3),
            level_offsets: std::array::from_fn(|level| if level < levels as usize { field(70 + 4 * level, 4) } else { 0 }),
        })
    }
}

/// What a picture is, in a line: `DXT1, 16 x 16 pixels, 5 levels, 6 faces`.
impl fmt::Display for Header {
    fn fmt(&self, f: &mut fmt::Formatter<'_>) -> fmt::Result {
        match self.format() {
            Some(format) => write!(f, "{format}")?,
            None => write!(f, "format {}", self.format)?,
        }
        let count = |n: u32, thing: &str| format!("{} {thing}{}", grouped(n.into()), if n == 1 { "" } else { "s" });
        write!(f, ", {} x {} pixels, {}, {}", self.width, self.height, count(self.levels, "level"), count(self.faces, "face"))
    }
}

impl fmt::Debug for Table {
    // 8,192 lengths are nothing to read
    fn fmt(&self, f: &mut fmt::Formatter<'_>) -> fmt::Result {
        let codes = self.lengths.iter().filter(|length| **length > 0).count();
        f.debug_struct("Table").field("count", &self.count).field("codes", &codes).finish_non_exhaustive()
    }
}

impl Record {
    /// An empty record, for [`open`] to fill. It is made where it stays: 41,000 bytes are too many to be copied at each file.
    pub fn empty() -> Box<Record> {
        let mut record = Box::<Record>::new_uninit();
        // SAFETY: numbers and arrays of them, which may be zero.
        unsafe {
            record.as_mut_ptr().write_bytes(0, 1);
            record.assume_init()
        }
    }
}

impl Tables {
    fn counts(&self) -> TableCounts {
        TableCounts {
            chunk_encoding: self.chunk_encoding.count,
            color_endpoint_delta: self.color_endpoint_delta.count,
            color_selector_delta: self.color_selector_delta.count,
            alpha_endpoint_delta: self.alpha_endpoint_delta.count,
            alpha_selector_delta: self.alpha_selector_delta.count,
        }
    }
}

/// The version of the exports that this package is written for.
pub const ABI_VERSION: u32 = 1;

/// The version of the archive's exports: raised whenever a struct or an argument of one changes.
pub fn abi_version() -> u32 {
    // SAFETY: it takes nothing, in every version.
    unsafe { crunch_abi_version() }
}

/// An archive of another version would be called with structs of another layout. All work on a file begins where this is asked.
fn fits() {
    assert!(abi_version() == ABI_VERSION, "the archive's version is {}, and this package is for {ABI_VERSION}", abi_version());
}

/// The header of a file: opening's refusals 1, 2 and 3, without the streams.
pub fn look(file: &[u8]) -> Looked {
    fits();
    // SAFETY: the pointer and the length are those of a slice that lives through the call, here and below.
    unsafe { crunch_look(file.as_ptr(), file.len()) }
}

/// As many bytes as a header has at most, with the offsets of 13 levels: what [`look_at`] asks for.
pub const HEAD_BYTES: usize = 70 + 4 * 13;

/// The header of a file of `file_len` bytes that begins with `head`: with the file's first [`HEAD_BYTES`], or all of a shorter file, as
/// [`look`] has it of the whole file. Bytes of `head` after those are not looked at; where there are fewer, those that are missing count
/// as 0.
pub fn look_at(head: &[u8], file_len: usize) -> Looked {
    fits();
    // SAFETY: as in `look`.
    unsafe { crunch_look_at(head.as_ptr(), head.len(), file_len) }
}

/// How many words of each palette's buffer opening fills.
pub fn palette_words(header: &Header) -> PaletteWords {
    // SAFETY: a struct by value.
    unsafe { crunch_palette_words(*header) }
}

/// The sizes of a level.
pub fn level_sizes(header: &Header, level: u32) -> LevelSizes {
    // SAFETY: a struct by value.
    unsafe { crunch_level_sizes(*header, level) }
}

/// Opens a file, and leaves what it is in the record; after a refusal an empty one. Refused by 1 to 5 it leaves the buffers untouched, refused later it leaves them
/// zero.
pub fn open(file: &[u8], palettes: &mut PalettesMut<'_>, record: &mut Record) -> Opened {
    // SAFETY: what is written is lent as `&mut`, so none overlaps another.
    unsafe { open_at(None, file, palettes.lent(), record) }
}

/// Loads a file whose header was looked at before: opening's second half. Refused by 17, first of all, where the header is not what
/// [`look`] gives of this file, in any field, and also where that refuses the file: then it leaves the buffers and the whole record
/// untouched. Else it answers and leaves all as [`open`] does.
pub fn load(header: &Header, file: &[u8], palettes: &mut PalettesMut<'_>, record: &mut Record) -> Opened {
    // SAFETY: as in `open`.
    unsafe { open_at(Some(header), file, palettes.lent(), record) }
}

/// A buffer by its pointer and its length.
type Lent<T> = (*mut T, usize);

/// The four palettes' buffers.
#[derive(Clone, Copy)]
struct LentPalettes {
    color_endpoints: Lent<u32>,
    color_selectors: Lent<u32>,
    alpha_endpoints: Lent<u16>,
    alpha_selectors: Lent<u16>,
}

impl PalettesMut<'_> {
    fn lent(&mut self) -> LentPalettes {
        LentPalettes {
            color_endpoints: (self.color_endpoints.as_mut_ptr(), self.color_endpoints.len()),
            color_selectors: (self.color_selectors.as_mut_ptr(), self.color_selectors.len()),
            alpha_endpoints: (self.alpha_endpoints.as_mut_ptr(), self.alpha_endpoints.len()),
            alpha_selectors: (self.alpha_selectors.as_mut_ptr(), self.alpha_selectors.len()),
        }
    }
}

/// Room for so many elements in a buffer that is used again; it holds none of them yet.
fn cleared<T>(buffer: &mut Vec<T>, room: usize) -> Lent<T> {
    buffer.clear();
    buffer.reserve(room);
    (buffer.as_mut_ptr(), room)
}

/// Opens a file, or loads it by a header, into memory that need hold nothing yet: a record's is written whole by every call but one that 17
/// refuses, which writes nothing; a palette's where the file is accepted.
///
/// # Safety
///
/// Each pointer points to as many elements as stand beside it, the last to a record, all of which may be written; none overlaps another.
unsafe fn open_at(header: Option<&Header>, file: &[u8], palettes: LentPalettes, record: *mut Record) -> Opened {
    fits();
    let LentPalettes { color_endpoints: ce, color_selectors: cs, alpha_endpoints: ae, alpha_selectors: al } = palettes;
    let tables = &raw mut (*record).tables;
    // both exports take the same, but for the header
    macro_rules! into_parts {
        ($export:ident $(, $header:expr)?) => {
            $export(
                $($header,)?
                file.as_ptr(),
                file.len(),
                ce.0,
                ce.1,
                cs.0,
                cs.1,
                ae.0,
                ae.1,
                al.0,
                al.1,
                &raw mut (*tables).chunk_encoding.lengths,
                &raw mut (*tables).color_endpoint_delta.lengths,
                &raw mut (*tables).color_selector_delta.lengths,
                &raw mut (*tables).alpha_endpoint_delta.lengths,
                &raw mut (*tables).alpha_selector_delta.lengths,
            )
        };
    }
    let opened = match header {
        Some(header) => into_parts!(crunch_load_parts, *header),
        None => into_parts!(crunch_open_parts),
    };
    if opened.refusal != DISAGREES {
        (*record).header = opened.header;
        (*tables).chunk_encoding.count = opened.counts.chunk_encoding;
        (*tables).color_endpoint_delta.count = opened.counts.color_endpoint_delta;
        (*tables).color_selector_delta.count = opened.counts.color_selector_delta;
        (*tables).alpha_endpoint_delta.count = opened.counts.alpha_endpoint_delta;
        (*tables).alpha_selector_delta.count = opened.counts.alpha_selector_delta;
    }
    Opened { refusal: opened.refusal, at: opened.at }
}

/// The refusal that leaves the record as it was.
const DISAGREES: u32 = 17;

/// The most entries that a palette can have.
const MOST_ENTRIES: usize = 8192;

/// A record and four palettes with memory of their own, which one file after another is opened into: nothing is allocated again where it is
/// large enough, and nobody zeroes it but the archive.
#[derive(Default)]
pub(crate) struct Room {
    /// Whole where a file is open.
    record: Option<Box<MaybeUninit<Record>>>,
    open: bool,
    color_endpoints: Vec<u32>,
    color_selectors: Vec<u32>,
    alpha_endpoints: Vec<u16>,
    alpha_selectors: Vec<u16>,
}

impl Room {
    /// Opens a file. What was there is gone, also after a refusal.
    pub(crate) fn open(&mut self, file: &[u8]) -> Opened {
        let looked = look(file);
        if looked.refusal == 0 {
            return self.load(&looked.header, file);
        }
        self.open = false;
        cleared(&mut self.color_endpoints, 0);
        cleared(&mut self.color_selectors, 0);
        cleared(&mut self.alpha_endpoints, 0);
        cleared(&mut self.alpha_selectors, 0);
        Opened { refusal: looked.refusal, at: 0 }
    }

    /// Loads a file by its header, or by one that is said to be. What was there is gone, also after a refusal.
    pub(crate) fn load(&mut self, header: &Header, file: &[u8]) -> Opened {
        self.open = false;
        // a header that nobody's look gave may claim any number
        let PaletteWords { color_endpoints, color_selectors, alpha_endpoints, alpha_selectors } = palette_words(header);
        let palettes = LentPalettes {
            color_endpoints: cleared(&mut self.color_endpoints, color_endpoints.min(MOST_ENTRIES)),
            color_selectors: cleared(&mut self.color_selectors, color_selectors.min(MOST_ENTRIES)),
            alpha_endpoints: cleared(&mut self.alpha_endpoints, alpha_endpoints.min(MOST_ENTRIES)),
            alpha_selectors: cleared(&mut self.alpha_selectors, alpha_selectors.min(3 * MOST_ENTRIES)),
        };
        let record = self.record.get_or_insert_with(Box::new_uninit).as_mut_ptr();
        // SAFETY: each buffer has as much room as stands beside it.
        let opened = unsafe { open_at(Some(header), file, palettes, record) };
        if opened.refusal == 0 {
            self.open = true;
            // SAFETY: a file that is accepted has this header, whose palettes are no larger, and fills all these words.
            unsafe {
                self.color_endpoints.set_len(palettes.color_endpoints.1);
                self.color_selectors.set_len(palettes.color_selectors.1);
                self.alpha_endpoints.set_len(palettes.alpha_endpoints.1);
                self.alpha_selectors.set_len(palettes.alpha_selectors.1);
            }
        }
        opened
    }

    /// The record of the file that is open.
    pub(crate) fn record(&self) -> &Record {
        let record = self.record.as_ref().filter(|_| self.open).expect("a file is open");
        // SAFETY: an opening that is accepted writes all of it: the archive the lengths, `open_at` the rest.
        unsafe { record.assume_init_ref() }
    }

    /// Its palettes.
    pub(crate) fn palettes(&self) -> Palettes<'_> {
        Palettes {
            color_endpoints: &self.color_endpoints,
            color_selectors: &self.color_selectors,
            alpha_endpoints: &self.alpha_endpoints,
            alpha_selectors: &self.alpha_selectors,
        }
    }
}

impl Clone for Room {
    fn clone(&self) -> Room {
        let copied = || {
            let mut record = Box::new_uninit();
            record.write(*self.record());
            record
        };
        Room {
            record: self.open.then(copied),
            open: self.open,
            color_endpoints: self.color_endpoints.clone(),
            color_selectors: self.color_selectors.clone(),
            alpha_endpoints: self.alpha_endpoints.clone(),
            alpha_selectors: self.alpha_selectors.clone(),
        }
    }
}

/// An export over a record, which goes by its parts, a file and palettes, then over arguments of its own.
macro_rules! over_record {
    ($export:ident, $header:expr, $tables:expr, $file:expr, $palettes:expr, $($own:expr),+) => {{
        let Palettes { color_endpoints: ce, color_selectors: cs, alpha_endpoints: ae, alpha_selectors: al } = *$palettes;
        let t: &Tables = $tables;
        // SAFETY: as in `open`.
        unsafe {
            $export(
                $header,
                t.counts(),
                &t.chunk_encoding.lengths,
                &t.color_endpoint_delta.lengths,
                &t.color_selector_delta.lengths,
                &t.alpha_endpoint_delta.lengths,
                &t.alpha_selector_delta.lengths,
                $file.as_ptr(),
                $file.len(),
                ce.as_ptr(),
                ce.len(),
                cs.as_ptr(),
                cs.len(),
                ae.as_ptr(),
                ae.len(),
                al.as_ptr(),
                al.len(),
                $($own),+
            )
        }
    }};
}

/// Unpacks a level of every face: face f starts at f times the distance, rows are a pitch apart. The budget is counted down by each symbol drawn.
///
/// Bytes that belong to no block stay as they were. Refused by 2, 4, 5, 6, 10, 11 or 12, before its first draw, the level leaves `dst`
/// untouched; refused later, by 7, 8, 13, 14 or 15, it leaves every block of its grid zero. A budget of 0 is refused at the first draw,
/// so by 15 with 0 symbols and blocks zero.
#[allow(clippy::too_many_arguments)]
pub fn unpack_level(
    record: &Record,
    file: &[u8],
    palettes: &Palettes<'_>,
    level: u32,
    pitch: usize,
    distance: usize,
    budget: &mut u64,
    dst: &mut [u8],
) -> Answer {
    over_record!(crunch_unpack_level_parts, record.header, &record.tables, file, palettes, level, pitch, distance, budget, dst.as_mut_ptr(), dst.len())
}

/// Unpacks the levels from `first` on to the last, each with its rows and faces close together ([`level_sizes`]), and its blocks where those of the level before end.
///
/// The first refusal stops: the levels before it keep their blocks, and all bytes after its own stay as they were. Its own are as
/// [`unpack_level`] leaves them: untouched where it is refused before its first draw, zero where it is refused later. A budget of 0 is
/// refused at the first draw of the level `first`, so by 15 with 0 levels, 0 symbols and that level's blocks zero.
pub fn unpack_levels(record: &Record, file: &[u8], palettes: &Palettes<'_>, first: u32, budget: &mut u64, dst: &mut [u8]) -> Several {
    over_record!(crunch_unpack_levels_parts, record.header, &record.tables, file, palettes, first, budget, dst.as_mut_ptr(), dst.len())
}

/// A level, all faces close together, in the place of what `blocks` holds; nothing where it is refused. The header need not be the record's.
pub(crate) fn level_in(header: &Header, tables: &Tables, file: &[u8], palettes: &Palettes<'_>, level: u32, blocks: &mut Vec<u8>) -> Answer {
    let LevelSizes { pitch, distance, bytes, symbols: mut budget, .. } = level_sizes(header, level);
    let dst = cleared(blocks, bytes);
    let answer = over_record!(crunch_unpack_level_parts, *header, tables, file, palettes, level, pitch, distance, &mut budget, dst.0, dst.1);
    if answer.refusal == 0 {
        // SAFETY: with this pitch and distance every byte belongs to a block, and an accepted level writes every block.
        unsafe { blocks.set_len(bytes) };
    }
    answer
}

/// The levels from `first` on, `most` of them at most, in the place of what `blocks` holds: those before the refused one where one is. A level
/// after the most is refused by 12, or by what comes before it.
pub(crate) fn levels_in(record: &Record, file: &[u8], palettes: &Palettes<'_>, (first, most): (u32, u32), blocks: &mut Vec<u8>) -> Several {
    let sizes = |levels: u32| (first..first.saturating_add(levels)).map(|level| level_sizes(&record.header, level));
    let (bytes, mut budget) = sizes(most).fold((0, 0), |(bytes, symbols), level| (bytes + level.bytes, symbols + level.symbols));
    let dst = cleared(blocks, bytes);
    let (header, tables) = (record.header, &record.tables);
    let answer = over_record!(crunch_unpack_levels_parts, header, tables, file, palettes, first, &mut budget, dst.0, dst.1);
    let through = if answer.levels == most { bytes } else { sizes(answer.levels).map(|level| level.bytes).sum() };
    // SAFETY: the levels that went through are written whole, one after another.
    unsafe { blocks.set_len(through) };
    answer
}

/// How many bytes the DDS file of a header has.
pub fn dds_bytes(header: &Header) -> Needed {
    // SAFETY: a struct by value.
    unsafe { crunch_dds_bytes(*header) }
}

/// Writes a DDS file into the first bytes of `dst`, as many as [`dds_bytes`] says: the magic, a header of 124 bytes, and the blocks of each
/// face after the other, of a face each level from large to small. Each level has its full symbol allowance.
///
/// Refused by 2, 6, 16 or 12, which are looked at in this order before any level, it leaves `dst` untouched, and level, bit and symbols are
/// 0. Refused by 4, 5, 7, 8, 13 or 14, which are a level's, it leaves the whole file's bytes zero, and all beyond them as it was.
pub fn write_dds(record: &Record, file: &[u8], palettes: &Palettes<'_>, dst: &mut [u8]) -> Written {
    over_record!(crunch_write_dds_parts, record.header, &record.tables, file, palettes, dst.as_mut_ptr(), dst.len())
}

/// A DDS file in the place of what `dds` holds; nothing where it is refused.
pub(crate) fn dds_in(record: &Record, file: &[u8], palettes: &Palettes<'_>, dds: &mut Vec<u8>) -> Written {
    let dst = cleared(dds, dds_bytes(&record.header).bytes);
    let answer = over_record!(crunch_write_dds_parts, record.header, &record.tables, file, palettes, dst.0, dst.1);
    if answer.refusal == 0 {
        // SAFETY: a file that is written has all its bytes.
        unsafe { dds.set_len(answer.bytes) };
    }
    answer
}

/// The pixels of one face's blocks, which stand row by row with nothing between them: four bytes R, G, B, A each, row y from y times the
/// pitch on. Formats are a header's numbers, and [`texels`](crate::texels()) says what each gives.
///
/// The answer is 0, or the refusal, in this order: 2 (no format has this number, or a side is not 1 to 4,096), 18 (a pitch below four bytes
/// a pixel), 28 (fewer bytes of blocks than cover the picture), 12 (`rgba` ends before the last row). Each leaves `rgba` untouched. Bytes
/// that belong to no pixel stay as they were.
pub fn texels(format: u32, face: Face, blocks: &[u8], rgba: &mut [u8]) -> u32 {
    fits();
    // SAFETY: as in `open`.
    unsafe { crunch_texels(format, face, blocks.as_ptr(), blocks.len(), rgba.as_mut_ptr(), rgba.len()) }
}

/// The same with rows close together, in the place of what `rgba` holds; nothing where it is refused.
pub(crate) fn texels_in(format: u32, width: usize, height: usize, blocks: &[u8], rgba: &mut Vec<u8>) -> u32 {
    fits();
    let (face, bytes) = (Face { width, height, pitch: 4 * width }, 4 * width * height);
    let dst = cleared(rgba, bytes);
    // SAFETY: the buffer has as much room as stands beside it.
    let refusal = unsafe { crunch_texels(format, face, blocks.as_ptr(), blocks.len(), dst.0, dst.1) };
    if refusal == 0 {
        // SAFETY: with this pitch every byte belongs to a pixel, and an accepted picture has every pixel written.
        unsafe { rgba.set_len(bytes) };
    }
    refusal
}

#[cfg(test)]
mod tests {
    use super::*;

    /// Whatever refuses a file, its room is then empty: there is no record, and no word of a palette.
    #[test]
    fn a_refused_file_leaves_an_empty_room() {
        let (file, mut room) = (std::fs::read("../samples/dxt5.crn").unwrap(), Room::default());
        let (header, mut wide, mut spoilt) = (look(&file).header, file.clone(), file.clone());
        wide[12] = 0xFF;
        spoilt[header.tables_offset as usize..][..2].fill(0xFF);
        type Call<'a> = &'a dyn Fn(&mut Room) -> Opened;
        let refused: [(u32, Call); 5] = [
            (1, &|room| room.open(&[])),
            (2, &|room| room.open(&wide)),
            (6, &|room| room.open(&spoilt)),
            (17, &|room| room.load(&header, &wide)),
            (17, &|room| room.load(&Header::default(), &file)),
        ];
        for (number, call) in refused {
            assert_eq!(room.open(&file), Opened::default());
            assert_eq!((room.record().header, room.palettes().alpha_selectors.len()), (header, 90));
            assert_eq!(call(&mut room).refusal, number);
            let Palettes { color_endpoints, color_selectors, alpha_endpoints, alpha_selectors } = room.palettes();
            assert_eq!([color_endpoints.len(), color_selectors.len(), alpha_endpoints.len(), alpha_selectors.len()], [0; 4]);
            assert!(!room.open && room.clone().record.is_none(), "refused by {number}");
        }
    }

    /// A picture that is refused leaves nothing to be seen of memory that nobody wrote.
    #[test]
    fn a_refused_picture_leaves_nothing() {
        let mut rgba = vec![7; 1000];
        assert_eq!((texels_in(0, 8, 8, &[0; 31], &mut rgba), rgba.len()), (28, 0));
        assert_eq!((texels_in(0, 8, 8, &[0; 32], &mut rgba), rgba.len()), (0, 8 * 8 * 4));
        assert_eq!((texels_in(1, 8, 8, &[0; 32], &mut rgba), rgba.len()), (2, 0));
    }
}
