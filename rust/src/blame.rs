//! What a refusal is of: the field, the segment, the bit. The archive answers with a number and a bit; the rest is told here by what the
//! header says, for people, and nothing is decided by it.

use crate::raw::{self, Face, Header, Opened, Part as Palette, Room, HEAD_BYTES};
use crate::refusal::{Part, Reason, Refusal, Refused, Segment};
use crate::Format;

/// A segment that opening reads, and where the header has its offset and its size: the first byte of each and how many there are.
struct Read {
    part: Part,
    offset: (usize, usize),
    size: (usize, usize),
}

/// The segments that opening reads, in its order.
fn segments(header: &Header) -> impl DoubleEndedIterator<Item = Read> {
    let palette = |segment, part: Palette, at| Read { part: (segment, part.offset as u64, part.size as u64), offset: (at, 3), size: (at + 3, 3) };
    let tables = (Segment::Tables, header.tables_offset as u64, header.tables_size as u64);
    let tables = Read { part: tables, offset: (67, 3), size: (65, 2) };
    let color = [palette(Segment::ColorEndpoints, header.color_endpoints, 33), palette(Segment::ColorSelectors, header.color_selectors, 41)];
    let alpha = [palette(Segment::AlphaEndpoints, header.alpha_endpoints, 49), palette(Segment::AlphaSelectors, header.alpha_selectors, 57)];
    let there = |plane: [Read; 2], endpoints: Palette| plane.into_iter().filter(move |_| endpoints.count > 0);
    [tables].into_iter().chain(there(color, header.color_endpoints)).chain(there(alpha, header.alpha_endpoints))
}

/// A level's segment: from its own offset to the next level's, the last to the file's end.
pub(crate) fn level_part(header: &Header, file: &[u8], level: u32) -> Part {
    let offset = |level: u32| header.level_offsets.get(level as usize).map_or(0, |offset| *offset as u64);
    let end = if level < header.levels.saturating_sub(1) { offset(level + 1) } else { file.len() as u64 };
    (Segment::Level(level), offset(level), end.saturating_sub(offset(level)))
}

/// The most pixels that a side may have.
const MOST_SIDE: u32 = 4096;

/// The first field that is beyond its limit (2), in the order in which they are looked at.
fn limit(header: &Header) -> Option<Reason> {
    let (color, alpha) = match header.format {
        0 => (1, 0),
        2..=6 => (1, 1),
        _ => (0, 1),
    };
    let fields = [
        ("width", header.width, 1, MOST_SIDE),
        ("height", header.height, 1, MOST_SIDE),
        ("levels", header.levels, 1, 13),
        ("faces", header.faces, 1, 6),
        ("format", header.format, 0, 9),
        ("color_endpoints.count", header.color_endpoints.count, color, 8192),
        ("color_selectors.count", header.color_selectors.count, color, 8192),
        ("alpha_endpoints.count", header.alpha_endpoints.count, alpha, 8192),
        ("alpha_selectors.count", header.alpha_selectors.count, alpha, 8192),
    ];
    let stray = |field: &str, value: u32| field == "faces" && ![1, 6].contains(&value) || field == "format" && value == 1;
    let beyond = |(field, value, least, most): &(&str, u32, u32, u32)| value < least || value > most || stray(field, *value);
    let (field, value, least, most) = fields.into_iter().find(beyond)?;
    Some(Reason { field, value: value.into(), least: least.into(), most: most.into() })
}

/// The first size that does not hold (3), of a file of so many bytes.
fn size(header: &Header, len: u64) -> Option<Reason> {
    let fields = [
        ("header_size", header.header_size as u64, 70 + 4 * header.levels as u64, len),
        ("data_size", header.data_size as u64, 0, len),
        ("file", len, 74, u32::MAX as u64),
    ];
    let (field, value, least, most) = fields.into_iter().find(|(_, value, least, most)| value < least || value > most)?;
    Some(Reason { field, value, least, most })
}

/// What the look at a file of so many bytes was refused by, which begins with these.
pub(crate) fn looked(number: u32, head: &[u8], len: u64) -> Option<Refused> {
    let refusal = Refusal::of(number)?;
    // bytes that are missing count as 0 there
    let mut first = [0; HEAD_BYTES];
    let there = head.len().min(HEAD_BYTES);
    first[..there].copy_from_slice(&head[..there]);
    let header = Header::read(&first);
    let reason = match refusal {
        Refusal::Limit => header.as_ref().and_then(limit),
        Refusal::Size => header.and_then(|header| size(&header, len)),
        _ => None,
    };
    Some(Refused { reason, ..Refused::plain(refusal, None) })
}

/// What an opening was refused by.
pub(crate) fn opened(answer: Opened, file: &[u8]) -> Option<Refused> {
    let refusal = Refusal::of(answer.refusal)?;
    let plain = Refused::plain(refusal, None);
    let Some(header) = &Header::read(file) else { return Some(plain) };
    let at = |part: Option<Part>| part.map_or(plain, |part| Refused::at(refusal, None, part, answer.at));
    Some(match refusal {
        Refusal::NotCrn | Refusal::Limit | Refusal::Size => return looked(answer.refusal, file, file.len() as u64),
        Refusal::Segment => at(segments(header).map(|read| read.part).find(|(_, offset, size)| *size == 0 || offset + size > file.len() as u64)),
        Refusal::Palette => plain,
        _ => at(stream(answer, header, file)),
    })
}

/// What a load by a header was refused by.
pub(crate) fn loaded(answer: Opened, header: &Header, file: &[u8]) -> Option<Refused> {
    if Refusal::of(answer.refusal) != Some(Refusal::Disagrees) {
        return opened(answer, file);
    }
    let plain = Refused::plain(Refusal::Disagrees, None);
    let own = raw::look(file);
    Some(match looked(own.refusal, file, file.len() as u64) {
        Some(refused) => Refused { file: Some(refused.refusal), reason: refused.reason, ..plain },
        None => Refused { reason: difference(header, &own.header), ..plain },
    })
}

/// What texels were refused by, of so many bytes of blocks, into so many bytes.
pub(crate) fn texels(number: u32, format: Format, face: Face, blocks: usize, rgba: usize) -> Option<Refused> {
    let refusal = Refusal::of(number)?;
    let (width, height, pitch) = (face.width as u128, face.height as u128, face.pitch as u128);
    let covering = format.kind().block_bytes() as u128 * width.div_ceil(4) * height.div_ceil(4);
    // a room that no memory has is told as the largest number
    let at_least = |least: u128| (u64::try_from(least).unwrap_or(u64::MAX), u64::MAX);
    let (field, value, (least, most)) = match refusal {
        Refusal::Limit if (1..=MOST_SIDE as usize).contains(&face.width) => ("height", face.height, (1, MOST_SIDE.into())),
        Refusal::Limit => ("width", face.width, (1, MOST_SIDE.into())),
        Refusal::TexelPitch => ("pitch", face.pitch, at_least(4 * width)),
        Refusal::Blocks => ("blocks", blocks, at_least(covering)),
        Refusal::Destination => ("rgba", rgba, at_least((height - 1) * pitch + 4 * width)),
        _ => return Some(Refused::plain(refusal, None)),
    };
    let reason = Some(Reason { field, value: value as u64, least, most });
    Some(Refused { reason, ..Refused::plain(refusal, None) })
}

/// The first field of a header that has another value in the file's own.
fn difference(header: &Header, own: &Header) -> Option<Reason> {
    let ((field, value), (_, own)) = fields(header).into_iter().zip(fields(own)).find(|(one, other)| one != other)?;
    Some(Reason { field, value: value.into(), least: own.into(), most: own.into() })
}

/// Every field of a header.
fn fields(h: &Header) -> [(&'static str, u32); 40] {
    let [o0, o1, o2, o3, o4, o5, o6, o7, o8, o9, o10, o11, o12] = h.level_offsets;
    let (ce, cs, ae, al) = (h.color_endpoints, h.color_selectors, h.alpha_endpoints, h.alpha_selectors);
    [
        ("header_size", h.header_size),
        ("header_crc16", h.header_crc16),
        ("data_size", h.data_size),
        ("data_crc16", h.data_crc16),
        ("width", h.width),
        ("height", h.height),
        ("levels", h.levels),
        ("faces", h.faces),
        ("format", h.format),
        ("flags", h.flags),
        ("reserved", h.reserved),
        ("userdata0", h.userdata0),
        ("userdata1", h.userdata1),
        ("color_endpoints.offset", ce.offset),
        ("color_endpoints.size", ce.size),
        ("color_endpoints.count", ce.count),
        ("color_selectors.offset", cs.offset),
        ("color_selectors.size", cs.size),
        ("color_selectors.count", cs.count),
        ("alpha_endpoints.offset", ae.offset),
        ("alpha_endpoints.size", ae.size),
        ("alpha_endpoints.count", ae.count),
        ("alpha_selectors.offset", al.offset),
        ("alpha_selectors.size", al.size),
        ("alpha_selectors.count", al.count),
        ("tables_size", h.tables_size),
        ("tables_offset", h.tables_offset),
        ("level_offsets[0]", o0),
        ("level_offsets[1]", o1),
        ("level_offsets[2]", o2),
        ("level_offsets[3]", o3),
        ("level_offsets[4]", o4),
        ("level_offsets[5]", o5),
        ("level_offsets[6]", o6),
        ("level_offsets[7]", o7),
        ("level_offsets[8]", o8),
        ("level_offsets[9]", o9),
        ("level_offsets[10]", o10),
        ("level_offsets[11]", o11),
        ("level_offsets[12]", o12),
    ]
}

/// The bytes of a header before the offsets of its levels.
const FIELDS: usize = 70;

/// The stream that an opening was refused in. The archive does not name it, so it is asked again, with one segment after the other, from the
/// last on, laid over the signature: its first byte is too short for a code table's count (8 at bit 0), both are too short for what follows
/// the count (8 at bit 14). The answer stays as it was where the segment comes after the refused one; at the refused one it is another by the
/// one or the other. Nothing is told of a file with a segment among the fields that are changed for it.
fn stream(answer: Opened, header: &Header, file: &[u8]) -> Option<Part> {
    if segments(header).any(|read| read.part.1 < FIELDS as u64) {
        return None;
    }
    let (mut room, mut laid) = (Room::default(), file.to_vec());
    let put = |laid: &mut [u8], (at, bytes): (usize, usize), number: u32| laid[at..at + bytes].copy_from_slice(&number.to_be_bytes()[4 - bytes..]);
    let mut refused = segments(header).rev().filter(|read| {
        [1, 2].into_iter().any(|bytes| {
            put(&mut laid, read.offset, 0);
            put(&mut laid, read.size, bytes);
            let other = room.open(&laid) != answer;
            laid[..FIELDS].copy_from_slice(&file[..FIELDS]);
            other
        })
    });
    refused.next().map(|read| read.part)
}
