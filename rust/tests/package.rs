//! The package's own functions.
mod common;
use common::{cut_level, names, of_format, pattern, root, sample, samples};
use crunch_proved::{raw, Crn, Format, Kind, Refusal, Segment};

/// The record that a file opens to.
fn record_of(file: &[u8]) -> Box<raw::Record> {
    let (words, mut record) = (raw::palette_words(&raw::look(file).header), raw::Record::empty());
    let mut lent = raw::PalettesMut {
        color_endpoints: &mut vec![0; words.color_endpoints],
        color_selectors: &mut vec![0; words.color_selectors],
        alpha_endpoints: &mut vec![0; words.alpha_endpoints],
        alpha_selectors: &mut vec![0; words.alpha_selectors],
    };
    assert_eq!(raw::open(file, &mut lent, &mut record), raw::Opened::default());
    record
}

#[test]
fn a_file_tells_its_header() {
    let file = sample("dxt5a.crn");
    let crn = Crn::open(&file).unwrap();
    assert_eq!((crn.width(), crn.height(), crn.levels(), crn.faces(), crn.format()), (20, 12, 5, 1, Format::Dxt5a));
    assert_eq!((crn.format().number(), crn.format().kind(), crn.format().name()), (9, Kind::Bc4, "DXT5A"));
    assert_eq!((crn.pixels(1), crn.pixels(4), crn.pixels(5).unwrap_err().refusal), (Ok((10, 6)), Ok((1, 1)), Refusal::Level));
    let palettes = crn.palettes();
    let lens = [palettes.color_endpoints.len(), palettes.color_selectors.len(), palettes.alpha_endpoints.len(), palettes.alpha_selectors.len()];
    assert_eq!(lens, [0, 0, 25, 75]);
    assert_eq!(crn.header().data_size as usize, file.len());
}

#[test]
fn sizes_are_those_of_the_format() {
    let file = sample("cube.crn");
    let sizes = Crn::open(&file).unwrap().level_sizes(0).unwrap();
    // six faces of two by two chunks: eight symbols a chunk, and one for every three chunks
    assert_eq!(told(&sizes), (0, [4, 4, 8, 32, 128, 768], 8 * 24 + 8));
    let mut header = *Crn::open(&file).unwrap().header();
    header.width = 5000;
    assert_eq!(told(&raw::level_sizes(&header, 0)), (2, [0; 6], 0));
}

/// The refusal, the sizes, and the symbols.
fn told(s: &raw::LevelSizes) -> (u32, [usize; 6], u64) {
    (s.refusal, [s.columns, s.rows, s.block_bytes, s.pitch, s.distance, s.bytes], s.symbols)
}

/// The archive's structs are laid out as the package's: a header, and the sizes by it, of numbers that are all different.
#[test]
fn each_number_of_a_header_and_of_sizes_is_in_its_place() {
    let mut header = raw::Header::default();
    let h = &mut header;
    (h.header_size, h.header_crc16, h.data_size, h.data_crc16) = (122, 0xABCD, 140, 0xBCDE);
    (h.width, h.height, h.levels, h.faces, h.format) = (1000, 500, 13, 6, 2);
    (h.flags, h.reserved, h.userdata0, h.userdata1) = (0x1234, 0x23456789, 0x3456789A, 0x456789AB);
    (h.tables_size, h.tables_offset) = (0x5678, 0x6789AB);
    h.level_offsets = std::array::from_fn(|i| 0x789ABC00 + i as u32);
    let parts = [&mut h.color_endpoints, &mut h.color_selectors, &mut h.alpha_endpoints, &mut h.alpha_selectors];
    for (n, part) in (1..).zip(parts) {
        (part.offset, part.size, part.count) = (0x10203 * n, 0x30201 * n, 1000 + n);
    }
    let (h, mut file) = (&header, b"Hx".to_vec());
    // the width of each field in bytes
    let mut fields = vec![(2, h.header_size), (2, h.header_crc16), (4, h.data_size), (2, h.data_crc16), (2, h.width), (2, h.height)];
    fields.extend([(1, h.levels), (1, h.faces), (1, h.format), (2, h.flags), (4, h.reserved), (4, h.userdata0), (4, h.userdata1)]);
    let parts = [h.color_endpoints, h.color_selectors, h.alpha_endpoints, h.alpha_selectors];
    fields.extend(parts.iter().flat_map(|p| [(3, p.offset), (3, p.size), (2, p.count)]));
    fields.extend([(2, h.tables_size), (3, h.tables_offset)]);
    fields.extend(h.level_offsets.map(|offset| (4, offset)));
    fields.iter().for_each(|(bytes, number)| file.extend(&number.to_be_bytes()[4 - bytes..]));
    file.resize(140, 0);
    assert_eq!((raw::look(&file).refusal, raw::look(&file).header, raw::Header::read(&file)), (0, header, Some(header)));
    let words = raw::palette_words(h);
    assert_eq!([words.color_endpoints, words.color_selectors, words.alpha_endpoints, words.alpha_selectors], [1001, 1002, 1003, 3 * 1004]);
    // 125 by 63 chunks of six faces: sixteen symbols a chunk, and one for every three chunks
    let (columns, rows, pitch, symbols) = (250, 125, 250 * 16, 16 * 6 * 125 * 63 + 2 * 125 * 63);
    assert_eq!(told(&raw::level_sizes(h, 0)), (0, [columns, rows, 16, pitch, 125 * pitch, 6 * 125 * pitch], symbols));
    let blocks = |side: u32, level: u32| (side >> level).max(1).div_ceil(4) as usize;
    let face: usize = (0..13).map(|level| blocks(1000, level) * blocks(500, level) * 16).sum();
    let needed = |header: &raw::Header| (raw::dds_bytes(header).refusal, raw::dds_bytes(header).bytes);
    assert_eq!(needed(h), (0, 128 + 6 * face));
    header.faces = 5;
    assert_eq!(needed(&header), (2, 0));
}

#[test]
fn every_refusal_of_a_call_has_its_number_and_its_sentence() {
    let file = sample("dxt1.crn");
    let crn = Crn::open(&file).unwrap();
    let sizes = crn.level_sizes(0).unwrap();
    let (p, d, n) = (sizes.pitch, sizes.distance, sizes.bytes);
    let call = |level: u32, pitch: usize, distance: usize, mut budget: u64, len: usize| {
        let mut dst = vec![7; len];
        let no = crn.unpack_level_into(level, pitch, distance, &mut budget, &mut dst).unwrap_err();
        assert!(dst.iter().all(|b| *b == if no.refusal == Refusal::Budget { 0 } else { 7 }));
        assert_eq!((no.level, no.reason), (Some(level), None));
        no
    };
    assert_eq!(call(7, p, d, 9999, n).refusal, Refusal::Level);
    assert_eq!(call(0, p + 1, d, 9999, n).refusal, Refusal::Pitch);
    assert_eq!(call(0, p, d - 4, 9999, n).refusal, Refusal::Pitch);
    assert_eq!(call(0, p, d, 9999, n - 1).refusal, Refusal::Destination);
    assert_eq!(call(0, p, d, 0, n).place.map(|place| (place.segment, place.bit)), Some((Segment::Level(0), Some(0))));
    let late = call(0, p, d, 100, n);
    let (place, offset) = (late.place.unwrap(), crn.header().level_offsets[0] as u64);
    assert!(late.refusal == Refusal::Budget && place.bit > Some(100) && place.offset == offset);
    let bit = place.bit.unwrap();
    assert_eq!((place.byte(), place.bit_of_byte()), (Some(offset + bit / 8), Some((bit % 8) as u32)));
    let whole = "level 0: refused, 15: the level needs more symbols than it was allowed";
    assert_eq!(late.to_string(), format!("{whole} (level 0, at byte {} of the file, bit {})", offset + bit / 8, bit % 8));
}

/// What a refusal of an opening names: `change` spoils a file, and the sentence ends in these words.
#[test]
fn a_refused_opening_names_the_field_or_the_segment() {
    type Change = fn(&mut Vec<u8>);
    let cases: [(u32, &str, Change); 14] = [
        (2, "(width is 5,000, and may be 1 to 4,096)", |file| file[12..14].copy_from_slice(&5000u16.to_be_bytes())),
        (2, "(height is 0, and may be 1 to 4,096)", |file| file[14..16].fill(0)),
        (2, "(levels is 14, and may be 1 to 13)", |file| file[16] = 14),
        (2, "(faces is 3, and may be 1 or 6)", |file| file[17] = 3),
        (2, "(format is 1, and may be 0 or 2 to 9)", |file| file[18] = 1),
        (2, "(color_selectors.count is 8,193, and may be 1 to 8,192)", |file| file[47..49].copy_from_slice(&8193u16.to_be_bytes())),
        (2, "(alpha_endpoints.count is 0, and may be 1 to 8,192)", |file| file[55..57].fill(0)),
        (3, "its header size or data size does not fit the file (header_size is 70, and may be 94 to 1,005)", |file| file[3] = 70),
        (3, "(data_size is 1,005, and may be 0 to 1,004)", |file| _ = file.pop()),
        (4, "(alpha selectors, 0 bytes from byte 0 of the file on)", |file| file[57..63].fill(0)),
        (4, "(tables, 65,535 bytes from byte 730 of the file on)", |file| file[65..67].fill(0xFF)),
        // the first code table of each has more symbols than a table can have
        (6, "(tables, at byte 730 of the file, bit 0)", |file| spoil(file, 67)),
        (6, "(colour endpoints, at byte 94 of the file, bit 0)", |file| spoil(file, 33)),
        (6, "(alpha endpoints, at byte 381 of the file, bit 0)", |file| spoil(file, 49)),
    ];
    for (number, words, change) in cases {
        let mut file = sample("dxt5.crn");
        change(&mut file);
        let no = Crn::open(&file).unwrap_err();
        assert!(no.number() == number && no.to_string().ends_with(words), "{no}");
    }
    assert_eq!(Crn::open(&sample("dxt5.crn")[..73]).unwrap_err().to_string(), Refusal::NotCrn.to_string());
    // a segment among the header's fields: what is refused is told, and not where
    let mut file = sample("dxt5.crn");
    file[33..36].copy_from_slice(&[0, 0, 69]);
    let no = Crn::open(&file).unwrap_err();
    assert!(no.number() > 5 && no.place.is_none() && no.to_string() == no.refusal.to_string(), "{no}");
}

/// Spoils the segment whose offset stands at a place of the header.
fn spoil(file: &mut [u8], at: usize) {
    let offset = u32::from_be_bytes([0, file[at], file[at + 1], file[at + 2]]) as usize;
    file[offset..offset + 2].fill(0xFF);
}

/// Whatever bit of a stream is turned over, a refusal names the segment that it is in: those before it are read as before.
#[test]
fn a_refused_stream_is_named() {
    let whole = sample("dxt5.crn");
    let h = raw::look(&whole).header;
    let mut ends = vec![(Segment::Tables, h.tables_offset, h.tables_size)];
    ends.extend([(Segment::ColorEndpoints, h.color_endpoints), (Segment::ColorSelectors, h.color_selectors)].map(|(s, p)| (s, p.offset, p.size)));
    ends.extend([(Segment::AlphaEndpoints, h.alpha_endpoints), (Segment::AlphaSelectors, h.alpha_selectors)].map(|(s, p)| (s, p.offset, p.size)));
    for (segment, offset, size) in ends {
        let mut refused = 0;
        for bit in 0..8 * size as usize {
            let mut file = whole.clone();
            file[offset as usize + bit / 8] ^= 0x80 >> (bit % 8);
            if let Err(no) = Crn::open(&file) {
                let place = no.place.unwrap();
                assert_eq!((place.segment, place.offset, place.size), (segment, offset as u64, size as u64), "bit {bit}: {no}");
                refused += 1;
            }
        }
        assert!(refused > 20, "{segment}: {refused}");
    }
}

#[test]
fn levels_of_one_call_are_those_of_one_each() {
    for name in samples() {
        let file = sample(&name);
        let crn = Crn::open(&file).unwrap();
        for first in 0..crn.levels() {
            let (levels, single) = (crn.unpack_levels(first).unwrap(), (first..crn.levels()).map(|n| crn.unpack_level(n).unwrap()).collect::<Vec<_>>());
            assert!(levels.iter().eq(single.iter().map(|level| level.blocks())), "{name} {first}");
            assert!(levels.sizes().iter().map(|s| (s.columns, s.rows)).eq(single.iter().map(|level| (level.columns(), level.rows()))));
            let sums = single.iter().fold((0, 0), |(s, c), level| (s + level.counts().symbols, c + level.counts().cutouts));
            assert_eq!((levels.counts().symbols, levels.counts().cutouts), sums);
        }
        for first in [crn.levels(), u32::MAX] {
            let stopped = crn.unpack_levels(first).unwrap_err();
            assert_eq!((stopped.refused.refusal, stopped.refused.level, stopped.before.is_empty()), (Refusal::Level, Some(first), true));
        }
    }
}

/// An answer's numbers, in their order.
fn numbers(a: &raw::Several) -> (u32, usize, u32, u64, u64) {
    (a.refusal, a.at, a.levels, a.symbols, a.cutouts)
}

#[test]
fn a_refused_level_stops_those_after_it() {
    let file = sample("dxt1.crn");
    let crn = Crn::open(&file).unwrap();
    let (record, mut dst) = (record_of(&file), vec![7; 2048 + 512 + 128]);
    let level = crn.unpack_level(0).unwrap();
    let (first, symbols, cutouts) = (level.blocks(), level.counts().symbols, level.counts().cutouts);
    // a symbol more than the first level draws: the second is refused, its blocks are zero, and what follows is untouched
    let mut budget = symbols + 1;
    let answer = raw::unpack_levels(&record, &file, &crn.palettes(), 0, &mut budget, &mut dst);
    assert_eq!((answer.refusal, answer.levels, answer.symbols, answer.cutouts, budget), (15, 1, symbols + 1, cutouts, 0));
    assert!(dst[..2048] == *first && dst[2048..2560].iter().all(|b| *b == 0) && dst[2560..].iter().all(|b| *b == 7));
    // as many as the first level draws: nothing is left for the second, whose blocks are zero all the same
    dst.fill(7);
    let mut budget = symbols;
    let answer = raw::unpack_levels(&record, &file, &crn.palettes(), 0, &mut budget, &mut dst);
    assert_eq!((numbers(&answer), budget), ((15, 0, 1, symbols, cutouts), 0));
    assert!(dst[..2048] == *first && dst[2048..2560].iter().all(|b| *b == 0) && dst[2560..].iter().all(|b| *b == 7));
    // a destination for the first level and not for the second, which leaves it untouched
    dst.fill(7);
    let mut budget = 9999;
    let answer = raw::unpack_levels(&record, &file, &crn.palettes(), 0, &mut budget, &mut dst[..2559]);
    assert_eq!((answer.refusal, answer.at, answer.levels, answer.symbols, budget), (12, 0, 1, symbols, 9999 - symbols));
    assert!(dst[..2048] == *first && dst[2048..].iter().all(|b| *b == 7));
    let mut cut = record.clone();
    cut.tables.chunk_encoding.lengths[0] = 17;
    assert_eq!(raw::unpack_levels(&cut, &file, &crn.palettes(), 0, &mut budget, &mut dst).refusal, 6);
}

#[test]
fn a_budget_of_0_leaves_the_blocks_zero_and_all_else_as_it_was() {
    let file = sample("cube.crn");
    let crn = Crn::open(&file).unwrap();
    let sizes = crn.level_sizes(1).unwrap();
    // 24 bytes between rows, 12 more between faces, and some after the last
    let (pitch, distance) = (sizes.pitch + 24, sizes.rows * (sizes.pitch + 24) + 12);
    let before = pattern(6 * distance + 30);
    let mut asked = before.clone();
    (0..6).for_each(|face| (0..sizes.rows).for_each(|row| asked[face * distance + row * pitch..][..sizes.pitch].fill(0)));
    let (mut dst, mut budget) = (before.clone(), 0);
    let no = crn.unpack_level_into(1, pitch, distance, &mut budget, &mut dst).unwrap_err();
    assert_eq!((no.refusal, no.place.unwrap().bit), (Refusal::Budget, Some(0)));
    assert!(dst == asked && budget == 0);
    // all levels in one call: the first of them, and no byte after its blocks
    let (mut asked, mut dst) = (before.clone(), before);
    asked[..sizes.bytes].fill(0);
    let answer = raw::unpack_levels(&record_of(&file), &file, &crn.palettes(), 1, &mut budget, &mut dst);
    assert_eq!(numbers(&answer), (15, 0, 0, 0, 0));
    assert!(dst == asked && budget == 0);
}

/// A call of level 0 of a file, to be spoilt.
struct Call<'a> {
    record: Box<raw::Record>,
    palettes: raw::Palettes<'a>,
    level: u32,
    pitch: usize,
    budget: u64,
    len: usize,
}

/// 2, 4, 5, 6, 10, 11 and 12 come before the first draw and leave the destination untouched; 7, 8, 13, 14 and 15 leave the grid's blocks zero.
#[test]
fn what_a_refused_level_leaves_goes_by_its_number() {
    let file = sample("cube.crn");
    let crn = Crn::open(&file).unwrap();
    let sizes = crn.level_sizes(0).unwrap();
    type Spoil = fn(&mut Call);
    let spoilt: [(u32, Spoil); 13] = [
        (2, |c| c.record.header.width = 5000),
        (4, |c| c.record.header.level_offsets[0] = u32::MAX),
        (5, |c| c.palettes.color_endpoints = &[]),
        (6, |c| c.record.tables.chunk_encoding.lengths[0] = 17),
        (10, |c| c.level = 5),
        (11, |c| c.pitch = 4),
        (12, |c| c.len = 767),
        // one code, of 16 zeros
        (7, |c| c.record.tables.chunk_encoding.lengths = std::array::from_fn(|i| if i == 0 { 16 } else { 0 })),
        // a segment of one byte
        (8, |c| c.record.header.level_offsets[1] = c.record.header.level_offsets[0] + 1),
        // every chunk symbol 1,024 higher
        (13, |c| {
            c.record.tables.chunk_encoding.count = 8192;
            c.record.tables.chunk_encoding.lengths.rotate_right(1024);
        }),
        (14, |c| c.record.header.color_endpoints.count = 1),
        (15, |c| c.budget = 0),
        (15, |c| c.budget = 100),
    ];
    for (number, spoil) in spoilt {
        let mut call = Call { record: record_of(&file), palettes: crn.palettes(), level: 0, pitch: sizes.pitch + 8, budget: sizes.symbols, len: 2000 };
        spoil(&mut call);
        let (distance, before) = (sizes.rows * (sizes.pitch + 8) + 4, pattern(call.len));
        let (mut apart, mut close) = (before.clone(), before.clone());
        let early = matches!(number, 2 | 4 | 5 | 6 | 10 | 11 | 12);
        if !early {
            (0..6).for_each(|face| (0..sizes.rows).for_each(|row| apart[face * distance + row * call.pitch..][..sizes.pitch].fill(0)));
            close[..sizes.bytes].fill(0);
        }
        let (mut dst, mut budget) = (before.clone(), call.budget);
        let one = raw::unpack_level(&call.record, &file, &call.palettes, call.level, call.pitch, distance, &mut budget, &mut dst);
        assert_eq!((one.refusal, one.cutouts, call.budget - budget), (number, 0, one.symbols));
        assert!(!early || one.symbols == 0 && one.at == 0);
        assert!(dst == apart, "a level refused by {number}");
        if number == 11 {
            continue; // whose pitch is not asked
        }
        let (mut dst, mut budget) = (before, call.budget);
        let all = raw::unpack_levels(&call.record, &file, &call.palettes, call.level, &mut budget, &mut dst);
        assert_eq!((all.refusal, all.at, all.levels, all.symbols, all.cutouts), (number, one.at, 0, one.symbols, 0));
        assert!(dst == close, "all levels, the first refused by {number}");
    }
}

/// A DDS header, read by Microsoft's names at Microsoft's places: the magic, DDS_HEADER and, in it, DDS_PIXELFORMAT.
struct Head<'a>(&'a [u8]);

impl Head<'_> {
    fn word(&self, at: usize) -> u32 {
        u32::from_le_bytes(self.0[at..at + 4].try_into().unwrap())
    }

    /// Every field of the 128 bytes.
    fn check(&self, header: &raw::Header, letters: &[u8; 4], linear_size: usize) {
        let (mips, cube) = (header.levels > 1, header.faces == 6);
        assert_eq!(&self.0[..4], b"DDS ");
        let flags = 0x1 | 0x2 | 0x4 | 0x1000 | 0x20000 | 0x80000; // caps, height, width, pixel format, mip map count, linear size
        let named = [
            ("dwSize", 4, 124),
            ("dwFlags", 8, flags),
            ("dwHeight", 12, header.height),
            ("dwWidth", 16, header.width),
            ("dwPitchOrLinearSize", 20, linear_size as u32),
            ("dwDepth", 24, 0),
            ("dwMipMapCount", 28, header.levels),
            ("ddspf.dwSize", 76, 32),
            ("ddspf.dwFlags", 80, 0x4),
            ("ddspf.dwFourCC", 84, u32::from_le_bytes(*letters)),
            // texture; mip map; complex
            ("dwCaps", 108, 0x1000 + if mips { 0x400000 } else { 0 } + if mips || cube { 0x8 } else { 0 }),
            // cube map, +x -x +y -y +z -z
            ("dwCaps2", 112, if cube { 0x200 + 0x400 + 0x800 + 0x1000 + 0x2000 + 0x4000 + 0x8000 } else { 0 }),
        ];
        for (name, at, value) in named {
            assert_eq!((name, self.word(at)), (name, value));
        }
        // dwReserved1, the bit count and the masks, dwCaps3, dwCaps4, dwReserved2
        let unused = (32..76).chain(88..108).chain(116..128);
        assert!(unused.into_iter().all(|at| self.0[at] == 0));
    }
}

/// What a DDS file has after its header: the blocks of unpack_level, faces outermost, each with its levels from large to small.
fn surfaces(crn: &Crn) -> Vec<u8> {
    let levels: Vec<_> = (0..crn.levels()).map(|level| crn.unpack_level(level).unwrap()).collect();
    (0..crn.faces() as usize).flat_map(|face| levels.iter().flat_map(move |level| level.face(face).unwrap().to_vec())).collect()
}

#[test]
fn a_dds_file_is_a_header_and_the_levels_blocks() {
    let letters = [("cube.crn", b"DXT1"), ("dxn.crn", b"BC5U"), ("dxt1.crn", b"DXT1"), ("dxt5.crn", b"DXT5"), ("dxt5a.crn", b"BC4U")];
    let letters = letters.into_iter().chain([("meadow.crn", b"DXT1")]).collect::<Vec<_>>();
    assert!(samples().iter().eq(letters.iter().map(|(name, _)| name)));
    for (name, letters) in letters {
        let file = sample(name);
        let crn = Crn::open(&file).unwrap();
        let (dds, bytes) = (crn.to_dds().unwrap(), crn.dds_bytes().unwrap());
        Head(&dds.bytes[..128]).check(crn.header(), letters, crn.level_sizes(0).unwrap().distance);
        assert_eq!((dds.bytes.len(), &dds.bytes[128..]), (bytes, &surfaces(&crn)[..]), "{name}");
        assert_eq!(dds.counts, crn.unpack_levels(0).unwrap().counts());
        // into a lent buffer: what lies beyond stays
        let before = pattern(bytes + 100);
        let mut dst = before.clone();
        let written = crn.write_dds_into(&mut dst).unwrap();
        assert_eq!((written.bytes, written.counts), (bytes, dds.counts));
        assert!(dst[..bytes] == dds.bytes && dst[bytes..] == before[bytes..], "{name}");
        // as long as it has to be, and one byte short
        let mut dst = before.clone();
        assert_eq!(crn.write_dds_into(&mut dst[..bytes]).unwrap(), written);
        assert!(dst[..bytes] == dds.bytes && dst[bytes..] == before[bytes..], "{name}");
        let mut dst = before.clone();
        let no = crn.write_dds_into(&mut dst[..bytes - 1]).unwrap_err();
        assert_eq!((no.refusal, no.level, no.to_string()), (Refusal::Destination, None, Refusal::Destination.to_string()));
        assert!(dst == before, "{name}");
        assert_eq!(crn.write_dds_into(&mut []).unwrap_err(), no);
    }
}

/// A header of one level has no mip maps, and one of six faces is complex all the same.
#[test]
fn a_dds_file_of_one_level_says_so() {
    for name in ["dxt1.crn", "cube.crn"] {
        let mut file = sample(name);
        file[16] = 1;
        let crn = Crn::open(&file).unwrap();
        let (dds, size) = (crn.to_dds().unwrap().bytes, crn.level_sizes(0).unwrap().distance);
        assert_eq!(dds.len(), 128 + crn.faces() as usize * size);
        Head(&dds[..128]).check(crn.header(), b"DXT1", size);
        assert!(dds[128..] == surfaces(&crn));
    }
}

#[test]
fn a_format_without_letters_is_refused_and_nothing_is_written() {
    for (name, format) in [("dxt5.crn", 3), ("dxt5.crn", 4), ("dxt5.crn", 5), ("dxt5.crn", 6), ("dxn.crn", 8)] {
        let (file, plain) = (of_format(name, format), sample(name));
        let crn = Crn::open(&file).unwrap();
        assert_eq!((crn.format().number(), crn.dds_bytes().unwrap_err().refusal), (format as u32, Refusal::Format));
        assert_eq!(crn.unpack_levels(0).unwrap().blocks(), Crn::open(&plain).unwrap().unpack_levels(0).unwrap().blocks());
        let (before, no) = (pattern(4096), crn.to_dds().unwrap_err());
        assert_eq!((no.refusal, no.refusal.number(), no.level), (Refusal::Format, 16, None));
        assert!(no.to_string().starts_with("refused, 16: DDS has no letters for this file's format"));
        // 16 comes before 12
        for len in [4096, 0] {
            let mut dst = before.clone();
            assert_eq!(crn.write_dds_into(&mut dst[..len]).unwrap_err(), no);
            assert!(dst == before);
        }
        assert_eq!((raw::dds_bytes(crn.header()).refusal, raw::dds_bytes(crn.header()).bytes), (16, 0));
    }
}

#[test]
fn a_refused_level_leaves_no_byte_of_a_dds_file() {
    let (mut empty, cut) = (sample("dxt1.crn"), cut_level());
    // level 3 begins where level 4 does
    empty.copy_within(86..90, 82);
    for (file, level) in [(cut, 1), (empty, 3)] {
        let crn = Crn::open(&file).unwrap();
        let (bytes, refused) = (crn.dds_bytes().unwrap(), crn.unpack_level(level).unwrap_err());
        assert!((0..level).all(|before| crn.unpack_level(before).is_ok()));
        let before = pattern(bytes + 100);
        let mut dst = before.clone();
        let no = crn.write_dds_into(&mut dst).unwrap_err();
        assert!(no == refused && no.level == Some(level) && no.to_string().starts_with(&format!("level {level}: refused, ")));
        let stopped = crn.unpack_levels(0).unwrap_err();
        assert_eq!((stopped.refused, stopped.before.len()), (refused, level as usize));
        let good: Vec<u8> = (0..level).flat_map(|n| crn.unpack_level(n).unwrap().into_blocks()).collect();
        assert_eq!(stopped.before.blocks(), good);
        // blocks of another file are gone from a buffer that is used again
        let mut kept = pattern(100_000);
        assert_eq!((crn.unpack_levels_into(0, &mut kept), &kept), (Err(refused), &good));
        assert!(dst[..bytes].iter().all(|byte| *byte == 0) && dst[bytes..] == before[bytes..]);
        assert_eq!(crn.to_dds().unwrap_err(), no);
    }
}

/// An answer's numbers, in their order.
fn written(a: &raw::Written) -> (u32, u32, usize, usize, u64, u64) {
    (a.refusal, a.level, a.at, a.bytes, a.symbols, a.cutouts)
}

/// 2, 6, 16 and 12 are looked at in this order and leave the destination untouched. 4, 5, 7, 8, 13 and 14 are a level's: they come with its
/// number, its bit and the symbols drawn so far, and leave the file's bytes zero.
#[test]
fn what_a_refused_dds_file_leaves_goes_by_its_number() {
    let file = sample("cube.crn");
    let crn = Crn::open(&file).unwrap();
    let bytes = crn.dds_bytes().unwrap();
    type Spoil = fn(&mut raw::Record, &mut raw::Palettes);
    let early: [(u32, Spoil); 4] = [
        (12, |_, _| ()),
        (16, |record, _| {
            record.header.format = 3;
            record.header.alpha_endpoints.count = 1;
            record.header.alpha_selectors.count = 1;
        }),
        (6, |record, _| record.tables.chunk_encoding.lengths[0] = 17),
        (2, |record, _| record.header.width = 5000),
    ];
    let before = pattern(bytes + 100);
    let mut record = record_of(&file);
    let mut palettes = crn.palettes();
    for (number, spoil) in early {
        // each with all those that come after it
        spoil(&mut record, &mut palettes);
        let mut dst = before.clone();
        let answer = raw::write_dds(&record, &file, &palettes, &mut dst[..bytes - 1]);
        assert_eq!(written(&answer), (number, 0, 0, 0, 0, 0));
        assert!(dst == before, "refused by {number}");
    }
    let late: [(u32, u32, Spoil); 8] = [
        (4, 0, |record, _| record.header.level_offsets[0] = u32::MAX),
        (4, 2, |record, _| record.header.level_offsets[3] = record.header.level_offsets[2]),
        (5, 0, |_, palettes| palettes.color_selectors = &palettes.color_selectors[1..]),
        (7, 0, |record, _| record.tables.chunk_encoding.lengths = std::array::from_fn(|i| if i == 0 { 16 } else { 0 })),
        (8, 3, |record, _| record.header.level_offsets[4] = record.header.level_offsets[3] + 1),
        (8, 4, |record, _| record.header.level_offsets[4] = 442),
        (13, 0, |record, _| {
            record.tables.chunk_encoding.count = 8192;
            record.tables.chunk_encoding.lengths.rotate_right(1024);
        }),
        (14, 0, |record, _| record.header.color_endpoints.count = 1),
    ];
    for (number, level, spoil) in late {
        let (mut record, mut palettes) = (record_of(&file), crn.palettes());
        spoil(&mut record, &mut palettes);
        // the levels up to it, each by a call of its own
        let (mut symbols, mut at) = (0, 0);
        for n in 0..=level {
            let sizes = raw::level_sizes(&record.header, n);
            let (mut blocks, mut budget) = (vec![0; sizes.bytes], sizes.symbols);
            let one = raw::unpack_level(&record, &file, &palettes, n, sizes.pitch, sizes.distance, &mut budget, &mut blocks);
            assert_eq!(one.refusal, if n < level { 0 } else { number }, "level {n}");
            (symbols, at) = (symbols + one.symbols, one.at);
        }
        let mut dst = before.clone();
        let answer = raw::write_dds(&record, &file, &palettes, &mut dst);
        assert_eq!(written(&answer), (number, level, at, 0, symbols, 0));
        assert!(dst[..bytes].iter().all(|byte| *byte == 0) && dst[bytes..] == before[bytes..], "refused by {number}");
    }
}

/// The largest level there is: six faces of 4,096 by 4,096 pixels, every code one bit, all of them 0.
#[test]
fn the_largest_level_is_unpacked_whole() {
    let sample = sample("dxt1.crn");
    let mut record = raw::Record::empty();
    raw::open(
        &sample,
        &mut raw::PalettesMut { color_endpoints: &mut [0; 40], color_selectors: &mut [0; 40], alpha_endpoints: &mut [], alpha_selectors: &mut [] },
        &mut record,
    );
    let header = &mut record.header;
    (header.width, header.height, header.levels, header.faces, header.level_offsets) = (4096, 4096, 1, 6, [0; 13]);
    let tables = &mut record.tables;
    for table in [&mut tables.chunk_encoding, &mut tables.color_endpoint_delta, &mut tables.color_selector_delta] {
        (table.count, table.lengths) = (1, [0; 8192]);
        table.lengths[0] = 1;
    }
    let sizes = raw::level_sizes(&record.header, 0);
    let chunks = 6 * 512 * 512;
    assert_eq!((sizes.bytes, sizes.symbols), (6 * 1024 * 1024 * 8, 8 * chunks + chunks / 3));
    // a chunk of one tile takes an endpoint and four selectors
    let symbols = 5 * chunks + chunks / 3;
    let (file, mut dst, mut budget) = (vec![0; symbols.div_ceil(8) as usize], vec![1; 128 + sizes.bytes], sizes.symbols);
    let palettes = raw::Palettes { color_endpoints: &[7; 40], color_selectors: &[9; 40], alpha_endpoints: &[], alpha_selectors: &[] };
    let answer = raw::unpack_level(&record, &file, &palettes, 0, sizes.pitch, sizes.distance, &mut budget, &mut dst);
    assert_eq!((answer.refusal, answer.at, answer.symbols, answer.cutouts), (0, 0, symbols, 0));
    let all_there = |blocks: &[u8]| blocks.chunks(8).all(|block| block == [7, 0, 0, 0, 9, 0, 0, 0]);
    assert!(all_there(&dst[..sizes.bytes]));
    let answer = raw::write_dds(&record, &file, &palettes, &mut dst);
    assert_eq!(written(&answer), (0, 0, 0, dst.len(), symbols, 0));
    assert!(all_there(&dst[128..]));
}

#[test]
fn nothing_is_unsafe_outside_one_module() {
    for file in names(&root("rust/src")).iter().filter(|n| n.ends_with(".rs") && *n != "raw.rs") {
        let text = std::fs::read_to_string(root("rust/src").join(file)).unwrap();
        let code = text.lines().filter(|l| !l.trim_start().starts_with("//") && !l.contains("unsafe_code"));
        assert!(code.into_iter().all(|l| !l.contains("unsafe")), "{file}");
    }
    assert!(std::fs::read_to_string(root("rust/src/lib.rs")).unwrap().contains("#![deny(unsafe_code)]"));
}
