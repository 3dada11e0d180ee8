//! `crn-fuzz [--seed S] (--rounds N | MINUTES) FILE..`: damaged files and wild arguments for the package's functions, with guards around every buffer. What a call may
//! answer and leave is held to the promises: see `looked`, `opened`, `loaded`, `told`, `level_told`, `unpacked`, `written` and `pixels`. It
//! ends at the first broken one, with the seed of the round that broke it.
#![forbid(unsafe_code)]

mod plain;

use crunch_proved::raw::{self, Face, Looked, Opened, Palettes, PalettesMut, Part, Record, HEAD_BYTES};
use crunch_proved::{texels, Buffers, Crn, Format, Header, Level, Limits, NotRead, Refusal, Refused};
use std::time::{Duration, Instant};

/// Marsaglia's xorshift, of 64 bits.
struct Dice(u64);

impl Dice {
    fn new(seed: u64) -> Dice {
        let mut dice = Dice(seed.wrapping_mul(0x9E37_79B9_7F4A_7C15) | 1);
        (0..8).for_each(|_| _ = dice.next());
        dice
    }

    fn next(&mut self) -> u64 {
        self.0 ^= self.0 << 13;
        self.0 ^= self.0 >> 7;
        self.0 ^= self.0 << 17;
        self.0
    }

    fn below(&mut self, n: usize) -> usize {
        (self.next() >> 11) as usize % n.max(1)
    }

    fn one_in(&mut self, n: usize) -> bool {
        self.below(n) == 0
    }

    /// A number near n, or any.
    fn wild(&mut self, n: u64) -> u64 {
        match self.below(8) {
            0 => 0,
            1 => n.wrapping_sub(1),
            2 => n.wrapping_add(1),
            3 => n.wrapping_add(4),
            4 => self.next(),
            5 => self.next() >> self.below(64),
            6 => u64::MAX,
            _ => n,
        }
    }
}

/// A buffer between two guards.
#[derive(Clone)]
struct Guarded<T> {
    all: Vec<T>,
    len: usize,
}

const GUARD: usize = 64;

impl<T: Copy + PartialEq + From<u8>> Guarded<T> {
    fn new(len: usize, dice: &mut Dice) -> Guarded<T> {
        let mut all = vec![T::from(0xA5); len + 2 * GUARD];
        all[GUARD..GUARD + len].iter_mut().for_each(|x| *x = T::from(dice.next() as u8 | 1));
        Guarded { all, len }
    }

    fn lent(&mut self) -> &mut [T] {
        &mut self.all[GUARD..GUARD + self.len]
    }

    fn held(&self) -> &[T] {
        &self.all[GUARD..GUARD + self.len]
    }

    fn check(&self, what: &str) {
        let guard = T::from(0xA5);
        let whole = self.all[..GUARD].iter().chain(&self.all[GUARD + self.len..]).all(|x| *x == guard);
        assert!(whole, "a byte beside {what} was written");
    }
}

/// The four palettes' buffers.
#[derive(Clone)]
struct Lent {
    ce: Guarded<u32>,
    cs: Guarded<u32>,
    ae: Guarded<u16>,
    al: Guarded<u16>,
}

impl Lent {
    fn read(&self) -> Palettes<'_> {
        Palettes { color_endpoints: self.ce.held(), color_selectors: self.cs.held(), alpha_endpoints: self.ae.held(), alpha_selectors: self.al.held() }
    }

    fn write(&mut self) -> PalettesMut<'_> {
        let Lent { ce, cs, ae, al } = self;
        PalettesMut { color_endpoints: ce.lent(), color_selectors: cs.lent(), alpha_endpoints: ae.lent(), alpha_selectors: al.lent() }
    }

    /// Each word, of 32 bits, of the four buffers.
    fn words(&self) -> [Vec<u32>; 4] {
        let wide = |b: &[u16]| b.iter().map(|w| *w as u32).collect();
        [self.ce.held().to_vec(), self.cs.held().to_vec(), wide(self.ae.held()), wide(self.al.held())]
    }

    fn check(&self) {
        self.ce.check("the colour endpoints");
        self.cs.check("the colour selectors");
        self.ae.check("the alpha endpoints");
        self.al.check("the alpha selectors");
    }
}

/// How often each answer came, by its number.
#[derive(Default)]
struct Tally {
    opened: Counts,
    loaded: Counts,
    unpacked: Counts,
    written: Counts,
    pixels: Counts,
}

type Counts = [u64; 29];

fn damaged(file: &[u8], dice: &mut Dice) -> Vec<u8> {
    let mut out = file.to_vec();
    match dice.below(6) {
        0 => return out,
        1 => out.truncate(dice.below(file.len() + 1)),
        2 => (0..dice.below(9)).for_each(|_| out.push(dice.next() as u8)),
        _ => {}
    }
    for _ in 0..dice.below(4) {
        // the header's fields and the heads of the segments are hit more often than the rest
        let reach = [out.len(), 74, 200][dice.below(3)].min(out.len());
        if reach > 0 {
            let at = dice.below(reach);
            out[at] = [out[at] ^ 1 << dice.below(8), dice.next() as u8, 0, 0xFF][dice.below(4)];
        }
    }
    out
}

/// A record that something else was in.
fn used() -> Box<Record> {
    let mut record = Record::empty();
    let t = &mut record.tables;
    for table in [&mut t.chunk_encoding, &mut t.color_endpoint_delta, &mut t.color_selector_delta, &mut t.alpha_endpoint_delta, &mut t.alpha_selector_delta] {
        table.count = 0xA5;
        table.lengths.fill(0xA5);
    }
    record
}

/// A file looked at: by its first bytes, whatever follows them there, as by the whole.
fn looked(file: &[u8], dice: &mut Dice) -> Looked {
    let looked = raw::look(file);
    let head = &file[..file.len().min(HEAD_BYTES)];
    let noise: Vec<u8> = (0..dice.below(40)).map(|_| dice.next() as u8).collect();
    assert_eq!(raw::look_at(head, file.len()), looked, "the first bytes are looked at otherwise");
    if head.len() == HEAD_BYTES {
        assert_eq!(raw::look_at(&[head, &noise[..]].concat(), file.len()), looked, "bytes after the first have a say");
    }
    assert!(looked.refusal == 0 || looked.header == Header::default(), "refused, and there is a header");
    let (len, whole) = (file.len() as u64, Crn::look(file));
    let read = Crn::look_read(file, dice.one_in(2).then_some(len)).map_err(refusal);
    assert!(whole == read && whole == Crn::look_at(head, len), "the package's looks part ways");
    assert_eq!((whole.map_or_else(|no| no.number(), |_| 0), whole.unwrap_or_default()), (looked.refusal, looked.header));
    looked
}

fn refusal(not: NotRead) -> Refused {
    match not {
        NotRead::Refused(no) => no,
        other => panic!("{other}"),
    }
}

/// A file opened. Refused by 1 to 5 it leaves the buffers untouched, by 6 to 9 zero, and by all an empty record; accepted, it leaves what lies beyond each palette
/// untouched. Loaded by what the look gave, it is the same, with all that is left.
fn opened(file: &[u8], near: bool, dice: &mut Dice, tally: &mut Tally) -> (Opened, Box<Record>, Lent) {
    let looked = looked(file, dice);
    let words = raw::palette_words(&looked.header);
    let mut len = |n: usize| if near { (dice.wild(n as u64) as usize).min(30_000) } else { n };
    let lens = [len(words.color_endpoints), len(words.color_selectors), len(words.alpha_endpoints), len(words.alpha_selectors)];
    let mut lent = Lent { ce: Guarded::new(lens[0], dice), cs: Guarded::new(lens[1], dice), ae: Guarded::new(lens[2], dice), al: Guarded::new(lens[3], dice) };
    let (before, mut record, mut other) = (lent.words(), used(), lent.clone());
    let o = raw::open(file, &mut lent.write(), &mut record);
    lent.check();
    if looked.refusal == 0 {
        let (answer, left) = loaded(&looked.header, file, &mut other, tally);
        assert!(answer == o && left == record && other.words() == lent.words(), "a load after a look is no opening");
    } else {
        disagrees(&looked.header, file, other, tally);
    }
    let after = lent.words();
    tally.opened[o.refusal as usize] += 1;
    assert!(matches!(o.refusal, 0..=9), "opening gave {}", o.refusal);
    assert_eq!(looked.refusal, if o.refusal <= 3 { o.refusal } else { 0 }, "look and open part ways");
    match o.refusal {
        0 => {
            let ends = [words.color_endpoints, words.color_selectors, words.alpha_endpoints, words.alpha_selectors];
            assert_eq!(record.header, looked.header);
            assert!((0..4).all(|p| after[p][ends[p]..] == before[p][ends[p]..]), "a word beyond a palette was written");
        }
        1..=5 => assert_eq!(before, after, "refused by {}, and a palette was written", o.refusal),
        _ => assert!(after.iter().flatten().all(|w| *w == 0), "refused by {}, and a palette is not zero", o.refusal),
    }
    assert!(o.refusal == 0 || record == Record::empty(), "refused by {}, and the record is not empty", o.refusal);
    assert!(near || o.refusal != 5, "palettes of the words that were told are too short");
    (o, record, lent)
}

/// A file loaded by a header.
fn loaded(header: &Header, file: &[u8], lent: &mut Lent, tally: &mut Tally) -> (Opened, Box<Record>) {
    let mut record = used();
    let answer = raw::load(header, file, &mut lent.write(), &mut record);
    lent.check();
    tally.loaded[answer.refusal as usize] += 1;
    (answer, record)
}

/// A file loaded by a header that is not its own: refused by 17, with all that was lent as it was.
fn disagrees(header: &Header, file: &[u8], mut lent: Lent, tally: &mut Tally) {
    let before = lent.words();
    let (answer, record) = loaded(header, file, &mut lent, tally);
    assert_eq!((answer.refusal, answer.at), (17, 0), "a header that is not the file's");
    assert!(before == lent.words() && record == used(), "refused by 17, and something was written");
}

/// Loads by headers that are not the file's: with one number changed, and another file's. The package says the same of them, and which
/// field it is.
fn foreign(file: &[u8], other: &[u8], lent: &Lent, buffers: &mut Buffers, dice: &mut Dice, tally: &mut Tally) {
    let own = raw::look(file);
    let mut changed = own.header;
    let all = numbers(&mut changed);
    let n = dice.below(all.len());
    let Some(number) = all.into_iter().nth(n) else { return };
    *number = dice.wild(*number as u64) as u32;
    for header in [changed, raw::look(other).header] {
        if own.refusal == 0 && header == own.header {
            assert_eq!(Crn::load_with(&header, file, buffers).err(), Crn::open(file).err(), "a load and an opening part ways");
            continue;
        }
        disagrees(&header, file, lent.clone(), tally);
        let no = Crn::load_with(&header, file, buffers).map(|_| ()).expect_err("a header that is not the file's was taken");
        assert_eq!((no.refusal, no.file.map_or(0, Refusal::number)), (Refusal::Disagrees, own.refusal), "{no}");
        assert!(own.refusal != 0 || no.reason.is_some_and(|r| r.value != r.least && r.least == r.most), "{no}");
    }
}

/// Every number of a header.
fn numbers(h: &mut Header) -> Vec<&mut u32> {
    let mut all = vec![&mut h.header_size, &mut h.header_crc16, &mut h.data_size, &mut h.data_crc16, &mut h.width, &mut h.height];
    all.extend([&mut h.levels, &mut h.faces, &mut h.format, &mut h.flags, &mut h.reserved, &mut h.userdata0, &mut h.userdata1]);
    for part in [&mut h.color_endpoints, &mut h.color_selectors, &mut h.alpha_endpoints, &mut h.alpha_selectors] {
        all.extend([&mut part.offset, &mut part.size, &mut part.count]);
    }
    all.extend([&mut h.tables_size, &mut h.tables_offset]);
    all.extend(&mut h.level_offsets);
    all
}

/// A level unpacked. Its symbols are taken off the budget. Refused before its first draw it leaves the destination untouched, refused later it leaves its blocks zero;
/// bytes that belong to no block stay. What it gives does not hang on pitch, distance or what the destination held.
fn unpacked(record: &Record, file: &[u8], lent: &Lent, dice: &mut Dice, tally: &mut Tally) {
    let there = dice.below(record.header.levels.min(13) as usize) as u64;
    let level = if dice.one_in(6) { dice.wild(there) as u32 } else { there as u32 };
    let sizes = raw::level_sizes(&record.header, level);
    let faces = record.header.faces as usize;
    let apart = |tight: usize, dice: &mut Dice| match dice.below(4) {
        0 => tight.wrapping_add(4 * dice.below(20)),
        1 => dice.wild(tight as u64) as usize,
        _ => tight,
    };
    let pitch = apart(sizes.pitch, dice);
    let distance = apart(sizes.rows.wrapping_mul(pitch), dice);
    let reach = (faces as u128).saturating_sub(1) * distance as u128 + (sizes.rows as u128).saturating_sub(1) * pitch as u128 + sizes.pitch as u128;
    let reach = reach.min(200_000) as usize;
    let len = if dice.one_in(4) { (dice.wild(reach as u64) as usize).min(200_000) } else { reach };
    let given = if dice.one_in(4) { dice.wild(sizes.symbols) } else { sizes.symbols };
    let (mut dst, mut budget) = (Guarded::<u8>::new(len, dice), given);
    let before = dst.held().to_vec();
    let answer = raw::unpack_level(record, file, &lent.read(), level, pitch, distance, &mut budget, dst.lent());
    dst.check("the destination");
    lent.check();
    tally.unpacked[answer.refusal as usize] += 1;
    let after = dst.held();
    assert!(matches!(answer.refusal, 0 | 2 | 4..=8 | 10..=15), "a level gave {}", answer.refusal);
    assert_eq!(given - budget, answer.symbols, "the budget was not counted down by the symbols");
    assert!(answer.refusal != 15 || given < sizes.symbols, "the full allowance was too little");
    // 6 comes between 2 and 10
    assert_eq!(answer.refusal == 2, sizes.refusal == 2, "a level and its sizes part ways");
    assert_eq!(answer.refusal == 10, sizes.refusal == 10 && answer.refusal != 6, "a level and its sizes part ways");
    if matches!(answer.refusal, 2 | 4 | 5 | 6 | 10 | 11 | 12) {
        assert!(before == after && answer.symbols == 0 && answer.at == 0, "refused by {} before the first draw, and something was done", answer.refusal);
        return;
    }
    // all that a block does not cover is as before
    let mut covered = vec![false; len];
    let row = sizes.columns * sizes.block_bytes;
    let rows: Vec<usize> = (0..faces).flat_map(|f| (0..sizes.rows).map(move |y| f * distance + y * pitch)).collect();
    rows.iter().for_each(|at| covered[*at..at + row].fill(true));
    assert!((0..len).all(|i| covered[i] || before[i] == after[i]), "a byte outside the blocks was written");
    if answer.refusal != 0 {
        assert!(answer.cutouts == 0 && (0..len).all(|i| !covered[i] || after[i] == 0), "refused by {}, and a block is not zero", answer.refusal);
        return;
    }
    let blocks: Vec<u8> = rows.iter().flat_map(|at| after[*at..at + row].to_vec()).collect();
    let word = |b: &[u8], i: usize| b[i] as u32 + 256 * b[i + 1] as u32;
    let cutouts = if record.header.format == 0 { blocks.chunks(8).filter(|b| word(b, 0) < word(b, 2)).count() as u64 } else { 0 };
    assert_eq!(answer.cutouts, cutouts, "the cut-outs are miscounted");
    // once more, close together, with what the first call took: the same; with one symbol less: refused
    for (less, refusal) in [(0, 0), (1, 15)] {
        let (mut again, mut budget) = (Guarded::<u8>::new(sizes.bytes, dice), answer.symbols - less);
        let second = raw::unpack_level(record, file, &lent.read(), level, sizes.pitch, sizes.distance, &mut budget, again.lent());
        again.check("the destination");
        assert_eq!((second.refusal, budget), (refusal, 0));
        assert!(refusal != 0 || again.held() == blocks, "another call gave other blocks");
    }
}

/// The formats that go out as DDS.
const LETTERS: [(u32, &[u8; 4]); 4] = [(0, b"DXT1"), (2, b"DXT5"), (7, b"BC5U"), (9, b"BC4U")];

/// The first 128 bytes of a DDS file, as Microsoft has them.
fn dds_head(h: &raw::Header, level_0: usize) -> Vec<u8> {
    let letters = |four: &[u8; 4]| u32::from_le_bytes(*four);
    let mut words = [0; 32];
    words[0] = letters(b"DDS ");
    words[1..8].copy_from_slice(&[124, 0xA1007, h.height, h.width, level_0 as u32, 0, h.levels]);
    words[19..22].copy_from_slice(&[32, 4, letters(LETTERS.iter().find(|l| l.0 == h.format).unwrap().1)]);
    words[27] = 0x1000 | if h.levels > 1 { 0x400008 } else { 0 } | if h.faces > 1 { 8 } else { 0 };
    words[28] = if h.faces > 1 { 0xFE00 } else { 0 };
    words.iter().flat_map(|word| word.to_le_bytes()).collect()
}

/// A DDS file written. Refused by 2, 6, 16 or 12, in this order, it leaves the destination untouched. Refused where `unpack_level` refuses
/// a level, with its number, its bit and the symbols so far, it leaves the file's bytes zero. Accepted, it leaves a header and the levels'
/// blocks. Bytes beyond the file stay.
fn written(record: &Record, file: &[u8], lent: &Lent, dice: &mut Dice, tally: &mut Tally) {
    let h = &record.header;
    let sizes: Vec<_> = (0..h.levels.min(13)).map(|level| raw::level_sizes(h, level)).collect();
    let needed = raw::dds_bytes(h);
    let face: usize = sizes.iter().map(|s| s.distance).sum();
    let told = match raw::level_sizes(h, 0).refusal {
        0 if LETTERS.iter().any(|l| l.0 == h.format) => (0, 128 + h.faces as usize * face),
        0 => (16, 0),
        _ => (2, 0),
    };
    assert_eq!((needed.refusal, needed.bytes), told, "the bytes of a DDS file are told wrongly");
    let len = if dice.one_in(3) { dice.wild(needed.bytes as u64) as usize } else { needed.bytes + dice.below(40) }.min(200_000);
    let mut dst = Guarded::<u8>::new(len, dice);
    let before = dst.held().to_vec();
    let answer = raw::write_dds(record, file, &lent.read(), dst.lent());
    dst.check("the destination");
    lent.check();
    tally.written[answer.refusal as usize] += 1;
    // of a level that no file has, only the record is judged: 2, 6 or 10
    let judged = raw::unpack_level(record, file, &lent.read(), 13, 0, 0, &mut 0, &mut []).refusal;
    let early = match judged {
        2 | 6 => judged,
        _ if needed.refusal != 0 => needed.refusal,
        _ if len < needed.bytes => 12,
        _ => 0,
    };
    let mut asked = raw::Written::default();
    asked.refusal = early;
    if early != 0 {
        assert_eq!(answer, asked, "before any level");
        assert!(dst.held() == before, "refused by {early} before any level, and something was written");
        return;
    }
    let mut whole = vec![0; needed.bytes];
    let mut from = 128;
    for (level, sizes) in (0..).zip(&sizes) {
        let (mut blocks, mut budget) = (vec![0xA5; sizes.bytes], sizes.symbols);
        let one = raw::unpack_level(record, file, &lent.read(), level, sizes.pitch, sizes.distance, &mut budget, &mut blocks);
        asked.symbols += one.symbols;
        if one.refusal != 0 {
            (asked.refusal, asked.level, asked.at, asked.cutouts) = (one.refusal, level, one.at, 0);
            break;
        }
        asked.cutouts += one.cutouts;
        for (f, surface) in blocks.chunks(sizes.distance).enumerate() {
            whole[from + f * face..][..surface.len()].copy_from_slice(surface);
        }
        from += sizes.distance;
    }
    if asked.refusal == 0 {
        asked.bytes = needed.bytes;
        whole[..128].copy_from_slice(&dds_head(h, sizes[0].distance));
    } else {
        whole.fill(0);
    }
    assert_eq!(answer, asked, "a DDS file and its levels part ways");
    assert!(dst.held()[..whole.len()] == whole, "refused by {}, and the file's bytes are others", asked.refusal);
    assert!(dst.held()[whole.len()..] == before[whole.len()..], "a byte beyond the file was written");
}

/// A file by the package: what it opens to, and what it says of a refusal.
fn told(file: &[u8], refusal: u32, at: usize, buffers: &mut Buffers) {
    let fields = Header::read(file);
    assert_eq!(fields.is_none(), refusal == 1, "a header that is read and refused by 1, or neither");
    match Crn::read_with(file, &Limits::default(), buffers) {
        Ok(crn) => {
            assert_eq!((refusal, fields), (0, Some(*crn.header())), "the header is read otherwise");
            assert_eq!(crn.file(), file);
        }
        Err(NotRead::Refused(no)) => {
            assert_eq!((no.number(), no.level), (refusal, None), "Crn::read_with and open part ways");
            assert_eq!(no.reason.is_some(), matches!(refusal, 2 | 3), "{no}");
            // of a stream nothing is told where a segment lies in the header
            let within = matches!(refusal, 6..=9) && fields.is_some_and(|h| segment_below_70(&h));
            assert_eq!(no.place.is_some(), matches!(refusal, 4 | 6..=9) && !within, "{no}");
            assert_eq!(no.place.and_then(|place| place.bit), (matches!(refusal, 6..=9) && !within).then_some(at as u64), "{no}");
            assert!(no.reason.is_none_or(|r| r.value < r.least || r.value > r.most || ["faces", "format"].contains(&r.field)), "{no}");
        }
        Err(other) => panic!("{other}"),
    }
}

/// Whether a segment that opening reads begins among a header's fields.
fn segment_below_70(h: &Header) -> bool {
    let plane = |ends: Part, sels: Part| ends.count > 0 && (ends.offset < 70 || sels.offset < 70);
    h.tables_offset < 70 || plane(h.color_endpoints, h.color_selectors) || plane(h.alpha_endpoints, h.alpha_selectors)
}

/// A level by the package: as by a destination of its whole size.
fn level_told(crn: &Crn, level: u32) {
    let sizes = crn.level_sizes(level);
    let made = crn.unpack_level(level);
    let Ok(sizes) = sizes else {
        assert_eq!(made.err(), sizes.err(), "a level without sizes was unpacked");
        return;
    };
    let (mut whole, mut budget) = (vec![0xA5; sizes.bytes], sizes.symbols);
    match crn.unpack_level_into(level, sizes.pitch, sizes.distance, &mut budget, &mut whole) {
        Ok(counts) => {
            let made = made.unwrap_or_else(|no| panic!("a level is refused otherwise: {no}"));
            assert!(made.blocks() == whole && made.counts() == counts, "a level is other blocks");
            pictures(&made);
        }
        Err(no) => assert_eq!(made.err(), Some(no), "a level is refused otherwise"),
    }
}

/// Each face of a level has its pixels, and no other has.
fn pictures(level: &Level) {
    let (format, width, height) = (level.format().number(), level.width() as usize, level.height() as usize);
    for face in 0..level.faces() as usize {
        let mut asked = vec![0xA5; 4 * width * height];
        plain::texels(format, width, height, 4 * width, level.face(face).unwrap_or_default(), &mut asked);
        assert!(level.rgba(face) == Some(asked), "a face's pixels are others");
    }
    assert!(level.rgba(level.faces() as usize).is_none(), "a face that is not there has pixels");
}

/// Blocks without a pattern, some with ends that are equal.
fn some_blocks(len: usize, dice: &mut Dice) -> Guarded<u8> {
    let mut blocks = Guarded::new(len, dice);
    for half in blocks.lent().chunks_mut(8) {
        half.iter_mut().for_each(|byte| *byte = dice.next() as u8);
        if let ([a, b, c, d, ..], true) = (&mut *half, dice.one_in(8)) {
            // of an alpha block, or of a colour block
            [*b, *c, *d] = if dice.one_in(2) { [*a, *c, *d] } else { [*b, *a, *b] };
        }
    }
    blocks
}

/// Pixels of blocks, of any format and size, with any pitch, of too few blocks and into too little room too. The answer and what the buffer
/// holds then are the plain decoder's: a refusal leaves it untouched, and so are bytes that belong to no pixel.
fn pixels(dice: &mut Dice, tally: &mut Tally) {
    let format = if dice.one_in(10) { dice.wild(9) as u32 } else { dice.below(11) as u32 };
    let side = |dice: &mut Dice| if dice.one_in(20) { dice.wild(4096) as usize } else { 1 + dice.below(40) };
    let (width, height) = (side(dice), side(dice));
    let tight = width.saturating_mul(4);
    let pitch = match dice.below(4) {
        0 => dice.wild(tight as u64) as usize,
        1 => tight.saturating_add(dice.below(50)),
        _ => tight,
    };
    let block_bytes = Format::of(format).map_or(8, |format| format.kind().block_bytes());
    let enough = block_bytes as u128 * width.div_ceil(4) as u128 * height.div_ceil(4) as u128;
    let room = (height as u128).saturating_sub(1) * pitch as u128 + tight as u128;
    let near = |needed: u128, dice: &mut Dice| {
        let needed = needed.min(200_000) as usize;
        if dice.one_in(4) {
            dice.wild(needed as u64).min(200_000) as usize
        } else {
            needed + dice.below(40)
        }
    };
    let (len, room) = (near(enough, dice), near(room, dice));
    let (blocks, mut rgba) = (some_blocks(len, dice), Guarded::<u8>::new(room, dice));
    let (face, mut asked, mut again) = (Face { width, height, pitch }, rgba.held().to_vec(), rgba.clone());
    let refusal = raw::texels(format, face, blocks.held(), rgba.lent());
    blocks.check("the blocks");
    rgba.check("the picture");
    tally.pixels[refusal as usize] += 1;
    let by_the_rules = plain::texels(format, width, height, pitch, blocks.held(), &mut asked);
    assert_eq!(refusal, by_the_rules, "a picture is refused otherwise: format {format}, {face:?}");
    assert!(rgba.held() == asked, "the pixels are others: format {format}, {face:?}");
    // by the package, where it takes such a format and such sides
    if let (Some(format), Ok(width), Ok(height)) = (Format::of(format), u32::try_from(width), u32::try_from(height)) {
        let told = texels(format, width, height, pitch, blocks.held(), again.lent());
        assert_eq!(told.map_or_else(|no| no.number(), |()| 0), refusal, "texels and the archive's part ways");
        assert!(again.held() == asked, "texels and the archive's leave other pixels");
        assert!(told.err().is_none_or(|no| no.reason.is_some_and(|r| r.value < r.least || r.value > r.most)), "{told:?}");
    }
}

/// A record that nobody's file gave.
fn edited(record: &mut Record, dice: &mut Dice) {
    let h = &mut record.header;
    for _ in 0..1 + dice.below(3) {
        let fields = [&mut h.width, &mut h.height, &mut h.levels, &mut h.faces, &mut h.format, &mut h.color_endpoints.count, &mut h.alpha_selectors.count];
        let Some(field) = fields.into_iter().nth(dice.below(7)) else { return };
        *field = dice.wild(*field as u64) as u32;
    }
    let t = &mut record.tables;
    if dice.one_in(2) {
        let tables = [&mut t.chunk_encoding, &mut t.color_endpoint_delta, &mut t.color_selector_delta, &mut t.alpha_endpoint_delta];
        let Some(table) = tables.into_iter().nth(dice.below(4)) else { return };
        let at = dice.below(table.count.clamp(1, 8192) as usize);
        match dice.below(4) {
            0 => table.count = dice.wild(table.count as u64) as u32,
            // a symbol that no encoder sends
            1 => {
                table.lengths.swap(at, at % 1024 + 1024);
                table.count = 8192;
            }
            _ => table.lengths[at] = dice.below(20) as u8,
        }
    }
}

fn round(samples: &[Vec<u8>], seed: u64, buffers: &mut Buffers, tally: &mut Tally) {
    let dice = &mut Dice::new(seed);
    let whole = &samples[dice.below(samples.len())];
    let file = damaged(whole, dice);
    let near = dice.one_in(4);
    let (Opened { refusal, at, .. }, mut record, mut lent) = opened(&file, near, dice, tally);
    if !near {
        told(&file, refusal, at, buffers);
    }
    foreign(&file, &samples[dice.below(samples.len())], &lent, buffers, dice, tally);
    if let Ok(crn) = Crn::open_with(&file, buffers) {
        level_told(&crn, dice.below(20) as u32);
        if crn.dds_bytes().is_ok() {
            let levels = crn.unpack_levels(0);
            assert_eq!(
                crn.to_dds().map(|dds| dds.counts),
                levels.map(|levels| levels.counts()).map_err(|no| no.refused),
                "a DDS file and its levels part ways"
            );
        }
    }
    if refusal > 0 {
        // the whole file's record, beside the damaged file
        (_, record, lent) = opened(whole, false, dice, tally);
    }
    if dice.one_in(6) {
        edited(&mut record, dice);
    }
    for _ in 0..4 {
        unpacked(&record, &file, &lent, dice, tally);
    }
    if dice.one_in(8) && matches!(record.header.format, 2 | 7) {
        // the same blocks with their channels in another order, for which DDS has no letters
        record.header.format += 1;
    }
    written(&record, &file, &lent, dice, tally);
    pixels(dice, tally);
}

fn main() {
    let mut words = std::env::args().skip(1);
    let usage = "usage: crn-fuzz [--seed S] (--rounds N | MINUTES) FILE..";
    let (mut seed, mut rounds, mut until, mut samples) = (None, u64::MAX, None, Vec::new());
    while let Some(word) = words.next() {
        match word.as_str() {
            "--seed" => seed = Some(words.next().and_then(|w| w.parse().ok()).expect(usage)),
            "--rounds" => rounds = words.next().and_then(|w| w.parse().ok()).expect(usage),
            _ if until.is_none() && rounds == u64::MAX => {
                let minutes: f64 = word.parse().expect(usage);
                until = Some(Instant::now() + Duration::from_secs_f64(60.0 * minutes));
            }
            _ => samples.push(std::fs::read(&word).unwrap_or_else(|e| panic!("{word}: {e}"))),
        }
    }
    assert!(!samples.is_empty() && (until.is_some() || rounds < u64::MAX), "{usage}");
    let first = seed.unwrap_or_else(|| std::time::UNIX_EPOCH.elapsed().map_or(1, |t| t.as_secs() << 24));
    let (mut buffers, mut tally, mut n) = (Buffers::new(), Tally::default(), 0);
    while n < rounds && until.is_none_or(|end| Instant::now() < end) {
        let seed = first.wrapping_add(n);
        if let Err(broken) = std::panic::catch_unwind(std::panic::AssertUnwindSafe(|| round(&samples, seed, &mut buffers, &mut tally))) {
            eprintln!("crn-fuzz: a promise is broken; `crn-fuzz --seed {seed} --rounds 1` with the same files shows it");
            std::panic::resume_unwind(broken);
        }
        n += 1;
    }
    println!("{n} rounds from seed {first}, no promise broken");
    let Tally { opened, unpacked, written, loaded, pixels } = tally;
    for (what, counts) in [("opened", opened), ("unpacked", unpacked), ("written", written), ("loaded", loaded), ("pixels", pixels)] {
        let refused: Vec<String> = (1..counts.len()).filter(|r| counts[*r] > 0).map(|r| format!("{} by {r}", counts[r])).collect();
        println!("{what}: {} accepted; refused: {}", counts[0], refused.join(", "));
    }
}
