//! The same blocks as the Rust crate texture2ddecoder 0.1.2: samples/answers.txt has its answers, and the gate's program crn_cases has the answers of its own.
mod common;
use common::{hash, root, sample};
use crunch_proved::raw::{self, Header, Palettes, PalettesMut, Record};
use crunch_proved::{decode_crunch, Crn};

#[test]
fn levels_are_the_rust_crates() {
    let lines = std::fs::read_to_string(root("samples/answers.txt")).unwrap();
    for line in lines.lines() {
        let words: Vec<&str> = line.split(' ').collect();
        let [name, level, face, bytes, theirs] = words[..] else { panic!("{line}") };
        let file = sample(name);
        let made = Crn::open(&file).unwrap().unpack_level(level.parse().unwrap()).unwrap();
        let blocks = made.face(face.parse().unwrap()).unwrap();
        assert_eq!((blocks.len().to_string().as_str(), format!("{:016x}", hash(blocks.iter().copied())).as_str()), (bytes, theirs), "{line}");
        if level == "0" {
            assert_eq!(decode_crunch(&file).unwrap(), made, "{line}");
        }
    }
    assert_eq!(lines.lines().count(), 38);
}

/// Numbers, little-endian, from the cases' bytes.
struct Cases<'a>(&'a [u8]);

impl<'a> Cases<'a> {
    fn bytes(&mut self, n: usize) -> &'a [u8] {
        let (first, rest) = self.0.split_at(n);
        self.0 = rest;
        first
    }

    fn number(&mut self, n: usize) -> u64 {
        self.bytes(n).iter().rev().fold(0, |v, b| v << 8 | *b as u64)
    }

    fn sized(&mut self) -> &'a [u8] {
        let size = self.number(4) as usize;
        self.bytes(size)
    }

    /// Makes the edits that come next in a record.
    fn edits(&mut self, record: &mut Record) {
        for _ in 0..self.number(1) {
            let (field, at, value) = (self.number(1), self.number(4), self.number(4) as u32);
            edit(record, field, at, value);
        }
    }
}

/// Four palettes of so many words, filled.
struct Lent {
    colors: [Vec<u32>; 2],
    alphas: [Vec<u16>; 2],
}

impl Lent {
    fn new(words: &[usize], fill: u8) -> Lent {
        let color = |n: usize| vec![fill as u32; words[n]];
        let alpha = |n: usize| vec![fill as u16; words[n]];
        Lent { colors: [color(0), color(1)], alphas: [alpha(2), alpha(3)] }
    }

    fn lend(&mut self) -> PalettesMut<'_> {
        let ([ce, cs], [ae, al]) = (&mut self.colors, &mut self.alphas);
        PalettesMut { color_endpoints: ce, color_selectors: cs, alpha_endpoints: ae, alpha_selectors: al }
    }

    fn lent(&self) -> Palettes<'_> {
        let ([ce, cs], [ae, al]) = (&self.colors, &self.alphas);
        Palettes { color_endpoints: ce, color_selectors: cs, alpha_endpoints: ae, alpha_selectors: al }
    }

    /// The line of an opening or a load.
    fn told(&self, call: &str, refusal: u32, record: &Record) -> String {
        let words = self.colors.iter().flatten().flat_map(|w| w.to_le_bytes());
        let lent = words.chain(self.alphas.iter().flatten().flat_map(|w| w.to_le_bytes()));
        format!("{call} {refusal} {:016x} {:016x}\n", hash(lent), hash(record_bytes(record)))
    }
}

/// A header's numbers, as docs/CASES.md has them hashed.
fn header_bytes(h: &Header) -> Vec<u8> {
    let mut words = vec![
        h.header_size,
        h.header_crc16,
        h.data_size,
        h.data_crc16,
        h.width,
        h.height,
        h.levels,
        h.faces,
        h.format,
        h.flags,
        h.reserved,
        h.userdata0,
        h.userdata1,
    ];
    for p in [h.color_endpoints, h.color_selectors, h.alpha_endpoints, h.alpha_selectors] {
        words.extend([p.offset, p.size, p.count]);
    }
    words.extend([h.tables_size, h.tables_offset]);
    words.extend(h.level_offsets);
    words.iter().flat_map(|w| w.to_le_bytes()).collect()
}

/// A record's numbers and lengths.
fn record_bytes(r: &Record) -> Vec<u8> {
    let (mut out, t) = (header_bytes(&r.header), &r.tables);
    for table in [&t.chunk_encoding, &t.color_endpoint_delta, &t.color_selector_delta, &t.alpha_endpoint_delta, &t.alpha_selector_delta] {
        out.extend(table.count.to_le_bytes());
        out.extend(table.lengths);
    }
    out
}

/// An edit of a record, by the field numbers of docs/CASES.md.
fn edit(r: &mut Record, field: u64, at: u64, value: u32) {
    let (h, t) = (&mut r.header, &mut r.tables);
    let tables = [&mut t.chunk_encoding, &mut t.color_endpoint_delta, &mut t.color_selector_delta, &mut t.alpha_endpoint_delta, &mut t.alpha_selector_delta];
    match field {
        1 => h.width = value,
        2 => h.height = value,
        3 => h.levels = value,
        4 => h.faces = value,
        5 => h.format = value,
        6 => h.color_endpoints.count = value,
        7 => h.color_selectors.count = value,
        8 => h.alpha_endpoints.count = value,
        9 => h.alpha_selectors.count = value,
        10 => h.level_offsets.get_mut(at as usize).into_iter().for_each(|o| *o = value),
        11..=15 => tables.into_iter().nth(field as usize - 11).unwrap().count = value,
        16..=20 => tables.into_iter().nth(field as usize - 16).unwrap().lengths.get_mut(at as usize).into_iter().for_each(|l| *l = value as u8),
        21 => h.header_size = value,
        22 => h.header_crc16 = value,
        23 => h.data_size = value,
        24 => h.data_crc16 = value,
        25 => h.flags = value,
        26 => h.reserved = value,
        27 => h.userdata0 = value,
        28 => h.userdata1 = value,
        29 => h.tables_size = value,
        30 => h.tables_offset = value,
        31..=38 => {
            let parts = [&mut h.color_endpoints, &mut h.color_selectors, &mut h.alpha_endpoints, &mut h.alpha_selectors];
            let part = parts.into_iter().nth((field as usize - 31) % 4).unwrap();
            *(if field < 35 { &mut part.offset } else { &mut part.size }) = value;
        }
        _ => {}
    }
}

#[test]
fn cases_are_answered_as_the_gates_program_answers_them() {
    let input = std::fs::read(root("crates/crn_cases/stdin")).unwrap();
    let mut cases = Cases(&input);
    assert_eq!(cases.bytes(4), b"CASE");
    // what a case has left in the record is nothing to the next
    let (mut out, mut record) = (String::new(), Record::empty());
    for _ in 0..cases.number(4) {
        let file = cases.sized();
        let words: Vec<usize> = (0..4).map(|_| cases.number(4) as usize).collect();
        let fill = cases.number(1) as u8;
        let mut lent = Lent::new(&words, fill);
        let opened = raw::open(file, &mut lent.lend(), &mut record);
        out += &lent.told("open", opened.refusal, &record);
        cases.edits(&mut record);
        for _ in 0..cases.number(1) {
            let (level, pitch, distance) = (cases.number(4) as u32, cases.number(8) as usize, cases.number(8) as usize);
            let (mut budget, len) = (cases.number(8), cases.number(4) as usize);
            let mut dst = vec![fill; len];
            let a = raw::unpack_level(&record, file, &lent.lent(), level, pitch, distance, &mut budget, &mut dst);
            out += &format!("level {} {} {} {budget} {:016x}\n", a.refusal, a.symbols, a.cutouts, hash(dst));
        }
        for _ in 0..cases.number(1) {
            let mut dst = vec![fill; cases.number(4) as usize];
            let (w, needed) = (raw::write_dds(&record, file, &lent.lent(), &mut dst), raw::dds_bytes(&record.header));
            let numbers = format!("{} {} {} {} {} {}", w.refusal, w.level, w.at, w.bytes, w.symbols, w.cutouts);
            out += &format!("dds {numbers} {:016x} {} {}\n", hash(dst), needed.refusal, needed.bytes);
        }
        for _ in 0..cases.number(1) {
            let (head, len) = (cases.sized(), cases.number(4) as usize);
            let looked = raw::look_at(head, len);
            out += &format!("look {} {:016x}\n", looked.refusal, hash(header_bytes(&looked.header)));
            record.header = looked.header;
            cases.edits(&mut record);
            // at 17 a record is left as it was: an empty one stays so
            let (mut lent, mut loaded) = (Lent::new(&words, fill), Record::empty());
            let answer = raw::load(&record.header, file, &mut lent.lend(), &mut loaded);
            out += &lent.told("load", answer.refusal, &loaded);
        }
    }
    assert!(cases.0.is_empty());
    let stored = std::fs::read_to_string(root("crates/crn_cases/stdout")).unwrap();
    let first = out.lines().zip(stored.lines()).position(|(ours, theirs)| ours != theirs);
    assert_eq!(first.map(|n| (n + 1, out.lines().nth(n), stored.lines().nth(n))), None);
    assert_eq!(out.lines().count(), stored.lines().count());
}
