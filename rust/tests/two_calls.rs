//! Opening in two calls: the look at a header, and the load by what the look gave.
mod common;
use common::{cut_level, fields, sample, samples};
use crunch_proved::raw::{self, Opened, PalettesMut, Record, HEAD_BYTES};
use crunch_proved::{Buffers, Crn, Header, Refusal};

/// What a call may write: the four palettes, and a record. None of it is zero before, so that what was cleared is seen.
#[derive(Clone, PartialEq)]
struct Lent {
    ce: Vec<u32>,
    cs: Vec<u32>,
    ae: Vec<u16>,
    al: Vec<u16>,
    record: Box<Record>,
}

impl Lent {
    /// With palettes of these lengths.
    fn of([ce, cs, ae, al]: [usize; 4]) -> Lent {
        let mut record = Record::empty();
        fields(&mut record.header).into_iter().zip(1..).for_each(|((_, field), n)| *field = 0x01010101 * n);
        let t = &mut record.tables;
        let color = [&mut t.color_endpoint_delta, &mut t.color_selector_delta];
        let alpha = [&mut t.alpha_endpoint_delta, &mut t.alpha_selector_delta];
        for (table, n) in [&mut t.chunk_encoding].into_iter().chain(color).chain(alpha).zip(1..) {
            (table.count, table.lengths) = (0xA5A5A5 + n, std::array::from_fn(|i| (i % 251) as u8 + 1));
        }
        let words = |len: usize| (0..len).map(|i| i as u32 % 65_521 + 1);
        let halves = |len: usize| words(len).map(|word| word as u16).collect();
        Lent { ce: words(ce).collect(), cs: words(cs).collect(), ae: halves(ae), al: halves(al), record }
    }

    /// With some words more than this file needs; with palettes for any file where the look refuses it.
    fn for_file(file: &[u8]) -> Lent {
        let looked = raw::look(file);
        let words = raw::palette_words(&looked.header);
        let [ce, cs, ae, al] = [words.color_endpoints, words.color_selectors, words.alpha_endpoints, words.alpha_selectors].map(|n| n + 3);
        Lent::of(if looked.refusal == 0 { [ce, cs, ae, al] } else { [8192, 8192, 8192, 3 * 8192] })
    }

    fn palettes(&mut self) -> (PalettesMut<'_>, &mut Record) {
        let Lent { ce, cs, ae, al, record } = self;
        (PalettesMut { color_endpoints: ce, color_selectors: cs, alpha_endpoints: ae, alpha_selectors: al }, record)
    }

    fn open(&mut self, file: &[u8]) -> Opened {
        let (mut palettes, record) = self.palettes();
        raw::open(file, &mut palettes, record)
    }

    fn load(&mut self, header: &Header, file: &[u8]) -> Opened {
        let (mut palettes, record) = self.palettes();
        raw::load(header, file, &mut palettes, record)
    }
}

/// The answer of a load that 17 refuses, which has to leave everything as it was.
fn disagrees(header: &Header, file: &[u8], mut lent: Lent, what: &str) {
    let before = lent.clone();
    let answer = lent.load(header, file);
    assert_eq!((answer.refusal, answer.at), (17, 0), "{what}");
    assert!(lent == before, "{what}: refused by 17, and something was written");
}

/// Every file that is made of a sample by one changed byte among its header's.
fn damaged_headers() -> impl Iterator<Item = (String, Vec<u8>)> {
    samples().into_iter().flat_map(|name| {
        let whole = sample(&name);
        (0..HEAD_BYTES).flat_map(move |at| {
            let (whole, name) = (whole.clone(), name.clone());
            [whole[at] ^ 1, whole[at] ^ 0x80, whole[at].wrapping_add(13), 0, 0xFF].into_iter().filter_map(move |byte| {
                let mut file = whole.clone();
                file[at] = byte;
                (file != whole).then(|| (format!("{name}, byte {at} is {byte}"), file))
            })
        })
    })
}

/// A sample with a header of 13 levels, and so of 122 bytes; the first bytes of its palettes are then offsets.
fn of_13_levels(name: &str) -> Vec<u8> {
    let mut file = sample(name);
    (file[3], file[16]) = (122, 13);
    file
}

/// What the look says of a file by its first bytes, as by the whole: of those bytes alone, and of more with other bytes after them.
fn looked_at(what: &str, file: &[u8]) {
    let whole = raw::look(file);
    let head = &file[..file.len().min(HEAD_BYTES)];
    assert_eq!(raw::look_at(head, file.len()), whole, "{what}");
    assert_eq!(raw::look_at(file, file.len()), whole, "{what}");
    let mut other = file.to_vec();
    other.iter_mut().skip(HEAD_BYTES).for_each(|byte| *byte ^= 0x5A);
    assert_eq!(raw::look_at(&other, file.len()), whole, "{what}");
    let (look, asked) = (Crn::look(file), if whole.refusal == 0 { Ok(whole.header) } else { Err(whole.refusal) });
    assert_eq!((look.map_err(|no| no.number()), look), (asked, Crn::look_at(head, file.len() as u64)), "{what}");
}

/// The look is what opening begins with: its header where it accepts, its refusal where that is 1, 2 or 3, and nothing else.
#[test]
fn the_look_is_the_beginning_of_opening() {
    let mut seen = [0; 10];
    let whole = samples().into_iter().map(|name| (name.clone(), sample(&name)));
    for (what, file) in whole.chain(damaged_headers()) {
        let (look, open) = (Crn::look(&file), Crn::open(&file));
        match open {
            Ok(crn) => assert_eq!(look, Ok(*crn.header()), "{what}"),
            Err(no) if no.number() <= 3 => assert_eq!(look, Err(no), "{what}"),
            Err(_) => assert_eq!(look.ok(), Header::read(&file), "{what}"),
        }
        seen[Crn::open(&file).map_or_else(|no| no.number() as usize, |_| 0)] += 1;
    }
    assert!([0, 1, 2, 3, 4].iter().all(|number| seen[*number] > 4), "{seen:?}");
}

#[test]
fn the_first_bytes_say_what_the_whole_file_says() {
    for name in samples() {
        for file in [sample(&name), of_13_levels(&name)] {
            looked_at(&name, &file);
            assert_eq!(Crn::look(&file).ok(), Header::read(&file), "{name}");
            // cut: up to 122 bytes the head is all of it
            (0..file.len()).for_each(|len| looked_at(&format!("{name}, {len} bytes"), &file[..len]));
        }
        // and cut where the header counts no more than there is, so that short files are accepted
        let mut file = of_13_levels(&name);
        file[6..10].fill(0);
        for len in 0..=file.len() {
            looked_at(&format!("{name}, {len} bytes"), &file[..len]);
            assert_eq!(Crn::look(&file[..len]).is_ok(), len >= 122, "{name}, {len} bytes");
        }
    }
    damaged_headers().for_each(|(what, file)| looked_at(&what, &file));
}

/// Files that nobody holds in memory: as long as one can be, and longer.
#[test]
fn a_file_may_be_longer_than_what_is_there_of_it() {
    let file = sample("dxt1.crn");
    let header = Crn::look(&file).unwrap();
    let at = |len: u64| Crn::look_at(&file[..122], len);
    for len in [801, 802, 1 << 20, u32::MAX as u64] {
        assert_eq!(at(len), Ok(header), "{len} bytes");
    }
    let no = at(1 << 32).unwrap_err();
    assert!(no.number() == 3 && no.to_string().ends_with("(file is 4,294,967,296, and may be 74 to 4,294,967,295)"), "{no}");
    assert_eq!(at(u64::MAX).unwrap_err().number(), 3);
    let no = at(800).unwrap_err();
    assert!(no.number() == 3 && no.to_string().ends_with("(data_size is 801, and may be 0 to 800)"), "{no}");
    assert_eq!((at(73).unwrap_err().number(), at(0).unwrap_err().number()), (1, 1));
    // bytes that are missing count as 0
    assert_eq!(Crn::look_at(&[], 801).unwrap_err().number(), 1);
    let no = Crn::look_at(&file[..12], 801).unwrap_err();
    assert!(no.number() == 2 && no.to_string().ends_with("(width is 0, and may be 1 to 4,096)"), "{no}");
    let (cut, mut asked) = (Crn::look_at(&file[..94], 801).unwrap(), header);
    asked.level_offsets[6] = 0;
    assert!(cut == asked && cut != header);
}

#[test]
fn a_header_tells_what_a_crawler_asks() {
    let told: Vec<String> = samples().iter().map(|name| Crn::look(&sample(name)).unwrap().to_string()).collect();
    assert_eq!(told[..2], ["DXT1, 16 x 16 pixels, 5 levels, 6 faces", "DXN XY, 32 x 32 pixels, 6 levels, 1 face"]);
    for name in samples() {
        let file = sample(&name);
        let (header, crn) = (Crn::look(&file).unwrap(), Crn::open(&file).unwrap());
        assert_eq!((header.format(), header.width, header.height), (Some(crn.format()), crn.width(), crn.height()));
        assert_eq!((header.levels, header.faces), (crn.levels(), crn.faces()));
    }
    assert_eq!(
        (Header::default().format().map(|format| format.number()), Header::default().to_string()),
        (Some(0), "DXT1, 0 x 0 pixels, 0 levels, 0 faces".into())
    );
    let mut header = Header::default();
    (header.format, header.levels) = (77, 1234);
    assert_eq!((header.format(), header.to_string()), (None, "format 77, 0 x 0 pixels, 1,234 levels, 0 faces".into()));
}

/// One call after the other is the old opening, with all that it leaves.
#[test]
fn a_load_after_a_look_is_an_opening() {
    let mut buffers = Buffers::new();
    for name in samples() {
        let file = sample(&name);
        let header = raw::look(&file).header;
        let (mut opened, mut loaded) = (Lent::for_file(&file), Lent::for_file(&file));
        assert_eq!((opened.open(&file), loaded.load(&header, &file)), (Opened::default(), Opened::default()), "{name}");
        assert!(opened == loaded && opened != Lent::for_file(&file), "{name}");
        let (header, open) = (Crn::look_at(&file[..HEAD_BYTES.min(file.len())], file.len() as u64).unwrap(), Crn::open(&file).unwrap());
        let levels = open.unpack_levels(0).unwrap();
        let [owned, lent] = [Crn::load(&header, &file).unwrap(), Crn::load_with(&header, &file, &mut buffers).unwrap()];
        for crn in [owned, lent] {
            assert_eq!((crn.header(), crn.format(), crn.file()), (open.header(), open.format(), &file[..]), "{name}");
            let (p, asked) = (crn.palettes(), open.palettes());
            assert_eq!((p.color_endpoints, p.color_selectors), (asked.color_endpoints, asked.color_selectors), "{name}");
            assert_eq!((p.alpha_endpoints, p.alpha_selectors), (asked.alpha_endpoints, asked.alpha_selectors), "{name}");
            assert_eq!(crn.unpack_levels(0).unwrap(), levels, "{name}");
        }
    }
}

/// Also where it is refused, with what that leaves: by 4, by 5 and in every stream.
#[test]
fn a_load_is_refused_as_an_opening_is() {
    let mut seen = [0; 10];
    let mut each = |what: &str, file: &[u8], short: usize| {
        let looked = raw::look(file);
        if looked.refusal != 0 {
            return;
        }
        let mut opened = Lent::for_file(file);
        match short {
            0 => (),
            1 => opened.ce.truncate(opened.ce.len() - 4),
            2 => opened.cs.truncate(opened.cs.len() - 4),
            3 => opened.ae.truncate(opened.ae.len() - 4),
            _ => opened.al.truncate(opened.al.len() - 4),
        }
        let mut loaded = opened.clone();
        let (open, load) = (opened.open(file), loaded.load(&looked.header, file));
        assert_eq!(open, load, "{what}");
        assert!(opened == loaded, "{what}: what is left is another");
        seen[open.refusal as usize] += 1;
        if short == 0 {
            let (open, load) = (Crn::open(file), Crn::load(&looked.header, file));
            assert_eq!(open.as_ref().err(), load.as_ref().err(), "{what}");
        }
    };
    damaged_headers().for_each(|(what, file)| each(&what, &file, 0));
    for name in samples() {
        let whole = sample(&name);
        // palettes that are not there need no room
        (1..5).filter(|short| raw_counts(&whole)[short - 1] > 0).for_each(|short| each(&name, &whole, short));
        for at in HEAD_BYTES..whole.len() {
            for byte in [whole[at] ^ 0x10, 0xFF] {
                let mut file = whole.clone();
                file[at] = byte;
                each(&format!("{name}, byte {at} is {byte}"), &file, 0);
            }
        }
    }
    assert!([0, 4, 5, 6, 7, 8].iter().all(|number| seen[*number] > 4), "{seen:?}");
}

/// The entries of each palette.
fn raw_counts(file: &[u8]) -> [u32; 4] {
    let h = raw::look(file).header;
    [h.color_endpoints, h.color_selectors, h.alpha_endpoints, h.alpha_selectors].map(|part| part.count)
}

/// Whatever field of the header is another, and whatever it is instead: 17, nothing is written, and the field is named.
#[test]
fn one_changed_field_is_a_disagreement() {
    for name in samples() {
        let file = sample(&name);
        let header = raw::look(&file).header;
        let mut tried = 0;
        for n in 0..fields(&mut header.clone()).len() {
            let mut changed = header;
            let own = *fields(&mut changed)[n].1;
            for value in [own ^ 1, own ^ 0x8000_0000, own.wrapping_add(256), 0, u32::MAX].into_iter().filter(|value| *value != own) {
                let (field, place) = fields(&mut changed).swap_remove(n);
                *place = value;
                disagrees(&changed, &file, Lent::for_file(&file), &format!("{name}, {field}"));
                let no = Crn::load(&changed, &file).unwrap_err();
                let reason = no.reason.unwrap();
                assert_eq!((no.refusal, no.file, no.level, no.place), (Refusal::Disagrees, None, None, None));
                assert_eq!((reason.field, reason.value), (&*field, value.into()), "{name}");
                assert_eq!((reason.least, reason.most), (own.into(), own.into()), "{name}, {field}");
                tried += 1;
            }
        }
        assert!(tried > 4 * 40, "{tried}");
    }
    let (file, mut header) = (sample("dxt1.crn"), Crn::look(&sample("dxt1.crn")).unwrap());
    (header.faces, header.level_offsets[12]) = (6, 7);
    let sentence = "the header that was handed over is not this file's: it is of another file, or one of the two was changed";
    let no = Crn::load(&header, &file).unwrap_err();
    assert_eq!((no.number(), no.to_string()), (17, format!("refused, 17: {sentence} (faces is 6, and has to be 1)")));
    header.faces = 1;
    let no = Crn::load(&header, &file).unwrap_err().to_string();
    assert!(no.ends_with("(level_offsets[12] is 7, and has to be 0)"), "{no}");
}

#[test]
fn another_files_header_is_a_disagreement() {
    let files: Vec<Vec<u8>> = samples().iter().map(|name| sample(name)).collect();
    for (n, file) in files.iter().enumerate() {
        for (m, other) in files.iter().enumerate() {
            let header = raw::look(other).header;
            assert_eq!(Crn::load(&header, file).err().map(|no| no.refusal), (n != m).then_some(Refusal::Disagrees));
            if n != m {
                disagrees(&header, file, Lent::for_file(file), "another file's header");
            }
        }
        // an empty one is nobody's
        disagrees(&Header::default(), file, Lent::for_file(file), "an empty header");
    }
}

/// 17 comes before what the rest of the file, and the palettes, would be refused by; with the file's own header these come.
#[test]
fn a_disagreement_comes_first() {
    let whole = sample("dxt5.crn");
    let other = raw::look(&cut_level()).header;
    let put = |at: usize, bytes: &[u8]| {
        let mut file = whole.clone();
        file[at..at + bytes.len()].copy_from_slice(bytes);
        file
    };
    // the alpha selectors have no bytes; the tables lie past the file; the first code table is none
    let tables = u32::from_be_bytes([0, whole[67], whole[68], whole[69]]) as usize;
    let spoilt = [(4, put(60, &[0; 3])), (4, put(65, &[0xFF; 2])), (6, put(tables, &[0xFF; 2]))];
    for (number, file) in &spoilt {
        let own = raw::look(file).header;
        let mut lent = Lent::for_file(file);
        assert_eq!(lent.load(&own, file).refusal, *number);
        assert!(*lent.record == *Record::empty());
        assert_eq!(Crn::load(&own, file).unwrap_err(), Crn::open(file).unwrap_err());
        // another file's; the whole file's, where they differ; and one with a field that has no say
        let mut marked = own;
        marked.userdata1 ^= 1;
        for header in [other, raw::look(&whole).header, marked].into_iter().filter(|header| *header != own) {
            disagrees(&header, file, Lent::for_file(file), &format!("a file that {number} refuses"));
            disagrees(&header, file, Lent::of([0; 4]), &format!("a file that {number} refuses, without palettes"));
            assert_eq!(Crn::load(&header, file).unwrap_err().refusal, Refusal::Disagrees);
        }
    }
    // palettes that are too short
    let mut lent = Lent::of([0; 4]);
    assert_eq!(lent.load(&raw::look(&whole).header, &whole).refusal, 5);
    disagrees(&other, &whole, Lent::of([0; 4]), "no palettes");
}

/// A file that the look refuses agrees with no header: not with what it says, not with an empty one, not with what it was cut from.
#[test]
fn a_file_that_the_look_refuses_agrees_with_no_header() {
    let whole = sample("dxt1.crn");
    let own = raw::look(&whole).header;
    let mut wide = whole.clone();
    wide[12..14].copy_from_slice(&5000u16.to_be_bytes());
    let told = [
        (1, vec![], Refusal::NotCrn.to_string()),
        (1, whole[..73].to_vec(), Refusal::NotCrn.to_string()),
        (1, [b"hx", &whole[2..]].concat(), Refusal::NotCrn.to_string()),
        (2, wide, format!("{} (width is 5,000, and may be 1 to 4,096)", Refusal::Limit)),
        (3, whole[..800].to_vec(), format!("{} (data_size is 801, and may be 0 to 800)", Refusal::Size)),
    ];
    for (number, file, why) in told {
        assert_eq!(raw::look(&file).refusal, number);
        for header in [Some(own), Some(Header::default()), Header::read(&file)].into_iter().flatten() {
            disagrees(&header, &file, Lent::for_file(&file), &format!("a file that {number} refuses"));
            let no = Crn::load(&header, &file).unwrap_err();
            assert_eq!((no.number(), no.file.map(Refusal::number), no.reason), (17, Some(number), Crn::open(&file).unwrap_err().reason));
            assert_eq!(no.to_string(), format!("{} (the file itself is {why})", Refusal::Disagrees));
        }
    }
}

/// Buffers that held another file show nothing of it after a refused load, and hold the next file as new ones would.
#[test]
fn a_refused_load_leaves_nothing_of_the_file_before() {
    let mut buffers = Buffers::new();
    let (large, small) = (sample("dxt1.crn"), sample("dxt5a.crn"));
    let header = |file: &[u8]| Crn::look(file).unwrap();
    assert_eq!(Crn::load_with(&header(&large), &large, &mut buffers).unwrap().palettes().color_endpoints.len(), 40);
    let no = Crn::load_with(&header(&small), &large, &mut buffers).unwrap_err();
    assert_eq!((no.refusal, format!("{buffers:?}")), (Refusal::Disagrees, "Buffers { .. }".into()));
    let (lent, new) = (Crn::load_with(&header(&small), &small, &mut buffers).unwrap(), Crn::open(&small).unwrap());
    let (p, asked) = (lent.palettes(), new.palettes());
    assert_eq!((p.color_endpoints, p.color_selectors), (&[][..], &[][..]));
    assert_eq!((p.alpha_endpoints, p.alpha_selectors), (asked.alpha_endpoints, asked.alpha_selectors));
    assert_eq!(lent.clone().into_owned().unpack_levels(0), new.unpack_levels(0));
    // refused in a stream, too
    let mut spoilt = small.clone();
    spoilt[header(&small).tables_offset as usize..][..2].fill(0xFF);
    assert_eq!(Crn::load_with(&header(&spoilt), &spoilt, &mut buffers).unwrap_err().number(), 6);
    assert_eq!(Crn::open_with(&large, &mut buffers).unwrap().unpack_levels(0), Crn::open(&large).unwrap().unpack_levels(0));
}
