//! Files read and opened: by readers, within limits, into buffers that are used again; and what a file may claim.
mod common;
use common::{cut_level, pattern, room, sample, samples};
use crunch_proved::{raw, Buffers, Claim, Crn, Format, Kind, Limits, NotRead, Refused};
use std::alloc::{GlobalAlloc, Layout, System};
use std::cell::Cell;
use std::io::{self, Read};

/// The system's heap, which keeps the size of the largest request of each thread.
struct Largest;

thread_local!(static LARGEST: Cell<usize> = const { Cell::new(0) });

// SAFETY: all is the system's.
unsafe impl GlobalAlloc for Largest {
    unsafe fn alloc(&self, layout: Layout) -> *mut u8 {
        LARGEST.set(LARGEST.get().max(layout.size()));
        System.alloc(layout)
    }

    unsafe fn alloc_zeroed(&self, layout: Layout) -> *mut u8 {
        LARGEST.set(LARGEST.get().max(layout.size()));
        System.alloc_zeroed(layout)
    }

    unsafe fn realloc(&self, at: *mut u8, layout: Layout, size: usize) -> *mut u8 {
        LARGEST.set(LARGEST.get().max(size));
        System.realloc(at, layout, size)
    }

    unsafe fn dealloc(&self, at: *mut u8, layout: Layout) {
        System.dealloc(at, layout)
    }
}

#[global_allocator]
static HEAP: Largest = Largest;

/// What a call gives, and the most memory that it asks for at once.
fn largest<T>(call: impl FnOnce() -> T) -> (T, usize) {
    LARGEST.set(0);
    (call(), LARGEST.get())
}

/// A reader that gives a byte at a time, and counts them.
struct Drops<'a>(&'a [u8], &'a Cell<usize>);

impl Read for Drops<'_> {
    fn read(&mut self, into: &mut [u8]) -> io::Result<usize> {
        let n = self.0.len().min(into.len()).min(1);
        into[..n].copy_from_slice(&self.0[..n]);
        self.0 = &self.0[n..];
        self.1.set(self.1.get() + n);
        Ok(n)
    }
}

/// The refusal of a file that is read.
fn refused(no: NotRead) -> Refused {
    match no {
        NotRead::Refused(no) => no,
        other => panic!("{other}"),
    }
}

/// A file with its header's level 0 of 4,096 by 4,096 pixels and so many faces.
fn claiming(name: &str, faces: u8) -> Vec<u8> {
    let mut file = sample(name);
    file[12..16].copy_from_slice(&[0x10, 0, 0x10, 0]);
    file[17] = faces;
    file
}

#[test]
fn a_file_is_opened_alike_however_it_comes() {
    let mut buffers = Buffers::new();
    for name in samples() {
        let file = sample(&name);
        let lent = Crn::open(&file).unwrap();
        let levels = lent.unpack_levels(0).unwrap();
        let kept = [
            Crn::from_vec(file.clone()).unwrap(),
            Crn::read(Drops(&file, &Cell::new(0))).unwrap(),
            Crn::read_within(&file[..], &Limits::default()).unwrap(),
            Crn::open_with(&file, &mut buffers).unwrap().into_owned(),
            Crn::read_with(&file[..], &Limits::default(), &mut buffers).unwrap().into_owned(),
            lent.clone().into_owned(),
        ];
        for crn in kept {
            assert_eq!((crn.header(), crn.file(), crn.format()), (lent.header(), &file[..], lent.format()));
            assert_eq!(crn.unpack_levels(0).unwrap(), levels);
        }
    }
}

/// A long file is read to its end, and one that is refused by 1 or 2 no further than its first bytes.
#[test]
fn the_header_is_looked_at_before_the_rest_is_read() {
    let mut long = sample("cube.crn");
    long.resize(100_000, 7);
    let crn = Crn::read(&long[..]).unwrap();
    assert_eq!((crn.file(), crn.unpack_level(4).unwrap()), (&long[..], Crn::open(&sample("cube.crn")).unwrap().unpack_level(4).unwrap()));
    let mut beyond = long.clone();
    beyond[16] = 14;
    for (file, number) in [(vec![0; 100_000], 1), (beyond, 2)] {
        let taken = Cell::new(0);
        assert_eq!(refused(Crn::read(Drops(&file, &taken)).unwrap_err()), Crn::open(&file).unwrap_err());
        assert!(Crn::open(&file).unwrap_err().number() == number && taken.get() <= 4096, "{} bytes", taken.get());
    }
    let failing = io::Read::chain(&long[..500], Broken);
    assert!(matches!(Crn::read(failing), Err(NotRead::Io(error)) if error.kind() == io::ErrorKind::TimedOut));
    assert_eq!(refused(Crn::read(io::empty()).unwrap_err()).number(), 1);
}

struct Broken;

impl Read for Broken {
    fn read(&mut self, _: &mut [u8]) -> io::Result<usize> {
        Err(io::ErrorKind::TimedOut.into())
    }
}

#[test]
fn limits_are_looked_at_before_memory_is_taken() {
    let file = claiming("cube.crn", 6);
    let bytes: usize = (0..5).map(|level| Crn::open(&file).unwrap().level_sizes(level).unwrap().bytes).sum();
    let within = |limits: Limits| Crn::read_within(&file[..], &limits);
    assert!(within(Limits::default().with_unpacked_bytes(bytes as u64).with_file_bytes(443)).is_ok());
    let (no, memory) = largest(|| within(Limits::default().with_unpacked_bytes(bytes as u64 - 1)).unwrap_err());
    assert!(matches!(no, NotRead::OverLimit(over) if (over.claim, over.bytes) == (Claim::Unpacked, bytes as u64)) && memory < 5000);
    for no in [within(Limits::default().with_file_bytes(442)), Crn::open_within(&file, &Limits::default().with_file_bytes(442))] {
        assert!(matches!(no.unwrap_err(), NotRead::OverLimit(over) if (over.claim, over.limit) == (Claim::File, 442)));
    }
    let (lent, memory) = largest(|| Crn::open_within(&file, &Limits::default().with_unpacked_bytes(bytes as u64 - 1)).map(|_| ()));
    assert!(matches!(lent, Err(NotRead::OverLimit(over)) if over.bytes == bytes as u64) && memory == 0);
    assert!(Crn::open_within(&file, &Limits::default().with_unpacked_bytes(bytes as u64)).is_ok());
    // of a long file no more is read than is allowed, and a byte to see that there is more
    let (mut long, taken) = (sample("cube.crn"), Cell::new(0));
    long.resize(100_000, 7);
    let no = Crn::read_within(Drops(&long, &taken), &Limits::default().with_file_bytes(50_000)).unwrap_err();
    assert!(matches!(no, NotRead::OverLimit(over) if over.claim == Claim::File) && taken.get() == 50_001);
    assert!(Crn::read_within(&long[..], &Limits::default().with_file_bytes(100_000)).is_ok());
}

/// Of what is said to have so many bytes, a look reads the first 122; else it counts them, and stops where it is refused all the same.
#[test]
fn a_look_reads_no_more_than_it_needs() {
    let mut long = sample("cube.crn");
    long.resize(100_000, 7);
    let mut wide = long.clone();
    wide[12..14].fill(0xFF);
    let mut claims = long.clone();
    claims[6..10].copy_from_slice(&100_001u32.to_be_bytes());
    let mut least = sample("cube.crn")[..100].to_vec();
    least[6..10].fill(0);
    let cases = [(&long, 0), (&wide, 2), (&claims, 3), (&least, 0), (&vec![0; 100_000], 1), (&vec![], 1)];
    for (file, number) in cases {
        let asked = Crn::look(file);
        assert_eq!(asked.map_or_else(|no| no.number(), |_| 0), number);
        for said in [Some(file.len() as u64), None, Some(0), Some(121)] {
            let taken = Cell::new(0);
            let (look, memory) = largest(|| Crn::look_read(Drops(file, &taken), said).map_err(refused));
            assert_eq!(look, asked);
            let needed = if said == Some(file.len() as u64) || matches!(number, 1 | 2) { 122 } else { file.len() };
            assert_eq!((taken.get(), memory), (needed.min(file.len()), 0), "refused by {number}, and said to have {said:?}");
        }
    }
    // what it is said to have counts, and where there is less it has ended
    assert_eq!(refused(Crn::look_read(&long[..], Some(442)).unwrap_err()).number(), 3);
    assert_eq!(Crn::look_read(&least[..], Some(1 << 40)).unwrap(), Crn::look(&least).unwrap());
    assert_eq!(refused(Crn::look_read(&long[..], Some(1 << 32)).unwrap_err()).number(), 3);
    // nothing is read that is not needed
    assert_eq!(Crn::look_read(io::Read::chain(&long[..122], Broken), Some(100_000)).unwrap(), Crn::look(&long).unwrap());
    let failing = io::Read::chain(&long[..122], Broken);
    assert!(matches!(Crn::look_read(failing, None), Err(NotRead::Io(error)) if error.kind() == io::ErrorKind::TimedOut));
    assert_eq!(refused(Crn::look_read(io::repeat(0), None).unwrap_err()).number(), 1);
}

#[test]
fn a_look_at_a_path_takes_files_pipes_and_what_has_no_length() {
    let room = room("look-path");
    let path = |name: &str| room.join(name);
    std::fs::write(path("a.crn"), sample("dxt1.crn")).unwrap();
    assert_eq!(Crn::look_path(path("a.crn")).unwrap(), Crn::look(&sample("dxt1.crn")).unwrap());
    // as long as a file can be, and a byte more
    let file = std::fs::File::options().write(true).open(path("a.crn")).unwrap();
    file.set_len(u32::MAX as u64).unwrap();
    assert_eq!(Crn::look_path(path("a.crn")).unwrap(), Crn::look(&sample("dxt1.crn")).unwrap());
    file.set_len(1 << 32).unwrap();
    let no = refused(Crn::look_path(path("a.crn")).unwrap_err());
    assert_eq!((no.number(), no.reason.map(|reason| reason.field)), (3, Some("file")));
    file.set_len(800).unwrap();
    assert_eq!(refused(Crn::look_path(path("a.crn")).unwrap_err()), Crn::look(&sample("dxt1.crn")[..800]).unwrap_err());
    // a pipe has no length, and is counted; with a byte too few it is refused
    for (name, cut, number) in [("whole", 0, 0), ("cut", 1, 3)] {
        assert!(std::process::Command::new("mkfifo").arg(path(name)).status().unwrap().success());
        let (pipe, mut bytes) = (path(name), sample("dxt5.crn"));
        bytes.truncate(bytes.len() - cut);
        let writer = std::thread::spawn(move || std::fs::write(pipe, bytes).unwrap());
        let look = Crn::look_path(path(name)).map_err(refused);
        assert_eq!(look.map_or_else(|no| no.number(), |_| 0), number, "{name}");
        writer.join().unwrap();
    }
    // a file of the system that says it has none has some
    assert_eq!(refused(Crn::look_path("/proc/self/maps").unwrap_err()).number(), 1);
    assert!(matches!(Crn::look_path(path("none.crn")), Err(NotRead::Io(e)) if e.kind() == io::ErrorKind::NotFound));
    assert!(matches!(Crn::look_path(&room), Err(NotRead::Io(_))));
}

/// A header that nobody's look gave takes no more memory than the largest that a look could give.
#[test]
fn a_header_that_claims_too_much_costs_little() {
    let (file, mut claims) = (sample("dxt5.crn"), Crn::look(&sample("dxt5.crn")).unwrap());
    let parts = [&mut claims.color_endpoints, &mut claims.color_selectors, &mut claims.alpha_endpoints, &mut claims.alpha_selectors];
    parts.into_iter().for_each(|part| (part.count, part.size) = (u32::MAX, u32::MAX));
    (claims.width, claims.levels, claims.level_offsets) = (u32::MAX, u32::MAX, [u32::MAX; 13]);
    for file in [&file[..], &[]] {
        let (no, memory) = largest(|| Crn::load(&claims, file).unwrap_err());
        assert_eq!(no.number(), 17);
        assert!(memory <= 3 * 8192 * 2, "{memory} bytes");
    }
    // and into buffers that are kept, nothing
    let mut buffers = Buffers::new();
    for round in 0..2 {
        let (no, memory) = largest(|| Crn::load_with(&claims, &file, &mut buffers).unwrap_err().number());
        assert!(no == 17 && (round == 0 || memory == 0), "{memory} bytes");
    }
    assert_eq!(Crn::load_with(&Crn::look(&file).unwrap(), &file, &mut buffers).unwrap().palettes().color_endpoints.len(), 30);
}

/// A few hundred bytes that claim up to a hundred million: the refusal is that of a destination of the whole size, number and bit, and the
/// memory goes by the file.
#[test]
fn a_level_that_claims_more_than_its_bytes_can_hold_costs_little() {
    for (name, faces) in [("cube.crn", 6), ("dxt1.crn", 1), ("dxt5.crn", 6), ("dxn.crn", 6), ("dxt5a.crn", 1)] {
        let file = claiming(name, faces);
        let crn = Crn::open(&file).unwrap();
        let whole = |level: u32| {
            let sizes = crn.level_sizes(level).unwrap();
            let (mut blocks, mut budget) = (vec![1; sizes.bytes], sizes.symbols);
            crn.unpack_level_into(level, sizes.pitch, sizes.distance, &mut budget, &mut blocks).unwrap_err()
        };
        let (one, memory) = largest(|| crn.unpack_level(0).unwrap_err());
        assert_eq!((one, one.number()), (whole(0), 8), "{name}");
        assert!(memory < 300_000, "{name}: {memory} bytes");
        let ((levels, dds), memory) = largest(|| (crn.unpack_levels(0).unwrap_err(), crn.to_dds().unwrap_err()));
        assert_eq!((levels.refused, levels.before.len(), dds), (one, 0, one), "{name}");
        assert!(memory < 300_000, "{name}: {memory} bytes");
        let level = crn.levels() - 1;
        assert_eq!(crn.unpack_level(level).unwrap_err(), whole(level), "{name}");
    }
    // a segment that is long, and does not lie in the file
    let mut file = claiming("cube.crn", 6);
    file[74..78].fill(0xFF);
    let crn = Crn::open(&file).unwrap();
    let (no, memory) = largest(|| (crn.unpack_level(0).unwrap_err(), crn.unpack_levels(0).unwrap_err().refused, crn.to_dds().unwrap_err()));
    assert!(no.0.number() == 4 && no.0 == no.1 && no.0 == no.2 && memory < 300_000, "{memory} bytes");
    // level 0 as it is; of level 1 there is a byte
    let file = cut_level();
    let crn = Crn::open(&file).unwrap();
    assert_eq!(crn.unpack_levels(0).unwrap_err().before.blocks(), crn.unpack_level(0).unwrap().blocks());
}

/// A loop over files allocates nothing once its buffers are as large as it needs them, and sees nothing of the file before.
#[test]
fn buffers_are_used_again() {
    let (mut buffers, mut blocks) = (Buffers::new(), pattern(200_000));
    let files: Vec<Vec<u8>> = samples().iter().map(|name| sample(name)).collect();
    for round in 0..3 {
        for file in &files {
            let asked = Crn::open(file).unwrap().unpack_levels(0).unwrap();
            let (counts, memory) = largest(|| {
                let crn = Crn::read_with(&file[..], &Limits::default(), &mut buffers).unwrap();
                crn.unpack_levels_into(0, &mut blocks).unwrap()
            });
            assert_eq!((counts, &blocks[..]), (asked.counts(), asked.blocks()));
            assert!(round == 0 || memory < 2000, "{memory} bytes");
        }
        // a refused file leaves nothing behind that the next could show
        let no = Crn::read_with(&b"Hx, and nothing else"[..], &Limits::default(), &mut buffers).unwrap_err();
        assert_eq!(refused(no).number(), 1);
        let spoilt = cut_level();
        let crn = Crn::read_with(&spoilt[..], &Limits::default(), &mut buffers).unwrap();
        assert!(crn.unpack_levels_into(0, &mut blocks).is_err() && blocks == crn.unpack_level(0).unwrap().blocks());
    }
}

/// Pixels take as much memory as they have, and none in a buffer that is lent.
#[test]
fn pixels_take_no_more_memory_than_they_have() {
    let file = sample("dxt1.crn");
    let level = Crn::open(&file).unwrap().unpack_level(0).unwrap();
    let (mut rgba, most) = largest(|| level.rgba(0).unwrap());
    assert_eq!((rgba.len(), most), (64 * 64 * 4, 64 * 64 * 4));
    assert_eq!(largest(|| level.rgba_into(0, 64 * 4, &mut rgba)), (Ok(()), 0));
    let (no, most) = largest(|| level.rgba_into(0, 64 * 4 - 1, &mut rgba));
    assert_eq!((no.map_err(|no| no.number()), most), (Err(18), 0));
}

#[test]
fn what_is_shown_of_a_value_is_short() {
    let file = sample("dxt1.crn");
    let crn = Crn::open(&file).unwrap();
    assert_eq!(format!("{crn:?}"), "Crn { format: Dxt1, width: 64, height: 64, levels: 7, faces: 1, bytes: 801, .. }");
    let levels = crn.unpack_levels(0).unwrap();
    let shown = [format!("{levels:?}"), format!("{:?}", crn.unpack_level(0).unwrap()), format!("{:?}", crn.to_dds().unwrap())];
    assert!(shown.iter().all(|shown| shown.len() < 200), "{shown:?}");
    assert!(format!("{:?}", raw::Record::empty()).len() < 2000);
}

/// Every format: its number, its kind and what graphics libraries call that.
#[test]
fn a_format_has_its_numbers() {
    let kinds: Vec<_> = (0..12).map(|n| Format::of(n).map(|format| (format.number(), format.kind(), format.channels()))).collect();
    use Kind::{Bc1, Bc3, Bc4, Bc5};
    let asked = [(0, Bc1, "RGBA"), (2, Bc3, "RGBA"), (3, Bc3, "CCxY"), (4, Bc3, "xGxR"), (5, Bc3, "xGBR"), (6, Bc3, "AGBR")];
    let rest = [(7, Bc5, "XY"), (8, Bc5, "YX"), (9, Bc4, "A")];
    assert_eq!(kinds.iter().flatten().copied().collect::<Vec<_>>(), [&asked[..], &rest[..]].concat());
    let numbers = [Bc1, Bc3, Bc4, Bc5].map(|kind| (kind.name(), kind.block_bytes(), kind.dxgi(), kind.vulkan(), kind.gl()));
    let asked = [("DXT1", 8, 71, 133, 0x83F1), ("DXT5", 16, 77, 137, 0x83F3), ("DXT5A", 8, 80, 139, 0x8DBB), ("DXN", 16, 83, 141, 0x8DBD)];
    assert_eq!(numbers, asked);
    for name in samples() {
        let file = sample(&name);
        let crn = Crn::open(&file).unwrap();
        assert_eq!(crn.format().kind().block_bytes(), crn.level_sizes(0).unwrap().block_bytes);
    }
}

#[test]
fn a_value_may_go_to_another_thread() {
    fn both<T: Send + Sync>() {}
    both::<Crn>();
    both::<Buffers>();
    both::<crunch_proved::Levels>();
    both::<NotRead>();
}
