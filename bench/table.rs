// Levels, openings, whole files and a folder of small files, by the proved package and by the Rust crate, in one process. See bench/README.md. Its argument is the
// folder with the files of bench/files.py.
include!("the_rust.rs");
include!("measure.rs");
use crunch_proved::{Buffers, Crn, Limits};
use std::hint::black_box;

const KINDS: [(&str, u32); 4] = [("DXT1", 8), ("DXT5", 16), ("DXT5A", 8), ("DXN", 16)];
const SIDES: [u32; 4] = [64, 256, 1024, 4096];

#[global_allocator]
static HEAP: Counted = Counted;

type Unpacker<'a> = crunch::crn_unpacker::CrnUnpacker<'a>;

fn rust(file: &[u8]) -> Unpacker<'_> {
    crunch::crn_decomp::crnd_unpack_begin(file, file.len() as u32).ok().expect("the Rust refuses a file")
}

// As the Rust's own entry asks for a level: its blocks, with nothing between them.
fn rust_level(r: &mut Unpacker<'_>, (width, height): (u32, u32), level: u32, bytes: u32) -> Vec<u8> {
    let blocks = |side: u32| ((side >> level).max(1) + 3) / 4;
    let pitch = blocks(width) * bytes;
    r.crnd_unpack_level(pitch * blocks(height), pitch, level).expect("the Rust refuses a level")
}

fn rust_file(file: &[u8], sides: (u32, u32), levels: u32, bytes: u32) {
    let mut r = rust(black_box(file));
    for level in 0..levels {
        drop(black_box(rust_level(&mut r, sides, level, bytes)));
    }
}

fn proved_file(file: &[u8]) {
    let crn = Crn::open(black_box(file)).expect("a file is refused");
    drop(black_box(crn.unpack_levels(0).expect("a level is refused")));
}

// Both give the same blocks of all levels, byte for byte; else nothing is measured.
fn compare(name: &str, file: &[u8], bytes: u32) {
    let (mut r, crn) = (rust(file), Crn::open(file).expect("a file is refused"));
    let levels = crn.unpack_levels(0).expect("a level is refused");
    for (level, blocks) in (0..).zip(&levels) {
        let ours = crn.unpack_level(level).expect("a level is refused");
        let rust = rust_level(&mut r, (crn.width(), crn.height()), level, bytes);
        assert!(ours.blocks() == rust && blocks == rust, "{name}, level {level}: other blocks");
    }
}

fn main() {
    let room = std::env::args().nth(1).expect("the folder with the files");
    let read = |name: &str| std::fs::read(format!("{room}/{name}.crn")).unwrap();
    let mut table = Table::new();
    for (kind, bytes) in KINDS {
        for side in SIDES {
            let name = format!("level-{kind}-{side}");
            let file = read(&name);
            compare(&name, &file, bytes);
            let levels = side.ilog2() + 1;
            let (mut r, crn) = (rust(&file), Crn::open(&file).unwrap());
            let of = |what: &str| format!("{what} | {kind} | {side} x {side}");
            table.row("level", &of("level"), || drop(black_box(rust_level(&mut r, (side, side), 0, bytes))), || drop(black_box(crn.unpack_level(0).unwrap())));
            table.row("opening", &of("opening"), || drop(black_box(rust(black_box(&file)))), || drop(black_box(Crn::open(black_box(&file)))));
            table.row("whole file", &of("whole file"), || rust_file(&file, (side, side), levels, bytes), || proved_file(&file));
        }
    }
    // an indexer's work: each file of the folder is read, opened and unpacked
    let small: Vec<(String, u32)> = (0..1000).map(|n| (format!("{room}/small-{n:03}.crn"), KINDS[n % 4].1)).collect();
    for (path, bytes) in &small {
        compare(path, &std::fs::read(path).unwrap(), *bytes);
    }
    let rust_folder = || {
        for (path, bytes) in &small {
            let file = std::fs::read(path).unwrap();
            let side = |at: usize| u16::from_be_bytes([file[at], file[at + 1]]) as u32;
            rust_file(&file, (side(12), side(14)), file[16] as u32, *bytes);
        }
    };
    let (mut buffers, mut blocks) = (Buffers::new(), Vec::new());
    let mut proved_folder = || {
        for (path, _) in &small {
            let crn = Crn::read_with(std::fs::File::open(path).unwrap(), &Limits::default(), &mut buffers).expect("a file is refused");
            black_box(crn.unpack_levels_into(0, &mut blocks).expect("a level is refused"));
            black_box(&blocks);
        }
    };
    table.row("folder", "folder | all four | 1,000 files", rust_folder, proved_folder);
    table.end();
}
