// Files opened by the proved crate and by the Rust, in one process. See bench/README.md. Its argument is the folder with the files of bench/files.py.
include!("the_rust.rs");
use crunch_proved::raw;
use std::hint::black_box;
use std::time::Instant;

fn rust(file: &[u8]) -> crunch::crn_unpacker::CrnUnpacker<'_> {
    crunch::crn_decomp::crnd_unpack_begin(file, file.len() as u32).ok().expect("the Rust refuses a file")
}

// The record and the palettes' buffers, used again for every file.
struct Lent {
    record: Box<raw::Record>,
    ce: Vec<u32>,
    cs: Vec<u32>,
    ae: Vec<u16>,
    al: Vec<u16>,
}

fn open(file: &[u8], l: &mut Lent) -> raw::Opened {
    let palettes = &mut raw::PalettesMut { color_endpoints: &mut l.ce, color_selectors: &mut l.cs, alpha_endpoints: &mut l.ae, alpha_selectors: &mut l.al };
    raw::open(file, palettes, &mut l.record)
}

// Both sides have to give the same palettes and tables.
fn compare(file: &[u8], lent: &mut Lent) {
    let (p, r) = (open(file, lent), rust(file));
    assert_eq!(p.refusal, 0);
    assert!(r.color_endpoints == lent.ce[..r.color_endpoints.len()] && r.color_selectors == lent.cs[..r.color_selectors.len()]);
    assert!(r.alpha_endpoints == lent.ae[..r.alpha_endpoints.len()] && r.alpha_selectors == lent.al[..r.alpha_selectors.len()]);
    let theirs = [&r.chunk_encoding_dm, &r.endpoint_delta_dm[0], &r.selector_delta_dm[0], &r.endpoint_delta_dm[1], &r.selector_delta_dm[1]];
    let t = &lent.record.tables;
    let ours = [&t.chunk_encoding, &t.color_endpoint_delta, &t.color_selector_delta, &t.alpha_endpoint_delta, &t.alpha_selector_delta];
    for (ours, theirs) in ours.into_iter().zip(theirs) {
        assert_eq!(ours.lengths[..ours.count as usize], theirs.code_sizes);
    }
}

// The best time of many openings; a short one is repeated, so that the clock's steps do not count.
fn timed(repeats: usize, mut side: impl FnMut()) -> f64 {
    let begun = Instant::now();
    for _ in 0..repeats {
        side();
    }
    begun.elapsed().as_secs_f64() / repeats as f64
}

fn main() {
    let room = std::env::args().nth(1).expect("the folder with the files");
    println!("| codes | format | entries a palette | bytes of the palettes and tables | the Rust, µs | proved, µs | times as fast | least of a file |");
    println!("|---|---|---|---|---|---|---|---|");
    for (codes, format) in ["fitted", "any"].iter().flat_map(|c| ["DXT1", "DXT5", "DXT5A", "DXN"].map(|f| (c, f))) {
        for entries in [50usize, 500, 8000] {
            let files: Vec<Vec<u8>> = (0..8).map(|n| std::fs::read(format!("{room}/{codes}-{format}-{entries}-{n}.crn")).unwrap()).collect();
            let mut lent = Lent { record: raw::Record::empty(), ce: vec![0; entries], cs: vec![0; entries], ae: vec![0; entries], al: vec![0; 3 * entries] };
            let (mut sums, mut bytes, mut least) = ([0.0; 2], 0, f64::MAX);
            for file in &files {
                compare(file, &mut lent);
                bytes += u32::from_be_bytes(file[70..74].try_into().unwrap()) as usize - 74;
                let (mut took, repeats) = ([f64::MAX; 2], 1 + 1000 / entries);
                for _ in 0..200 {
                    took[0] = took[0].min(timed(repeats, || drop(black_box(rust(black_box(file))))));
                    took[1] = took[1].min(timed(repeats, || {
                        black_box(&open(black_box(file), &mut lent));
                    }));
                }
                sums = [sums[0] + took[0], sums[1] + took[1]];
                least = least.min(took[0] / took[1]);
            }
            let n = files.len() as f64;
            println!("| {codes} | {format} | {entries} | {} | {:.1} | {:.1} | {:.2} | {:.2} |", bytes / files.len(), sums[0] / n * 1e6, sums[1] / n * 1e6, sums[0] / sums[1], least);
        }
    }
}
