// Headers looked at, and the same files opened, in memory and from disk, by the proved package in one process. See bench/README.md. Its
// argument is the folder with the files of bench/files.py.
include!("measure.rs");
use crunch_proved::raw::HEAD_BYTES;
use crunch_proved::{Buffers, Crn, Header, Limits};
use std::fs::File;
use std::hint::black_box;
use std::io::Read;

const KINDS: [&str; 4] = ["DXT1", "DXT5", "DXT5A", "DXN"];

// A file's first bytes and its length, looked at by nobody.
fn first(path: &str) -> (u64, [u8; HEAD_BYTES]) {
    let mut file = File::open(path).unwrap();
    let (len, mut head) = (file.metadata().unwrap().len(), [0; HEAD_BYTES]);
    file.read_exact(&mut head).unwrap();
    (len, head)
}

// A whole file read and opened, with memory that is kept.
fn opened(path: &str, buffers: &mut Buffers) -> Header {
    *Crn::read_with(File::open(path).unwrap(), &Limits::default(), buffers).expect("a file is refused").header()
}

// Each way gives the same header; else nothing is measured.
fn compare(path: &str, file: &[u8], buffers: &mut Buffers) {
    let header = opened(path, buffers);
    assert_eq!((Crn::look(file).unwrap(), Crn::look_path(path).unwrap()), (header, header), "{path}: another header");
    let (len, head) = first(path);
    assert_eq!((Crn::look_at(&head, len).unwrap(), *Crn::load_with(&header, file, buffers).unwrap().header()), (header, header));
}

// The best time of each side, a file, over two seconds and ten rounds at least, by turns. A round of a side takes so many seconds or more;
// with 0 it is one pass over the files, right after what another side did. How many passes a round has goes by the best of some, since one
// that was interrupted would make it one.
fn best<const N: usize>(files: usize, least: f64, mut sides: [&mut dyn FnMut(); N]) -> [f64; N] {
    let pass = |side: &mut &mut dyn FnMut()| (0..9).map(|_| timed(1, *side)).fold(f64::MAX, f64::min);
    let repeats = sides.each_mut().map(|side| (least / pass(side)).ceil().max(1.0) as u32);
    let (mut best, begun, mut rounds) = ([f64::MAX; N], Instant::now(), 0);
    while rounds < 10 || begun.elapsed() < Duration::from_secs(2) {
        for (n, side) in sides.iter_mut().enumerate() {
            best[n] = best[n].min(timed(repeats[n], *side) / files as f64);
        }
        rounds += 1;
    }
    best
}

fn main() {
    let room = std::env::args().nth(1).expect("the folder with the files");
    let small: Vec<String> = (0..1000).map(|n| format!("{room}/small-{n:03}.crn")).collect();
    let level = |side: u32| KINDS.map(|kind| format!("{room}/level-{kind}-{side}.crn")).to_vec();
    let mut groups = vec![("folder of small files".to_string(), small.clone())];
    groups.extend([64, 256, 1024, 4096].map(|side| (format!("{side} x {side}"), level(side))));
    let heads = ["files", "how many", "bytes a file", "looks a second", "openings a second", "times as many"];
    let disk = ["122 bytes read, µs", "and looked at, µs", "read whole and opened, µs"];
    println!("| {} | {} |", heads.join(" | "), disk.join(" | "));
    println!("|---|---|---|---|---|---|---|---|---|");
    let mut buffers = Buffers::new();
    for (what, paths) in &groups {
        let files: Vec<Vec<u8>> = paths.iter().map(|path| std::fs::read(path).unwrap()).collect();
        paths.iter().zip(&files).for_each(|(path, file)| compare(path, file, &mut buffers));
        let (mut kept, mut read) = (Buffers::new(), Buffers::new());
        let [look, open, head, seen, whole] = best(
            files.len(),
            2e-3,
            [
                &mut || files.iter().for_each(|file| drop(black_box(Crn::look(black_box(file))))),
                &mut || files.iter().for_each(|file| drop(black_box(Crn::open_with(black_box(file), &mut kept)))),
                &mut || paths.iter().for_each(|path| drop(black_box(first(path)))),
                &mut || paths.iter().for_each(|path| drop(black_box(Crn::look_path(path)))),
                &mut || paths.iter().for_each(|path| drop(black_box(opened(path, &mut read)))),
            ],
        );
        let bytes = files.iter().map(Vec::len).sum::<usize>() / files.len();
        let ([head, seen, whole], times) = ([head, seen, whole].map(|time| time * 1e6), open / look);
        let (many, look, open) = (files.len(), 1.0 / look, 1.0 / open);
        println!("| {what} | {many} | {bytes} | {look:.0} | {open:.0} | {times:.0} | {head:.2} | {seen:.2} | {whole:.1} |");
    }
    // a crawler's pass over the folder: each file is looked at, and one in twenty is loaded
    let (mut kept, mut file) = (Buffers::new(), Vec::new());
    let mut crawl = || {
        for (n, path) in small.iter().enumerate() {
            let header = Crn::look_path(path).expect("a file is refused");
            if n % 20 == 0 {
                file.clear();
                File::open(path).unwrap().read_to_end(&mut file).unwrap();
                drop(black_box(Crn::load_with(&header, &file, &mut kept).expect("a file is refused")));
            }
        }
    };
    let mut all = || small.iter().for_each(|path| drop(black_box(opened(path, &mut buffers))));
    // and a single pass of looks in memory, when the processor's caches hold other things
    let files: Vec<Vec<u8>> = small.iter().map(|path| std::fs::read(path).unwrap()).collect();
    let mut once = || files.iter().for_each(|file| drop(black_box(Crn::look(black_box(file)))));
    let [crawl, all, once] = best(small.len(), 0.0, [&mut crawl, &mut all, &mut once]).map(|time| time * 1e6);
    println!();
    println!("the folder, each file looked at and one in twenty loaded: {crawl:.2} µs a file; each read whole and opened: {all:.2}");
    println!("the folder in memory, looked at once after that: {once:.2} µs a file");
}
