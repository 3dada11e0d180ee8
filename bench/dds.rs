// A DDS file written, and all levels of the same file unpacked, each into a lent buffer, by the proved package in one process. See
// bench/README.md. Its argument is the folder with the files of bench/files.py.
include!("measure.rs");
use crunch_proved::raw::{self, Palettes, PalettesMut, Record};
use std::hint::black_box;

const KINDS: [&str; 4] = ["DXT1", "DXT5", "DXT5A", "DXN"];

// An opened file.
struct File {
    bytes: Vec<u8>,
    record: Box<Record>,
    ce: Vec<u32>,
    cs: Vec<u32>,
    ae: Vec<u16>,
    al: Vec<u16>,
}

impl File {
    fn open(bytes: Vec<u8>) -> File {
        let words = raw::palette_words(&raw::look(&bytes).header);
        let (mut record, mut ce, mut cs) = (Record::empty(), vec![0; words.color_endpoints], vec![0; words.color_selectors]);
        let (mut ae, mut al) = (vec![0; words.alpha_endpoints], vec![0; words.alpha_selectors]);
        let mut palettes =
            PalettesMut { color_endpoints: &mut ce, color_selectors: &mut cs, alpha_endpoints: &mut ae, alpha_selectors: &mut al };
        assert_eq!(raw::open(&bytes, &mut palettes, &mut record).refusal, 0);
        File { bytes, record, ce, cs, ae, al }
    }

    fn palettes(&self) -> Palettes<'_> {
        Palettes { color_endpoints: &self.ce, color_selectors: &self.cs, alpha_endpoints: &self.ae, alpha_selectors: &self.al }
    }

    fn sizes(&self) -> Vec<raw::LevelSizes> {
        (0..self.record.header.levels).map(|level| raw::level_sizes(&self.record.header, level)).collect()
    }

    fn unpack(&self, dst: &mut [u8]) -> raw::Several {
        raw::unpack_levels(&self.record, &self.bytes, &self.palettes(), 0, &mut u64::MAX.clone(), dst)
    }

    fn write(&self, dst: &mut [u8]) -> raw::Written {
        raw::write_dds(&self.record, &self.bytes, &self.palettes(), dst)
    }

    // Both give the same blocks and counts; else nothing is measured.
    fn compare(&self, levels: &mut [u8], dds: &mut [u8]) {
        let (several, written) = (self.unpack(levels), self.write(dds));
        assert_eq!((several.refusal, several.levels), (0, self.record.header.levels));
        assert_eq!((written.refusal, written.bytes), (0, dds.len()));
        assert_eq!((several.symbols, several.cutouts), (written.symbols, written.cutouts));
        let faces = self.record.header.faces as usize;
        let (mut at, mut from) = (0, 128);
        for size in self.sizes() {
            for face in 0..faces {
                let (a, b) = (at + face * size.distance, from + face * (dds.len() - 128) / faces);
                assert!(levels[a..a + size.distance] == dds[b..b + size.distance], "other blocks");
            }
            (at, from) = (at + size.bytes, from + size.distance);
        }
    }
}

fn main() {
    let room = std::env::args().nth(1).expect("the folder with the files");
    println!("| kind | size | faces | bytes | `unpack_levels`, µs | `write_dds`, µs | times as long |");
    println!("|---|---|---|---|---|---|---|");
    let mut most: [f64; 2] = [0.0; 2];
    for (name, sides) in [("level", &[64, 256, 1024, 4096][..]), ("cube", &[64, 256, 1024])] {
        for kind in KINDS {
            for side in sides {
                let file = File::open(std::fs::read(format!("{room}/{name}-{kind}-{side}.crn")).unwrap());
                let mut dds = vec![0; raw::dds_bytes(&file.record.header).bytes];
                let mut levels = vec![0; file.sizes().iter().map(|size| size.bytes).sum()];
                file.compare(&mut levels, &mut dds);
                let repeats = (200e-6 / timed(1, &mut || drop(file.unpack(&mut levels)))).ceil().max(1.0) as u32;
                let (mut best, begun, mut rounds) = ([f64::MAX; 2], Instant::now(), 0);
                while rounds < 20 || begun.elapsed() < Duration::from_millis(1500) {
                    best[0] = best[0].min(timed(repeats, &mut || drop(black_box(file.unpack(black_box(&mut levels))))));
                    best[1] = best[1].min(timed(repeats, &mut || drop(black_box(file.write(black_box(&mut dds))))));
                    rounds += 1;
                }
                let (ratio, faces) = (best[1] / best[0], file.record.header.faces);
                let [unpack, write] = best.map(|time| time * 1e6);
                println!("| {kind} | {side} x {side} | {faces} | {} | {unpack:.1} | {write:.1} | {ratio:.2} |", dds.len());
                if *side == 1024 {
                    let most = &mut most[(faces == 6) as usize];
                    *most = most.max(ratio);
                }
            }
        }
    }
    println!();
    println!("most at 1,024 pixels: {:.2} with one face, {:.2} with six", most[0], most[1]);
}
