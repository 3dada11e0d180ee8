// Texels by the proved package, and by plain decoders of single blocks under the Rust's own block_decoder! and color.rs, in one process.
// The Rust's decoders of single blocks are not at hand: the plain ones are NOT the crate's. See bench/README.md.
include!("measure.rs");
use crunch_proved::raw::{self, Face};
use std::hint::black_box;

// As supplied, unchanged.
#[path = "shared/docs/src/src"]
mod texture2ddecoder {
    pub(crate) mod color;
    pub(crate) mod macros;
}
use texture2ddecoder::{color, macros};

mod random;

// In place of the crate paste, by which block_decoder! names its function: here it is `decode`, in a module of its own.
mod paste {
    macro_rules! item {
        (#[doc = $($doc:tt)*] pub fn [<decode_ $name:tt>] $($function:tt)*) => { pub fn decode $($function)* };
    }
    pub(crate) use item;
}

// The plainest decoders of a block: the colours or levels that it can have, and sixteen looks.
mod plain {
    use crate::color::{color, rgb565_le};

    // `three`: the order of the words may choose three colours and a transparent black.
    #[inline]
    fn colors(data: &[u8], texels: &mut [u32], three: bool) {
        let (first, second) = (u16::from_le_bytes([data[0], data[1]]), u16::from_le_bytes([data[2], data[3]]));
        let ((r, g, b), (s, h, c)) = (rgb565_le(first), rgb565_le(second));
        let part = |a: u8, b: u8, p: u16, q: u16| ((a as u16 * p + b as u16 * q) / (p + q)) as u8;
        let mixed = |p: u16, q: u16| color(part(r, s, p, q), part(g, h, p, q), part(b, c, p, q), 255);
        let mut colors = [color(r, g, b, 255), color(s, h, c, 255), 0, 0];
        if !three || first > second {
            colors[2] = mixed(2, 1);
            colors[3] = mixed(1, 2);
        } else {
            colors[2] = mixed(1, 1);
        }
        let mut selectors = u32::from_le_bytes([data[4], data[5], data[6], data[7]]);
        for texel in &mut texels[..16] {
            *texel = colors[(selectors & 3) as usize];
            selectors >>= 2;
        }
    }

    #[inline]
    fn levels(data: &[u8], texels: &mut [u32], shift: u32) {
        let (a, b) = (data[0] as u16, data[1] as u16);
        let mut levels = [data[0], data[1], 0, 0, 0, 0, 0, 255];
        if a > b {
            for i in 1..7u16 {
                levels[i as usize + 1] = (((7 - i) * a + i * b) / 7) as u8;
            }
        } else {
            for i in 1..5u16 {
                levels[i as usize + 1] = (((5 - i) * a + i * b) / 5) as u8;
            }
        }
        let mut selectors = u64::from_le_bytes(data[..8].try_into().unwrap()) >> 16;
        for texel in &mut texels[..16] {
            *texel = *texel & !(255 << shift) | (levels[(selectors & 7) as usize] as u32) << shift;
            selectors >>= 3;
        }
    }

    #[inline]
    pub fn bc1(data: &[u8], texels: &mut [u32]) {
        colors(data, texels, true);
    }

    #[inline]
    pub fn bc3(data: &[u8], texels: &mut [u32]) {
        colors(&data[8..], texels, false);
        levels(data, texels, 24);
    }

    // What a decoder does that takes BC1's colours for BC3's.
    #[inline]
    pub fn bc3_by_order(data: &[u8], texels: &mut [u32]) {
        colors(&data[8..], texels, true);
        levels(data, texels, 24);
    }

    #[inline]
    pub fn bc4(data: &[u8], texels: &mut [u32]) {
        levels(data, texels, 16);
    }

    #[inline]
    pub fn bc5(data: &[u8], texels: &mut [u32]) {
        levels(data, texels, 16);
        levels(&data[8..], texels, 8);
    }
}

macro_rules! decoders {
    ($($name:ident $bytes:literal)*) => { $(mod $name {
        use crate::{macros::block_decoder, paste, plain};
        block_decoder!(stringify!($name), 4, 4, $bytes, plain::$name);
    })* };
}
decoders!(bc1 8 bc3 16 bc3_by_order 16 bc4 8 bc5 16);

#[derive(Clone, Copy)]
enum Half {
    Color,
    Level,
}
use Half::{Color, Level};

struct Kind {
    name: &'static str,
    format: u32,
    halves: &'static [Half],
    decode: fn(&[u8], usize, usize, &mut [u32]) -> Result<(), &'static str>,
    // the plain one goes by another rule where the first colour word is not above the second
    by_order: bool,
}

const KINDS: [Kind; 5] = [
    Kind { name: "BC1", format: 0, halves: &[Color], decode: bc1::decode, by_order: false },
    Kind { name: "BC3", format: 2, halves: &[Level, Color], decode: bc3::decode, by_order: false },
    Kind { name: "BC3, plain by the words' order", format: 2, halves: &[Level, Color], decode: bc3_by_order::decode, by_order: true },
    Kind { name: "BC4", format: 9, halves: &[Level], decode: bc4::decode, by_order: false },
    Kind { name: "BC5", format: 7, halves: &[Level, Level], decode: bc5::decode, by_order: false },
];
const SIDE: usize = 1024;
const BLOCKS: usize = SIDE * SIDE / 16;

// Random blocks. Tame ones are in the mode of four colours or eight levels, as encoders mostly make them, but for one half in sixteen.
fn blocks(kind: &Kind, tame: bool, random: &mut impl FnMut() -> u64) -> Vec<u8> {
    let mut made = Vec::new();
    for half in (0..BLOCKS).flat_map(|_| kind.halves) {
        let (mut bytes, other) = (random().to_le_bytes(), random() % 16 == 0);
        let wide = if let Color = half { 2 } else { 1 };
        let (first, second) = bytes[..2 * wide].split_at_mut(wide);
        if tame && first.iter().rev().gt(second.iter().rev()) == other {
            first.swap_with_slice(second);
        }
        made.extend(bytes);
    }
    made
}

// Both have the same texels; else nothing is measured. How many blocks were compared.
fn compare(kind: &Kind, blocks: &[u8], proved: &[u8], plain: &[u32]) -> usize {
    let mut compared = 0;
    for (n, block) in blocks.chunks(8 * kind.halves.len()).enumerate() {
        let words = &block[block.len() - 8..];
        if kind.by_order && u16::from_le_bytes([words[0], words[1]]) <= u16::from_le_bytes([words[2], words[3]]) {
            continue;
        }
        for t in 0..16 {
            let at = (n / (SIDE / 4) * 4 + t / 4) * SIDE + n % (SIDE / 4) * 4 + t % 4;
            let [b, g, r, a] = plain[at].to_le_bytes();
            assert_eq!(proved[4 * at..4 * at + 4], [r, g, b, a], "{}, {block:02x?}, texel {t}", kind.name);
        }
        compared += 1;
    }
    compared
}

fn main() {
    let mut random = random::numbers();
    let (mut image, mut rgba) = (vec![0u32; SIDE * SIDE], vec![0u8; 4 * SIDE * SIDE]);
    let face = Face { width: SIDE, height: SIDE, pitch: 4 * SIDE };
    println!("| kind | blocks | plain, ns a block | proved, ns a block | plain, million texels a second | proved | times as fast |");
    println!("|---|---|---|---|---|---|---|");
    let (mut compared, mut least) = (0, (f64::MAX, String::new()));
    for (tame, what) in [(true, "tame"), (false, "random")] {
        for kind in &KINDS {
            let blocks = blocks(kind, tame, &mut random);
            (kind.decode)(&blocks, SIDE, SIDE, &mut image).unwrap();
            assert_eq!(raw::texels(kind.format, face, &blocks, &mut rgba), 0);
            compared += compare(kind, &blocks, &rgba, &image);
            let mut plain = || (kind.decode)(black_box(&blocks), SIDE, SIDE, black_box(&mut image)).unwrap();
            let mut proved = || assert_eq!(raw::texels(kind.format, face, black_box(&blocks), black_box(&mut rgba)), 0);
            let (mut best, begun, mut rounds) = ([f64::MAX; 2], Instant::now(), 0);
            while rounds < 40 || begun.elapsed() < Duration::from_secs(2) {
                best[0] = best[0].min(timed(1, &mut plain));
                best[1] = best[1].min(timed(1, &mut proved));
                rounds += 1;
            }
            let ([a, b], ratio) = (best.map(|time| time * 1e9 / BLOCKS as f64), best[0] / best[1]);
            println!("| {} | {what} | {a:.1} | {b:.1} | {:.0} | {:.0} | {ratio:.2} |", kind.name, 16e3 / a, 16e3 / b);
            if ratio < least.0 {
                least = (ratio, format!("{}, {what}", kind.name));
            }
        }
    }
    println!();
    println!("{compared} blocks compared, all equal; least: {:.2} ({})", least.0, least.1);
}
