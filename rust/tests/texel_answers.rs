//! The same texels as Pillow's decoder: samples/texels.bin has its answers for a thousand blocks of each kind, laid out as docs/CASES.md
//! says.
mod common;
use common::{hash, pattern, root};
use crunch_proved::raw::{self, Face};

/// A block's sixteen texels, row by row.
type Texels = [[u8; 4]; 16];

/// The stored blocks of a kind, each with its texels, and the formats that have them.
struct Kind {
    formats: Vec<u32>,
    size: usize,
    blocks: Vec<u8>,
    texels: Vec<Texels>,
}

/// The next bytes of the file.
fn taken<'a>(file: &mut &'a [u8], n: usize) -> &'a [u8] {
    let (first, rest) = file.split_at(n);
    *file = rest;
    first
}

fn number(file: &mut &[u8]) -> usize {
    u32::from_le_bytes(taken(file, 4).try_into().unwrap()) as usize
}

/// Pillow's channels of a block as ours: those that it does not show are 0, and opaque.
fn rgba(shown: &[u8]) -> Texels {
    let channels = shown.len() / 16;
    let mut texels = [[0, 0, 0, 255]; 16];
    for (texel, shown) in texels.iter_mut().zip(shown.chunks(channels)) {
        texel[..channels].copy_from_slice(shown);
    }
    texels
}

/// What is stored of the four kinds.
fn stored() -> Vec<Kind> {
    let file = std::fs::read(root("samples/texels.bin")).unwrap();
    let file = &mut &file[..];
    assert_eq!(taken(file, 4), b"TEXL");
    let mut kinds = Vec::new();
    for formats in [vec![0], vec![2, 3, 4, 5, 6], vec![9], vec![7, 8]] {
        let (format, size, channels, count) = (number(file), number(file), number(file), number(file));
        assert_eq!((format, count), (formats[0] as usize, 1000));
        let mut kind = Kind { formats, size, blocks: Vec::new(), texels: Vec::new() };
        for _ in 0..count {
            kind.blocks.extend(taken(file, size));
            kind.texels.push(rgba(taken(file, 16 * channels)));
        }
        kinds.push(kind);
    }
    assert_eq!(file.len(), 8);
    kinds
}

/// The last eight bytes are the hash of all others: some bytes show in no texel, like an end that no selector of its block chooses.
#[test]
fn the_answers_are_those_that_were_stored() {
    let file = std::fs::read(root("samples/texels.bin")).unwrap();
    let (answers, last) = file.split_last_chunk().unwrap();
    assert_eq!(hash(answers.iter().copied()), u64::from_le_bytes(*last));
}

#[test]
fn a_block_has_pillows_texels() {
    for kind in stored() {
        for (block, texels) in kind.blocks.chunks(kind.size).zip(&kind.texels) {
            for format in &kind.formats {
                let mut out = [[0; 4]; 16];
                assert_eq!(raw::texels(*format, Face { width: 4, height: 4, pitch: 16 }, block, out.as_flattened_mut()), 0);
                assert_eq!(out, *texels, "format {format}, {block:02x?}");
            }
        }
    }
}

/// A picture of the blocks from `first` on: each pixel is that of its block, and all else stays.
fn draw(kind: &Kind, format: u32, first: usize, face: Face) {
    let columns = face.width.div_ceil(4);
    let mut wanted = pattern((face.height - 1) * face.pitch + 4 * face.width + 9);
    let mut out = wanted.clone();
    for (y, x) in (0..face.height).flat_map(|y| (0..face.width).map(move |x| (y, x))) {
        let texels = kind.texels[first + y / 4 * columns + x / 4];
        wanted[y * face.pitch + 4 * x..][..4].copy_from_slice(&texels[y % 4 * 4 + x % 4]);
    }
    let blocks = &kind.blocks[first * kind.size..][..columns * face.height.div_ceil(4) * kind.size];
    assert_eq!(raw::texels(format, face, blocks, &mut out), 0);
    assert!(out == wanted, "format {format}, blocks from {first} on, {face:?}");
}

#[test]
fn a_face_has_pillows_texels_in_their_places() {
    for kind in stored() {
        for (n, width) in (1..=40).enumerate() {
            for (k, height) in [1, 2, 3, 4, 5, 7, 8, 14].into_iter().enumerate() {
                // from all over: a face has 40 blocks at most
                let (first, format) = ((3 * n + 120 * k) % 960, kind.formats[n % kind.formats.len()]);
                draw(&kind, format, first, Face { width, height, pitch: 4 * width + [0, 1, 5, 64][k % 4] });
            }
        }
        // all of them at once
        draw(&kind, kind.formats[0], 0, Face { width: 160, height: 100, pitch: 640 });
        draw(&kind, kind.formats[0], 0, Face { width: 157, height: 98, pitch: 1001 });
    }
}
