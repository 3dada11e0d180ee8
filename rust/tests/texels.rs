//! Pixels of blocks, as a user has them: against a plain decoder, and against numbers that were reckoned by hand.
mod common;
#[path = "../src/bin/crn-fuzz/plain.rs"]
mod plain;
use common::{of_format, pattern, sample, samples};
use crunch_proved::raw::{self, Face};
use crunch_proved::{texels, Crn, Format, Level, Reason, Refusal};

/// The numbers of all formats.
const FORMATS: [u32; 9] = [0, 2, 3, 4, 5, 6, 7, 8, 9];

fn block_bytes(format: u32) -> usize {
    Format::of(format).unwrap().kind().block_bytes()
}

/// Bytes without a pattern, always the same ones.
fn noise(len: usize) -> Vec<u8> {
    let mut state = 0x2545F4914F6CDD1Du64;
    let next = || {
        state ^= state << 13;
        state ^= state >> 7;
        state ^= state << 17;
        (state >> 32) as u8
    };
    std::iter::repeat_with(next).take(len).collect()
}

/// The answer, and what a buffer of so many bytes that held the pattern holds then.
fn made(format: u32, face: Face, blocks: &[u8], room: usize) -> (u32, Vec<u8>) {
    let mut rgba = pattern(room);
    (raw::texels(format, face, blocks, &mut rgba), rgba)
}

/// The same by the plain decoder.
fn plainly(format: u32, face: Face, blocks: &[u8], room: usize) -> (u32, Vec<u8>) {
    let mut rgba = pattern(room);
    (plain::texels(format, face.width, face.height, face.pitch, blocks, &mut rgba), rgba)
}

/// Selectors of a row of a colour block: 0, 1, 2 and 3.
const COLORS: [u8; 1] = [0b11_10_01_00];

/// Selectors of two rows of an alpha block: 0 to 7, each of three bits.
fn levels() -> [u8; 3] {
    let [a, b, c, _] = 0o76543210u32.to_le_bytes();
    [a, b, c]
}

/// Blocks, and the pixels of their first row, by hand.
#[test]
fn blocks_that_were_reckoned_by_hand() {
    let color = |words: [u16; 2]| [&words[0].to_le_bytes()[..], &words[1].to_le_bytes(), &COLORS, &[0; 3]].concat();
    let alpha = |ends: [u8; 2]| [&ends[..], &levels(), &[0; 3]].concat();
    let row = |format: u32, block: &[u8]| {
        let (refusal, rgba) = made(format, Face { width: 4, height: 4, pitch: 16 }, block, 64);
        assert_eq!(refusal, 0);
        rgba.chunks(4).take(8).map(|pixel| <[u8; 4]>::try_from(pixel).unwrap()).collect::<Vec<_>>()
    };
    // BC1: white and black; then black and white, which are three colours and one that is nothing
    assert_eq!(row(0, &color([0xFFFF, 0]))[..4], [[255; 4], [0, 0, 0, 255], [170, 170, 170, 255], [85, 85, 85, 255]]);
    assert_eq!(row(0, &color([0, 0xFFFF]))[..4], [[0, 0, 0, 255], [255; 4], [127, 127, 127, 255], [0; 4]]);
    // words that are equal: three colours too
    assert_eq!(row(0, &color([0xF800, 0xF800]))[..4], [[255, 0, 0, 255], [255, 0, 0, 255], [255, 0, 0, 255], [0; 4]]);
    // one of 31 is 8 of 255 and one of 63 is 4: two thirds of 8 are 5, of 4 they are 2, rounded down
    assert_eq!(row(0, &color([0x0821, 0]))[..4], [[8, 4, 8, 255], [0, 0, 0, 255], [5, 2, 5, 255], [2, 1, 2, 255]]);
    // each channel in its place, 16 of 31 is 132, 32 of 63 is 130
    assert_eq!(row(0, &color([0x8000, 0]))[0], [132, 0, 0, 255]);
    assert_eq!(row(0, &color([0x0400, 0]))[0], [0, 130, 0, 255]);
    assert_eq!(row(0, &color([0x0010, 0]))[0], [0, 0, 132, 255]);
    // BC3: four colours, whatever the words' order, and an alpha of its own
    let alphas = [210, 0, 180, 150, 120, 90, 60, 30];
    let bc3 = row(2, &[alpha([210, 0]), color([0, 0xFFFF])].concat());
    assert_eq!(bc3[..4], [[0, 0, 0, 210], [255, 255, 255, 0], [85, 85, 85, 180], [170, 170, 170, 150]]);
    assert_eq!(bc3[4..].iter().map(|pixel| pixel[3]).collect::<Vec<_>>(), alphas[4..]);
    // BC4: eight levels; then six, 0 and 255; then ends that are equal, which are six too
    let reds = |ends: [u8; 2]| row(9, &alpha(ends)).iter().map(|p| p[0]).collect::<Vec<_>>();
    assert_eq!(reds([210, 0]), alphas);
    assert_eq!(reds([0, 210]), [0, 210, 42, 84, 126, 168, 0, 255]);
    assert_eq!(reds([77, 77]), [77, 77, 77, 77, 77, 77, 0, 255]);
    assert!(row(9, &alpha([210, 0])).iter().all(|pixel| pixel[1..] == [0, 0, 255]));
    // BC5: red of the first half, green of the second
    let bc5 = row(7, &[alpha([210, 0]), alpha([0, 210])].concat());
    assert_eq!(bc5[..3], [[210, 0, 0, 255], [0, 210, 0, 255], [180, 42, 0, 255]]);
}

/// Every sample, level and face, alone and of all levels in one call.
#[test]
fn every_face_of_every_level_of_every_sample() {
    for name in samples() {
        let file = sample(&name);
        let crn = Crn::open(&file).unwrap();
        let levels = crn.unpack_levels(1).unwrap();
        for number in 0..crn.levels() {
            let level = crn.unpack_level(number).unwrap();
            let (width, height) = crn.pixels(number).unwrap();
            assert_eq!((level.width(), level.height()), (width, height));
            assert_eq!(levels.pixels(number), (number >= 1).then_some((width, height)));
            for face in 0..crn.faces() as usize {
                let rgba = level.rgba(face).unwrap();
                let whole = Face { width: width as usize, height: height as usize, pitch: 4 * width as usize };
                let blocks = level.face(face).unwrap();
                assert!((0, rgba.clone()) == plainly(crn.format().number(), whole, blocks, rgba.len()), "{name} {number} {face}");
                assert_eq!(levels.rgba(number, face), (number >= 1).then(|| rgba.clone()));
                assert_eq!(levels.face(number, face), (number >= 1).then_some(blocks));
                // into a lent buffer, rows and all behind them apart
                let (apart, room) = (Face { pitch: whole.pitch + 12, ..whole }, (whole.pitch + 12) * whole.height + 7);
                let asked = plainly(crn.format().number(), apart, blocks, room).1;
                let mut lent = pattern(room);
                level.rgba_into(face, apart.pitch, &mut lent).unwrap();
                assert!(lent == asked, "{name} {number} {face}");
                let mut lent = pattern(room);
                assert_eq!(levels.rgba_into(number, face, apart.pitch, &mut lent).is_ok(), number >= 1);
                assert!(lent == if number >= 1 { asked } else { pattern(room) }, "{name} {number} {face}");
            }
        }
    }
}

/// Sides of 1 to 9 pixels, so that blocks are clipped in every way; rows close together and apart; the room to the byte, and more of all.
#[test]
fn what_lies_beyond_an_edge_or_between_rows_stays() {
    for format in FORMATS {
        for (width, height) in (1..10).flat_map(|width: usize| (1..10).map(move |height: usize| (width, height))) {
            let enough = block_bytes(format) * width.div_ceil(4) * height.div_ceil(4);
            for (apart, more) in [(0, 0), (1, 0), (3, 5), (64, 100)] {
                let face = Face { width, height, pitch: 4 * width + apart };
                let (blocks, room) = (noise(enough + more), (height - 1) * face.pitch + 4 * width + more);
                let (refusal, rgba) = made(format, face, &blocks, room);
                assert_eq!(refusal, 0);
                assert!(rgba == plainly(format, face, &blocks, room).1, "{format}: {face:?}");
                let between = (0..room).filter(|at| at % face.pitch >= 4 * width || at / face.pitch >= height);
                assert!(between.into_iter().all(|at| rgba[at] == pattern(room)[at]), "{format}: {face:?}");
            }
        }
    }
}

/// Each pair of an alpha block's ends with each of its selectors, in both halves where there are two.
#[test]
fn every_pair_of_ends_of_an_alpha_block() {
    let half = |ends: usize| [&[ends as u8, (ends >> 8) as u8][..], &levels(), &levels()].concat();
    let single: Vec<u8> = (0..1 << 16).flat_map(half).collect();
    let double: Vec<u8> = (0..1 << 16).flat_map(|ends| [half(ends), half(0xFFFF - ends)].concat()).collect();
    let face = Face { width: 1024, height: 1024, pitch: 4096 };
    for (format, blocks) in [(9, &single), (7, &double), (2, &double)] {
        assert!(made(format, face, blocks, 1 << 22) == plainly(format, face, blocks, 1 << 22), "{format}");
    }
}

/// Each pair of a colour block's reds, greens and blues, in both orders of the words, with each selector; and words that are equal.
#[test]
fn every_pair_of_ends_of_a_colour_block() {
    let word = |[r, g, b]: [u16; 3]| r << 11 | g << 5 | b;
    let ends = |pair: u16| {
        let (v, w) = (pair / 64, pair % 64);
        // in one order of the words, in the other, and equal; of greens the red decides, of reds and blues the red itself or the green
        let greens = [[31, v, 0], [0, w, 31]];
        let reds = [[v / 2, 63, w / 2], [w / 2, 0, v / 2]];
        [greens, [greens[1], greens[0]], reds, [reds[1], reds[0]], [[v / 2, w, 9], [v / 2, w, 9]]]
    };
    let block = |pair: [[u16; 3]; 2]| [&pair.map(|end| word(end).to_le_bytes()).concat()[..], &COLORS.repeat(4)].concat();
    let single: Vec<u8> = (0..64 * 64).flat_map(ends).flat_map(block).collect();
    let double: Vec<u8> = (0..64 * 64).flat_map(ends).flat_map(|pair| [noise(8), block(pair)].concat()).collect();
    let face = Face { width: 4 * 5 * 64, height: 4 * 64, pitch: 16 * 5 * 64 };
    let room = face.pitch * face.height;
    assert_eq!(single.len(), 8 * 5 * 64 * 64);
    for (format, blocks) in [(0, &single), (2, &double)] {
        assert!(made(format, face, blocks, room) == plainly(format, face, blocks, room), "{format}");
    }
}

/// Blocks of a megabyte without a pattern, of each format.
#[test]
fn pictures_without_a_pattern() {
    let (blocks, face) = (noise(1 << 20), Face { width: 1001, height: 1003, pitch: 4 * 1001 + 4 });
    let room = face.pitch * face.height;
    for format in FORMATS {
        assert!(made(format, face, &blocks, room) == plainly(format, face, &blocks, room), "{format}");
    }
}

/// 4,096 pixels a side, and as narrow as can be.
#[test]
fn the_largest_picture_is_made_whole() {
    let block = [0x00, 0xF8, 0x1F, 0x00, 0b11_10_01_00, 0, 0, 0];
    let colors = [[255, 0, 0, 255], [0, 0, 255, 255], [170, 0, 85, 255], [85, 0, 170, 255]].concat();
    for (width, height) in [(4096usize, 4096usize), (4096, 1), (1, 4096)] {
        let blocks = block.repeat(width.div_ceil(4) * height.div_ceil(4));
        let (refusal, rgba) = made(0, Face { width, height, pitch: 4 * width }, &blocks, 4 * width * height);
        assert_eq!(refusal, 0);
        let asked = |y: usize| if y.is_multiple_of(4) { colors.clone() } else { colors[..4].repeat(4) };
        let right = |(y, row): (usize, &[u8])| row.chunks(16).all(|four| four == &asked(y)[..four.len()]);
        assert!(rgba.chunks(4 * width).enumerate().all(right), "{width} x {height}");
    }
}

/// 2, 18, 28 and 12, each with all that come after it, and nothing is written.
#[test]
fn refusals_come_in_their_order_and_leave_the_buffer() {
    for format in FORMATS {
        let (face, enough) = (Face { width: 6, height: 5, pitch: 24 }, block_bytes(format) * 4);
        let (blocks, room) = (noise(enough), 4 * 24 + 24);
        let refused = |number: u32, format: u32, face: Face, blocks: &[u8], room: usize| {
            assert!(made(format, face, blocks, room) == (number, pattern(room)), "{number}: {format} {face:?}, {} {room}", blocks.len());
            assert_eq!(plainly(format, face, blocks, room).0, number);
        };
        assert_eq!(made(format, face, &blocks, room).0, 0);
        refused(12, format, face, &blocks, room - 1);
        refused(12, format, face, &blocks, 0);
        refused(28, format, face, &blocks[1..], room - 1);
        refused(28, format, face, &[], 0);
        let narrow = Face { pitch: 23, ..face };
        refused(18, format, narrow, &blocks[1..], room - 1);
        refused(18, format, Face { pitch: 0, ..face }, &blocks, room);
        for side in [0, 4097, 1 << 32 | 6, usize::MAX] {
            refused(2, format, Face { width: side, ..narrow }, &blocks[1..], room - 1);
            refused(2, format, Face { height: side, ..narrow }, &blocks[1..], room - 1);
        }
        for format in [1, 10, 11, 256 + format, u32::MAX] {
            refused(2, format, narrow, &blocks[1..], room - 1);
            refused(2, format, face, &blocks, room);
        }
        // a pitch of any size, whose product would overflow
        for pitch in [usize::MAX, usize::MAX / 4 + 1, 1 << 62] {
            refused(12, format, Face { pitch, ..face }, &blocks, room);
            assert_eq!(made(format, Face { height: 1, pitch, ..face }, &blocks, 24).0, 0);
        }
    }
}

/// What is told of a refusal: the argument, how much it is and how much it may be.
#[test]
fn a_refused_picture_names_the_argument() {
    let no = |width: u32, height: u32, pitch: usize, blocks: usize, room: usize| {
        let mut rgba = pattern(room);
        let no = texels(Format::Dxt5, width, height, pitch, &noise(blocks), &mut rgba).unwrap_err();
        assert!(rgba == pattern(room) && no.level.is_none() && no.place.is_none() && no.file.is_none(), "{no}");
        no
    };
    assert_eq!(no(0, 0, 0, 0, 0).to_string(), format!("{} (width is 0, and may be 1 to 4,096)", Refusal::Limit));
    assert_eq!(no(6, 5000, 0, 0, 0).to_string(), format!("{} (height is 5,000, and may be 1 to 4,096)", Refusal::Limit));
    assert_eq!(no(6, 5, 23, 0, 0).to_string(), format!("{} (pitch is 23, and has to be at least 24)", Refusal::TexelPitch));
    assert_eq!(no(6, 5, 24, 63, 0).to_string(), format!("{} (blocks is 63, and has to be at least 64)", Refusal::Blocks));
    assert_eq!(no(6, 5, 1000, 64, 4023).to_string(), format!("{} (rgba is 4,023, and has to be at least 4,024)", Refusal::Destination));
    assert_eq!([Refusal::TexelPitch, Refusal::Blocks].map(Refusal::number), [18, 28]);
    let Reason { field, value, least, most, .. } = no(6, 5, usize::MAX, 64, 40).reason.unwrap();
    assert_eq!((field, value, least, most), ("rgba", 40, u64::MAX, u64::MAX));
    assert_eq!(texels(Format::Dxt5, 6, 5, 24, &noise(64), &mut [0; 120]), Ok(()));
}

#[test]
fn a_face_or_level_that_is_not_there_has_no_pixels() {
    let file = sample("cube.crn");
    let crn = Crn::open(&file).unwrap();
    let (level, levels) = (crn.unpack_level(1).unwrap(), crn.unpack_levels(1).unwrap());
    let refused = |call: &dyn Fn(usize, &mut [u8]) -> Option<crunch_proved::Refused>| {
        // 18 comes before 28, and 28 before 12
        [(32, 0), (32, 256), (31, 256)].map(|(pitch, room)| {
            let mut rgba = pattern(room);
            let no = call(pitch, &mut rgba).unwrap();
            assert!(rgba == pattern(room));
            (no.number(), no.level)
        })
    };
    for face in [6, usize::MAX] {
        assert_eq!((level.rgba(face), levels.rgba(1, face)), (None, None));
        assert_eq!(refused(&|pitch, rgba| level.rgba_into(face, pitch, rgba).err()), [(28, None), (28, None), (18, None)]);
        let of_one = [(28, Some(1)), (28, Some(1)), (18, Some(1))];
        assert_eq!(refused(&|pitch, rgba| levels.rgba_into(1, face, pitch, rgba).err()), of_one);
    }
    // level 0 was not unpacked, and there are no more than five
    for (number, pitch) in [(0, 64), (5, 4), (32, 4), (u32::MAX, 4)] {
        assert_eq!((levels.rgba(number, 0), levels.face(number, 0), levels.pixels(number)), (None, None, None));
        let no = levels.rgba_into(number, 0, pitch, &mut [0; 1024]).unwrap_err();
        assert_eq!((no.refusal, no.level), (Refusal::Blocks, Some(number)));
    }
    let no = level.rgba_into(6, 32, &mut [0; 256]).unwrap_err();
    assert_eq!(no.to_string(), format!("{} (blocks is 0, and has to be at least 32)", Refusal::Blocks));
}

/// The levels before a refused one have their pixels.
#[test]
fn levels_before_a_refused_one_have_their_pixels() {
    let file = common::cut_level();
    let crn = Crn::open(&file).unwrap();
    let before = crn.unpack_levels(0).unwrap_err().before;
    assert_eq!((before.pixels(0), before.pixels(1)), (Some((64, 64)), None));
    assert_eq!((before.rgba(0, 0), before.rgba(1, 0)), (crn.unpack_level(0).unwrap().rgba(0), None));
}

/// Exchanged channels stay exchanged: each format's pixels are those of its kind.
#[test]
fn channels_come_as_stored() {
    let level = |name: &str, format: u32| -> Level {
        let file = of_format(name, format as u8);
        Crn::open(&file).unwrap().unpack_level(0).unwrap()
    };
    for (name, kind, swizzled) in [("dxt1.crn", 0, 0..0), ("dxt5.crn", 2, 3..7), ("dxn.crn", 7, 8..9), ("dxt5a.crn", 9, 0..0)] {
        let plain = level(name, kind);
        assert!(!plain.format().swizzled());
        for format in swizzled {
            let level = level(name, format);
            assert_eq!((level.format().number(), level.format().swizzled()), (format, true));
            assert_eq!(level.rgba(0), plain.rgba(0));
        }
    }
}

/// Nothing but a missing face is without pixels: files of every width and height that the samples' blocks still cover.
#[test]
fn an_unpacked_level_has_pixels_whatever_its_sides() {
    for name in ["cube.crn", "dxt5a.crn"] {
        let mut file = sample(name);
        let (width, height) = (Crn::open(&file).unwrap().width(), Crn::open(&file).unwrap().height());
        for (width, height) in (width - 3..=width).flat_map(|width| (height - 3..=height).map(move |height| (width, height))) {
            file[12..14].copy_from_slice(&(width as u16).to_be_bytes());
            file[14..16].copy_from_slice(&(height as u16).to_be_bytes());
            let crn = Crn::open(&file).unwrap();
            let level = crn.unpack_level(0).unwrap();
            for face in 0..crn.faces() as usize {
                let face_of = Face { width: width as usize, height: height as usize, pitch: 4 * width as usize };
                let asked = plainly(crn.format().number(), face_of, level.face(face).unwrap(), face_of.pitch * face_of.height);
                assert!((0, level.rgba(face).unwrap()) == asked, "{name} {width} x {height}");
            }
        }
    }
}
