//! Texels by the plainest reading of the rules, one at a time: what the fuzz and the tests hold the archive's to.

/// A number of so many bits, from a bit of some bytes on, the lowest first.
fn number(bytes: &[u8], from: usize, bits: usize) -> u32 {
    (0..bits).map(|i| (bytes[(from + i) / 8] as u32 >> ((from + i) % 8) & 1) << i).sum()
}

/// What lies `part` parts of the way from one end to the other, rounded down.
fn between(ends: [u32; 2], part: u32, parts: u32) -> u8 {
    (((parts - part) * ends[0] + part * ends[1]) / parts) as u8
}

/// A texel of an alpha block: eight levels where the first end is above the second, else six, 0 and 255.
fn level(block: &[u8], texel: usize) -> u8 {
    let ends = [block[0] as u32, block[1] as u32];
    match number(block, 16 + 3 * texel, 3) {
        0 => block[0],
        1 => block[1],
        selector if ends[0] > ends[1] => between(ends, selector - 1, 7),
        6 => 0,
        7 => 255,
        selector => between(ends, selector - 1, 5),
    }
}

/// A texel of a colour block: four colours where the first word is above the second, or where it has to be so; else three, and nothing.
fn color(block: &[u8], texel: usize, always_four: bool) -> [u8; 4] {
    let four = always_four || number(block, 0, 16) > number(block, 16, 16);
    let selector = number(block, 32 + 2 * texel, 2);
    // its bits and, behind them, its upper bits once more make eight
    let end = |from: usize, bits: usize| number(block, from, bits) << (8 - bits) | number(block, from, bits) >> (2 * bits - 8);
    let channel = |from: usize, bits: usize| {
        let ends = [end(from, bits), end(16 + from, bits)];
        match selector {
            0 => ends[0] as u8,
            1 => ends[1] as u8,
            _ if four => between(ends, selector - 1, 3),
            _ => between(ends, 1, 2),
        }
    };
    match four || selector < 3 {
        true => [channel(11, 5), channel(5, 6), channel(0, 5), 255],
        false => [0; 4],
    }
}

/// A texel of a block, by the header's number of its format.
fn texel(format: u32, block: &[u8], texel: usize) -> [u8; 4] {
    match format {
        0 => color(block, texel, false),
        2..=6 => {
            let [r, g, b, _] = color(&block[8..], texel, true);
            [r, g, b, level(block, texel)]
        }
        7 | 8 => [level(block, texel), level(&block[8..], texel), 0, 255],
        _ => [level(block, texel), 0, 0, 255],
    }
}

/// What the archive's function of this name has to answer, and to leave in `rgba`.
pub fn texels(format: u32, width: usize, height: usize, pitch: usize, blocks: &[u8], rgba: &mut [u8]) -> u32 {
    let side = |pixels: usize| (1..=4096).contains(&pixels);
    if !matches!(format, 0 | 2..=9) || !side(width) || !side(height) {
        return 2;
    }
    if pitch < 4 * width {
        return 18;
    }
    let (bytes, columns) = (if matches!(format, 0 | 9) { 8 } else { 16 }, width.div_ceil(4));
    if blocks.len() < bytes * columns * height.div_ceil(4) {
        return 28;
    }
    if (rgba.len() as u128) < (height as u128 - 1) * pitch as u128 + 4 * width as u128 {
        return 12;
    }
    for (y, x) in (0..height).flat_map(|y| (0..width).map(move |x| (y, x))) {
        let block = &blocks[bytes * (y / 4 * columns + x / 4)..][..bytes];
        rgba[y * pitch + 4 * x..][..4].copy_from_slice(&texel(format, block, y % 4 * 4 + x % 4));
    }
    0
}
