//! PNG files of 8 bits a channel, written row by row.
use super::deflate::{Zlib, BLOCK};
use std::io::{Result, Write};

/// As soon as so many bytes are compressed, they go out as a chunk.
const CHUNK: usize = 1 << 16;

/// Of each byte the remainder by the polynomial of CRC-32, whose bits are taken lowest first.
const REMAINDERS: [u32; 256] = {
    let (mut all, mut byte) = ([0; 256], 0);
    while byte < 256 {
        let (mut rest, mut bit) = (byte as u32, 0);
        while bit < 8 {
            rest = if rest & 1 == 1 { rest >> 1 ^ 0xEDB8_8320 } else { rest >> 1 };
            bit += 1;
        }
        all[byte] = rest;
        byte += 1;
    }
    all
};

fn crc<'a>(bytes: impl Iterator<Item = &'a u8>) -> u32 {
    !bytes.fold(!0, |rest, byte| REMAINDERS[(rest as u8 ^ byte) as usize] ^ rest >> 8)
}

/// What a picture needs: colours, unless each pixel's red, green and blue are equal; alpha, unless each is 255.
#[derive(Clone, Copy, Default)]
pub struct Needs {
    color: bool,
    alpha: bool,
}

impl Needs {
    /// Adds what these pixels need, of four bytes each.
    pub fn add(&mut self, rgba: &[u8]) {
        let grey = |pixel: &[u8]| pixel[0] == pixel[1] && pixel[1] == pixel[2];
        self.color = self.color || !rgba.chunks_exact(4).all(grey);
        self.alpha = self.alpha || rgba.chunks_exact(4).any(|pixel| pixel[3] != 255);
    }

    /// The number by which PNG has it.
    fn number(self) -> u8 {
        2 * self.color as u8 + 4 * self.alpha as u8
    }

    /// Which of a pixel's bytes are kept.
    fn kept(self) -> &'static [usize] {
        match (self.color, self.alpha) {
            (false, false) => &[0],
            (false, true) => &[0, 3],
            (true, false) => &[0, 1, 2],
            (true, true) => &[0, 1, 2, 3],
        }
    }
}

/// A PNG file that is being written.
pub struct Png<W: Write> {
    out: W,
    zlib: Zlib,
    kept: &'static [usize],
    /// The row and the one above it, with a pixel of zeros before each; and what filters make of the row, the best one and another.
    row: Vec<u8>,
    above: Vec<u8>,
    best: Vec<u8>,
    other: Vec<u8>,
    /// Rows that are not compressed yet, as they are and filtered.
    plain: Vec<u8>,
    filtered: Vec<u8>,
}

impl<W: Write> Png<W> {
    pub fn new(mut out: W, width: u32, height: u32, needs: Needs) -> Result<Png<W>> {
        out.write_all(b"\x89PNG\r\n\x1a\n")?;
        // 8 bits a channel; compressed and filtered as all PNG files are; rows from the first to the last
        let about = [&width.to_be_bytes()[..], &height.to_be_bytes(), &[8, needs.number(), 0, 0, 0]].concat();
        chunk(&mut out, b"IHDR", &about)?;
        let kept = needs.kept();
        let zeros = vec![0; (width as usize + 1) * kept.len()];
        let [best, other, plain, filtered] = [(); 4].map(|_| Vec::new());
        Ok(Png { out, zlib: Zlib::new(), kept, row: zeros.clone(), above: zeros, best, other, plain, filtered })
    }

    /// Writes the next row, of four bytes a pixel.
    pub fn row(&mut self, rgba: &[u8]) -> Result<()> {
        let step = self.kept.len();
        std::mem::swap(&mut self.row, &mut self.above);
        for (pixel, of) in self.row[step..].chunks_exact_mut(step).zip(rgba.chunks_exact(4)) {
            pixel.iter_mut().zip(self.kept).for_each(|(byte, channel)| *byte = of[*channel]);
        }
        let mut least = u64::MAX;
        for number in 0..5 {
            filter(number, step, &self.row, &self.above, &mut self.other);
            // what is small as a signed number is mostly near others
            let sum = self.other[1..].iter().map(|byte| (*byte as i8).unsigned_abs() as u64).sum();
            if sum < least {
                least = sum;
                std::mem::swap(&mut self.best, &mut self.other);
            }
        }
        if self.plain.len() + self.best.len() > BLOCK {
            self.compress()?;
        }
        self.plain.push(0);
        self.plain.extend(&self.row[step..]);
        self.filtered.extend(&self.best);
        Ok(())
    }

    /// Compresses the rows that are waiting, as they are or filtered, whichever is shorter. The few colours of a block are found again, and
    /// filters hide that; where colours change by and by, filters help.
    fn compress(&mut self) -> Result<()> {
        let mut plain = self.zlib.clone();
        plain.write(&self.plain);
        self.zlib.write(&self.filtered);
        if plain.out().len() < self.zlib.out().len() {
            self.zlib = plain;
        }
        self.plain.clear();
        self.filtered.clear();
        self.chunks(CHUNK)
    }

    pub fn finish(mut self) -> Result<()> {
        self.compress()?;
        self.zlib.finish();
        self.chunks(1)?;
        chunk(&mut self.out, b"IEND", b"")?;
        self.out.flush()
    }

    /// Writes what is compressed, if it is so many bytes.
    fn chunks(&mut self, least: usize) -> Result<()> {
        let bytes = self.zlib.out();
        if bytes.len() >= least {
            chunk(&mut self.out, b"IDAT", bytes)?;
            bytes.clear();
        }
        Ok(())
    }
}

fn chunk(out: &mut impl Write, name: &[u8; 4], bytes: &[u8]) -> Result<()> {
    out.write_all(&(bytes.len() as u32).to_be_bytes())?;
    out.write_all(name)?;
    out.write_all(bytes)?;
    out.write_all(&crc(name.iter().chain(bytes)).to_be_bytes())
}

/// A row by a filter: its number, and of each byte the difference to what it foretells.
fn filter(number: u8, step: usize, row: &[u8], above: &[u8], out: &mut Vec<u8>) {
    out.clear();
    out.push(number);
    match number {
        0 => out.extend(&row[step..]),
        1 => differences(step, row, above, out, |left, _, _| left),
        2 => differences(step, row, above, out, |_, up, _| up),
        3 => differences(step, row, above, out, |left, up, _| ((left as u16 + up as u16) / 2) as u8),
        _ => differences(step, row, above, out, nearest),
    }
}

/// Of each byte the difference to what is foretold by the one a pixel to its left, the one above it and the one above that.
#[inline(always)]
fn differences(step: usize, row: &[u8], above: &[u8], out: &mut Vec<u8>, foretold: impl Fn(u8, u8, u8) -> u8) {
    let around = row.iter().zip(&above[step..]).zip(above);
    out.extend(row[step..].iter().zip(around).map(|(byte, ((left, up), corner))| byte.wrapping_sub(foretold(*left, *up, *corner))));
}

/// Of the three the one that is nearest to left + up - corner; of two that are as near the first.
fn nearest(left: u8, up: u8, corner: u8) -> u8 {
    let [a, b, c] = [left, up, corner].map(i16::from);
    let (to_left, to_up, to_corner) = ((b - c).abs(), (a - c).abs(), (a + b - 2 * c).abs());
    if to_left <= to_up && to_left <= to_corner {
        left
    } else if to_up <= to_corner {
        up
    } else {
        corner
    }
}

#[cfg(test)]
mod tests {
    use super::*;
    use std::process::{Command, Stdio};

    /// The PNG file of pixels.
    fn made(width: u32, rgba: &[u8]) -> Vec<u8> {
        let (mut out, mut needs) = (Vec::new(), Needs::default());
        needs.add(rgba);
        let mut png = Png::new(&mut out, width, rgba.len() as u32 / width / 4, needs).unwrap();
        rgba.chunks(4 * width as usize).for_each(|row| png.row(row).unwrap());
        png.finish().unwrap();
        out
    }

    /// What another reader (tests/png.py) finds in files: width, height and colour type, and then the pixels.
    fn read(files: &[u8]) -> Vec<u8> {
        let mut run = Command::new("python3");
        run.arg(concat!(env!("CARGO_MANIFEST_DIR"), "/tests/png.py"));
        let mut run = run.stdin(Stdio::piped()).stdout(Stdio::piped()).spawn().unwrap();
        run.stdin.take().unwrap().write_all(files).unwrap();
        let run = run.wait_with_output().unwrap();
        assert!(run.status.success());
        run.stdout
    }

    /// A pixel by its place, and which of the four kinds of pictures it is of.
    fn pixel(x: u32, y: u32, color: bool, alpha: bool, rough: bool) -> [u8; 4] {
        let mixed = [13, 17, 5].iter().fold(x + 1009 * y + 7, |n, shift| (n ^ n >> shift).wrapping_mul(0x9E37_79B1));
        let [a, b, c, d] = if rough { mixed.to_le_bytes() } else { [x * 3 + y, x, y * 5, 255 - x].map(|n| n as u8) };
        [a, if color { b } else { a }, if color { c } else { a }, if alpha { d } else { 255 }]
    }

    #[test]
    fn another_reader_finds_the_same_pixels() {
        let (mut files, mut wanted) = (Vec::new(), Vec::new());
        for (width, height) in [(1, 1), (1, 2), (2, 1), (3, 5), (7, 1), (1, 9), (13, 11), (64, 33), (255, 3)] {
            for kind in 0..8 {
                let (color, alpha, rough) = (kind & 1 == 1, kind & 2 == 2, kind & 4 == 4);
                let at = |n: u32| pixel(n % width, n / width, color, alpha, rough);
                // of one pixel it is known by itself whether it is grey or opaque
                let rgba: Vec<u8> = (0..width * height).flat_map(at).collect();
                let grey = rgba.chunks(4).all(|p| p[0] == p[1] && p[1] == p[2]);
                let opaque = rgba.chunks(4).all(|p| p[3] == 255);
                let kind = [[6, 2], [4, 0]][grey as usize][opaque as usize];
                files.extend(made(width, &rgba));
                wanted.extend([width, height, kind].iter().flat_map(|n: &u32| n.to_be_bytes()));
                wanted.extend(rgba);
            }
        }
        assert!(read(&files) == wanted);
    }

    /// More than one chunk, and a picture that is higher than what a match reaches back to.
    #[test]
    fn a_large_picture_goes_out_in_chunks() {
        let (width, height) = (300, 300);
        let rgba: Vec<u8> = (0..width * height).flat_map(|n| pixel(n % width, n / width, true, true, n / width > 100)).collect();
        let file = made(width, &rgba);
        assert!(file.windows(4).filter(|name| name == b"IDAT").count() > 2 && file.len() < rgba.len());
        assert!(read(&file)[12..] == rgba);
    }

    /// Grey rows, each after the one before it, and the filter by which the differences are smallest.
    #[test]
    fn the_filter_that_foretells_best_is_taken() {
        let mut png = Png::new(Vec::new(), 6, 7, Needs::default()).unwrap();
        for (row, filter) in [
            ([1, 255, 0, 2, 255, 1], 0),
            ([100, 101, 102, 103, 104, 105], 1),
            ([10, 200, 30, 90, 50, 60], 1),
            ([11, 201, 30, 91, 50, 60], 2),
            ([5, 103, 66, 78, 64, 62], 3),
            ([10, 20, 90, 90, 30, 80], 2),
            ([60, 60, 90, 90, 30, 80], 4),
        ] {
            png.row(&row.map(|grey| [grey, grey, grey, 255]).concat()).unwrap();
            assert_eq!(png.best[0], filter, "{row:?}");
        }
        png.finish().unwrap();
    }

    /// Four colours without a pattern are shortest as they are, and a slope is by filters.
    #[test]
    fn rows_are_filtered_where_that_is_shorter() {
        let four = |x, y| pixel(pixel(x, y, true, true, true)[0] as u32 % 4, 0, true, false, true);
        let slope = |x, y| pixel(x, y, true, false, false);
        for (by_filters, of) in [(false, &four as &dyn Fn(u32, u32) -> [u8; 4]), (true, &slope)] {
            let mut png = Png::new(Vec::new(), 64, 64, Needs { color: true, alpha: false }).unwrap();
            (0..64).for_each(|y| png.row(&(0..64).flat_map(|x| of(x, y)).collect::<Vec<_>>()).unwrap());
            let len = |bytes: &[u8]| {
                let mut zlib = Zlib::new();
                zlib.write(bytes);
                zlib.out().len()
            };
            let (plain, filtered) = (len(&png.plain), len(&png.filtered));
            assert_eq!(filtered < plain, by_filters);
            png.compress().unwrap();
            assert_eq!(png.zlib.out().len(), plain.min(filtered));
        }
    }

    #[test]
    fn the_nearest_of_three_foretells() {
        // left, up and corner in this order where two are as near
        let cases = [([1, 2, 3], 1), ([1, 5, 1], 5), ([0, 255, 255], 0), ([10, 20, 15], 15), ([2, 5, 4], 2), ([5, 2, 4], 2)];
        for ([left, up, corner], asked) in cases {
            assert_eq!(nearest(left, up, corner), asked, "{left} {up} {corner}");
        }
    }

    #[test]
    fn the_sum_of_a_chunk_is_crc_32() {
        assert_eq!([&b"123456789"[..], b"IEND", b""].map(|bytes| crc(bytes.iter())), [0xCBF4_3926, 0xAE42_6082, 0]);
    }
}
