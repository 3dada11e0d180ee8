//! The picture of a level, with its faces in their places. It is made by bands, each of a row of blocks, as often as it is asked for: so
//! the pixels of a large cube map are never there all at once.
use super::file::{Needs, Png};
use crunch_proved::{texels, Level};
use std::io::{Result, Write};

/// A face, and the column and row of faces in which it stands.
struct Place {
    face: usize,
    column: usize,
    row: usize,
}

/// Where faces stand: as many columns and rows as there are, of which some may be empty.
pub struct Layout {
    columns: usize,
    rows: usize,
    places: Vec<Place>,
}

impl Layout {
    pub fn one(face: usize) -> Layout {
        Layout { columns: 1, rows: 1, places: vec![Place { face, column: 0, row: 0 }] }
    }

    /// A cube map unfolded around +Z, each face beside those that it touches. They are stored as +X, -X, +Y, -Y, +Z, -Z.
    pub fn cross() -> Layout {
        let places = [(2, 1), (0, 1), (1, 0), (1, 2), (1, 1), (3, 1)];
        let place = |(face, (column, row))| Place { face, column, row };
        Layout { columns: 4, rows: 3, places: places.into_iter().enumerate().map(place).collect() }
    }

    /// Side by side, as they are stored.
    pub fn strip(faces: usize) -> Layout {
        Layout { columns: faces, rows: 1, places: (0..faces).map(|face| Place { face, column: face, row: 0 }).collect() }
    }
}

pub struct Picture {
    level: Level,
    layout: Layout,
}

impl Picture {
    /// The layout has faces that the level has.
    pub fn new(level: Level, layout: Layout) -> Picture {
        Picture { level, layout }
    }

    pub fn pixels(&self) -> (u32, u32) {
        (self.level.width() * self.layout.columns as u32, self.level.height() * self.layout.rows as u32)
    }

    pub fn faces(&self) -> u64 {
        self.layout.places.len() as u64
    }

    /// Writes it as a PNG file.
    pub fn write(&self, out: &mut dyn Write) -> Result<()> {
        let mut needs = Needs::default();
        self.rows(|row| {
            needs.add(row);
            Ok(())
        })?;
        let (width, height) = self.pixels();
        let mut png = Png::new(out, width, height, needs)?;
        self.rows(|row| png.row(row))?;
        png.finish()
    }

    /// Hands over each row of pixels, of four bytes R, G, B, A. Where no face stands they are zeros, and nothing is seen.
    fn rows(&self, mut each: impl FnMut(&[u8]) -> Result<()>) -> Result<()> {
        let level = &self.level;
        let (side, pitch) = (4 * level.width() as usize, 4 * self.pixels().0 as usize);
        let of_row = level.columns() * level.format().kind().block_bytes();
        for row in 0..self.layout.rows {
            let mut band = vec![0; 4 * pitch];
            for at in 0..level.rows() {
                let high = (level.height() - 4 * at as u32).min(4);
                for place in self.layout.places.iter().filter(|place| place.row == row) {
                    let blocks = level.face(place.face).unwrap_or_default();
                    let (blocks, into) = (&blocks[at * of_row..][..of_row], &mut band[place.column * side..]);
                    // a level's own rows of blocks, into a band that is wide enough for them
                    texels(level.format(), level.width(), high, pitch, blocks, into).expect("nothing can be refused");
                }
                band.chunks(pitch).take(high as usize).try_for_each(&mut each)?;
            }
        }
        Ok(())
    }
}
