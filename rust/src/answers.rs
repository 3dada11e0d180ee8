//! What calls answer with: blocks, pixels, counts, DDS files.

use crate::raw::LevelSizes;
use crate::{texels, Format, Refused};
use std::fmt;

/// The symbols that a level drew, and its cut-outs: DXT1 blocks, over all faces, whose first colour word is below the second (0 for other formats).
#[derive(Clone, Copy, Debug, Default, PartialEq, Eq, Hash)]
#[non_exhaustive]
pub struct Counts {
    /// The symbols drawn.
    pub symbols: u64,
    /// The cut-outs.
    pub cutouts: u64,
}

/// A level unpacked: the blocks of every face, row by row, with nothing between them.
#[derive(Clone, PartialEq, Eq)]
pub struct Level {
    pub(crate) blocks: Vec<u8>,
    pub(crate) format: Format,
    pub(crate) faces: u32,
    pub(crate) pixels: (u32, u32),
    pub(crate) columns: usize,
    pub(crate) rows: usize,
    pub(crate) counts: Counts,
}

impl Level {
    /// The blocks' bytes, face after face.
    pub fn blocks(&self) -> &[u8] {
        &self.blocks
    }

    /// The same, to keep.
    pub fn into_blocks(self) -> Vec<u8> {
        self.blocks
    }

    /// The blocks of one face; nothing for a face that the file does not have.
    ///
    /// ```
    /// # let file = std::fs::read("../samples/cube.crn")?;
    /// let level = crunch_proved::Crn::open(&file)?.unpack_level(1)?;
    /// assert_eq!(level.face(5).map(|blocks| blocks.len()), Some(2 * 2 * 8));
    /// assert_eq!(level.face(6), None);
    /// # Ok::<(), Box<dyn std::error::Error>>(())
    /// ```
    pub fn face(&self, face: usize) -> Option<&[u8]> {
        self.blocks.chunks(self.blocks.len() / self.faces as usize).nth(face)
    }

    /// The pixels of one face, row by row, four bytes R, G, B, A each; nothing for a face that the file does not have. Nothing else can be
    /// refused: an unpacked level has a known format, sides of 1 to 4,096 pixels and all its blocks. [`texels()`] says what each format
    /// gives.
    ///
    /// ```
    /// # let file = std::fs::read("../samples/dxt5a.crn")?;
    /// let level = crunch_proved::Crn::open(&file)?.unpack_level(1)?;
    /// assert_eq!((level.width(), level.height()), (10, 6));
    /// let rgba = level.rgba(0).expect("every file has a face");
    /// assert_eq!(rgba.len(), 10 * 6 * 4);
    /// // one stored channel, which is red
    /// assert!(rgba.chunks(4).all(|pixel| pixel[1..] == [0, 0, 255]));
    /// assert_eq!(level.rgba(1), None);
    /// # Ok::<(), Box<dyn std::error::Error>>(())
    /// ```
    pub fn rgba(&self, face: usize) -> Option<Vec<u8>> {
        Some(texels::of_face(self.format, self.pixels, self.face(face)?))
    }

    /// The same into `rgba`, with rows a pitch apart, in bytes. What lies between and behind them stays as it was.
    ///
    /// ```
    /// # let file = std::fs::read("../samples/cube.crn")?;
    /// let level = crunch_proved::Crn::open(&file)?.unpack_level(0)?;
    /// // all six faces side by side
    /// let (pitch, mut rgba) = (6 * 16 * 4, vec![0; 6 * 16 * 4 * 16]);
    /// for face in 0..6 {
    ///     level.rgba_into(face, pitch, &mut rgba[face * 16 * 4..])?;
    /// }
    /// assert!(level.rgba(5).unwrap().chunks(64).eq(rgba.chunks(pitch).map(|row| &row[5 * 64..])));
    /// # Ok::<(), Box<dyn std::error::Error>>(())
    /// ```
    ///
    /// # Errors
    ///
    /// In this order: 18 for a pitch below four bytes a pixel, 28 for a face that the file does not have, which has no blocks, 12 for an
    /// `rgba` that ends before the last row. Each leaves `rgba` untouched.
    pub fn rgba_into(&self, face: usize, pitch: usize, rgba: &mut [u8]) -> Result<(), Refused> {
        texels(self.format, self.width(), self.height(), pitch, self.face(face).unwrap_or_default(), rgba)
    }

    /// Columns of pixels.
    pub fn width(&self) -> u32 {
        self.pixels.0
    }

    /// Rows of pixels.
    pub fn height(&self) -> u32 {
        self.pixels.1
    }

    /// The blocks' format.
    pub fn format(&self) -> Format {
        self.format
    }

    /// Faces: 1, or 6 of a cube map.
    pub fn faces(&self) -> u32 {
        self.faces
    }

    /// Blocks of a row.
    pub fn columns(&self) -> usize {
        self.columns
    }

    /// Rows of blocks of a face.
    pub fn rows(&self) -> usize {
        self.rows
    }

    /// Symbols and cut-outs.
    pub fn counts(&self) -> Counts {
        self.counts
    }
}

impl fmt::Debug for Level {
    fn fmt(&self, f: &mut fmt::Formatter<'_>) -> fmt::Result {
        let mut shown = f.debug_struct("Level");
        shown.field("format", &self.format).field("faces", &self.faces).field("columns", &self.columns).field("rows", &self.rows);
        shown.field("counts", &self.counts).field("bytes", &self.blocks.len()).finish_non_exhaustive()
    }
}

/// Levels unpacked in one call, one after another.
#[derive(Clone, PartialEq, Eq)]
pub struct Levels {
    pub(crate) blocks: Vec<u8>,
    pub(crate) format: Format,
    pub(crate) faces: u32,
    /// Of level 0 of the file.
    pub(crate) pixels: (u32, u32),
    pub(crate) first: u32,
    pub(crate) sizes: Vec<LevelSizes>,
    pub(crate) counts: Counts,
}

impl Levels {
    /// The blocks' bytes, level after level; of a level face after face.
    pub fn blocks(&self) -> &[u8] {
        &self.blocks
    }

    /// The same, to keep.
    pub fn into_blocks(self) -> Vec<u8> {
        self.blocks
    }

    /// The blocks of each level.
    ///
    /// ```
    /// # let file = std::fs::read("../samples/dxt1.crn")?;
    /// let levels = crunch_proved::Crn::open(&file)?.unpack_levels(4)?;
    /// assert_eq!(levels.iter().map(|blocks| blocks.len()).collect::<Vec<_>>(), [8, 8, 8]);
    /// # Ok::<(), Box<dyn std::error::Error>>(())
    /// ```
    pub fn iter(&self) -> LevelsIter<'_> {
        LevelsIter { blocks: &self.blocks, sizes: self.sizes.iter() }
    }

    /// The blocks of one face of a level, which goes by its number in the file, as below; nothing for a level that is not among these, or a
    /// face that the file does not have.
    pub fn face(&self, level: u32, face: usize) -> Option<&[u8]> {
        let blocks = self.iter().nth(level.checked_sub(self.first)? as usize)?;
        blocks.chunks(blocks.len() / self.faces as usize).nth(face)
    }

    /// Columns and rows of pixels of a level; nothing for one that is not among these.
    pub fn pixels(&self, level: u32) -> Option<(u32, u32)> {
        self.face(level, 0).map(|_| self.sides(level))
    }

    /// The same of any level.
    fn sides(&self, level: u32) -> (u32, u32) {
        let side = |all: u32| all.checked_shr(level).unwrap_or(0).max(1);
        (side(self.pixels.0), side(self.pixels.1))
    }

    /// The pixels of one face of a level, as [`Level::rgba`] has them; nothing for a level that is not among these, or a face that the file
    /// does not have.
    ///
    /// ```
    /// # let file = std::fs::read("../samples/dxt1.crn")?;
    /// let levels = crunch_proved::Crn::open(&file)?.unpack_levels(4)?;
    /// assert_eq!(levels.pixels(5), Some((2, 2)));
    /// assert_eq!(levels.rgba(5, 0).map(|rgba| rgba.len()), Some(2 * 2 * 4));
    /// // it was not unpacked
    /// assert_eq!(levels.rgba(3, 0), None);
    /// # Ok::<(), Box<dyn std::error::Error>>(())
    /// ```
    pub fn rgba(&self, level: u32, face: usize) -> Option<Vec<u8>> {
        Some(texels::of_face(self.format, self.sides(level), self.face(level, face)?))
    }

    /// The same into `rgba`, with rows a pitch apart, as [`Level::rgba_into`] has it.
    ///
    /// # Errors
    ///
    /// As [`Level::rgba_into`]: a level that is not among these has no blocks, and is refused by 28.
    pub fn rgba_into(&self, level: u32, face: usize, pitch: usize, rgba: &mut [u8]) -> Result<(), Refused> {
        let ((width, height), blocks) = (self.sides(level), self.face(level, face).unwrap_or_default());
        texels(self.format, width, height, pitch, blocks, rgba).map_err(|refused| Refused { level: Some(level), ..refused })
    }

    /// The first level's number.
    pub fn first(&self) -> u32 {
        self.first
    }

    /// How many levels there are.
    pub fn len(&self) -> usize {
        self.sizes.len()
    }

    /// Whether there is none.
    pub fn is_empty(&self) -> bool {
        self.sizes.is_empty()
    }

    /// Each level's sizes.
    pub fn sizes(&self) -> &[LevelSizes] {
        &self.sizes
    }

    /// The blocks' format.
    pub fn format(&self) -> Format {
        self.format
    }

    /// Faces: 1, or 6 of a cube map.
    pub fn faces(&self) -> u32 {
        self.faces
    }

    /// Symbols and cut-outs of all.
    pub fn counts(&self) -> Counts {
        self.counts
    }
}

impl fmt::Debug for Levels {
    fn fmt(&self, f: &mut fmt::Formatter<'_>) -> fmt::Result {
        let mut shown = f.debug_struct("Levels");
        shown.field("format", &self.format).field("faces", &self.faces).field("first", &self.first).field("levels", &self.sizes.len());
        shown.field("counts", &self.counts).field("bytes", &self.blocks.len()).finish_non_exhaustive()
    }
}

/// The blocks of each of several levels: [`Levels::iter`].
#[derive(Clone)]
pub struct LevelsIter<'a> {
    blocks: &'a [u8],
    sizes: std::slice::Iter<'a, LevelSizes>,
}

impl<'a> Iterator for LevelsIter<'a> {
    type Item = &'a [u8];

    fn next(&mut self) -> Option<&'a [u8]> {
        let (level, rest) = self.blocks.split_at(self.sizes.next()?.bytes);
        self.blocks = rest;
        Some(level)
    }

    fn size_hint(&self) -> (usize, Option<usize>) {
        self.sizes.size_hint()
    }
}

impl ExactSizeIterator for LevelsIter<'_> {}

impl<'a> IntoIterator for &'a Levels {
    type Item = &'a [u8];
    type IntoIter = LevelsIter<'a>;

    fn into_iter(self) -> LevelsIter<'a> {
        self.iter()
    }
}

/// Levels of which one was refused: which and why, and those before it.
///
/// ```
/// # let mut file = std::fs::read("../samples/dxt1.crn")?;
/// // level 3 begins where level 4 does, and has no bytes
/// file.copy_within(86..90, 82);
/// let stopped = crunch_proved::Crn::open(&file)?.unpack_levels(0).unwrap_err();
/// assert_eq!((stopped.refused.number(), stopped.refused.level, stopped.before.len()), (4, Some(3), 3));
/// # Ok::<(), Box<dyn std::error::Error>>(())
/// ```
#[derive(Clone, Debug, PartialEq, Eq)]
#[non_exhaustive]
pub struct Stopped {
    /// The refusal, with the level that it is of.
    pub refused: Refused,
    /// The levels before it, which went through.
    pub before: Levels,
}

impl fmt::Display for Stopped {
    fn fmt(&self, f: &mut fmt::Formatter<'_>) -> fmt::Result {
        self.refused.fmt(f)
    }
}

impl std::error::Error for Stopped {}

impl From<Stopped> for Refused {
    fn from(stopped: Stopped) -> Refused {
        stopped.refused
    }
}

/// A DDS file, as [`Crn::to_dds`](crate::Crn::to_dds) makes it.
#[derive(Clone, PartialEq, Eq)]
#[non_exhaustive]
pub struct Dds {
    /// The file: its magic, its header and its blocks.
    pub bytes: Vec<u8>,
    /// Symbols and cut-outs of all levels.
    pub counts: Counts,
}

impl fmt::Debug for Dds {
    fn fmt(&self, f: &mut fmt::Formatter<'_>) -> fmt::Result {
        f.debug_struct("Dds").field("bytes", &self.bytes.len()).field("counts", &self.counts).finish()
    }
}

/// What [`Crn::write_dds_into`](crate::Crn::write_dds_into) wrote.
#[derive(Clone, Copy, Debug, PartialEq, Eq, Hash)]
#[non_exhaustive]
pub struct Written {
    /// How many bytes, from the buffer's first on.
    pub bytes: usize,
    /// Symbols and cut-outs of all levels.
    pub counts: Counts,
}
