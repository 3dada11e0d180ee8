//! Pixels of blocks.

use crate::raw::{self, Face};
use crate::{blame, Format, Refused};

/// The pixels of a face's blocks, which come from a [`Level`](crate::Level) or from elsewhere, into a caller's buffer: four bytes R, G,
/// B, A each, rows a pitch apart, in bytes. The blocks stand row by row with nothing between them; those at the right and at the lower
/// edge are clipped to the picture's width and height, and bytes between and behind its rows stay as they were.
///
/// [`Format::Dxt1`] is BC1 with alpha: a block whose first colour word is not above the second has three colours, and its selector 3 is
/// 0, 0, 0, 0. The formats of DXT5 are BC3, whose colours are always four; those of DXN BC5, which gives R, G, 0, 255; and
/// [`Format::Dxt5a`] is BC4, which gives R, 0, 0, 255. Where a format is [`swizzled`](Format::swizzled) the channels come as stored. Ends
/// are widened to 8 bits first, and what lies between them is rounded down.
///
/// ```
/// use crunch_proved::{texels, Format, Refusal};
///
/// // a block whose two colours are red and blue, with selectors 0, 1, 2 and 3 in its first row and 0 in the others
/// let block = [0x00, 0xF8, 0x1F, 0x00, 0b11_10_01_00, 0, 0, 0];
/// let mut rgba = [7; 4 * 4 + 1];
/// texels(Format::Dxt1, 4, 1, 16, &block, &mut rgba)?;
/// assert_eq!(rgba[..16], [255, 0, 0, 255, 0, 0, 255, 255, 170, 0, 85, 255, 85, 0, 170, 255]);
/// assert_eq!(rgba[16], 7);
///
/// let no = texels(Format::Dxt1, 5, 1, 20, &block, &mut rgba).unwrap_err();
/// assert_eq!((no.refusal, no.number()), (Refusal::Blocks, 28));
/// assert!(no.to_string().ends_with("(blocks is 8, and has to be at least 16)"));
/// # Ok::<(), crunch_proved::Refused>(())
/// ```
///
/// # Errors
///
/// In this order: 2 for a width or a height that is not 1 to 4,096, 18 for a pitch below four bytes a pixel, 28 for too few bytes of
/// blocks, 12 for an `rgba` that ends before the last row. Each leaves `rgba` untouched.
pub fn texels(format: Format, width: u32, height: u32, pitch: usize, blocks: &[u8], rgba: &mut [u8]) -> Result<(), Refused> {
    let face = Face { width: width as usize, height: height as usize, pitch };
    let refusal = raw::texels(format.number(), face, blocks, rgba);
    blame::texels(refusal, format, face, blocks.len(), rgba.len()).map_or(Ok(()), Err)
}

/// The pixels of a face of a level that was unpacked, rows close together. Nothing of it can be refused: an opened file's format is known
/// and its sides are 1 to 4,096, a face has all its blocks, and pitch and room are what they take.
pub(crate) fn of_face(format: Format, (width, height): (u32, u32), blocks: &[u8]) -> Vec<u8> {
    let mut rgba = Vec::new();
    let refusal = raw::texels_in(format.number(), width as usize, height as usize, blocks, &mut rgba);
    assert!(refusal == 0, "a face of an unpacked level gives no picture, by {refusal}");
    rgba
}
