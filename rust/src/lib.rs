//! Opens CRN files (crunched DXT textures), unpacks their levels into DXT1, DXT5, DXT5A or DXN blocks, makes pixels of these, and writes
//! DDS files, by code that is proved: see the repository's README.
//!
//! A file may hold anything, and every argument may be wrong: each call ends, with blocks or with a numbered [`Refusal`], which comes in a
//! [`Refused`] that says of what it is.
//!
//! ```
//! use crunch_proved::Crn;
//!
//! let file = std::fs::read("../samples/dxt1.crn")?;
//! let crn = Crn::open(&file)?;
//! assert_eq!((crn.width(), crn.height(), crn.levels(), crn.faces()), (64, 64, 7, 1));
//! let level = crn.unpack_level(0)?;
//! assert_eq!(level.blocks().len(), 16 * 16 * 8);
//! // four bytes R, G, B, A a pixel
//! assert_eq!(level.rgba(0).map(|rgba| rgba.len()), Some(64 * 64 * 4));
//! # Ok::<(), Box<dyn std::error::Error>>(())
//! ```
//!
//! [`Crn::read`] takes a reader, [`Limits`] bound what a file may claim, and a loop over many files keeps its [`Buffers`]. Who wants no
//! more than format and sizes has [`Crn::look_path`], which reads 122 bytes at most; [`Crn::load`] then opens by what the look gave. All
//! that is `unsafe` stands in the module [`raw`]. A call takes less than 256 KB of stack, whatever the file; nothing is bound to a thread.

#![deny(unsafe_code)]
#![warn(missing_docs)]

mod answers;
mod blame;
mod crn;
mod format;
mod grouped;
#[allow(unsafe_code)]
pub mod raw;
mod reading;
mod refusal;
mod texels;

pub use answers::{Counts, Dds, Level, Levels, LevelsIter, Stopped, Written};
pub use crn::Crn;
pub use format::{Format, Kind};
pub use raw::{Header, LevelSizes};
pub use reading::{Buffers, Claim, Limits, NotRead, OverLimit};
pub use refusal::{Place, Reason, Refusal, Refused, Segment};
pub use texels::texels;

#[doc = include_str!("../MOVING.md")]
pub mod moving {}

/// Level 0, in the place of texture2ddecoder's `decode_crunch`, which unpacks the same blocks and makes texels of them, as [`Level::rgba`]
/// does ([`moving`] has more). That function refuses cube maps; here they come with all six faces.
///
/// ```
/// use crunch_proved::{decode_crunch, Kind};
///
/// let file = std::fs::read("../samples/dxn.crn")?;
/// let level = decode_crunch(&file)?;
/// assert_eq!((level.format().kind(), level.blocks().len()), (Kind::Bc5, 8 * 8 * 16));
/// assert_eq!(level.rgba(0).map(|rgba| rgba.len()), Some(32 * 32 * 4));
/// # Ok::<(), Box<dyn std::error::Error>>(())
/// ```
///
/// # Errors
///
/// As [`Crn::open`] and [`Crn::unpack_level`].
pub fn decode_crunch(file: &[u8]) -> Result<Level, Refused> {
    Crn::open(file)?.unpack_level(0)
}
