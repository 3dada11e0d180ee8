//! What a file is read into, and how much it may claim.

use crate::raw::{self, Header, Room, HEAD_BYTES};
use crate::{blame, Refused};
use std::fmt;
use std::io::{self, Read};

/// Memory that is used again for one file after another: the record, the palettes and, where a file is read, its bytes. A loop over many small
/// files then allocates only for a file that is larger than all before it, and nothing is zeroed but what the proved code zeroes itself.
///
/// ```
/// use crunch_proved::{Buffers, Crn, Limits};
///
/// let (mut buffers, mut blocks) = (Buffers::new(), Vec::new());
/// for name in ["cube", "dxn", "dxt1", "dxt5", "dxt5a"] {
///     let file = std::fs::File::open(format!("../samples/{name}.crn"))?;
///     let crn = Crn::read_with(file, &Limits::default(), &mut buffers)?;
///     let counts = crn.unpack_levels_into(0, &mut blocks)?;
///     println!("{name}: {} bytes of blocks, {} symbols", blocks.len(), counts.symbols);
/// }
/// # Ok::<(), Box<dyn std::error::Error>>(())
/// ```
#[derive(Default)]
pub struct Buffers {
    pub(crate) room: Room,
    pub(crate) file: Vec<u8>,
}

impl Buffers {
    /// Empty ones; they grow with what is opened.
    pub fn new() -> Buffers {
        Buffers::default()
    }
}

impl fmt::Debug for Buffers {
    fn fmt(&self, f: &mut fmt::Formatter<'_>) -> fmt::Result {
        f.debug_struct("Buffers").finish_non_exhaustive()
    }
}

/// How much a file may have and claim. It is looked at before anything is allocated that goes by it.
///
/// Without limits, too, the memory that a file takes goes by its own bytes and not by what its header claims: a level that claims more than
/// its bytes could hold is refused as it would be in a destination of its whole size, without taking that. What can be held is still much:
/// four blocks of 8 bytes may take no more than six bits.
///
/// ```
/// use crunch_proved::{Crn, Limits, NotRead};
///
/// let limits = Limits::default().with_unpacked_bytes(2000);
/// let file = std::fs::File::open("../samples/dxt1.crn")?;
/// let no = Crn::read_within(file, &limits).unwrap_err();
/// assert!(matches!(no, NotRead::OverLimit(_)));
/// assert_eq!(no.to_string(), "its levels have 2744 bytes of blocks, and 2000 are allowed");
/// # Ok::<(), Box<dyn std::error::Error>>(())
/// ```
#[derive(Clone, Copy, Debug, PartialEq, Eq, Hash)]
#[non_exhaustive]
pub struct Limits {
    /// The bytes of the file.
    pub file_bytes: u64,
    /// The bytes of all blocks, of every face and level.
    pub unpacked_bytes: u64,
}

impl Default for Limits {
    /// None.
    fn default() -> Limits {
        Limits { file_bytes: u64::MAX, unpacked_bytes: u64::MAX }
    }
}

impl Limits {
    /// The same, with so many bytes of a file at most.
    pub fn with_file_bytes(self, file_bytes: u64) -> Limits {
        Limits { file_bytes, ..self }
    }

    /// The same, with so many bytes of blocks at most.
    pub fn with_unpacked_bytes(self, unpacked_bytes: u64) -> Limits {
        Limits { unpacked_bytes, ..self }
    }

    /// Whether a file, or its first bytes, keep to them. A header that is refused claims nothing.
    pub(crate) fn hold(&self, file: &[u8]) -> Result<(), OverLimit> {
        OverLimit::test(Claim::File, file.len() as u64, self.file_bytes)?;
        if self.unpacked_bytes == u64::MAX {
            return Ok(());
        }
        let bytes = |header: Header| (0..header.levels).map(|level| raw::level_sizes(&header, level).bytes as u64).sum();
        OverLimit::test(Claim::Unpacked, Header::read(file).map_or(0, bytes), self.unpacked_bytes)
    }
}

/// What went over its limit.
#[derive(Clone, Copy, Debug, PartialEq, Eq, Hash)]
#[non_exhaustive]
pub enum Claim {
    /// The file's bytes.
    File,
    /// The blocks' bytes.
    Unpacked,
}

/// A file that has or claims more than its reader allows.
#[derive(Clone, Copy, Debug, PartialEq, Eq, Hash)]
#[non_exhaustive]
pub struct OverLimit {
    /// Of what.
    pub claim: Claim,
    /// How many bytes it has; of a file that is still being read, at least.
    pub bytes: u64,
    /// How many are allowed.
    pub limit: u64,
}

impl OverLimit {
    fn test(claim: Claim, bytes: u64, limit: u64) -> Result<(), OverLimit> {
        if bytes > limit {
            return Err(OverLimit { claim, bytes, limit });
        }
        Ok(())
    }
}

impl fmt::Display for OverLimit {
    fn fmt(&self, f: &mut fmt::Formatter<'_>) -> fmt::Result {
        match self.claim {
            Claim::File => write!(f, "it is longer than the {} bytes that are allowed", self.limit),
            Claim::Unpacked => write!(f, "its levels have {} bytes of blocks, and {} are allowed", self.bytes, self.limit),
        }
    }
}

impl std::error::Error for OverLimit {}

/// Why a file was not read and opened.
#[derive(Debug)]
#[non_exhaustive]
pub enum NotRead {
    /// It was refused.
    Refused(Refused),
    /// It has or claims more than is allowed.
    OverLimit(OverLimit),
    /// It could not be read.
    Io(io::Error),
}

impl fmt::Display for NotRead {
    fn fmt(&self, f: &mut fmt::Formatter<'_>) -> fmt::Result {
        match self {
            NotRead::Refused(refused) => refused.fmt(f),
            NotRead::OverLimit(over) => over.fmt(f),
            NotRead::Io(error) => error.fmt(f),
        }
    }
}

impl std::error::Error for NotRead {
    fn source(&self) -> Option<&(dyn std::error::Error + 'static)> {
        match self {
            NotRead::Refused(refused) => Some(refused),
            NotRead::OverLimit(over) => Some(over),
            NotRead::Io(error) => Some(error),
        }
    }
}

impl From<Refused> for NotRead {
    fn from(refused: Refused) -> NotRead {
        NotRead::Refused(refused)
    }
}

impl From<OverLimit> for NotRead {
    fn from(over: OverLimit) -> NotRead {
        NotRead::OverLimit(over)
    }
}

impl From<io::Error> for NotRead {
    fn from(error: io::Error) -> NotRead {
        NotRead::Io(error)
    }
}

/// The bytes that are read before the header is looked at; small files are read whole by it.
const FIRST: u64 = 4096;

/// The most that a CRN file can have.
const MOST: u64 = u32::MAX as u64;

/// Reads until a buffer is full or nothing follows: how many bytes there were.
fn filled(from: &mut impl Read, buffer: &mut [u8]) -> io::Result<usize> {
    let mut len = 0;
    while len < buffer.len() {
        match from.read(&mut buffer[len..]) {
            Ok(0) => break,
            Ok(n) => len += n,
            Err(error) if error.kind() == io::ErrorKind::Interrupted => (),
            Err(error) => return Err(error),
        }
    }
    Ok(len)
}

/// The look at a file of so many bytes, which begins with these.
pub(crate) fn look_at(head: &[u8], len: u64) -> Result<Header, Refused> {
    let looked = raw::look_at(head, len as usize);
    blame::looked(looked.refusal, head, len).map_or(Ok(looked.header), Err)
}

/// What refuses a file of these first bytes, however many follow: 1 or 2.
fn refused_by_head(head: &[u8]) -> Result<(), Refused> {
    match look_at(head, head.len() as u64) {
        Err(refused) if refused.number() < 3 => Err(refused),
        _ => Ok(()),
    }
}

/// Reads a file's first bytes, and looks at them. What it is said to have counts where its first bytes fit that; else what follows them is
/// read too, as far as its number has a say, and is not kept.
pub(crate) fn look(mut from: impl Read, said: Option<u64>) -> Result<Header, NotRead> {
    let mut head = [0; HEAD_BYTES];
    let there = filled(&mut from, &mut head)?;
    let (head, there) = (&head[..there], there as u64);
    let len = match said {
        // it has ended
        _ if there < HEAD_BYTES as u64 => there,
        Some(len) if len >= there => len,
        _ => {
            refused_by_head(head)?;
            there + io::copy(&mut from.take(MOST + 1 - there), &mut io::sink())?
        }
    };
    Ok(look_at(head, len)?)
}

/// Reads a file into a buffer that may hold another, and no more of it than is wanted: a long one that 1 or 2 refuses is not read on, nor what
/// is over a limit. How many bytes it has, which the buffer then begins with.
pub(crate) fn read(mut from: impl Read, limits: &Limits, buffer: &mut Vec<u8>) -> Result<usize, NotRead> {
    // a byte more than is allowed tells that there are more
    let most = limits.file_bytes.min(MOST) + 1;
    let first = FIRST.min(most) as usize;
    if buffer.len() < first {
        buffer.resize(first, 0);
    }
    let len = filled(&mut from, &mut buffer[..first])?;
    limits.hold(&buffer[..len])?;
    if (len as u64) < FIRST {
        return Ok(len);
    }
    refused_by_head(&buffer[..len])?;
    buffer.truncate(len);
    from.take(most - FIRST).read_to_end(buffer)?;
    limits.hold(buffer)?;
    Ok(buffer.len())
}
