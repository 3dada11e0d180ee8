//! The formats of blocks.

use std::fmt;

/// The format of a file's blocks, as its header numbers them.
#[derive(Clone, Copy, Debug, PartialEq, Eq, Hash)]
#[non_exhaustive]
pub enum Format {
    /// 0: a colour block of 8 bytes.
    Dxt1,
    /// 2: an alpha block, then a colour block; 16 bytes.
    Dxt5,
    /// 3: DXT5 whose channels hold luma and chroma.
    Dxt5CcxY,
    /// 4: DXT5 whose channels hold two components.
    Dxt5XGxR,
    /// 5: DXT5 whose channels hold three components.
    Dxt5XGbr,
    /// 6: DXT5 whose channels hold four components in another order.
    Dxt5Agbr,
    /// 7: two alpha blocks; 16 bytes.
    DxnXy,
    /// 8: DXN whose two components are exchanged.
    DxnYx,
    /// 9: an alpha block of 8 bytes.
    Dxt5a,
}

/// Of which kind blocks are: what a graphics library is told, whatever the channels hold.
///
/// ```
/// use crunch_proved::{Format, Kind};
///
/// let kind = Format::Dxt5XGbr.kind();
/// assert_eq!((kind, kind.block_bytes(), kind.dxgi(), kind.vulkan(), kind.gl()), (Kind::Bc3, 16, 77, 137, 0x83F3));
/// ```
#[derive(Clone, Copy, Debug, PartialEq, Eq, Hash)]
#[non_exhaustive]
pub enum Kind {
    /// BC1, called DXT1: a colour block of 8 bytes.
    Bc1,
    /// BC3, called DXT5: an alpha block, then a colour block.
    Bc3,
    /// BC4, called DXT5A: an alpha block of 8 bytes.
    Bc4,
    /// BC5, called DXN or 3Dc: two alpha blocks.
    Bc5,
}

const ALL: [(Format, u32, Kind, &str, &str); 9] = [
    (Format::Dxt1, 0, Kind::Bc1, "DXT1", "RGBA"),
    (Format::Dxt5, 2, Kind::Bc3, "DXT5", "RGBA"),
    (Format::Dxt5CcxY, 3, Kind::Bc3, "DXT5 CCxY", "CCxY"),
    (Format::Dxt5XGxR, 4, Kind::Bc3, "DXT5 xGxR", "xGxR"),
    (Format::Dxt5XGbr, 5, Kind::Bc3, "DXT5 xGBR", "xGBR"),
    (Format::Dxt5Agbr, 6, Kind::Bc3, "DXT5 AGBR", "AGBR"),
    (Format::DxnXy, 7, Kind::Bc5, "DXN XY", "XY"),
    (Format::DxnYx, 8, Kind::Bc5, "DXN YX", "YX"),
    (Format::Dxt5a, 9, Kind::Bc4, "DXT5A", "A"),
];

impl Format {
    /// The format of a header's number; nothing for a number that no file has.
    pub fn of(number: u32) -> Option<Format> {
        ALL.iter().find(|f| f.1 == number).map(|f| f.0)
    }

    fn row(self) -> &'static (Format, u32, Kind, &'static str, &'static str) {
        ALL.iter().find(|f| f.0 == self).expect("every format has its row")
    }

    /// The header's number of it.
    pub fn number(self) -> u32 {
        self.row().1
    }

    /// Of which kind its blocks are.
    pub fn kind(self) -> Kind {
        self.row().2
    }

    /// Its name, which tells DXT5's and DXN's kinds of channels apart.
    pub fn name(self) -> &'static str {
        self.row().3
    }

    /// What the channels of a block hold, a letter for each in the block's own order: `xGxR` has green in the second and red in the fourth;
    /// `x` holds nothing, `C` chroma and `Y` luma, but for `XY` and `YX`, the two components of a normal.
    pub fn channels(self) -> &'static str {
        self.row().4
    }

    /// Whether the channels hold other components than their kind's, or in another order: so of DXT5 all but [`Dxt5`](Format::Dxt5) itself,
    /// and [`DxnYx`](Format::DxnYx). Texels come with the channels as stored: red has what [`channels`](Format::channels) names first.
    ///
    /// ```
    /// use crunch_proved::Format;
    ///
    /// assert!(!Format::Dxt5.swizzled());
    /// assert!(Format::Dxt5Agbr.swizzled());
    /// ```
    pub fn swizzled(self) -> bool {
        !matches!(self, Format::Dxt1 | Format::Dxt5 | Format::DxnXy | Format::Dxt5a)
    }
}

impl fmt::Display for Format {
    fn fmt(&self, f: &mut fmt::Formatter<'_>) -> fmt::Result {
        f.pad(self.name())
    }
}

impl Kind {
    /// `DXT1`, `DXT5`, `DXT5A` or `DXN`.
    pub fn name(self) -> &'static str {
        match self {
            Kind::Bc1 => "DXT1",
            Kind::Bc3 => "DXT5",
            Kind::Bc4 => "DXT5A",
            Kind::Bc5 => "DXN",
        }
    }

    /// The bytes of a block of four by four pixels.
    pub fn block_bytes(self) -> usize {
        match self {
            Kind::Bc1 | Kind::Bc4 => 8,
            Kind::Bc3 | Kind::Bc5 => 16,
        }
    }

    /// Planes of a block, each with an endpoint and a selector of its own.
    pub(crate) fn planes(self) -> u64 {
        self.block_bytes() as u64 / 8
    }

    /// The number of DXGI_FORMAT: BC1_UNORM, BC3_UNORM, BC4_UNORM or BC5_UNORM.
    pub fn dxgi(self) -> u32 {
        match self {
            Kind::Bc1 => 71,
            Kind::Bc3 => 77,
            Kind::Bc4 => 80,
            Kind::Bc5 => 83,
        }
    }

    /// The number of VkFormat: BC1_RGBA_UNORM_BLOCK, BC3_UNORM_BLOCK, BC4_UNORM_BLOCK or BC5_UNORM_BLOCK.
    pub fn vulkan(self) -> u32 {
        match self {
            Kind::Bc1 => 133,
            Kind::Bc3 => 137,
            Kind::Bc4 => 139,
            Kind::Bc5 => 141,
        }
    }

    /// The number that OpenGL's internal format has: COMPRESSED_RGBA_S3TC_DXT1_EXT, COMPRESSED_RGBA_S3TC_DXT5_EXT, COMPRESSED_RED_RGTC1 or
    /// COMPRESSED_RG_RGTC2.
    pub fn gl(self) -> u32 {
        match self {
            Kind::Bc1 => 0x83F1,
            Kind::Bc3 => 0x83F3,
            Kind::Bc4 => 0x8DBB,
            Kind::Bc5 => 0x8DBD,
        }
    }
}

impl fmt::Display for Kind {
    fn fmt(&self, f: &mut fmt::Formatter<'_>) -> fmt::Result {
        f.pad(self.name())
    }
}
