//! Names for the numbers of a record: limits, tags, pixel formats, color spaces, kinds of alpha.

/// The most bytes that a file may have.
pub const MAX_FILE: usize = 16_777_216;

/// The most extension entries that a file may have.
pub const MAX_ENTRIES: usize = 64;

/// So many bytes of a file, or all of a shorter one, are always enough for [`head`](crate::head()).
pub const HEAD_BYTES: usize = 27;

/// The tags of extension entries that BPG defines; an entry may have any other.
pub mod tag {
    /// EXIF data.
    pub const EXIF: u32 = 1;
    /// An ICC profile.
    pub const ICC_PROFILE: u32 = 2;
    /// XMP data.
    pub const XMP: u32 = 3;
    /// A thumbnail, which is again a BPG file.
    pub const THUMBNAIL: u32 = 4;
    /// The animation control, which begins with the loop numbers.
    pub const ANIMATION_CONTROL: u32 = 5;
}

/// An enum with the numbers that a file has for it.
macro_rules! numbered {
    ($(#[$doc:meta])* $enum:ident { $($(#[$value_doc:meta])* $name:ident = $number:literal,)* }) => {
        $(#[$doc])*
        #[derive(Clone, Copy, Debug, PartialEq, Eq, Hash)]
        #[non_exhaustive]
        #[repr(u8)]
        pub enum $enum {
            $($(#[$value_doc])* $name = $number,)*
        }

        impl TryFrom<u8> for $enum {
            /// The number, which BPG reserves.
            type Error = u8;

            fn try_from(number: u8) -> Result<$enum, u8> {
                match number {
                    $($number => Ok($enum::$name),)*
                    _ => Err(number),
                }
            }
        }

        impl From<$enum> for u8 {
            fn from(value: $enum) -> u8 {
                value as u8
            }
        }
    };
}

numbered! {
    /// The pixel formats: how chroma is subsampled, and where its samples stand.
    ///
    /// ```
    /// let mut record = bpg::Record::new();
    /// record.set_pixel_format(bpg::PixelFormat::Yuv420Jpeg.into());
    /// assert_eq!(bpg::PixelFormat::try_from(record.pixel_format()), Ok(bpg::PixelFormat::Yuv420Jpeg));
    /// assert_eq!(bpg::PixelFormat::try_from(6), Err(6));
    /// ```
    PixelFormat {
        /// No chroma.
        Grayscale = 0,
        /// 4:2:0, chroma at (0.5, 0.5) as in JPEG.
        Yuv420Jpeg = 1,
        /// 4:2:2, chroma at (0.5, 0) as in JPEG.
        Yuv422Jpeg = 2,
        /// 4:4:4.
        Yuv444 = 3,
        /// 4:2:0, chroma at (0, 0.5) as in MPEG-2.
        Yuv420Mpeg2 = 4,
        /// 4:2:2, chroma at (0, 0) as in MPEG-2.
        Yuv422Mpeg2 = 5,
    }
}

numbered! {
    /// The color spaces; a grayscale picture has the first.
    ColorSpace {
        /// YCbCr of BT.601, as in JPEG.
        YCbCrBt601 = 0,
        /// RGB, the planes in the order G, B, R.
        Rgb = 1,
        /// YCgCo.
        YCgCo = 2,
        /// YCbCr of BT.709.
        YCbCrBt709 = 3,
        /// YCbCr of BT.2020, non-constant luminance.
        YCbCrBt2020 = 4,
    }
}

numbered! {
    /// What the two alpha flags say: the first, and twice the second.
    AlphaKind {
        /// No alpha plane.
        None = 0,
        /// An alpha plane, the color not premultiplied.
        Plain = 1,
        /// The W plane of a CMYK picture in place of alpha.
        White = 2,
        /// An alpha plane, the color premultiplied.
        Premultiplied = 3,
    }
}

impl AlphaKind {
    pub(crate) fn of_flags(alpha1: bool, alpha2: bool) -> AlphaKind {
        match (alpha1, alpha2) {
            (false, false) => AlphaKind::None,
            (true, false) => AlphaKind::Plain,
            (false, true) => AlphaKind::White,
            (true, true) => AlphaKind::Premultiplied,
        }
    }
}
