//! Reading in two calls: the head of a file first, and then on from it.

use core::fmt;
use core::mem::{offset_of, size_of};

use crate::number::{accessors, own_fields};
use crate::{ffi, AlphaKind, Record, Refusal};

/// How many numbers a head has.
pub(crate) const HEAD_NUMBERS: usize = 12;

/// The head of a file: its format, its size and two lengths, as coded. It is the memory that the static library reads and writes.
///
/// ```
/// // The first bytes of file C of the examples, up to the length of its extension block.
/// let head = bpg::head(b"BPG\xFB\x20\x09\x08\x84\x1E\x00\x05")?;
/// assert_eq!((head.picture_width(), head.picture_height()), (8, 542));
/// assert!(head.animation_flag());
/// assert_eq!((head.data_length(), head.extension_length()), (0, 5));
/// # Ok::<(), bpg::Refusal>(())
/// ```
#[derive(Clone, Copy, Default, PartialEq, Eq, Hash)]
#[repr(C)]
pub struct Head {
    pixel_format: u64,
    alpha1_flag: u64,
    bit_depth_minus_8: u64,
    color_space: u64,
    extension_present_flag: u64,
    alpha2_flag: u64,
    limited_range_flag: u64,
    animation_flag: u64,
    picture_width: u64,
    picture_height: u64,
    data_length: u64,
    extension_length: u64,
}

// The list of the static library, number for number.
const _: () = {
    assert!(size_of::<Head>() == 8 * HEAD_NUMBERS);
    assert!(offset_of!(Head, animation_flag) == 8 * 7);
    assert!(offset_of!(Head, picture_width) == 8 * 8);
    assert!(offset_of!(Head, data_length) == 8 * 10);
};

own_fields!(Head);

accessors! {
    Head {
        /// The number of the pixel format: [`PixelFormat::try_from`](crate::PixelFormat) names it.
        pixel_format set_pixel_format: u8,
        /// With [`alpha2_flag`](Head::alpha2_flag), what [`alpha_kind`](Head::alpha_kind) says.
        alpha1_flag set_alpha1_flag: bool,
        /// The bit depth of the samples, minus 8.
        bit_depth_minus_8 set_bit_depth_minus_8: u8,
        /// The number of the color space: [`ColorSpace::try_from`](crate::ColorSpace) names it.
        color_space set_color_space: u8,
        /// The file has an extension block, perhaps an empty one.
        extension_present_flag set_extension_present_flag: bool,
        /// With [`alpha1_flag`](Head::alpha1_flag), what [`alpha_kind`](Head::alpha_kind) says.
        alpha2_flag set_alpha2_flag: bool,
        /// The samples are in the limited range of video.
        limited_range_flag set_limited_range_flag: bool,
        /// The file is an animation.
        animation_flag set_animation_flag: bool,
        /// The width in pixels.
        picture_width set_picture_width: u32,
        /// The height in pixels.
        picture_height set_picture_height: u32,
        /// How many bytes the HEVC headers and data have; 0 where they go up to the end of the file.
        data_length set_data_length: u32,
        /// How many bytes the extension block has; 0 without one.
        extension_length set_extension_length: u32,
    }
}

impl Head {
    /// What the two alpha flags say.
    pub fn alpha_kind(&self) -> AlphaKind {
        AlphaKind::of_flags(self.alpha1_flag(), self.alpha2_flag())
    }
}

impl fmt::Debug for Head {
    fn fmt(&self, f: &mut fmt::Formatter<'_>) -> fmt::Result {
        let mut shown = f.debug_struct("Head");
        self.show_numbers(&mut shown);
        shown.finish()
    }
}

/// Reads the head of a file, up to the length of its extension block. The first [`HEAD_BYTES`](crate::HEAD_BYTES) (27) bytes of a file, or all of a
/// shorter one, are always enough: with them the answer is that for the whole file, a refusal too. Whether the
/// file is too long, and whether the extension block fits it, is not judged here.
///
/// ```
/// // File A of the examples, and 16 bytes more of data.
/// let file = *b"BPG\xFB\x20\x00\x08\x84\x1E\x00\x03\x92\x4D\x00\x26\x01\x26\x01\x26\x01\x26\x01\x26\x01\x26\x01\x26\x01\x26\x01\x26\x01";
/// let head = bpg::head(&file[..27])?;
/// assert_eq!(bpg::PixelFormat::try_from(head.pixel_format()), Ok(bpg::PixelFormat::Yuv420Jpeg));
/// assert_eq!((head.picture_width(), head.picture_height()), (8, 542));
/// assert_eq!(bpg::head(&file), Ok(head));
///
/// let refusal = bpg::head(&file[..9]).unwrap_err();
/// assert_eq!((refusal.number(), refusal.offset), (2, 9));
/// # Ok::<(), bpg::Refusal>(())
/// ```
#[inline]
pub fn head(file: &[u8]) -> Result<Head, Refusal> {
    ffi::read_head(file)
}

/// Reads a file whose head the caller has, as [`read`](crate::read) does. The head is read again over this file, so that nobody is trusted:
/// another head is refused, after a file that is too long and one whose own head is refused.
///
/// ```
/// // Files A and C of the examples.
/// let a = *b"BPG\xFB\x20\x00\x08\x84\x1E\x00\x03\x92\x4D\x00\x26\x01";
/// let c = *b"BPG\xFB\x20\x09\x08\x84\x1E\x00\x05\x05\x03\x00\x01\x0A\x03\x92\x4D\x00\x26\x01";
/// let head = bpg::head(&c[..11])?;
/// assert_eq!(bpg::body(&head, &c), bpg::read(&c));
/// assert_eq!(bpg::body(&head, &a).unwrap_err().reason, bpg::Reason::OtherHead);
/// # Ok::<(), bpg::Refusal>(())
/// ```
#[inline]
pub fn body(head: &Head, file: &[u8]) -> Result<Record, Refusal> {
    ffi::read_body(head, file)
}
