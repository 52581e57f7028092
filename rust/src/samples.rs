//! Samples after decoding: planes of 16-bit samples in, buffers of the same length out.
//!
//! A call is refused, in this order, where the planes and the buffers differ in length ([`Reason::UnequalLengths`]) and
//! where a sample of any plane is above the largest of the depth ([`Reason::SampleTooLarge`]); the buffers are then as
//! they were. The answer is how many samples a plane has.
//!
//! [`Reason::UnequalLengths`]: crate::Reason::UnequalLengths
//! [`Reason::SampleTooLarge`]: crate::Reason::SampleTooLarge

#[doc(hidden)]
pub mod ffi;

use crate::{answer, Reason, Refusal};

/// The bits of a sample: 8 to 14.
///
/// ```
/// use bpg::samples::Depth;
/// assert_eq!(Depth::new(10).unwrap().max_sample(), 1023);
/// assert_eq!(Depth::new(15).unwrap_err().number(), 32);
/// ```
#[derive(Clone, Copy, Debug, PartialEq, Eq, Hash, PartialOrd, Ord)]
pub struct Depth(u8);

impl Depth {
    /// The depth with this many bits; refused unless it is 8 to 14.
    pub const fn new(bits: u8) -> Result<Depth, Refusal> {
        match bits {
            8..=14 => Ok(Depth(bits)),
            _ => Err(Refusal {
                reason: Reason::BadSampleDepth,
                offset: 0,
            }),
        }
    }

    /// How many bits it has.
    pub const fn bits(self) -> u8 {
        self.0
    }

    /// M, the largest sample.
    pub const fn max_sample(self) -> u16 {
        (1 << self.0) - 1
    }
}

/// R, G and B that were multiplied by A, recovered: M where A is 0, else the smaller of M and R·M/A to the nearest, halves
/// up. Planes R, G, B, A; buffers R, G, B.
///
/// ```
/// use bpg::samples::{unpremultiply, Depth};
/// let (mut r, mut g, mut b) = ([0; 2], [0; 2], [0; 2]);
/// let planes: [&[u16]; 4] = [&[64, 9], &[128, 0], &[0, 7], &[128, 0]];
/// assert_eq!(unpremultiply(planes, [&mut r, &mut g, &mut b], Depth::new(8)?), Ok(2));
/// assert_eq!((r, g, b), ([128, 255], [255, 255], [0, 255]));
/// # Ok::<(), bpg::Refusal>(())
/// ```
pub fn unpremultiply(
    planes: [&[u16]; 4],
    out: [&mut [u16]; 3],
    depth: Depth,
) -> Result<usize, Refusal> {
    let count = planes[0].len();
    counted(ffi::unpremultiply(planes, out, depth.bits()), count)
}

/// Each of C, M, Y and K is M minus its plane. Planes R, G, B, W; buffers C, M, Y, K.
///
/// ```
/// use bpg::samples::{cmyk, Depth};
/// let (mut c, mut m, mut y, mut k) = ([0], [0], [0], [0]);
/// let planes: [&[u16]; 4] = [&[0], &[55], &[200], &[255]];
/// assert_eq!(cmyk(planes, [&mut c, &mut m, &mut y, &mut k], Depth::new(8)?), Ok(1));
/// assert_eq!((c, m, y, k), ([255], [200], [55], [0]));
/// # Ok::<(), bpg::Refusal>(())
/// ```
pub fn cmyk(planes: [&[u16]; 4], out: [&mut [u16]; 4], depth: Depth) -> Result<usize, Refusal> {
    let count = planes[0].len();
    counted(ffi::cmyk(planes, out, depth.bits()), count)
}

/// The colour of a file with the W plane and no colour profile: R·W/M to the nearest. Planes R, G, B, W; buffers R, G, B.
///
/// ```
/// use bpg::samples::{default_from_white, Depth};
/// let (mut r, mut g, mut b) = ([0], [0], [0]);
/// let planes: [&[u16]; 4] = [&[127], &[254], &[26], &[175]];
/// assert_eq!(default_from_white(planes, [&mut r, &mut g, &mut b], Depth::new(8)?), Ok(1));
/// assert_eq!((r, g, b), ([87], [174], [18]));
/// # Ok::<(), bpg::Refusal>(())
/// ```
pub fn default_from_white(
    planes: [&[u16]; 4],
    out: [&mut [u16]; 3],
    depth: Depth,
) -> Result<usize, Refusal> {
    let count = planes[0].len();
    counted(ffi::default_from_white(planes, out, depth.bits()), count)
}

/// R, G and B from YCgCo: with half of 2^depth taken from Cg and Co, t = Y − Cg, G = Y + Cg, B = t − Co and R = t + Co, the
/// last three brought into 0 to M. Planes Y, Cg, Co; buffers R, G, B.
///
/// ```
/// use bpg::samples::{ycgco, Depth};
/// let (mut r, mut g, mut b) = ([0], [0], [0]);
/// assert_eq!(ycgco([&[255], &[0], &[255]], [&mut r, &mut g, &mut b], Depth::new(8)?), Ok(1));
/// assert_eq!((r, g, b), ([255], [127], [255]));
///
/// let refusal = ycgco([&[256], &[0], &[0]], [&mut r, &mut g, &mut b], Depth::new(8)?).unwrap_err();
/// assert_eq!(refusal.reason, bpg::Reason::SampleTooLarge);
/// # Ok::<(), bpg::Refusal>(())
/// ```
pub fn ycgco(planes: [&[u16]; 3], out: [&mut [u16]; 3], depth: Depth) -> Result<usize, Refusal> {
    let count = planes[0].len();
    counted(ffi::ycgco(planes, out, depth.bits()), count)
}

/// Full-range luma from limited luma, both of 8 bits: 0 below 16, 255 above 235, else (y − 16)·255/219 to the nearest.
///
/// ```
/// let mut out = [0; 3];
/// assert_eq!(bpg::samples::limited_luma(&[16, 128, 235], &mut out), Ok(3));
/// assert_eq!(out, [0, 130, 255]);
/// ```
pub fn limited_luma(y: &[u16], out: &mut [u16]) -> Result<usize, Refusal> {
    counted(ffi::limited_luma(y, out), y.len())
}

/// The count, or the refusal, whose offset is always 0.
fn counted(status: u8, count: usize) -> Result<usize, Refusal> {
    answer(status, 0).map(|()| count)
}
