//! The frames of a file, and how long each is shown.

#[cfg(feature = "alloc")]
use alloc::{vec, vec::Vec};

use crate::{answer, ffi, Refusal};

/// How many frames a file has.
///
/// ```
/// // File A of the examples, with a byte of slice data: one frame. Without it the slice is empty.
/// let file = *b"BPG\xFB\x20\x00\x08\x84\x1E\x00\x03\x92\x4D\x00\x26\x01\x80";
/// assert_eq!(bpg::frame_count(&file), Ok(1));
/// let refusal = bpg::frame_count(&file[..16]).unwrap_err();
/// assert_eq!((refusal.number(), refusal.offset), (22, 14));
/// ```
pub fn frame_count(file: &[u8]) -> Result<usize, Refusal> {
    let (status, count, offset) = ffi::frame_count(file);
    answer(status, offset)?;
    Ok(count)
}

/// Writes for how many frame periods each frame of a file is shown, and answers how many frames there
/// are. The rest of `durations` is unchanged.
///
/// ```
/// let file = *b"BPG\xFB\x20\x00\x08\x84\x1E\x00\x03\x92\x4D\x00\x26\x01\x80";
/// let mut durations = [7; 2];
/// assert_eq!(bpg::frames(&file, &mut durations), Ok(1));
/// assert_eq!(durations, [1, 7]);
/// ```
pub fn frames(file: &[u8], durations: &mut [u16]) -> Result<usize, Refusal> {
    let (status, count, offset) = ffi::frames(file, durations);
    answer(status, offset)?;
    Ok(count)
}

/// For how many frame periods each frame of a file is shown.
///
/// ```
/// let file = *b"BPG\xFB\x20\x00\x08\x84\x1E\x00\x03\x92\x4D\x00\x26\x01\x80";
/// assert_eq!(bpg::frames_to_vec(&file)?, [1]);
/// # Ok::<(), bpg::Refusal>(())
/// ```
#[cfg(feature = "alloc")]
pub fn frames_to_vec(file: &[u8]) -> Result<Vec<u16>, Refusal> {
    let mut durations = vec![0; frame_count(file)?];
    frames(file, &mut durations)?;
    Ok(durations)
}
