//! The files of a buffer, each read alone.

#[cfg(feature = "alloc")]
use alloc::{vec, vec::Vec};

use crate::{answer, ffi, Refusal};

/// Reads the files of a buffer, in which they stand end to end with these lengths: for each the status (0,
/// or the number of a [`Reason`](crate::Reason)) and the offset in that file, as [`read`](crate::read) answers them for that file
/// alone. One bad file changes no other's answer. The batch itself is refused where the lengths do not add
/// up to the buffer, or the three lists differ in length.
///
/// ```
/// // File A of the examples, and a file that is cut.
/// let a = *b"BPG\xFB\x20\x00\x08\x84\x1E\x00\x03\x92\x4D\x00\x26\x01";
/// let buffer = [&a[..], &a[..9]].concat();
/// let (mut statuses, mut offsets) = ([0; 2], [0; 2]);
/// bpg::batch(&buffer, &[16, 9], &mut statuses, &mut offsets)?;
/// assert_eq!((statuses, offsets), ([0, 2], [0, 9]));
/// # Ok::<(), bpg::Refusal>(())
/// ```
pub fn batch(
    buffer: &[u8],
    lengths: &[u32],
    statuses: &mut [u8],
    offsets: &mut [u32],
) -> Result<(), Refusal> {
    answer(ffi::batch(buffer, lengths, statuses, offsets), 0)
}

/// [`batch`] with a list of results, one for each file.
///
/// ```
/// // File A of the examples, a file that is cut, and file A again.
/// let a = *b"BPG\xFB\x20\x00\x08\x84\x1E\x00\x03\x92\x4D\x00\x26\x01";
/// let buffer = [&a[..], &a[..9], &a].concat();
/// let answers = bpg::batch_to_vec(&buffer, &[16, 9, 16])?;
/// assert_eq!((answers[0], answers[2]), (Ok(()), Ok(())));
/// assert_eq!(answers[1], bpg::read(&a[..9]).map(drop));
/// assert_eq!(answers[1].unwrap_err().offset, 9);
///
/// let refusal = bpg::batch_to_vec(&buffer, &[16, 16]).unwrap_err();
/// assert_eq!(refusal.reason, bpg::Reason::BadBatch);
/// # Ok::<(), bpg::Refusal>(())
/// ```
#[cfg(feature = "alloc")]
pub fn batch_to_vec(buffer: &[u8], lengths: &[u32]) -> Result<Vec<Result<(), Refusal>>, Refusal> {
    let mut statuses = vec![0; lengths.len()];
    let mut offsets = vec![0; lengths.len()];
    batch(buffer, lengths, &mut statuses, &mut offsets)?;
    let answers = statuses.into_iter().zip(offsets);
    Ok(answers
        .map(|(status, offset)| answer(status, offset as usize))
        .collect())
}
