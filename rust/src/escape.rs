//! Emulation prevention of NAL units, undone and redone.

use crate::{answer, ffi, Refusal};

/// Writes the bytes of a NAL unit without its emulation prevention bytes and answers how many there
/// are: at most as many as the unit has. The rest of `out` is unchanged.
///
/// ```
/// let mut out = [0xA5; 5];
/// assert_eq!(bpg::unescape(&[0x26, 0x00, 0x00, 0x03, 0x01], &mut out), Ok(4));
/// assert_eq!(out, [0x26, 0x00, 0x00, 0x01, 0xA5]);
/// ```
pub fn unescape(unit: &[u8], out: &mut [u8]) -> Result<usize, Refusal> {
    let (status, count) = ffi::unescape(unit, out);
    answer(status, 0)?;
    Ok(count)
}

/// Writes the bytes with emulation prevention bytes, as they stand in a NAL unit, and answers how many
/// there are. The rest of `out` is unchanged.
///
/// ```
/// let mut out = [0; 9];
/// assert_eq!(bpg::escape(&[0; 6], &mut out), Ok(9));
/// assert_eq!(out, [0, 0, 3, 0, 0, 3, 0, 0, 3]);
/// ```
pub fn escape(bytes: &[u8], out: &mut [u8]) -> Result<usize, Refusal> {
    let (status, count) = ffi::escape(bytes, out);
    answer(status, 0)?;
    Ok(count)
}
