//! Writing records, and canonical forms.

#[cfg(feature = "alloc")]
use alloc::{vec, vec::Vec};

use crate::{answer, ffi, Record, Refusal};

/// Writes the file of a record, whose ranges are in `source`, and answers how many bytes it has. The
/// rest of `out` is unchanged.
///
/// ```
/// // File A of the examples, read and written again with another width.
/// let file = *b"BPG\xFB\x20\x00\x08\x84\x1E\x00\x03\x92\x4D\x00\x26\x01";
/// let mut record = bpg::read(&file)?;
/// record.set_picture_width(16);
/// let mut out = [0; 16];
/// let count = bpg::write(&record, &file, &mut out)?;
/// assert_eq!(out[..count], *b"BPG\xFB\x20\x00\x10\x84\x1E\x00\x03\x92\x4D\x00\x26\x01");
/// # Ok::<(), bpg::Refusal>(())
/// ```
#[inline]
pub fn write(record: &Record, source: &[u8], out: &mut [u8]) -> Result<usize, Refusal> {
    let (status, count) = ffi::write(ffi::numbers(record), source, out);
    answer(status, 0)?;
    Ok(count)
}

/// How many bytes the file of a record has, or why [`write()`] would refuse it: the answer of [`write()`] with
/// a buffer that holds the file.
///
/// ```
/// // File A of the examples.
/// let file = *b"BPG\xFB\x20\x00\x08\x84\x1E\x00\x03\x92\x4D\x00\x26\x01";
/// assert_eq!(bpg::write_size(&bpg::read(&file)?, &file), Ok(16));
/// # Ok::<(), bpg::Refusal>(())
/// ```
#[inline]
pub fn write_size(record: &Record, source: &[u8]) -> Result<usize, Refusal> {
    let (status, count) = ffi::write_size(ffi::numbers(record), source);
    answer(status, 0)?;
    Ok(count)
}

/// The file of a record, whose ranges are in `source`.
///
/// ```
/// // File A of the examples.
/// let file = *b"BPG\xFB\x20\x00\x08\x84\x1E\x00\x03\x92\x4D\x00\x26\x01";
/// assert_eq!(bpg::write_to_vec(&bpg::read(&file)?, &file)?, file);
/// # Ok::<(), bpg::Refusal>(())
/// ```
#[cfg(feature = "alloc")]
pub fn write_to_vec(record: &Record, source: &[u8]) -> Result<Vec<u8>, Refusal> {
    let mut file = vec![0; write_size(record, source)?];
    write(record, source, &mut file)?;
    Ok(file)
}

/// Writes the canonical form of a file and answers how many bytes it has. The rest of `out` is
/// unchanged. Two files show the same picture exactly if their canonical forms are equal, and no file
/// of that picture is shorter; so a buffer as long as the file is always enough.
///
/// ```
/// // File A of the examples is canonical.
/// let file = *b"BPG\xFB\x20\x00\x08\x84\x1E\x00\x03\x92\x4D\x00\x26\x01";
/// let mut out = [0; 16];
/// assert_eq!(bpg::canonicalize(&file, &mut out), Ok(16));
/// assert_eq!(out, file);
///
/// let refusal = bpg::canonicalize(&file, &mut out[..15]).unwrap_err();
/// assert_eq!(refusal.reason, bpg::Reason::BufferTooSmall);
/// ```
#[inline]
pub fn canonicalize(file: &[u8], out: &mut [u8]) -> Result<usize, Refusal> {
    let (status, count, offset) = ffi::canonicalize(file, out);
    answer(status, offset)?;
    Ok(count)
}

/// How many bytes the canonical form of a file has, or why [`canonicalize`] would refuse it.
///
/// ```
/// // File B of the examples gives the length of its data: in one byte, as file A says that it is open.
/// let file = *b"BPG\xFB\x20\x00\x08\x84\x1E\x06\x03\x92\x4D\x00\x26\x01";
/// assert_eq!(bpg::canonical_size(&file), Ok(16));
/// ```
#[inline]
pub fn canonical_size(file: &[u8]) -> Result<usize, Refusal> {
    let (status, count, offset) = ffi::canonical_size(file);
    answer(status, offset)?;
    Ok(count)
}

/// The canonical form of a file.
///
/// ```
/// // The canonical form of file B of the examples is file A.
/// let file = *b"BPG\xFB\x20\x00\x08\x84\x1E\x06\x03\x92\x4D\x00\x26\x01";
/// let canonical = bpg::canonicalize_to_vec(&file)?;
/// assert_eq!(canonical, b"BPG\xFB\x20\x00\x08\x84\x1E\x00\x03\x92\x4D\x00\x26\x01");
/// # Ok::<(), bpg::Refusal>(())
/// ```
#[cfg(feature = "alloc")]
pub fn canonicalize_to_vec(file: &[u8]) -> Result<Vec<u8>, Refusal> {
    let mut form = vec![0; canonical_size(file)?];
    canonicalize(file, &mut form)?;
    Ok(form)
}
