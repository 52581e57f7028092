//! How many bytes of a file are of which kind.

use crate::{answer, ffi, Refusal};

/// How many bytes of a file are of which kind. They add up to the length of the file, and lie in it in this
/// order, each entry head before its payload.
#[derive(Clone, Copy, Debug, Default, PartialEq, Eq, Hash)]
pub struct Partition {
    /// The head, up to the extension length and with it.
    pub head: usize,
    /// The tags and lengths of the entries.
    pub entry_heads: usize,
    /// The payloads of the entries.
    pub payloads: usize,
    /// The HEVC headers with their lengths.
    pub headers: usize,
    /// The HEVC data.
    pub data: usize,
}

/// Counts the bytes of a file by kind. A file is refused as [`read`](crate::read) refuses it.
///
/// ```
/// // File C of the examples: a head of 11 bytes, an entry of 2 and 3, a header of 4, data of 2.
/// let c = *b"BPG\xFB\x20\x09\x08\x84\x1E\x00\x05\x05\x03\x00\x01\x0A\x03\x92\x4D\x00\x26\x01";
/// let partition = bpg::partition(&c)?;
/// assert_eq!((partition.head, partition.entry_heads, partition.payloads), (11, 2, 3));
/// assert_eq!((partition.headers, partition.data), (4, 2));
/// assert_eq!(bpg::partition(&c[..9]).unwrap_err(), bpg::read(&c[..9]).unwrap_err());
/// # Ok::<(), bpg::Refusal>(())
/// ```
pub fn partition(file: &[u8]) -> Result<Partition, Refusal> {
    let (status, [head, entry_heads, payloads, headers, data], offset) = ffi::partition(file);
    answer(status, offset)?;
    Ok(Partition {
        head,
        entry_heads,
        payloads,
        headers,
        data,
    })
}
