//! The deep check of thumbnails.

use crate::{answer, ffi, Refusal};

/// Checks the thumbnails of a file, entries with [`tag::THUMBNAIL`](crate::tag::THUMBNAIL), and theirs, down to level 4;
/// the file itself is level 1. Each is a file that [`read`](crate::read) accepts, is neither wider nor taller than
/// its parent, and differs from it in width or height. A refusal's offset is that of the payload in `file`.
///
/// ```
/// // File A of the examples, 8 by 542, as the thumbnail of a file of 16 by 542, and of one of its own size.
/// let a = *b"BPG\xFB\x20\x00\x08\x84\x1E\x00\x03\x92\x4D\x00\x26\x01";
/// let parent = |width| [b"BPG\xFB\x20\x08", &[width][..], b"\x84\x1E\x00\x12\x04\x10", &a, &a[10..]].concat();
/// assert_eq!(bpg::check_thumbnails(&parent(16)), Ok(()));
///
/// let refusal = bpg::check_thumbnails(&parent(8)).unwrap_err();
/// assert_eq!(refusal.reason, bpg::Reason::LargeThumbnail);
/// assert_eq!(refusal.offset, 13);
/// ```
pub fn check_thumbnails(file: &[u8]) -> Result<(), Refusal> {
    let (status, offset) = ffi::check_thumbnails(file);
    answer(status, offset)
}
