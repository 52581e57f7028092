//! Reads, writes and canonicalizes BPG 0.9.5 files.
//!
//! These are wrappers over a static library whose every answer is proved, for every input: no call
//! here has a precondition, and a bad file or record is refused with a [`Refusal`]. A refused call
//! leaves the buffer as it was. The wrappers themselves are not proved; the package's tests run them.
//!
//! ```
//! // File B of the examples: 8 by 542 pixels, the length of its data given.
//! let file = *b"BPG\xFB\x20\x00\x08\x84\x1E\x06\x03\x92\x4D\x00\x26\x01";
//! let record = bpg::read(&file)?;
//! assert_eq!((record.picture_width(), record.picture_height()), (8, 542));
//! assert_eq!(record.data(&file), Some(&[0x26, 0x01][..]));
//!
//! // Its canonical form, file A, leaves the length open.
//! let canonical = bpg::canonicalize_to_vec(&file)?;
//! assert_eq!(canonical, b"BPG\xFB\x20\x00\x08\x84\x1E\x00\x03\x92\x4D\x00\x26\x01");
//! # Ok::<(), bpg::Refusal>(())
//! ```
//!
//! To add an entry, put its payload behind the file, and name that part of this source:
//!
//! ```
//! # let file = *b"BPG\xFB\x20\x00\x08\x84\x1E\x06\x03\x92\x4D\x00\x26\x01";
//! # let exif = b"II*\0";
//! let source = [&file[..], exif].concat();
//! let mut record = bpg::read(&file)?;
//! let payload = bpg::Span::try_from(file.len()..source.len())?;
//! record.push_entry(bpg::Entry::new(bpg::tag::EXIF, payload))?;
//! let written = bpg::write_to_vec(&record, &source)?;
//! # assert_eq!(bpg::payload(&written, 0), exif);
//! # Ok::<(), Box<dyn std::error::Error>>(())
//! ```
//!
//! # Features
//!
//! `alloc`, on by default: the calls that answer a `Vec`. Without it the package needs no allocator, and
//! never the standard library.
//!
//! `player`, on by default: the module [`player`], which links the loop player's own static library.

#![no_std]
#![deny(missing_docs)]

#[cfg(feature = "alloc")]
extern crate alloc;

mod batch;
mod entries;
mod entry;
mod escape;
#[doc(hidden)]
pub mod ffi;
mod frames;
mod head;
mod header;
mod kinds;
mod number;
mod partition;
#[cfg(feature = "player")]
pub mod player;
mod read;
mod record;
mod refusal;
pub mod samples;
mod segments;
mod span;
mod thumbnails;
mod write;

pub use batch::batch;
#[cfg(feature = "alloc")]
pub use batch::batch_to_vec;
pub use entries::Entries;
pub use entry::Entry;
pub use escape::{escape, unescape};
#[cfg(feature = "alloc")]
pub use frames::frames_to_vec;
pub use frames::{frame_count, frames};
pub use head::{body, head, Head};
pub use header::HevcHeader;
pub use kinds::{tag, AlphaKind, ColorSpace, PixelFormat, HEAD_BYTES, MAX_ENTRIES, MAX_FILE};
pub use partition::{partition, Partition};
pub use read::{data, entries, entry, payload, read};
pub use record::Record;
pub use refusal::{Reason, Refusal};
#[cfg(feature = "alloc")]
pub use segments::export_segments_to_vec;
pub use segments::{export_segments, import_segments, Payloads};
pub use span::Span;
pub use thumbnails::check_thumbnails;
pub use write::{canonical_size, canonicalize, write, write_size};
#[cfg(feature = "alloc")]
pub use write::{canonicalize_to_vec, write_to_vec};

/// A status of the library as a result; 0 is success.
#[inline]
fn answer(status: u8, offset: usize) -> Result<(), Refusal> {
    if status == 0 {
        return Ok(());
    }
    Err(refusal(status, offset))
}

#[cold]
fn refusal(status: u8, offset: usize) -> Refusal {
    let reason = Reason::from_number(status).expect("a status is 0 or a refusal's number");
    Refusal { reason, offset }
}
