//! Extension entries.

use core::fmt;

use crate::number::{accessors, own_fields};
use crate::Span;

/// An extension entry: its tag, where its payload stands, in the file that was read or in the source
/// to write from, and where its tag begins in the file that was read.
#[derive(Clone, Copy, Default, PartialEq, Eq, Hash)]
#[repr(C)]
pub struct Entry {
    tag: u64,
    start: u64,
    length: u64,
    tag_offset: u64,
}

own_fields!(Entry);

accessors! {
    Entry {
        /// The tag: one of [`tag`](crate::tag), or any other.
        tag set_tag: u32,
        /// The offset of the payload's first byte.
        start set_start: u32,
        /// How many bytes the payload has.
        length set_length: u32,
        /// The offset of the tag's first byte in the file that was read; 0 in a new entry. [`write`](crate::write()) ignores it.
        tag_offset set_tag_offset: u32,
    }
}

impl Entry {
    /// An entry with this tag, whose payload is this part of the source.
    pub fn new(tag: u32, payload: Span) -> Entry {
        Entry {
            tag: tag.into(),
            start: payload.start.into(),
            length: payload.length.into(),
            tag_offset: 0,
        }
    }

    /// Where the payload stands.
    pub fn span(&self) -> Span {
        Span {
            start: self.start(),
            length: self.length(),
        }
    }

    /// The payload, as that part of the file: nothing is copied. `None` if it does not lie in `file`,
    /// which can only be where the entry is not one of this file.
    ///
    /// ```
    /// // File C of the examples.
    /// let file = *b"BPG\xFB\x20\x09\x08\x84\x1E\x00\x05\x05\x03\x00\x01\x0A\x03\x92\x4D\x00\x26\x01";
    /// let record = bpg::read(&file)?;
    /// let control = record.entries_with(bpg::tag::ANIMATION_CONTROL).next().unwrap();
    /// assert_eq!(control.payload(&file), Some(&[0x00, 0x01, 0x0A][..]));
    /// # Ok::<(), bpg::Refusal>(())
    /// ```
    pub fn payload<'a>(&self, file: &'a [u8]) -> Option<&'a [u8]> {
        self.span().of(file)
    }
}

impl fmt::Debug for Entry {
    fn fmt(&self, f: &mut fmt::Formatter<'_>) -> fmt::Result {
        let mut shown = f.debug_struct("Entry");
        self.show_numbers(&mut shown);
        shown.finish()
    }
}
