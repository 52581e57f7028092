//! The extension entries of a file, one at a time.

use core::iter::FusedIterator;

use crate::{Entry, Record};

/// The entries of a file in their order; made by [`entries`](crate::entries).
#[derive(Clone, Debug)]
pub struct Entries {
    record: Record,
    next: usize,
}

impl Entries {
    pub(crate) fn of(record: Record) -> Entries {
        Entries { record, next: 0 }
    }
}

impl Iterator for Entries {
    type Item = Entry;

    fn next(&mut self) -> Option<Entry> {
        let entry = self.record.entries().get(self.next)?;
        self.next += 1;
        Some(*entry)
    }

    fn size_hint(&self) -> (usize, Option<usize>) {
        let left = self.record.entries().len() - self.next;
        (left, Some(left))
    }
}

impl ExactSizeIterator for Entries {}

// Past the last entry, `next` stays where it is and so gives `None` again.
impl FusedIterator for Entries {}
