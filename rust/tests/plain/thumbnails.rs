//! The deep check of thumbnails, with a stack of those that are still to be looked at.

use std::ops::Range;

use bpg::{Reason, Refusal};

use super::{read, refuse, Record};

/// The tag of a thumbnail.
const THUMBNAIL: u32 = 4;

/// The level that is not entered; the outer file is level 1.
const TOO_DEEP: usize = 5;

/// A thumbnail: where it stands in the outer file, its level, and width and height of its parent.
struct Pending {
    place: Range<usize>,
    level: usize,
    parent: (u32, u32),
}

/// The first refusal in the order of the file, each thumbnail before its own.
pub fn check_thumbnails(file: &[u8]) -> Result<(), Refusal> {
    let mut pending = Vec::new();
    push(&mut pending, &read(file)?, 0, 2);
    while let Some(Pending {
        place,
        level,
        parent,
    }) = pending.pop()
    {
        let start = place.start;
        if level == TOO_DEEP {
            return refuse(Reason::DeepThumbnail, start);
        }
        let Ok(record) = read(&file[place]) else {
            return refuse(Reason::BadThumbnail, start);
        };
        let (width, height) = size(&record);
        if width > parent.0 || height > parent.1 || (width, height) == parent {
            return refuse(Reason::LargeThumbnail, start);
        }
        push(&mut pending, &record, start, level + 1);
    }
    Ok(())
}

/// The thumbnails of a file that stands at `start`: the first one comes to the top of the stack.
fn push(pending: &mut Vec<Pending>, record: &Record, start: usize, level: usize) {
    let used = record.used().unwrap_or_default();
    for entry in used.iter().rev().filter(|entry| entry.tag == THUMBNAIL) {
        let Range { start: from, end } = entry.payload.range();
        pending.push(Pending {
            place: start + from..start + end,
            level,
            parent: size(record),
        });
    }
}

fn size(record: &Record) -> (u32, u32) {
    (record.picture_width, record.picture_height)
}
