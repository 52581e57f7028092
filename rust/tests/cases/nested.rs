//! Files with thumbnails inside thumbnails, most of which comply.

use super::model::{Entry, Model};
use super::{bytes, faults, Random};
use crate::plain::MAX_ENTRIES;

/// The tag of a thumbnail.
const THUMBNAIL: u32 = 4;

/// A file with thumbnails down to level 5 or 6 at times.
pub fn file(random: &mut Random) -> Vec<u8> {
    let size = (random.within(2, 600) as u32, random.within(2, 600) as u32);
    let levels = random.below(6);
    let file = nest(size, levels, random);
    if random.one_in(8) {
        return bytes::mutated(file, random);
    }
    file
}

/// A file of this size with `levels` levels below it.
fn nest((width, height): (u32, u32), levels: usize, random: &mut Random) -> Vec<u8> {
    let mut model = Model::valid(random);
    (model.width, model.height) = (width, height);
    if levels > 0 {
        for _ in 0..random.pick(&[1, 1, 1, 2, 3]) {
            insert((width, height), levels, &mut model, random);
        }
    }
    if random.one_in(12) {
        faults::spoil(&mut model, random);
    }
    model.bytes()
}

/// Puts a thumbnail somewhere among the entries, in place of one of them where there is no room.
fn insert(size: (u32, u32), levels: usize, model: &mut Model, random: &mut Random) {
    let payload = match random.below(40) {
        0 => Vec::new(),
        1 => random.bytes(9),
        _ => nest(child_size(size, random), levels - 1, random),
    };
    let entry = Entry {
        tag: THUMBNAIL,
        payload,
    };
    let at = random.below(model.entries.len() + 1);
    let full = model.entries.len() == MAX_ENTRIES;
    match model.entries.get_mut(at) {
        Some(old) if full && old.tag != 5 => *old = entry,
        _ if full => {}
        _ => model.entries.insert(at, entry),
    }
    model.extension = true;
}

/// Mostly smaller: in one of the two or in both; at times equal, or larger in one.
fn child_size((width, height): (u32, u32), random: &mut Random) -> (u32, u32) {
    let less = |n: u32, random: &mut Random| n - n.min(random.pick(&[1, 1, 2, 9])).min(n - 1);
    match random.below(24) {
        0 => (width, height),
        1 => (width + 1, less(height, random)),
        2 => (less(width, random), height + 1),
        3 => (height, width),
        4..=8 => (less(width, random), height),
        9..=13 => (width, less(height, random)),
        _ => (less(width, random), less(height, random)),
    }
}
