//! Files with metadata for JPEG segments, and runs of segments, right and wrong.

use super::model::{Entry, Model};
use super::{bytes, Random};

/// The tags of EXIF, XMP and ICC.
const TAGS: [u32; 3] = [1, 3, 2];

/// A file whose entries are mostly one of each of these tags; at times one twice, empty, or long.
pub fn file(random: &mut Random) -> Vec<u8> {
    if random.one_in(4) {
        return super::file(random);
    }
    let mut model = Model::valid(random);
    model.entries.retain(|entry| !TAGS.contains(&entry.tag));
    model.entries.truncate(8);
    for tag in TAGS {
        for _ in 0..random.pick(&[0, 1, 1, 1, 1, 1, 1, 2]) {
            let payload = payload(tag, random);
            let at = random.below(model.entries.len() + 1);
            model.entries.insert(at, Entry { tag, payload });
        }
    }
    model.extension = true;
    let file = model.bytes();
    if random.one_in(16) {
        return bytes::mutated(file, random);
    }
    file
}

/// Mostly short; at times about as long as a segment may hold.
fn payload(tag: u32, random: &mut Random) -> Vec<u8> {
    let edge = match tag {
        1 => 65_527,
        3 => 65_504,
        _ => 65_519 * random.pick(&[1, 1, 2, 3]),
    };
    let size = match random.below(64) {
        0..=7 => 0,
        8 => edge + 1,
        9 => edge - random.below(2),
        _ => random.below(40),
    };
    random.bytes(size)
}

/// A run of segments from an export: as it is, or spoiled in one place.
pub fn run(mut run: Vec<u8>, random: &mut Random) -> Vec<u8> {
    let starts = starts(&run);
    let (Some(&last), true) = (starts.last(), !random.one_in(3)) else {
        return run;
    };
    let at = random.pick(&starts);
    let field = usize::from(run[at + 2]) * 256 + usize::from(run[at + 3]);
    let segment = run[at..at + 2 + field].to_vec();
    match random.below(12) {
        0 => run.truncate(random.below(run.len())),
        1 => run.push(random.byte()),
        2 => drop(run.remove(random.below(run.len()))),
        3 => run.insert(random.below(run.len()), 0xFF),
        4 => run[at + 1] = random.pick(&[0xE0, 0xE1, 0xE2, 0xE3, 0xFE, 0xD8]),
        5 => drop(run.drain(at..at + 2 + field)),
        6 => drop(run.splice(at..at, segment)),
        7 => {
            run.drain(at..at + 2 + field);
            run.extend(segment);
        }
        8 => run[at + 2..at + 4].swap(0, 1),
        // The chunk number or the count, where it is ICC.
        9 => {
            if let Some(byte) = run.get_mut(last + 16 + random.below(2)) {
                *byte = random.pick(&[0, 1, 2, 3, 255]);
            }
        }
        10 => empty(&mut run, at),
        _ => {
            let at = random.below(run.len());
            run[at] ^= 1 << random.below(8);
        }
    }
    run
}

/// Where the segments begin.
fn starts(run: &[u8]) -> Vec<usize> {
    let mut starts = Vec::new();
    let mut at = 0;
    while at < run.len() {
        starts.push(at);
        at += 2 + usize::from(run[at + 2]) * 256 + usize::from(run[at + 3]);
    }
    starts
}

/// Takes the payload out of a segment, and leaves its prefix.
fn empty(run: &mut Vec<u8>, at: usize) {
    let prefix = match (run[at + 1], run[at + 4]) {
        (0xE1, b'E') => 6,
        (0xE1, _) => 29,
        _ => 14,
    };
    let end = at + 2 + usize::from(run[at + 2]) * 256 + usize::from(run[at + 3]);
    run.drain(at + 4 + prefix..end);
    run[at + 2] = 0;
    run[at + 3] = prefix as u8 + 2;
}

/// A file of about the greatest length with a profile of this size.
pub fn long_profile(size: usize) -> Vec<u8> {
    let mut file = b"BPG\xFB\x20\x08\x08\x84\x1E\x00".to_vec();
    file.extend(super::model::ue7(size as u64 + 5));
    file.push(2);
    file.extend(super::model::ue7(size as u64));
    file.extend((0..size).map(|k| (k % 251) as u8));
    file.extend([0x03, 0x92, 0x4D, 0x00, 0x26, 0x01]);
    file
}
