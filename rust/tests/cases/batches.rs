//! Batches: buffers of files end to end, with lists that mostly fit.

use super::Random;

/// The buffer, the lengths, and how long the lists for statuses and offsets are.
pub struct Batch {
    pub buffer: Vec<u8>,
    pub lengths: Vec<u32>,
    pub statuses: usize,
    pub offsets: usize,
}

/// Up to seven files, one in eight of them empty; at times wrong lengths or lists.
pub fn batch(random: &mut Random) -> Batch {
    let count = random.below(8);
    let files: Vec<_> = (0..count).map(|_| file(random)).collect();
    let mut batch = of(&files);
    if random.one_in(6) {
        miss(&mut batch, random);
    }
    if random.one_in(10) {
        let list = random.pick(&[0, 1, 2]);
        let size = random.below(batch.lengths.len() + 3);
        batch.statuses = if list != 1 { size } else { batch.statuses };
        batch.offsets = if list != 0 { size } else { batch.offsets };
    }
    batch
}

/// The files end to end, with their lengths, and lists as long.
pub fn of(files: &[Vec<u8>]) -> Batch {
    Batch {
        buffer: files.concat(),
        lengths: files.iter().map(|file| file.len() as u32).collect(),
        statuses: files.len(),
        offsets: files.len(),
    }
}

fn file(random: &mut Random) -> Vec<u8> {
    match random.one_in(8) {
        true => Vec::new(),
        false => super::file(random),
    }
}

/// Lengths that add up to a little more or less than the buffer, to it modulo 2^32, or to it with other files.
fn miss(batch: &mut Batch, random: &mut Random) {
    let at = random.below(batch.lengths.len() + 1);
    let other = random.below(batch.lengths.len() + 1);
    match random.below(6) {
        0 => batch.buffer.push(random.byte()),
        1 => drop(batch.buffer.pop()),
        2 => batch.lengths.extend([u32::MAX, 1]),
        _ if at.max(other) == batch.lengths.len() => batch.lengths.push(random.next() as u32),
        3 => batch.lengths[at] = random.next() as u32,
        4 => {
            let by = random.next() as u32;
            batch.lengths[at] = batch.lengths[at].wrapping_add(by);
            batch.lengths[other] = batch.lengths[other].wrapping_sub(by);
        }
        _ => batch.lengths.swap(at, other),
    }
}
