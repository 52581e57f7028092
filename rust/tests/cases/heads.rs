//! Heads, some of them at their longest, and the lists that are given to the body call.

use super::Random;
use crate::plain;

/// A file of any kind, or one whose head has long numbers.
pub fn file(random: &mut Random) -> Vec<u8> {
    match random.one_in(3) {
        true => long_head(random),
        false => super::file(random),
    }
}

/// Numbers of about five bytes, often just at the limit or over it, and bytes after them or none.
fn long_head(random: &mut Random) -> Vec<u8> {
    let mut file = b"BPG\xFB".to_vec();
    let space = random.pick(&[0x00, 0x08, 0x08, 0x09, 0x0F]);
    file.extend([random.pick(&[0x20, 0x30, 0x66]), space]);
    for _ in 0..4 {
        number(&mut file, random);
    }
    let more = random.below(12);
    file.extend(random.bytes(more));
    if random.one_in(3) {
        file.truncate(random.within(6, file.len()));
    }
    file
}

fn number(file: &mut Vec<u8>, random: &mut Random) {
    let high = random.pick(&[0x8F, 0x8F, 0x8F, 0x81, 0x90, 0x80]);
    let last = random.pick(&[0x7F, 0x7F, 0x7F, 0x00, 0xFF]);
    match random.below(8) {
        0 => file.push(random.byte() & 0x7F),
        1 => file.extend([0x80 | random.byte(), random.byte()]),
        _ => file.extend([high, 0xFF, 0xFF, 0xFF, last]),
    }
}

/// A list for the body call: the file's own head, or one that is not. What follows the twelve numbers is no part of it.
pub fn given(
    own: &[u64; plain::HEAD],
    other: &[u64; plain::HEAD],
    random: &mut Random,
) -> Vec<u64> {
    let mut list = own.to_vec();
    let at = random.below(plain::HEAD);
    match random.below(8) {
        0 => return other.to_vec(),
        1 => list[at] ^= 1,
        2 => list[at] ^= 1 << random.below(64),
        3 => list[at] += random.pick(&[256, 1 << 32]),
        4 => list.truncate(at),
        5 => list.push(random.next()),
        _ => {}
    }
    list
}
