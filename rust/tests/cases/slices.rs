//! Bytes that are rich in those of emulation prevention, and slices for it to be undone and redone.

use super::Random;

/// A slice for both calls: any bytes, or a unit that keeps the rules, or nearly.
pub fn slice(random: &mut Random) -> Vec<u8> {
    let count = match random.below(1000) {
        0 => random.within(1000, 40_000),
        1..=100 => random.within(40, 200),
        _ => random.below(40),
    };
    let bytes = rich(count, random);
    match random.below(8) {
        0..=2 => bytes,
        3 => unended(bytes),
        4..=6 => escaped(&bytes),
        _ => {
            let mut bytes = escaped(&bytes);
            change(&mut bytes, random);
            bytes
        }
    }
}

/// So many bytes, from one of several mixtures of small ones and others.
pub fn rich(count: usize, random: &mut Random) -> Vec<u8> {
    let zeros = random.pick(&[1, 2, 4, 8, 14]);
    let small = random.pick(&[0, 1, 2, 8]);
    let bytes = (0..count).map(|_| match random.below(16) {
        n if n < zeros => 0,
        n if n < zeros + small => random.pick(&[1, 2, 3, 3, 4]),
        _ => random.byte(),
    });
    bytes.collect()
}

/// Byte by byte: 03 where two zero bytes were put, before a byte of at most 03 or the end.
pub fn escaped(bytes: &[u8]) -> Vec<u8> {
    let mut unit = Vec::with_capacity(bytes.len());
    for &byte in bytes {
        if byte <= 3 && unit.ends_with(&[0, 0]) {
            unit.push(3);
        }
        unit.push(byte);
    }
    if unit.ends_with(&[0, 0]) {
        unit.push(3);
    }
    unit
}

/// A unit that keeps the rules and may end in two zero bytes.
fn unended(mut bytes: Vec<u8>) -> Vec<u8> {
    bytes.extend([0, 0]);
    let mut unit = escaped(&bytes);
    if unit.ends_with(&[0, 0, 3]) {
        unit.pop();
    }
    unit
}

/// Bytes that mean much in a unit.
const SPECIAL: [u8; 10] = [0, 0, 0, 1, 1, 2, 3, 4, 0x80, 0xFF];

/// Another byte, one more or one less, somewhere.
pub fn change(bytes: &mut Vec<u8>, random: &mut Random) {
    let at = random.below(bytes.len() + 1);
    match random.below(4) {
        0 => bytes.insert(at, random.pick(&SPECIAL)),
        1 => bytes.truncate(at),
        _ if at == bytes.len() => {}
        2 => {
            bytes.remove(at);
        }
        _ => bytes[at] = random.pick(&SPECIAL),
    }
}
