//! NAL units of a case, and the data that start codes make of them.

use super::slices::{escaped, rich};
use super::Random;

/// Types of units that say nothing about frames: PPS, access unit delimiter, end of sequence, filler data,
/// suffix SEI, reserved, unspecified.
const OTHER: [u8; 8] = [34, 35, 36, 38, 40, 41, 48, 63];

/// A unit with this header, and with these bytes after it, which are escaped.
pub fn unit(kind: u8, layer: u8, bytes: &[u8], random: &mut Random) -> Vec<u8> {
    let temporal_id_plus1 = random.within(1, 7) as u8;
    let mut unit = vec![kind << 1 | layer >> 5, layer << 3 | temporal_id_plus1];
    unit.extend(escaped(bytes));
    unit
}

/// A slice of layer 0: the first of its frame, or another.
pub fn slice(first: bool, random: &mut Random) -> Vec<u8> {
    let first = u8::from(first) << 7;
    let mut bytes = vec![first | random.pick(&[0, 1, 2, 3, 4, 0x7F])];
    bytes.extend(body(random));
    unit(slice_type(random), 0, &bytes, random)
}

/// Any slice type: the largest, that of the desk's examples, and reserved ones, too.
pub fn slice_type(random: &mut Random) -> u8 {
    match random.below(4) {
        0 => random.pick(&[0, 1, 19, 31]),
        _ => random.below(32) as u8,
    }
}

/// A unit that says nothing about frames: of layer 1, whatever its type and bytes, if there is alpha.
pub fn other(alpha: bool, random: &mut Random) -> Vec<u8> {
    let bytes = body(random);
    if !alpha || random.one_in(3) {
        return unit(random.pick(&OTHER), 0, &bytes, random);
    }
    let kind = match random.below(4) {
        0 => random.pick(&OTHER),
        1 => 39,
        _ => slice_type(random),
    };
    unit(kind, 1, &bytes, random)
}

/// Bytes after a header: often none, mostly few, rich in small ones.
pub fn body(random: &mut Random) -> Vec<u8> {
    let count = match random.below(100) {
        0 => random.within(250, 600),
        1..=25 => 0,
        _ => random.within(1, 16),
    };
    rich(count, random)
}

/// The data of these units: start codes between them, with zero bytes before some, and at the end.
pub fn joined(units: &[Vec<u8>], random: &mut Random) -> Vec<u8> {
    let mut data = Vec::new();
    for (k, unit) in units.iter().enumerate() {
        if k > 0 {
            zeros(&mut data, random);
            data.extend([0, 0, 1]);
        }
        data.extend(unit);
    }
    zeros(&mut data, random);
    data
}

fn zeros(data: &mut Vec<u8>, random: &mut Random) {
    let count = match random.below(16) {
        0..=7 => 0,
        8..=12 => 1,
        13..=14 => random.within(2, 4),
        _ => random.within(5, 20),
    };
    data.resize(data.len() + count, 0);
}
