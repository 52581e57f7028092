//! Changes of a file's bytes, whatever they mean.

use super::Random;

/// The bytes with one to three changes.
pub fn mutated(mut bytes: Vec<u8>, random: &mut Random) -> Vec<u8> {
    for _ in 0..random.within(1, 3) {
        mutate(&mut bytes, random);
    }
    bytes
}

/// Bytes that mean much somewhere.
const SPECIAL: [u8; 12] = [
    0x00, 0x01, 0x02, 0x05, 0x10, 0x11, 0x7F, 0x80, 0x81, 0x84, 0x90, 0xFF,
];

fn mutate(bytes: &mut Vec<u8>, random: &mut Random) {
    // The head of the file has more rules than its data: changes after the magic are more frequent.
    let at = match random.flag() {
        true => random.within(4, 24).min(bytes.len()),
        false => random.below(bytes.len() + 1),
    };
    match random.below(6) {
        0 => bytes.insert(at, random.pick(&SPECIAL)),
        1 => bytes.truncate(random.below(bytes.len() + 1)),
        2 => {
            let count = random.within(1, 4);
            bytes.extend(random.bytes(count));
        }
        _ if at == bytes.len() => {}
        3 => bytes[at] ^= 1 << random.below(8),
        4 => {
            bytes.remove(at);
        }
        _ => {
            let special = random.pick(&SPECIAL);
            bytes[at] = if random.flag() {
                special
            } else {
                random.byte()
            };
        }
    }
}
