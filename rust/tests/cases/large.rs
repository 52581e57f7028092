//! Files and records about as large as a file may be.

use super::model::ue7;
use super::records::Case;
use super::Random;
use crate::plain::{read_list, ENTRY, FIXED, MAX_FILE, NUMBERS};

/// File A of document 01, which takes any data after it.
const FILE_A: &[u8] = b"BPG\xFB\x20\x00\x08\x84\x1E\x00\x03\x92\x4D\x00\x26\x01";

/// A buffer longer than a file may be, of which every prefix from 14 bytes on has the form of a file.
pub fn long_buffer(more: usize) -> Vec<u8> {
    let mut buffer = vec![0; MAX_FILE + more];
    buffer[..FILE_A.len()].copy_from_slice(FILE_A);
    buffer
}

/// A file of `size` bytes whose extension block takes nearly all of them.
pub fn long_payload(size: usize) -> Vec<u8> {
    let mut file = b"BPG\xFB\x20\x08\x08\x84\x1E\x06".to_vec();
    let picture = [0x03, 0x92, 0x4D, 0x00, 0x26, 0x01];
    // The codes of both lengths have four bytes each, and the tag has one.
    let payload = size - file.len() - picture.len() - 9;
    file.extend(ue7(payload as u64 + 5));
    file.push(3);
    file.extend(ue7(payload as u64));
    file.resize(file.len() + payload, 0x58);
    file.extend(picture);
    file
}

/// A file of `size` bytes whose only unit, a frame, has emulation prevention here and there up to its end.
pub fn long_slice(size: usize) -> Vec<u8> {
    let mut file = FILE_A.to_vec();
    file.push(0x80);
    file.resize(size, 0x58);
    for at in [100, 65_536, size / 2, size - 3] {
        file[at..at + 3].copy_from_slice(&[0, 0, 3]);
        if let Some(next) = file.get_mut(at + 3) {
            *next = 1;
        }
    }
    file
}

/// A record with 16 entries that are all the same megabyte, and whose file is around the limit.
pub fn record_at_limit(random: &mut Random, source: Vec<u8>) -> Case {
    let mut numbers = vec![0; NUMBERS];
    read_list(FILE_A, &mut numbers).expect("file A is valid");
    numbers[4] = 1;
    numbers[68] = 16;
    for entry in numbers[FIXED..].chunks_exact_mut(ENTRY) {
        (entry[0], entry[2]) = (1, source.len() as u64);
    }
    let block = 16 * (source.len() + 4);
    let rest = MAX_FILE - block - 14 - 4;
    let by = random.pick(&[0, 1, 2, 1000, 500_000]);
    numbers[64] = random.below(3) as u64;
    numbers[65] = (rest + by - random.below(2)) as u64;
    Case { numbers, source }
}
