//! Files and bytes to measure with.

use std::ops::Range;

use crate::plain::{self, Entry, HevcHeader, Record, Span};
use crate::random::Random;

/// A payload's bytes; it begins with loop numbers, so that it can be that of any tag.
const PAYLOAD: [u8; 8] = [0, 1, 10, 0x45, 0x78, 0x69, 0x66, 0];

/// A file of `size` bytes, its data length counted, with so many entries; the second has the loop numbers.
pub fn file(entries: usize, alpha: bool, size: usize) -> Vec<u8> {
    let mut record = Record {
        pixel_format: 1,
        alpha1_flag: alpha,
        extension_present_flag: entries > 0,
        picture_width: 1920,
        picture_height: 1080,
        explicit_length: true,
        color_header: header(),
        alpha_header: if alpha {
            header()
        } else {
            HevcHeader::default()
        },
        ..Record::default()
    };
    set_entries(&mut record, entries);
    let mut source = PAYLOAD.to_vec();
    source.resize(PAYLOAD.len() + size, 0xA7);
    let mut out = vec![0; size];
    // The data that fills the file up; its length's code has one to four bytes.
    for length in (0..=size).rev() {
        record.data = Span {
            start: PAYLOAD.len() as u32,
            length: length as u32,
        };
        if plain::write(&record, &source, &mut out) == Ok(size) {
            return out;
        }
    }
    panic!("no file has {size} bytes");
}

/// A file with an ICC profile of `size` bytes.
pub fn profile(size: usize) -> Vec<u8> {
    let mut source = Random::new(2).bytes(size);
    source.push(0xA7);
    let [profile, data] = [(0, size), (size, 1)].map(|(start, length)| Span {
        start: start as u32,
        length: length as u32,
    });
    let mut record = Record {
        pixel_format: 1,
        extension_present_flag: true,
        picture_width: 1920,
        picture_height: 1080,
        entry_count: 1,
        color_header: header(),
        data,
        ..Record::default()
    };
    record.entries[0] = Entry {
        tag: 2,
        payload: profile,
        tag_offset: 0,
    };
    let mut out = vec![0; size + 64];
    let count = plain::write(&record, &source, &mut out).expect("the record is valid");
    out.truncate(count);
    out
}

/// How many marks of start codes and emulation prevention there are: two zero bytes and one of at most 3.
#[derive(Clone, Copy)]
pub enum Marks {
    /// Bytes as entropy coding leaves them, one in 256 zero.
    None,
    /// The same, with a mark in each 4 KiB.
    Few,
    /// More than half of the bytes are zero.
    Many,
}

/// So many bytes before emulation prevention.
pub fn bytes(marks: Marks, size: usize) -> Vec<u8> {
    let mut random = Random::new(1);
    let mut bytes = random.bytes(size);
    match marks {
        Marks::None => {
            let unmarked = |byte: &mut u8| *byte |= u8::from(*byte == 0);
            bytes.iter_mut().step_by(2).for_each(unmarked);
        }
        Marks::Few => {
            let parts = bytes.chunks_exact_mut(4096);
            parts.for_each(|part| part[4000..4003].copy_from_slice(&[0, 0, 1]));
        }
        Marks::Many => {
            let cleared = |byte: &mut u8| *byte &= random.pick(&[0, 0xFF]);
            bytes.iter_mut().for_each(cleared);
        }
    }
    bytes
}

/// So many bytes that keep the emulation rules.
pub fn unit(marks: Marks, size: usize) -> Vec<u8> {
    let mut unit = vec![0; 2 * size];
    plain::escape(&bytes(marks, size), &mut unit).expect("the buffer is large enough");
    unit.truncate(size);
    unit
}

/// The start of a frame's slice.
const SLICE: &[u8] = b"\x26\x01\x80";

/// A still file of `size` bytes, its data one slice.
pub fn still(marks: Marks, size: usize) -> Vec<u8> {
    let (mut file, range) = filled(0, marks, size);
    file[range][..SLICE.len()].copy_from_slice(SLICE);
    file
}

/// A duration of two periods, a start code, and the start of a frame's slice.
const FRAME: &[u8] = b"\x4E\x01\xFF\x02\x02\x00\x02\x80\x00\x00\x01\x26\x01\x80";

/// An animated file of `size` bytes, with a frame in so many bytes of its data.
pub fn animation(marks: Marks, part: usize, size: usize) -> Vec<u8> {
    let (mut file, range) = filled(2, marks, size);
    let data = &mut file[range];
    for start in (0..data.len() - FRAME.len()).step_by(part) {
        data[start..][..FRAME.len()].copy_from_slice(FRAME);
        if start > 0 {
            data[start - 3..start].copy_from_slice(&[0, 0, 1]);
        }
    }
    file
}

/// A file of `size` bytes whose data keeps the emulation rules, and where the data lies.
fn filled(entries: usize, marks: Marks, size: usize) -> (Vec<u8>, Range<usize>) {
    let mut file = file(entries, false, size);
    let range = plain::read(&file).expect("the file is valid").data.range();
    file[range.clone()].copy_from_slice(&unit(marks, range.len()));
    (file, range)
}

fn set_entries(record: &mut Record, entries: usize) {
    let payload = Span {
        start: 0,
        length: PAYLOAD.len() as u32,
    };
    for (k, entry) in record.entries[..entries].iter_mut().enumerate() {
        let tag = if k == 1 { 5 } else { [6, 1000][k % 2] };
        *entry = Entry {
            tag,
            payload,
            tag_offset: 0,
        };
    }
    record.entry_count = entries as u32;
    if entries > 1 {
        record.animation_flag = true;
        [
            record.loop_count,
            record.frame_period_num,
            record.frame_period_den,
        ] = [0, 1, 10];
    }
}

/// The sizes of file A of document 01.
fn header() -> HevcHeader {
    HevcHeader {
        log2_diff_max_min_luma_coding_block_size: 3,
        log2_diff_max_min_transform_block_size: 3,
        sample_adaptive_offset_enabled_flag: true,
        strong_intra_smoothing_enabled_flag: true,
        ..HevcHeader::default()
    }
}
