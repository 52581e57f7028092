//! Reading a file in one pass, each rule when its item is read.

use bpg::{Reason, Refusal};

use super::cursor::Cursor;
use super::header::header;
use super::record::{Entry, Record, Span};
use super::{refuse, MAX_FILE};

/// The record of a file, or the first refusal in document order.
pub fn read(file: &[u8]) -> Result<Record, Refusal> {
    if file.len() > MAX_FILE {
        return refuse(Reason::FileTooLong, 0);
    }
    let mut record = Record::default();
    flags(file, &mut record)?;
    let mut cursor = Cursor::new(file, 6);
    record.picture_width = size(&mut cursor)?;
    record.picture_height = size(&mut cursor)?;
    let item = cursor.at;
    let data_length = cursor.ue7(32)? as usize;
    record.explicit_length = data_length != 0;
    if record.extension_present_flag {
        block(&mut cursor, &mut record)?;
    }
    if record.animation_flag && !has_loop(&record) {
        return refuse(Reason::NoLoop, 5);
    }
    if record.explicit_length && data_length != cursor.left() {
        return refuse(Reason::BadDataLength, item);
    }
    headers(&mut cursor, &mut record)?;
    if !data_allowed(&file[cursor.at..]) {
        return refuse(Reason::BadDataStart, cursor.at);
    }
    record.data = span(cursor.at, cursor.left());
    Ok(record)
}

/// Data is there, and does not begin with a start code of three or four bytes.
#[inline]
pub fn data_allowed(data: &[u8]) -> bool {
    !data.is_empty() && !data.starts_with(&[0, 0, 1]) && !data.starts_with(&[0, 0, 0, 1])
}

#[inline]
pub fn flags(file: &[u8], record: &mut Record) -> Result<(), Refusal> {
    let Some(&[m0, m1, m2, m3, format, space]) = file.first_chunk() else {
        return refuse(Reason::Truncated, 0);
    };
    if [m0, m1, m2, m3] != [0x42, 0x50, 0x47, 0xFB] {
        return refuse(Reason::Magic, 0);
    }
    record.pixel_format = format >> 5;
    record.alpha1_flag = format & 0x10 != 0;
    record.bit_depth_minus_8 = format & 0x0F;
    record.color_space = space >> 4;
    record.extension_present_flag = space & 8 != 0;
    record.alpha2_flag = space & 4 != 0;
    record.limited_range_flag = space & 2 != 0;
    record.animation_flag = space & 1 != 0;
    match broken_flags(record) {
        Some(reason @ Reason::BadColorSpace) => refuse(reason, 5),
        Some(reason) => refuse(reason, 4),
        None => Ok(()),
    }
}

/// The first rule on bytes 4 and 5 that a record breaks.
#[inline]
pub fn broken_flags(record: &Record) -> Option<Reason> {
    if record.pixel_format > 5 {
        Some(Reason::BadPixelFormat)
    } else if record.bit_depth_minus_8 > 6 {
        Some(Reason::BadBitDepth)
    } else if record.color_space > 4 || record.pixel_format == 0 && record.color_space != 0 {
        Some(Reason::BadColorSpace)
    } else {
        None
    }
}

/// Width or height.
#[inline]
pub fn size(cursor: &mut Cursor) -> Result<u32, Refusal> {
    let item = cursor.at;
    match cursor.ue7(32)? {
        0 => refuse(Reason::EmptyPicture, item),
        size => Ok(size),
    }
}

/// The extension block, with its length.
fn block(cursor: &mut Cursor, record: &mut Record) -> Result<(), Refusal> {
    let length = cursor.length()?;
    let end = cursor.at + length;
    let mut block = Cursor::new(&cursor.region[..end], cursor.at);
    let mut count = 0;
    while block.at < end {
        let Some(slot) = record.entries.get_mut(count) else {
            return refuse(Reason::TooManyEntries, block.at);
        };
        let tag_at = block.at;
        let tag = block.ue7(32)?;
        let length = block.length()?;
        let payload = block.at;
        *slot = Entry {
            tag,
            payload: span(payload, length),
            tag_offset: tag_at as u32,
        };
        block.at += length;
        count += 1;
        if tag == 5 {
            if has_loop(record) {
                return refuse(Reason::SecondLoop, tag_at);
            }
            let numbers = loop_numbers(&cursor.region[..block.at], payload)?;
            set_loop(record, numbers);
        }
    }
    record.entry_count = count as u32;
    cursor.at = end;
    Ok(())
}

/// Loop count and frame period at the start of a tag 5 payload, which ends where `region` does.
pub fn loop_numbers(region: &[u8], at: usize) -> Result<[u16; 3], Refusal> {
    let mut cursor = Cursor::new(region, at);
    let count = cursor.ue7(16)? as u16;
    let num = period_number(&mut cursor)?;
    let den = period_number(&mut cursor)?;
    Ok([count, num, den])
}

fn period_number(cursor: &mut Cursor) -> Result<u16, Refusal> {
    let item = cursor.at;
    match cursor.ue7(16)? {
        0 => refuse(Reason::ZeroPeriod, item),
        number => Ok(number as u16),
    }
}

fn set_loop(record: &mut Record, [count, num, den]: [u16; 3]) {
    record.loop_count = count;
    record.frame_period_num = num;
    record.frame_period_den = den;
}

/// Whether a tag 5 entry was read: the period's numbers are not 0 then.
fn has_loop(record: &Record) -> bool {
    record.frame_period_num != 0
}

#[inline]
fn headers(cursor: &mut Cursor, record: &mut Record) -> Result<(), Refusal> {
    let bit_depth = u32::from(record.bit_depth_minus_8) + 8;
    if record.has_alpha() {
        record.alpha_header = header(cursor, bit_depth)?;
    }
    record.color_header = header(cursor, bit_depth)?;
    let log2_block = record.color_header.log2_min_luma_coding_block_size_minus3 + 3;
    record.coded_width = round_up(record.picture_width, log2_block);
    record.coded_height = round_up(record.picture_height, log2_block);
    Ok(())
}

/// The next multiple of 2^log2, which may be 2^32.
#[inline]
fn round_up(size: u32, log2: u32) -> u64 {
    let below = (1 << log2) - 1;
    (u64::from(size) + below) & !below
}

/// A part of a file, whose offsets are below 2^32 by the file's limit.
#[inline]
fn span(start: usize, length: usize) -> Span {
    Span {
        start: start as u32,
        length: length as u32,
    }
}
