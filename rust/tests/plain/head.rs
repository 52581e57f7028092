//! The head alone, and reading on from one.

use bpg::{Reason, Refusal};

use super::cursor::Cursor;
use super::list::put_list;
use super::reader::{flags, read, size};
use super::record::Record;
use super::{refuse, MAX_FILE};

/// The numbers of a head.
pub const HEAD: usize = 12;

/// Bytes 4 and 5, width and height, data length and extension length, as numbers.
pub fn head(file: &[u8]) -> Result<[u64; HEAD], Refusal> {
    let mut record = Record::default();
    flags(file, &mut record)?;
    let mut cursor = Cursor::new(file, 6);
    let width = size(&mut cursor)?;
    let height = size(&mut cursor)?;
    let data_length = cursor.ue7(32)?;
    let extension_length = match record.extension_present_flag {
        true => cursor.ue7(32)?,
        false => 0,
    };
    Ok([
        record.pixel_format.into(),
        record.alpha1_flag.into(),
        record.bit_depth_minus_8.into(),
        record.color_space.into(),
        record.extension_present_flag.into(),
        record.alpha2_flag.into(),
        record.limited_range_flag.into(),
        record.animation_flag.into(),
        width.into(),
        height.into(),
        data_length.into(),
        extension_length.into(),
    ])
}

/// The head into the start of a list.
pub fn head_list(file: &[u8], list: &mut [u64]) -> Result<(), Refusal> {
    let numbers = head(file)?;
    let Some(start) = list.first_chunk_mut() else {
        return refuse(Reason::BufferTooSmall, 0);
    };
    *start = numbers;
    Ok(())
}

/// The record of a file, if the list begins with the numbers of its head.
pub fn body(given: &[u64], file: &[u8]) -> Result<Record, Refusal> {
    if file.len() > MAX_FILE {
        return refuse(Reason::FileTooLong, 0);
    }
    if given.first_chunk() != Some(&head(file)?) {
        return refuse(Reason::OtherHead, 0);
    }
    read(file)
}

/// The same into the start of a list.
pub fn body_list(given: &[u64], file: &[u8], list: &mut [u64]) -> Result<(), Refusal> {
    put_list(&body(given, file)?, list)
}
