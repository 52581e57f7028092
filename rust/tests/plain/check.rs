//! Judging a record before it is written.

use bpg::Reason;

use super::header::broken;
use super::reader::{broken_flags, data_allowed, loop_numbers};
use super::record::{Entry, HevcHeader, Record, Span};

/// The first reason to refuse a record over its source; the size is judged later.
pub fn check(record: &Record, source: &[u8]) -> Result<(), Reason> {
    let used = record.used().ok_or(Reason::TooManyEntries)?;
    require(inside(record, used, source), Reason::RangeOutside)?;
    require(consistent(record, used), Reason::Inconsistent)?;
    broken_flags(record).map_or(Ok(()), Err)?;
    let (width, height) = (record.picture_width, record.picture_height);
    require(width != 0 && height != 0, Reason::EmptyPicture)?;
    let animated = control(record, used, source)?;
    let still = !record.animation_flag;
    require(animated || still, Reason::NoLoop)?;
    let bit_depth = u32::from(record.bit_depth_minus_8) + 8;
    if record.has_alpha() {
        check_header(&record.alpha_header, bit_depth)?;
    }
    check_header(&record.color_header, bit_depth)?;
    let data = &source[record.data.range()];
    require(data_allowed(data), Reason::BadDataStart)
}

fn require(holds: bool, reason: Reason) -> Result<(), Reason> {
    if holds {
        Ok(())
    } else {
        Err(reason)
    }
}

fn inside(record: &Record, used: &[Entry], source: &[u8]) -> bool {
    let ends = |span: Span| u64::from(span.start) + u64::from(span.length);
    let length = source.len() as u64;
    ends(record.data) <= length && used.iter().all(|entry| ends(entry.payload) <= length)
}

/// No unused or absent field is set, and no presence flag contradicts another.
fn consistent(record: &Record, used: &[Entry]) -> bool {
    let unused = &record.entries[used.len()..];
    unused
        .iter()
        .all(|entry| (entry.tag, entry.payload) == (0, Span::default()))
        && (record.extension_present_flag || used.is_empty())
        && (loop_of(record) == [0; 3] || used.iter().any(|entry| entry.tag == 5))
        && (record.has_alpha() || record.alpha_header == HevcHeader::default())
        && consistent_header(&record.alpha_header)
        && consistent_header(&record.color_header)
}

fn consistent_header(header: &HevcHeader) -> bool {
    let no_pcm = header.pcm_sample_bit_depth_luma_minus1 == 0
        && header.pcm_sample_bit_depth_chroma_minus1 == 0
        && header.log2_min_pcm_luma_coding_block_size_minus3 == 0
        && header.log2_diff_max_min_pcm_luma_coding_block_size == 0
        && !header.pcm_loop_filter_disabled_flag;
    let no_extension = !header.sps_range_extension_flag && header.sps_extension_7bits == 0;
    (header.pcm_enabled_flag || no_pcm)
        && (header.sps_extension_present_flag || no_extension)
        && (header.sps_range_extension_flag || header.range_flags == [false; 9])
}

fn loop_of(record: &Record) -> [u16; 3] {
    [
        record.loop_count,
        record.frame_period_num,
        record.frame_period_den,
    ]
}

/// Whether there is a tag 5 entry. There is at most one, and its payload has the record's loop numbers.
fn control(record: &Record, used: &[Entry], source: &[u8]) -> Result<bool, Reason> {
    let mut controls = used.iter().filter(|entry| entry.tag == 5);
    let Some(control) = controls.next() else {
        return Ok(false);
    };
    let payload = control.payload.range();
    let numbers = loop_numbers(&source[..payload.end], payload.start);
    let numbers = numbers.map_err(|refusal| refusal.reason)?;
    require(numbers == loop_of(record), Reason::Inconsistent)?;
    require(controls.next().is_none(), Reason::SecondLoop)?;
    Ok(true)
}

fn check_header(header: &HevcHeader, bit_depth: u32) -> Result<(), Reason> {
    // The numbers of an absent PCM part are 0 here.
    let codes = [
        header.log2_min_luma_coding_block_size_minus3,
        header.log2_diff_max_min_luma_coding_block_size,
        header.log2_min_transform_block_size_minus2,
        header.log2_diff_max_min_transform_block_size,
        header.max_transform_hierarchy_depth_intra,
        header.log2_min_pcm_luma_coding_block_size_minus3,
        header.log2_diff_max_min_pcm_luma_coding_block_size,
    ];
    require(!codes.contains(&u32::MAX), Reason::BadHeader)?;
    broken(header, bit_depth).map_or(Ok(()), Err)
}
