//! A record as a list of numbers, the form in which the static library takes and answers it: fixed numbers
//! first, then those of the entries in use.

use bpg::{Reason, Refusal};

use super::reader::read;
use super::record::{Entry, HevcHeader, Record, Span, MAX_ENTRIES};
use super::refuse;

/// The numbers before the entries.
pub const FIXED: usize = 69;

/// The numbers of an entry.
pub const ENTRY: usize = 4;

/// The numbers of a record whose entries are all in use.
pub const NUMBERS: usize = FIXED + ENTRY * MAX_ENTRIES;

/// Reads a file into the start of a list. The list keeps its other numbers, and all if the call is refused.
pub fn read_list(file: &[u8], list: &mut [u64]) -> Result<(), Refusal> {
    put_list(&read(file)?, list)
}

/// A record into the start of a list.
#[inline]
pub fn put_list(record: &Record, list: &mut [u64]) -> Result<(), Refusal> {
    let used = record.used().unwrap_or_default();
    let Some((fixed, rest)) = list.split_first_chunk_mut() else {
        return refuse(Reason::BufferTooSmall, 0);
    };
    let Some(entries) = rest.get_mut(..ENTRY * used.len()) else {
        return refuse(Reason::BufferTooSmall, 0);
    };
    fill(fixed, record);
    for (numbers, entry) in entries.chunks_exact_mut(ENTRY).zip(used) {
        let Span { start, length } = entry.payload;
        let list = [entry.tag, start, length, entry.tag_offset];
        numbers.copy_from_slice(&list.map(u64::from));
    }
    Ok(())
}

fn fill(list: &mut [u64; FIXED], record: &Record) {
    let head = [
        record.pixel_format.into(),
        record.alpha1_flag.into(),
        record.bit_depth_minus_8.into(),
        record.color_space.into(),
        record.extension_present_flag.into(),
        record.alpha2_flag.into(),
        record.limited_range_flag.into(),
        record.animation_flag.into(),
        record.picture_width.into(),
        record.picture_height.into(),
        record.explicit_length.into(),
        record.loop_count.into(),
        record.frame_period_num.into(),
        record.frame_period_den.into(),
    ];
    list[..14].copy_from_slice(&head);
    fill_header(&mut list[14..39], &record.alpha_header);
    fill_header(&mut list[39..64], &record.color_header);
    list[64] = record.data.start.into();
    list[65] = record.data.length.into();
    list[66] = record.coded_width;
    list[67] = record.coded_height;
    list[68] = record.entry_count.into();
}

fn fill_header(list: &mut [u64], header: &HevcHeader) {
    let fields = [
        header.log2_min_luma_coding_block_size_minus3.into(),
        header.log2_diff_max_min_luma_coding_block_size.into(),
        header.log2_min_transform_block_size_minus2.into(),
        header.log2_diff_max_min_transform_block_size.into(),
        header.max_transform_hierarchy_depth_intra.into(),
        header.sample_adaptive_offset_enabled_flag.into(),
        header.pcm_enabled_flag.into(),
        header.pcm_sample_bit_depth_luma_minus1.into(),
        header.pcm_sample_bit_depth_chroma_minus1.into(),
        header.log2_min_pcm_luma_coding_block_size_minus3.into(),
        header.log2_diff_max_min_pcm_luma_coding_block_size.into(),
        header.pcm_loop_filter_disabled_flag.into(),
        header.strong_intra_smoothing_enabled_flag.into(),
        header.sps_extension_present_flag.into(),
        header.sps_range_extension_flag.into(),
        header.sps_extension_7bits.into(),
    ];
    list[..16].copy_from_slice(&fields);
    list[16..25].copy_from_slice(&header.range_flags.map(u64::from));
}

/// The record of a list, or why there is none: a list that is too short, a field that cannot hold its number,
/// too many entries. What stands after the entries in use is not looked at.
pub fn record_of(list: &[u64]) -> Result<Record, Reason> {
    let (fixed, rest) = list
        .split_first_chunk::<FIXED>()
        .ok_or(Reason::BufferTooSmall)?;
    let mut record = Numbers(fixed.iter()).fixed().ok_or(Reason::Inconsistent)?;
    let count = record.entry_count as usize;
    let entries = record.entries.get_mut(..count);
    let entries = entries.ok_or(Reason::TooManyEntries)?;
    let numbers = rest.get(..ENTRY * count).ok_or(Reason::BufferTooSmall)?;
    let mut numbers = Numbers(numbers.iter());
    for entry in entries {
        *entry = numbers.entry().ok_or(Reason::Inconsistent)?;
    }
    Ok(record)
}

/// The numbers of a list that are left.
struct Numbers<'a>(std::slice::Iter<'a, u64>);

impl Numbers<'_> {
    /// A record without its entries. The coded size is not looked at.
    fn fixed(&mut self) -> Option<Record> {
        Some(Record {
            pixel_format: self.next()?,
            alpha1_flag: self.flag()?,
            bit_depth_minus_8: self.next()?,
            color_space: self.next()?,
            extension_present_flag: self.flag()?,
            alpha2_flag: self.flag()?,
            limited_range_flag: self.flag()?,
            animation_flag: self.flag()?,
            picture_width: self.next()?,
            picture_height: self.next()?,
            explicit_length: self.flag()?,
            loop_count: self.next()?,
            frame_period_num: self.next()?,
            frame_period_den: self.next()?,
            alpha_header: self.header()?,
            color_header: self.header()?,
            data: self.span()?,
            coded_width: self.next()?,
            coded_height: self.next()?,
            entry_count: self.next()?,
            entries: [Entry::default(); MAX_ENTRIES],
        })
    }

    fn next<T: TryFrom<u64>>(&mut self) -> Option<T> {
        T::try_from(*self.0.next()?).ok()
    }

    fn flag(&mut self) -> Option<bool> {
        match self.0.next()? {
            0 => Some(false),
            1 => Some(true),
            _ => None,
        }
    }

    fn span(&mut self) -> Option<Span> {
        Some(Span {
            start: self.next()?,
            length: self.next()?,
        })
    }

    fn entry(&mut self) -> Option<Entry> {
        Some(Entry {
            tag: self.next()?,
            payload: self.span()?,
            tag_offset: self.next()?,
        })
    }

    fn header(&mut self) -> Option<HevcHeader> {
        Some(HevcHeader {
            log2_min_luma_coding_block_size_minus3: self.next()?,
            log2_diff_max_min_luma_coding_block_size: self.next()?,
            log2_min_transform_block_size_minus2: self.next()?,
            log2_diff_max_min_transform_block_size: self.next()?,
            max_transform_hierarchy_depth_intra: self.next()?,
            sample_adaptive_offset_enabled_flag: self.flag()?,
            pcm_enabled_flag: self.flag()?,
            pcm_sample_bit_depth_luma_minus1: self.next()?,
            pcm_sample_bit_depth_chroma_minus1: self.next()?,
            log2_min_pcm_luma_coding_block_size_minus3: self.next()?,
            log2_diff_max_min_pcm_luma_coding_block_size: self.next()?,
            pcm_loop_filter_disabled_flag: self.flag()?,
            strong_intra_smoothing_enabled_flag: self.flag()?,
            sps_extension_present_flag: self.flag()?,
            sps_range_extension_flag: self.flag()?,
            sps_extension_7bits: self.next()?,
            range_flags: self.flags()?,
        })
    }

    fn flags(&mut self) -> Option<[bool; 9]> {
        let mut flags = [false; 9];
        for flag in &mut flags {
            *flag = self.flag()?;
        }
        Some(flags)
    }
}
