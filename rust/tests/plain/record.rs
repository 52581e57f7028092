//! What a file says, field by field.

use std::ops::Range;

/// The most extension entries that a file may have.
pub const MAX_ENTRIES: usize = 64;

/// A part of a file or of a source: where it starts and how many bytes it has.
#[derive(Clone, Copy, Debug, Default, PartialEq, Eq)]
pub struct Span {
    pub start: u32,
    pub length: u32,
}

impl Span {
    /// The range that indexes the bytes.
    pub fn range(self) -> Range<usize> {
        let start = self.start as usize;
        start..start + self.length as usize
    }
}

/// An extension entry: its tag, where its payload stands, and where its tag begins, at which writing does not look.
#[derive(Clone, Copy, Debug, Default, PartialEq, Eq)]
pub struct Entry {
    pub tag: u32,
    pub payload: Span,
    pub tag_offset: u32,
}

/// A HEVC header. Fields that are not in the file are zero.
#[derive(Clone, Copy, Debug, Default, PartialEq, Eq)]
pub struct HevcHeader {
    pub log2_min_luma_coding_block_size_minus3: u32,
    pub log2_diff_max_min_luma_coding_block_size: u32,
    pub log2_min_transform_block_size_minus2: u32,
    pub log2_diff_max_min_transform_block_size: u32,
    pub max_transform_hierarchy_depth_intra: u32,
    pub sample_adaptive_offset_enabled_flag: bool,
    pub pcm_enabled_flag: bool,
    pub pcm_sample_bit_depth_luma_minus1: u8,
    pub pcm_sample_bit_depth_chroma_minus1: u8,
    pub log2_min_pcm_luma_coding_block_size_minus3: u32,
    pub log2_diff_max_min_pcm_luma_coding_block_size: u32,
    pub pcm_loop_filter_disabled_flag: bool,
    pub strong_intra_smoothing_enabled_flag: bool,
    pub sps_extension_present_flag: bool,
    pub sps_range_extension_flag: bool,
    pub sps_extension_7bits: u8,
    /// The nine flags of the range extension, in file order.
    pub range_flags: [bool; 9],
}

/// The record of a file: every field as coded, except the lengths, which follow from the rest.
#[derive(Clone, Copy, Debug, PartialEq, Eq)]
pub struct Record {
    pub pixel_format: u8,
    pub alpha1_flag: bool,
    pub bit_depth_minus_8: u8,
    pub color_space: u8,
    pub extension_present_flag: bool,
    pub alpha2_flag: bool,
    pub limited_range_flag: bool,
    pub animation_flag: bool,
    pub picture_width: u32,
    pub picture_height: u32,
    pub explicit_length: bool,
    pub entry_count: u32,
    pub entries: [Entry; MAX_ENTRIES],
    pub loop_count: u16,
    pub frame_period_num: u16,
    pub frame_period_den: u16,
    pub alpha_header: HevcHeader,
    pub color_header: HevcHeader,
    pub data: Span,
    pub coded_width: u64,
    pub coded_height: u64,
}

impl Default for Record {
    fn default() -> Record {
        Record {
            pixel_format: 0,
            alpha1_flag: false,
            bit_depth_minus_8: 0,
            color_space: 0,
            extension_present_flag: false,
            alpha2_flag: false,
            limited_range_flag: false,
            animation_flag: false,
            picture_width: 0,
            picture_height: 0,
            explicit_length: false,
            entry_count: 0,
            entries: [Entry::default(); MAX_ENTRIES],
            loop_count: 0,
            frame_period_num: 0,
            frame_period_den: 0,
            alpha_header: HevcHeader::default(),
            color_header: HevcHeader::default(),
            data: Span::default(),
            coded_width: 0,
            coded_height: 0,
        }
    }
}

impl Record {
    /// The entries in use; `None` if the count is above what a record holds.
    pub fn used(&self) -> Option<&[Entry]> {
        self.entries.get(..self.entry_count as usize)
    }

    pub fn has_alpha(&self) -> bool {
        self.alpha1_flag || self.alpha2_flag
    }
}
