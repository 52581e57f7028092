//! A HEVC header.

use core::fmt;

use crate::number::{accessors, own_fields};

/// A HEVC header, its fields as coded, with the names of the BPG specification. Fields that are not in
/// the file are zero, and so are all of `HevcHeader::default()`.
#[derive(Clone, Copy, Default, PartialEq, Eq, Hash)]
#[repr(C)]
pub struct HevcHeader {
    log2_min_luma_coding_block_size_minus3: u64,
    log2_diff_max_min_luma_coding_block_size: u64,
    log2_min_transform_block_size_minus2: u64,
    log2_diff_max_min_transform_block_size: u64,
    max_transform_hierarchy_depth_intra: u64,
    sample_adaptive_offset_enabled_flag: u64,
    pcm_enabled_flag: u64,
    pcm_sample_bit_depth_luma_minus1: u64,
    pcm_sample_bit_depth_chroma_minus1: u64,
    log2_min_pcm_luma_coding_block_size_minus3: u64,
    log2_diff_max_min_pcm_luma_coding_block_size: u64,
    pcm_loop_filter_disabled_flag: u64,
    strong_intra_smoothing_enabled_flag: u64,
    sps_extension_present_flag: u64,
    sps_range_extension_flag: u64,
    sps_extension_7bits: u64,
    transform_skip_rotation_enabled_flag: u64,
    transform_skip_context_enabled_flag: u64,
    implicit_rdpcm_enabled_flag: u64,
    explicit_rdpcm_enabled_flag: u64,
    extended_precision_processing_flag: u64,
    intra_smoothing_disabled_flag: u64,
    high_precision_offsets_enabled_flag: u64,
    persistent_rice_adaptation_enabled_flag: u64,
    cabac_bypass_alignment_enabled_flag: u64,
}

own_fields!(HevcHeader);

accessors! {
    HevcHeader {
        /// Base-2 logarithm of the smallest coding block, minus 3.
        log2_min_luma_coding_block_size_minus3 set_log2_min_luma_coding_block_size_minus3: u32,
        /// What is to be added for the logarithm of the largest coding block.
        log2_diff_max_min_luma_coding_block_size set_log2_diff_max_min_luma_coding_block_size: u32,
        /// Base-2 logarithm of the smallest transform block, minus 2.
        log2_min_transform_block_size_minus2 set_log2_min_transform_block_size_minus2: u32,
        /// What is to be added for the logarithm of the largest transform block.
        log2_diff_max_min_transform_block_size set_log2_diff_max_min_transform_block_size: u32,
        /// How often a coding block may be split into transform blocks.
        max_transform_hierarchy_depth_intra set_max_transform_hierarchy_depth_intra: u32,
        /// Sample adaptive offset is in use.
        sample_adaptive_offset_enabled_flag set_sample_adaptive_offset_enabled_flag: bool,
        /// PCM blocks may occur; the five PCM fields are there.
        pcm_enabled_flag set_pcm_enabled_flag: bool,
        /// Bit depth of luma in PCM blocks, minus 1.
        pcm_sample_bit_depth_luma_minus1 set_pcm_sample_bit_depth_luma_minus1: u8,
        /// Bit depth of chroma in PCM blocks, minus 1.
        pcm_sample_bit_depth_chroma_minus1 set_pcm_sample_bit_depth_chroma_minus1: u8,
        /// Base-2 logarithm of the smallest PCM block, minus 3.
        log2_min_pcm_luma_coding_block_size_minus3 set_log2_min_pcm_luma_coding_block_size_minus3: u32,
        /// What is to be added for the logarithm of the largest PCM block.
        log2_diff_max_min_pcm_luma_coding_block_size set_log2_diff_max_min_pcm_luma_coding_block_size: u32,
        /// The loop filter passes over PCM blocks.
        pcm_loop_filter_disabled_flag set_pcm_loop_filter_disabled_flag: bool,
        /// Strong intra smoothing is in use.
        strong_intra_smoothing_enabled_flag set_strong_intra_smoothing_enabled_flag: bool,
        /// The SPS extension is there: the range flag and the seven bits.
        sps_extension_present_flag set_sps_extension_present_flag: bool,
        /// The nine flags of the range extension are there: those that follow.
        sps_range_extension_flag set_sps_range_extension_flag: bool,
        /// Seven bits that must be 0.
        sps_extension_7bits set_sps_extension_7bits: u8,
        /// The first flag of the range extension.
        transform_skip_rotation_enabled_flag set_transform_skip_rotation_enabled_flag: bool,
        /// The second flag of the range extension.
        transform_skip_context_enabled_flag set_transform_skip_context_enabled_flag: bool,
        /// The third flag of the range extension.
        implicit_rdpcm_enabled_flag set_implicit_rdpcm_enabled_flag: bool,
        /// The fourth flag of the range extension; must not be set.
        explicit_rdpcm_enabled_flag set_explicit_rdpcm_enabled_flag: bool,
        /// The fifth flag of the range extension; must not be set.
        extended_precision_processing_flag set_extended_precision_processing_flag: bool,
        /// The sixth flag of the range extension.
        intra_smoothing_disabled_flag set_intra_smoothing_disabled_flag: bool,
        /// The seventh flag of the range extension; must not be set.
        high_precision_offsets_enabled_flag set_high_precision_offsets_enabled_flag: bool,
        /// The eighth flag of the range extension.
        persistent_rice_adaptation_enabled_flag set_persistent_rice_adaptation_enabled_flag: bool,
        /// The ninth flag of the range extension; must not be set.
        cabac_bypass_alignment_enabled_flag set_cabac_bypass_alignment_enabled_flag: bool,
    }
}

impl fmt::Debug for HevcHeader {
    fn fmt(&self, f: &mut fmt::Formatter<'_>) -> fmt::Result {
        let mut shown = f.debug_struct("HevcHeader");
        self.show_numbers(&mut shown);
        shown.finish()
    }
}
