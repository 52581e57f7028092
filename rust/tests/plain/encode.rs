//! The bits of a HEVC header that keeps the rules.

use super::record::HevcHeader;

/// The bytes of a header with its trailing zero bits, and how many they are. By the rules, the sizes have
/// at most 46 bits and the extension 19, so that each part fits 64 bits and both fit 128.
pub fn encode(header: &HevcHeader) -> ([u8; 16], usize) {
    let sizes = sizes(header);
    let extension = extension(header);
    let bits = u128::from(sizes.value) << extension.length | u128::from(extension.value);
    let length = sizes.length + extension.length;
    let bytes = (bits << (128 - length)).to_be_bytes();
    (bytes, length.div_ceil(8) as usize)
}

fn sizes(header: &HevcHeader) -> Bits {
    let mut bits = Bits::default();
    bits.ue(header.log2_min_luma_coding_block_size_minus3);
    bits.ue(header.log2_diff_max_min_luma_coding_block_size);
    bits.ue(header.log2_min_transform_block_size_minus2);
    bits.ue(header.log2_diff_max_min_transform_block_size);
    bits.ue(header.max_transform_hierarchy_depth_intra);
    bits.flag(header.sample_adaptive_offset_enabled_flag);
    bits.flag(header.pcm_enabled_flag);
    if header.pcm_enabled_flag {
        bits.u(4, header.pcm_sample_bit_depth_luma_minus1.into());
        bits.u(4, header.pcm_sample_bit_depth_chroma_minus1.into());
        bits.ue(header.log2_min_pcm_luma_coding_block_size_minus3);
        bits.ue(header.log2_diff_max_min_pcm_luma_coding_block_size);
        bits.flag(header.pcm_loop_filter_disabled_flag);
    }
    bits
}

fn extension(header: &HevcHeader) -> Bits {
    let mut bits = Bits::default();
    bits.flag(header.strong_intra_smoothing_enabled_flag);
    bits.flag(header.sps_extension_present_flag);
    if header.sps_extension_present_flag {
        bits.flag(header.sps_range_extension_flag);
        bits.u(7, header.sps_extension_7bits.into());
    }
    if header.sps_range_extension_flag {
        header.range_flags.iter().for_each(|&flag| bits.flag(flag));
    }
    bits
}

/// Bits at the low end of a number.
#[derive(Default)]
struct Bits {
    value: u64,
    length: u32,
}

impl Bits {
    #[inline]
    fn u(&mut self, n: u32, value: u32) {
        self.value = self.value << n | u64::from(value);
        self.length += n;
    }

    #[inline]
    fn flag(&mut self, flag: bool) {
        self.u(1, flag.into());
    }

    #[inline]
    fn ue(&mut self, value: u32) {
        let zeros = 31 - (value + 1).leading_zeros();
        self.u(2 * zeros + 1, value + 1);
    }
}
