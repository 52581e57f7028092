//! Reading a HEVC header: its length, fields, trailing bits and rules.

use bpg::{Reason, Refusal};

use super::bits::Bits;
use super::cursor::Cursor;
use super::record::HevcHeader;
use super::refuse;

/// The header at the cursor. Every fault but that of the length itself is reported at the length.
pub fn header(cursor: &mut Cursor, bit_depth: u32) -> Result<HevcHeader, Refusal> {
    let item = cursor.at;
    let length = cursor.length()?;
    let end = cursor.at + length;
    // The fields may run past the header's end into what follows: `ends` then refuses them.
    let mut bits = Bits::new(cursor.region, cursor.at);
    let header = match fields(&mut bits) {
        Some(header) if ends(cursor.region, bits.at(), end) => header,
        _ => return refuse(Reason::BadHeader, item),
    };
    if let Some(reason) = broken(&header, bit_depth) {
        return refuse(reason, item);
    }
    cursor.at = end;
    Ok(header)
}

/// Whether after the last field there are 0 to 7 zero bits up to `end`, and no more.
fn ends(file: &[u8], bit: usize, end: usize) -> bool {
    bit.div_ceil(8) == end && (bit.is_multiple_of(8) || file[end - 1] & (0xFF >> (bit % 8)) == 0)
}

#[inline]
fn fields(bits: &mut Bits) -> Option<HevcHeader> {
    let mut header = HevcHeader {
        log2_min_luma_coding_block_size_minus3: bits.ue()?,
        log2_diff_max_min_luma_coding_block_size: bits.ue()?,
        log2_min_transform_block_size_minus2: bits.ue()?,
        log2_diff_max_min_transform_block_size: bits.ue()?,
        max_transform_hierarchy_depth_intra: bits.ue()?,
        sample_adaptive_offset_enabled_flag: bits.flag(),
        pcm_enabled_flag: bits.flag(),
        ..HevcHeader::default()
    };
    if header.pcm_enabled_flag {
        header.pcm_sample_bit_depth_luma_minus1 = bits.u(4) as u8;
        header.pcm_sample_bit_depth_chroma_minus1 = bits.u(4) as u8;
        header.log2_min_pcm_luma_coding_block_size_minus3 = bits.ue()?;
        header.log2_diff_max_min_pcm_luma_coding_block_size = bits.ue()?;
        header.pcm_loop_filter_disabled_flag = bits.flag();
    }
    header.strong_intra_smoothing_enabled_flag = bits.flag();
    header.sps_extension_present_flag = bits.flag();
    if header.sps_extension_present_flag {
        header.sps_range_extension_flag = bits.flag();
        header.sps_extension_7bits = bits.u(7) as u8;
    }
    if header.sps_range_extension_flag {
        let nine = bits.u(9);
        header.range_flags = std::array::from_fn(|i| nine >> (8 - i) & 1 != 0);
    }
    Some(header)
}

/// The first of refusals 17 and 16 that a header's values meet.
pub fn broken(header: &HevcHeader, bit_depth: u32) -> Option<Reason> {
    if forbidden(header) {
        return Some(Reason::ForbiddenBit);
    }
    (!sizes(header) || header.pcm_enabled_flag && !pcm(header, bit_depth))
        .then_some(Reason::HevcRule)
}

/// Explicit rdpcm, extended precision, high precision offsets, cabac bypass alignment.
const FORBIDDEN: [usize; 4] = [3, 4, 6, 8];

fn forbidden(header: &HevcHeader) -> bool {
    header.sps_extension_7bits != 0 || FORBIDDEN.iter().any(|&i| header.range_flags[i])
}

/// Base-2 logarithms of a header's smallest and largest coding block. Sums in 64 bits cannot wrap.
fn coding_blocks(header: &HevcHeader) -> (u64, u64) {
    let smallest = u64::from(header.log2_min_luma_coding_block_size_minus3) + 3;
    let diff = u64::from(header.log2_diff_max_min_luma_coding_block_size);
    (smallest, smallest + diff)
}

/// The largest transform and PCM blocks are 32 by 32, whatever the coding blocks are.
const LARGEST: u64 = 5;

fn sizes(header: &HevcHeader) -> bool {
    let (min_cb, ctb) = coding_blocks(header);
    let min_tb = u64::from(header.log2_min_transform_block_size_minus2) + 2;
    let max_tb = min_tb + u64::from(header.log2_diff_max_min_transform_block_size);
    let depth = u64::from(header.max_transform_hierarchy_depth_intra);
    (4..=6).contains(&ctb) && min_tb < min_cb && max_tb <= ctb.min(LARGEST) && depth <= ctb - min_tb
}

fn pcm(header: &HevcHeader, bit_depth: u32) -> bool {
    let (min_cb, ctb) = coding_blocks(header);
    let min_pcm = u64::from(header.log2_min_pcm_luma_coding_block_size_minus3) + 3;
    let diff = u64::from(header.log2_diff_max_min_pcm_luma_coding_block_size);
    u32::from(header.pcm_sample_bit_depth_luma_minus1) < bit_depth
        && u32::from(header.pcm_sample_bit_depth_chroma_minus1) < bit_depth
        && min_pcm >= min_cb.min(LARGEST)
        && min_pcm + diff <= ctb.min(LARGEST)
}
