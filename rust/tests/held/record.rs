//! The package's record as that of plain Rust, by its getters, and back, by its setters.

use crate::plain;

pub fn plain_of(record: &bpg::Record) -> plain::Record {
    let mut entries = [plain::Entry::default(); plain::MAX_ENTRIES];
    for (entry, of) in entries.iter_mut().zip(record.entries()) {
        *entry = plain_entry(of);
    }
    plain::Record {
        pixel_format: record.pixel_format(),
        alpha1_flag: record.alpha1_flag(),
        bit_depth_minus_8: record.bit_depth_minus_8(),
        color_space: record.color_space(),
        extension_present_flag: record.extension_present_flag(),
        alpha2_flag: record.alpha2_flag(),
        limited_range_flag: record.limited_range_flag(),
        animation_flag: record.animation_flag(),
        picture_width: record.picture_width(),
        picture_height: record.picture_height(),
        explicit_length: record.explicit_length(),
        entry_count: record.entries().len() as u32,
        entries,
        loop_count: record.loop_count(),
        frame_period_num: record.frame_period_num(),
        frame_period_den: record.frame_period_den(),
        alpha_header: plain_header(record.alpha_header()),
        color_header: plain_header(record.color_header()),
        data: plain_span(record.data_span()),
        coded_width: record.coded_width(),
        coded_height: record.coded_height(),
    }
}

pub fn plain_entry(entry: &bpg::Entry) -> plain::Entry {
    plain::Entry {
        tag: entry.tag(),
        payload: plain_span(entry.span()),
        tag_offset: entry.tag_offset(),
    }
}

fn plain_span(span: bpg::Span) -> plain::Span {
    plain::Span {
        start: span.start,
        length: span.length,
    }
}

fn plain_header(header: &bpg::HevcHeader) -> plain::HevcHeader {
    plain::HevcHeader {
        log2_min_luma_coding_block_size_minus3: header.log2_min_luma_coding_block_size_minus3(),
        log2_diff_max_min_luma_coding_block_size: header.log2_diff_max_min_luma_coding_block_size(),
        log2_min_transform_block_size_minus2: header.log2_min_transform_block_size_minus2(),
        log2_diff_max_min_transform_block_size: header.log2_diff_max_min_transform_block_size(),
        max_transform_hierarchy_depth_intra: header.max_transform_hierarchy_depth_intra(),
        sample_adaptive_offset_enabled_flag: header.sample_adaptive_offset_enabled_flag(),
        pcm_enabled_flag: header.pcm_enabled_flag(),
        pcm_sample_bit_depth_luma_minus1: header.pcm_sample_bit_depth_luma_minus1(),
        pcm_sample_bit_depth_chroma_minus1: header.pcm_sample_bit_depth_chroma_minus1(),
        log2_min_pcm_luma_coding_block_size_minus3: header
            .log2_min_pcm_luma_coding_block_size_minus3(),
        log2_diff_max_min_pcm_luma_coding_block_size: header
            .log2_diff_max_min_pcm_luma_coding_block_size(),
        pcm_loop_filter_disabled_flag: header.pcm_loop_filter_disabled_flag(),
        strong_intra_smoothing_enabled_flag: header.strong_intra_smoothing_enabled_flag(),
        sps_extension_present_flag: header.sps_extension_present_flag(),
        sps_range_extension_flag: header.sps_range_extension_flag(),
        sps_extension_7bits: header.sps_extension_7bits(),
        range_flags: [
            header.transform_skip_rotation_enabled_flag(),
            header.transform_skip_context_enabled_flag(),
            header.implicit_rdpcm_enabled_flag(),
            header.explicit_rdpcm_enabled_flag(),
            header.extended_precision_processing_flag(),
            header.intra_smoothing_disabled_flag(),
            header.high_precision_offsets_enabled_flag(),
            header.persistent_rice_adaptation_enabled_flag(),
            header.cabac_bypass_alignment_enabled_flag(),
        ],
    }
}

/// Of a record whose entries fit.
pub fn package_of(from: &plain::Record) -> bpg::Record {
    let mut record = bpg::Record::new();
    for entry in from.used().expect("the entries fit") {
        let plain::Span { start, length } = entry.payload;
        let mut new = bpg::Entry::new(entry.tag, bpg::Span { start, length });
        new.set_tag_offset(entry.tag_offset);
        record.push_entry(new).expect("the entries fit");
    }
    record.set_pixel_format(from.pixel_format);
    record.set_alpha1_flag(from.alpha1_flag);
    record.set_bit_depth_minus_8(from.bit_depth_minus_8);
    record.set_color_space(from.color_space);
    record.set_extension_present_flag(from.extension_present_flag);
    record.set_alpha2_flag(from.alpha2_flag);
    record.set_limited_range_flag(from.limited_range_flag);
    record.set_animation_flag(from.animation_flag);
    record.set_picture_width(from.picture_width);
    record.set_picture_height(from.picture_height);
    record.set_explicit_length(from.explicit_length);
    record.set_loop_count(from.loop_count);
    record.set_frame_period_num(from.frame_period_num);
    record.set_frame_period_den(from.frame_period_den);
    set_header(record.alpha_header_mut(), &from.alpha_header);
    set_header(record.color_header_mut(), &from.color_header);
    let plain::Span { start, length } = from.data;
    record.set_data_span(bpg::Span { start, length });
    record.set_coded_width(from.coded_width);
    record.set_coded_height(from.coded_height);
    record
}

fn set_header(header: &mut bpg::HevcHeader, from: &plain::HevcHeader) {
    header.set_log2_min_luma_coding_block_size_minus3(from.log2_min_luma_coding_block_size_minus3);
    header.set_log2_diff_max_min_luma_coding_block_size(
        from.log2_diff_max_min_luma_coding_block_size,
    );
    header.set_log2_min_transform_block_size_minus2(from.log2_min_transform_block_size_minus2);
    header.set_log2_diff_max_min_transform_block_size(from.log2_diff_max_min_transform_block_size);
    header.set_max_transform_hierarchy_depth_intra(from.max_transform_hierarchy_depth_intra);
    header.set_sample_adaptive_offset_enabled_flag(from.sample_adaptive_offset_enabled_flag);
    header.set_pcm_enabled_flag(from.pcm_enabled_flag);
    header.set_pcm_sample_bit_depth_luma_minus1(from.pcm_sample_bit_depth_luma_minus1);
    header.set_pcm_sample_bit_depth_chroma_minus1(from.pcm_sample_bit_depth_chroma_minus1);
    header.set_log2_min_pcm_luma_coding_block_size_minus3(
        from.log2_min_pcm_luma_coding_block_size_minus3,
    );
    header.set_log2_diff_max_min_pcm_luma_coding_block_size(
        from.log2_diff_max_min_pcm_luma_coding_block_size,
    );
    header.set_pcm_loop_filter_disabled_flag(from.pcm_loop_filter_disabled_flag);
    header.set_strong_intra_smoothing_enabled_flag(from.strong_intra_smoothing_enabled_flag);
    header.set_sps_extension_present_flag(from.sps_extension_present_flag);
    header.set_sps_range_extension_flag(from.sps_range_extension_flag);
    header.set_sps_extension_7bits(from.sps_extension_7bits);
    let [rotation, context, implicit, explicit, extended, smoothing, offsets, rice, bypass] =
        from.range_flags;
    header.set_transform_skip_rotation_enabled_flag(rotation);
    header.set_transform_skip_context_enabled_flag(context);
    header.set_implicit_rdpcm_enabled_flag(implicit);
    header.set_explicit_rdpcm_enabled_flag(explicit);
    header.set_extended_precision_processing_flag(extended);
    header.set_intra_smoothing_disabled_flag(smoothing);
    header.set_high_precision_offsets_enabled_flag(offsets);
    header.set_persistent_rice_adaptation_enabled_flag(rice);
    header.set_cabac_bypass_alignment_enabled_flag(bypass);
}
