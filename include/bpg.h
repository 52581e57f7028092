/* Reading, writing and canonicalizing BPG 0.9.5 files.
 *
 * The functions without a body here are those of the proved library (libbpg, made from crates/bpg_export_c): what each one answers is
 * proved, for every input. The proof does not cover
 *   - a pointer that is null or not aligned (with a length of 0 pass any valid address), or memory that is shorter than its length says;
 *   - memory that is written and overlaps anything else that is passed: out, or a list (numbers, durations), with file, source, unit, bytes,
 *     run, numbers or head; the two lists of bpg_batch with each other, buffer or lengths; a buffer of the calls on samples with another buffer
 *     or a plane; the results (*offset, *count, *tag, *start, *length, *exif_len, .., the counts of bpg_partition) with each other or with these;
 *   - memory that another thread changes during a call;
 *   - this header itself: its declarations, and the inline functions, which are plain C over the proved ones. c/test compiles it as C and
 *     as C++ and runs all of it.
 *
 * The library keeps nothing between calls, so that calls may run at the same time.
 *
 * A call answers a status: BPG_OK, or the number of a refusal (enum bpg_status; bpg_status_text has it in words). A refusal leaves the
 * buffer, or the list, as it was. Every result is always written. */
#ifndef BPG_H
#define BPG_H

#include <stdbool.h>
#include <stddef.h>
#include <stdint.h>

#ifdef __cplusplus
extern "C" {
#endif

#define BPG_VERSION_MAJOR 0
#define BPG_VERSION_MINOR 3
#define BPG_VERSION_PATCH 0
#define BPG_VERSION "0.3.0"

/* The most bytes, and the most extension entries, that a file may have. */
#define BPG_MAX_FILE 16777216
#define BPG_MAX_ENTRIES 64

/* So many bytes of a file, or all of a shorter one, are always enough for its head. */
#define BPG_HEAD_BYTES 27

/* The tags of extension entries that BPG defines; an entry may have any other. */
enum bpg_tag {
    BPG_TAG_EXIF = 1,
    BPG_TAG_ICC_PROFILE = 2,
    BPG_TAG_XMP = 3,
    BPG_TAG_THUMBNAIL = 4,        /* again a BPG file */
    BPG_TAG_ANIMATION_CONTROL = 5 /* begins with loop_count, frame_period_num and frame_period_den */
};

/* Values of pixel_format; the last word is where chroma samples stand. */
enum bpg_pixel_format {
    BPG_PIXEL_FORMAT_GRAYSCALE = 0,
    BPG_PIXEL_FORMAT_420_JPEG = 1,
    BPG_PIXEL_FORMAT_422_JPEG = 2,
    BPG_PIXEL_FORMAT_444 = 3,
    BPG_PIXEL_FORMAT_420_MPEG2 = 4,
    BPG_PIXEL_FORMAT_422_MPEG2 = 5
};

/* Values of color_space, which is 0 in a grayscale picture. */
enum bpg_color_space {
    BPG_COLOR_SPACE_YCBCR_BT601 = 0,
    BPG_COLOR_SPACE_RGB = 1,
    BPG_COLOR_SPACE_YCGCO = 2,
    BPG_COLOR_SPACE_YCBCR_BT709 = 3,
    BPG_COLOR_SPACE_YCBCR_BT2020 = 4
};

/* What alpha1_flag + 2 * alpha2_flag says. */
enum bpg_alpha_kind {
    BPG_ALPHA_NONE = 0,
    BPG_ALPHA_PLAIN = 1,        /* an alpha plane, the color not premultiplied */
    BPG_ALPHA_WHITE = 2,        /* the W plane of a CMYK picture in place of alpha */
    BPG_ALPHA_PREMULTIPLIED = 3 /* an alpha plane, the color premultiplied */
};

/* The refusals: name, number, words. */
#define BPG_STATUSES(X) \
    X(BPG_OK, 0, "success") \
    X(BPG_FILE_TOO_LONG, 1, "the file has more than 16,777,216 bytes") \
    X(BPG_TRUNCATED, 2, "an item does not fit the file, block, payload or data region") \
    X(BPG_MAGIC, 3, "the magic is not that of a BPG file") \
    X(BPG_BAD_PIXEL_FORMAT, 4, "the pixel format is above 5") \
    X(BPG_BAD_BIT_DEPTH, 5, "the bit depth is above 14") \
    X(BPG_BAD_COLOR_SPACE, 6, "the color space is above 4, or not 0 in a grayscale picture") \
    X(BPG_NUMBER_NOT_SHORTEST, 7, "an integer is not in its shortest form") \
    X(BPG_NUMBER_TOO_LARGE, 8, "an integer is too large") \
    X(BPG_EMPTY_PICTURE, 9, "the width or height is 0") \
    X(BPG_BAD_DATA_LENGTH, 10, "the picture data length misses the end of the file") \
    X(BPG_TOO_MANY_ENTRIES, 11, "there are more than 64 extension entries") \
    X(BPG_ZERO_PERIOD, 12, "a number of the frame period is 0") \
    X(BPG_SECOND_LOOP, 13, "there is a second animation control entry") \
    X(BPG_NO_LOOP, 14, "an animation has no animation control entry") \
    X(BPG_BAD_HEADER, 15, "the fields and the length of a HEVC header disagree, or a field is too large") \
    X(BPG_HEVC_RULE, 16, "a HEVC header breaks a rule on sizes or depths") \
    X(BPG_FORBIDDEN_BIT, 17, "a HEVC header sets a forbidden extension bit or range flag") \
    X(BPG_RANGE_OUTSIDE, 18, "a range of the record lies outside the source") \
    X(BPG_INCONSISTENT, 19, "an absent field of the record is not zero, its fields contradict each other, or a field cannot hold its number") \
    X(BPG_BUFFER_TOO_SMALL, 20, "the buffer or list is too small") \
    X(BPG_OTHER_HEAD, 21, "the head is not that of this file") \
    X(BPG_BAD_NAL_UNIT, 22, "a NAL unit is too short, or its header, emulation prevention or SEI messages are wrong") \
    X(BPG_BAD_NAL_LAYER, 23, "a NAL unit has a layer above 1, layer 1 without alpha, or is a VPS or SPS") \
    X(BPG_BAD_DURATION, 24, "a frame duration is 0, is the second for its frame, or has no frame after it") \
    X(BPG_BAD_FRAME_COUNT, 25, "a still file has not exactly one frame, or an animated one fewer than two") \
    X(BPG_BAD_DATA_START, 26, "the HEVC data is empty or begins with a start code") \
    X(BPG_DEEP_THUMBNAIL, 27, "a thumbnail stands at level 5") \
    X(BPG_BAD_THUMBNAIL, 28, "a thumbnail is itself refused") \
    X(BPG_LARGE_THUMBNAIL, 29, "a thumbnail is wider or taller than its parent, or of its size") \
    X(BPG_BAD_BATCH, 30, "the lengths do not add up to the buffer, or the lists differ in length") \
    X(BPG_UNEQUAL_LENGTHS, 31, "the planes and buffers of samples differ in length") \
    X(BPG_BAD_SAMPLE_DEPTH, 32, "the depth of the samples is not 8 to 14") \
    X(BPG_SAMPLE_TOO_LARGE, 33, "a sample is above the largest of its depth") \
    X(BPG_PAYLOAD_TOO_LONG, 34, "a payload is too long for JPEG segments") \
    X(BPG_TAG_TWICE, 35, "an EXIF, XMP or ICC profile entry stands twice") \
    X(BPG_BAD_SEGMENTS, 36, "the run is not one of EXIF, XMP and ICC segments as export makes it") \
    X(BPG_UNPLAYABLE, 37, "a loop has no frame or more than 256, a duration of 0, or a frame period number of 0")

enum bpg_status {
#define BPG_STATUS_NAME(name, number, text) name = number,
    BPG_STATUSES(BPG_STATUS_NAME)
#undef BPG_STATUS_NAME
};

/* A status in words. */
static inline const char *bpg_status_text(uint8_t status) {
    switch (status) {
#define BPG_STATUS_TEXT(name, number, text) \
    case number: \
        return text;
        BPG_STATUSES(BPG_STATUS_TEXT)
#undef BPG_STATUS_TEXT
    default:
        return "unknown status";
    }
}

/* ---- The record: what a file says, field by field, with the names of the BPG specification.
 *
 * A record is a list of numbers, which is how the proved functions take it, and struct bpg_record is the names of that memory. A flag is 1 or
 * 0. How large a number its field can hold is told beside it: u8 is at most 255, u16 at most 65535, u32 at most 2^32 - 1. */

/* A HEVC header, its fields as coded. Fields that are not in the file are zero. */
struct bpg_hevc_header {
    uint64_t log2_min_luma_coding_block_size_minus3;       /* u32 */
    uint64_t log2_diff_max_min_luma_coding_block_size;     /* u32 */
    uint64_t log2_min_transform_block_size_minus2;         /* u32 */
    uint64_t log2_diff_max_min_transform_block_size;       /* u32 */
    uint64_t max_transform_hierarchy_depth_intra;          /* u32 */
    uint64_t sample_adaptive_offset_enabled_flag;          /* flag */
    uint64_t pcm_enabled_flag;                             /* flag */
    uint64_t pcm_sample_bit_depth_luma_minus1;             /* u8 */
    uint64_t pcm_sample_bit_depth_chroma_minus1;           /* u8 */
    uint64_t log2_min_pcm_luma_coding_block_size_minus3;   /* u32 */
    uint64_t log2_diff_max_min_pcm_luma_coding_block_size; /* u32 */
    uint64_t pcm_loop_filter_disabled_flag;                /* flag */
    uint64_t strong_intra_smoothing_enabled_flag;          /* flag */
    uint64_t sps_extension_present_flag;                   /* flag */
    uint64_t sps_range_extension_flag;                     /* flag */
    uint64_t sps_extension_7bits;                          /* u8 */
    uint64_t transform_skip_rotation_enabled_flag;         /* flag, as all that follow */
    uint64_t transform_skip_context_enabled_flag;
    uint64_t implicit_rdpcm_enabled_flag;
    uint64_t explicit_rdpcm_enabled_flag;
    uint64_t extended_precision_processing_flag;
    uint64_t intra_smoothing_disabled_flag;
    uint64_t high_precision_offsets_enabled_flag;
    uint64_t persistent_rice_adaptation_enabled_flag;
    uint64_t cabac_bypass_alignment_enabled_flag;
};

/* An extension entry: its tag, where its payload starts and how long it is, in the file that was read or in the source to write from, and where its
 * tag begins in the file that was read: writing does not use that last number, which must only be at most 2^32 - 1. */
struct bpg_record_entry {
    uint64_t tag;        /* u32; enum bpg_tag, or any other */
    uint64_t start;      /* u32 */
    uint64_t length;     /* u32 */
    uint64_t tag_offset; /* u32 */
};

struct bpg_record {
    uint64_t pixel_format;                                /* u8; enum bpg_pixel_format */
    uint64_t alpha1_flag;                                 /* flag; bpg_alpha_kind_of tells what alpha1_flag and alpha2_flag say */
    uint64_t bit_depth_minus_8;                           /* u8 */
    uint64_t color_space;                                 /* u8; enum bpg_color_space */
    uint64_t extension_present_flag;                      /* flag; 1 where there are entries */
    uint64_t alpha2_flag;                                 /* flag */
    uint64_t limited_range_flag;                          /* flag */
    uint64_t animation_flag;                              /* flag */
    uint64_t picture_width;                               /* u32 */
    uint64_t picture_height;                              /* u32 */
    uint64_t explicit_length;                             /* flag; the data length is in the file, and not 0 for "to the end of the file" */
    uint64_t loop_count;                                  /* u16; these three are those of the animation control entry, 0 without one */
    uint64_t frame_period_num;                            /* u16 */
    uint64_t frame_period_den;                            /* u16 */
    struct bpg_hevc_header alpha_header;                  /* of the alpha or W plane; zeros where there is none */
    struct bpg_hevc_header color_header;
    uint64_t data_start;                                  /* u32; the HEVC data, without the headers */
    uint64_t data_length;                                 /* u32 */
    uint64_t coded_width;                                 /* the size as HEVC codes it: reading answers it, writing does not look at it */
    uint64_t coded_height;
    uint64_t entry_count;                                 /* u32, at most BPG_MAX_ENTRIES */
    struct bpg_record_entry entries[BPG_MAX_ENTRIES];     /* those after the first entry_count are no part of the record */
};

/* The head of a file, which is what a list of files shows: bytes 4 and 5, the size and two lengths, as coded. It is a list of numbers too. */
struct bpg_head {
    uint64_t pixel_format;           /* u8; enum bpg_pixel_format */
    uint64_t alpha1_flag;            /* flag */
    uint64_t bit_depth_minus_8;      /* u8 */
    uint64_t color_space;            /* u8; enum bpg_color_space */
    uint64_t extension_present_flag; /* flag */
    uint64_t alpha2_flag;            /* flag */
    uint64_t limited_range_flag;     /* flag */
    uint64_t animation_flag;         /* flag */
    uint64_t picture_width;          /* u32 */
    uint64_t picture_height;         /* u32 */
    uint64_t data_length;            /* u32; of the HEVC headers and data, or 0 for "to the end of the file" */
    uint64_t extension_length;       /* u32; of the extension block, 0 without extension_present_flag */
};

/* How many numbers a head has. */
#define BPG_HEAD_NUMBERS 12

/* How many numbers stand before the entries, how many an entry has, and how many struct bpg_record has. */
#define BPG_FIXED_NUMBERS 69
#define BPG_ENTRY_NUMBERS 4
#define BPG_RECORD_NUMBERS (BPG_FIXED_NUMBERS + BPG_ENTRY_NUMBERS * BPG_MAX_ENTRIES)

#if defined(__cplusplus)
#define BPG_ASSERT(name, condition) static_assert(condition, #name)
#elif defined(__STDC_VERSION__) && __STDC_VERSION__ >= 201112L
#define BPG_ASSERT(name, condition) _Static_assert(condition, #name)
#else
#define BPG_ASSERT(name, condition) typedef char bpg_assert_##name[(condition) ? 1 : -1]
#endif
#define BPG_ASSERT_PLACE(member, number) BPG_ASSERT(place_of_##member, offsetof(struct bpg_record, member) == 8 * (number))
BPG_ASSERT(size_of_header, sizeof(struct bpg_hevc_header) == 8 * 25);
BPG_ASSERT(size_of_entry, sizeof(struct bpg_record_entry) == 8 * BPG_ENTRY_NUMBERS);
BPG_ASSERT(size_of_record, sizeof(struct bpg_record) == 8 * BPG_RECORD_NUMBERS);
BPG_ASSERT_PLACE(pixel_format, 0);
BPG_ASSERT_PLACE(picture_width, 8);
BPG_ASSERT_PLACE(explicit_length, 10);
BPG_ASSERT_PLACE(loop_count, 11);
BPG_ASSERT_PLACE(alpha_header, 14);
BPG_ASSERT_PLACE(color_header, 39);
BPG_ASSERT_PLACE(data_start, 64);
BPG_ASSERT_PLACE(coded_width, 66);
BPG_ASSERT_PLACE(entry_count, 68);
BPG_ASSERT_PLACE(entries, BPG_FIXED_NUMBERS);
#undef BPG_ASSERT_PLACE
BPG_ASSERT(size_of_head, sizeof(struct bpg_head) == 8 * BPG_HEAD_NUMBERS);
BPG_ASSERT(place_of_head_flags, offsetof(struct bpg_head, animation_flag) == 8 * 7);
BPG_ASSERT(place_of_head_width, offsetof(struct bpg_head, picture_width) == 8 * 8);
BPG_ASSERT(place_of_head_data_length, offsetof(struct bpg_head, data_length) == 8 * 10);
#undef BPG_ASSERT

/* ---- The proved functions. */

/* Reads a file. Success: status 0, and the first BPG_FIXED_NUMBERS + BPG_ENTRY_NUMBERS * entry_count numbers are the record's; the rest of the
 * list is unchanged. A list shorter than that is refused with 20, after the file's own refusals; one of BPG_RECORD_NUMBERS is long enough for every
 * file. *offset is the offset in the file of what was refused, else 0. */
uint8_t bpg_read(const uint8_t *file, size_t file_len, uint64_t *numbers, size_t numbers_len, size_t *offset);

/* Reads the head of a file, up to the length of the extension block, of which the first BPG_HEAD_BYTES bytes, or all of a shorter file, are always
 * enough: with them the answer is that for the whole file. Success: status 0, and the first BPG_HEAD_NUMBERS numbers are the head's; the rest of
 * the list is unchanged. Refusals are those of the head's items, 2 to 9, with their *offset, then 20 for a shorter list. So 1 is never given, and
 * whether the extension block fits the file is not judged. */
uint8_t bpg_head(const uint8_t *file, size_t file_len, uint64_t *numbers, size_t numbers_len, size_t *offset);

/* Reads a file whose head the caller has: the answer is that of bpg_read. The head is read again over this file, so that nobody is trusted: after 1
 * and the head's own refusals, 21 at 0 if any of the BPG_HEAD_NUMBERS numbers of head is not this file's, a list shorter than that included; then
 * the other refusals of bpg_read, and 20 last. */
uint8_t bpg_body(const uint64_t *head, size_t head_len, const uint8_t *file, size_t file_len, uint64_t *numbers, size_t numbers_len,
                 size_t *offset);

/* Tag, payload range and the tag's offset of entry k, from 0. False and zeros if the file is refused or has no entry k. */
bool bpg_entry(const uint8_t *file, size_t file_len, size_t k, uint32_t *tag, uint32_t *start, uint32_t *length, uint32_t *tag_offset);

/* Writes the file of a record, whose ranges lie in source, from the start of out; *count is its size, 0 if refused. Of the list itself are refused,
 * in this order: fewer than BPG_FIXED_NUMBERS numbers (20), a fixed number that its field cannot hold (19), entry_count above BPG_MAX_ENTRIES (11),
 * fewer numbers than these entries need (20), a number of these entries above 2^32 - 1 (19). What stands after them is not looked at. */
uint8_t bpg_write(const uint64_t *numbers, size_t numbers_len, const uint8_t *source, size_t source_len, uint8_t *out, size_t out_len,
                  size_t *count);

/* What bpg_write answers with a buffer that holds the file: so *count is the size of the buffer that it needs. */
uint8_t bpg_write_size(const uint64_t *numbers, size_t numbers_len, const uint8_t *source, size_t source_len, size_t *count);

/* Writes the canonical form of a file, which is never longer than the file, from the start of out; *count is its size, 0 if refused.
 * Refusals are those of bpg_read, with their *offset, then 20. */
uint8_t bpg_canonicalize(const uint8_t *file, size_t file_len, uint8_t *out, size_t out_len, size_t *count, size_t *offset);

/* What bpg_canonicalize answers with a buffer that holds the canonical form. */
uint8_t bpg_canonical_size(const uint8_t *file, size_t file_len, size_t *count, size_t *offset);

/* For how many periods each frame of a file is shown, from the start of durations; *count is the number of frames, 0 if refused. Refusals
 * are those of bpg_read, then 22 to 25, with their *offset, then 20 for a list that is shorter than the count. */
uint8_t bpg_frames(const uint8_t *file, size_t file_len, uint16_t *durations, size_t durations_len, size_t *count, size_t *offset);

/* The same answer without a list, so never 20: how long a list bpg_frames needs. */
uint8_t bpg_frame_count(const uint8_t *file, size_t file_len, size_t *count, size_t *offset);

/* Checks the thumbnails of a file (entries with tag 4), and theirs at every level. Refusals are those of bpg_read, with their *offset; then in
 * the order of the file, each thumbnail before its children, 27, 28 or 29, where *offset is that of the thumbnail's payload in file. */
uint8_t bpg_check_thumbnails(const uint8_t *file, size_t file_len, size_t *offset);

/* Reads the files of a buffer, in which they stand end to end with these lengths: statuses[k] and offsets[k] are the status of file k and the
 * offset in that file, as bpg_read answers them for that file alone, and so one bad file changes no other's answer. The buffer may be longer
 * than a file may be. The only refusal of the call is 30, and leaves both lists as they were. No file in an empty buffer is fine. */
uint8_t bpg_batch(const uint8_t *buffer, size_t buffer_len, const uint32_t *lengths, size_t lengths_len, uint8_t *statuses,
                  size_t statuses_len, uint32_t *offsets, size_t offsets_len);

/* How many bytes of a file are its head (with the extension length), the tags and lengths of its entries, their payloads, the HEVC headers with
 * their lengths, and the data. They add up to file_len, and lie in the file in this order, each entry's tag and length before its payload.
 * Refusals are those of bpg_read, with their *offset; the counts are then 0. */
uint8_t bpg_partition(const uint8_t *file, size_t file_len, size_t *head, size_t *entry_heads, size_t *payloads, size_t *headers,
                      size_t *data, size_t *offset);

/* Writes the bytes of a NAL unit without its emulation prevention bytes from the start of out; *count is their number, 0 if refused: 22 for
 * a unit that breaks an emulation rule, then 20. */
uint8_t bpg_unescape(const uint8_t *unit, size_t unit_len, uint8_t *out, size_t out_len, size_t *count);

/* Writes the bytes with emulation prevention bytes, as they stand in a NAL unit, from the start of out; *count is their number, 0 if
 * refused with 20. */
uint8_t bpg_escape(const uint8_t *bytes, size_t bytes_len, uint8_t *out, size_t out_len, size_t *count);

/* Writes the EXIF, XMP and ICC profile payloads of a file (tags 1, 3 and 2) as JPEG application segments, in this order, from the start of out; *count
 * is how many bytes these are, 0 if refused. They stand in a JPEG after its first two bytes. An empty payload has no segment. The payloads are taken as
 * they are: the extra zero byte with which libbpg's EXIF begins stays. An export has at most 4,633 bytes more than the file. Refusals are those of
 * bpg_read, with their *offset; then 35, 34 and 20. */
uint8_t bpg_export_segments(const uint8_t *file, size_t file_len, uint8_t *out, size_t out_len, size_t *count, size_t *offset);

/* Writes the payloads of a run of such segments, end to end from the start of out: EXIF, XMP, ICC profile. Their lengths, 0 for an absent one, are 0 if
 * refused. The run must be one that bpg_export_segments can make, with no other segment and no byte more; a buffer as long as the run is always enough.
 * Refusals: 36, then 20. */
uint8_t bpg_import_segments(const uint8_t *run, size_t run_len, uint8_t *out, size_t out_len, size_t *exif_len, size_t *xmp_len, size_t *icc_len);

/* ---- Samples after decoding: planes of 16-bit samples in, buffers of the same length out. M = 2^depth - 1 is the largest sample. Refusals, in
 * this order: 31 where the planes and buffers are not all of one length, 32 for a depth that is not 8 to 14, 33 for a sample above M in any
 * plane. A refusal leaves every buffer as it was. */

/* R, G and B that were multiplied by A, recovered: M where A is 0, else the smaller of M and R * M / A to the nearest, halves up. */
uint8_t bpg_unpremultiply(const uint16_t *r, size_t r_len, const uint16_t *g, size_t g_len, const uint16_t *b, size_t b_len,
                          const uint16_t *a, size_t a_len, uint16_t *out_r, size_t out_r_len, uint16_t *out_g, size_t out_g_len,
                          uint16_t *out_b, size_t out_b_len, uint8_t depth);

/* C, M, Y and K from R, G, B and W: each is M minus its plane. */
uint8_t bpg_cmyk(const uint16_t *r, size_t r_len, const uint16_t *g, size_t g_len, const uint16_t *b, size_t b_len, const uint16_t *w,
                 size_t w_len, uint16_t *out_c, size_t out_c_len, uint16_t *out_m, size_t out_m_len, uint16_t *out_y, size_t out_y_len,
                 uint16_t *out_k, size_t out_k_len, uint8_t depth);

/* The color of a file with the W plane and no color profile: R * W / M to the nearest. */
uint8_t bpg_default_from_white(const uint16_t *r, size_t r_len, const uint16_t *g, size_t g_len, const uint16_t *b, size_t b_len,
                               const uint16_t *w, size_t w_len, uint16_t *out_r, size_t out_r_len, uint16_t *out_g, size_t out_g_len,
                               uint16_t *out_b, size_t out_b_len, uint8_t depth);

/* R, G and B from YCgCo: with 2^(depth - 1) taken from Cg and Co, t = Y - Cg, G = Y + Cg, B = t - Co and R = t + Co; G, B and R are brought
 * into 0 to M. */
uint8_t bpg_ycgco(const uint16_t *y, size_t y_len, const uint16_t *cg, size_t cg_len, const uint16_t *co, size_t co_len, uint16_t *out_r,
                  size_t out_r_len, uint16_t *out_g, size_t out_g_len, uint16_t *out_b, size_t out_b_len, uint8_t depth);

/* Full-range luma from limited luma, both of 8 bits: 0 below 16, 255 above 235, else (y - 16) * 255 / 219 to the nearest. Never 32. */
uint8_t bpg_limited_luma(const uint16_t *y, size_t y_len, uint16_t *out, size_t out_len);

/* ---- The same over struct bpg_record, and its parts. */

/* bpg_read into a record, which is never too short. Entries that are not in use keep what they had. */
static inline uint8_t bpg_read_record(const uint8_t *file, size_t file_len, struct bpg_record *record, size_t *offset) {
    return bpg_read(file, file_len, (uint64_t *)record, BPG_RECORD_NUMBERS, offset);
}

/* bpg_head into a head, which is never too short. */
static inline uint8_t bpg_read_head(const uint8_t *file, size_t file_len, struct bpg_head *head, size_t *offset) {
    return bpg_head(file, file_len, (uint64_t *)head, BPG_HEAD_NUMBERS, offset);
}

/* bpg_body with a head, into a record. */
static inline uint8_t bpg_read_body(const struct bpg_head *head, const uint8_t *file, size_t file_len, struct bpg_record *record,
                                    size_t *offset) {
    return bpg_body((const uint64_t *)head, BPG_HEAD_NUMBERS, file, file_len, (uint64_t *)record, BPG_RECORD_NUMBERS, offset);
}

/* bpg_write of a record. */
static inline uint8_t bpg_write_record(const struct bpg_record *record, const uint8_t *source, size_t source_len, uint8_t *out,
                                       size_t out_len, size_t *count) {
    return bpg_write((const uint64_t *)record, BPG_RECORD_NUMBERS, source, source_len, out, out_len, count);
}

/* bpg_write_size of a record. */
static inline uint8_t bpg_write_record_size(const struct bpg_record *record, const uint8_t *source, size_t source_len, size_t *count) {
    return bpg_write_size((const uint64_t *)record, BPG_RECORD_NUMBERS, source, source_len, count);
}

/* What the two alpha flags of a record say. */
static inline enum bpg_alpha_kind bpg_alpha_kind_of(const struct bpg_record *record) {
    if (record->alpha1_flag != 0) {
        return record->alpha2_flag != 0 ? BPG_ALPHA_PREMULTIPLIED : BPG_ALPHA_PLAIN;
    }
    return record->alpha2_flag != 0 ? BPG_ALPHA_WHITE : BPG_ALPHA_NONE;
}

/* Puts an entry after those in use, and sets extension_present_flag; its payload is this range of the source to write from, and its
 * tag_offset 0. False, and nothing is changed, if the record has BPG_MAX_ENTRIES entries. */
static inline bool bpg_push_entry(struct bpg_record *record, uint32_t tag, uint32_t start, uint32_t length) {
    struct bpg_record_entry *entry;
    if (record->entry_count >= BPG_MAX_ENTRIES) {
        return false;
    }
    entry = &record->entries[record->entry_count];
    entry->tag = tag;
    entry->start = start;
    entry->length = length;
    entry->tag_offset = 0;
    record->entry_count += 1;
    record->extension_present_flag = 1;
    return true;
}

/* The bytes of a range, and *length of them; NULL and 0 if the range does not lie in the file. */
static inline const uint8_t *bpg_part(const uint8_t *file, size_t file_len, uint64_t start, uint64_t range_length, size_t *length) {
    if (start > file_len || range_length > file_len - start) {
        *length = 0;
        return NULL;
    }
    *length = (size_t)range_length;
    return file + start;
}

/* The payload of entry k, from 0, in the file that the record was read from, and its *length. NULL and 0 if there is no entry k, or its range
 * does not lie in this file. */
static inline const uint8_t *bpg_payload(const uint8_t *file, size_t file_len, const struct bpg_record *record, size_t k, size_t *length) {
    if (k >= BPG_MAX_ENTRIES || k >= record->entry_count) {
        *length = 0;
        return NULL;
    }
    return bpg_part(file, file_len, record->entries[k].start, record->entries[k].length, length);
}

/* The index of the first entry in use with this tag, for bpg_payload; BPG_MAX_ENTRIES, which no entry has, if there is none. */
static inline size_t bpg_find_entry(const struct bpg_record *record, uint32_t tag) {
    size_t k;
    for (k = 0; k < BPG_MAX_ENTRIES && k < record->entry_count; k++) {
        if (record->entries[k].tag == tag) {
            return k;
        }
    }
    return BPG_MAX_ENTRIES;
}

/* The HEVC data in the file that the record was read from, and its *length. NULL and 0 if its range does not lie in this file. */
static inline const uint8_t *bpg_data(const uint8_t *file, size_t file_len, const struct bpg_record *record, size_t *length) {
    return bpg_part(file, file_len, record->data_start, record->data_length, length);
}

#ifdef __cplusplus
}
#endif

#endif
