/* Runs all of include/bpg.h and include/loop_player.h: reads, lists entries, writes and canonicalizes the examples, and holds every constant to what the library
 * does. Compiled as C99, C11 and C++11 by c/test. */
#include <bpg.h>
#include <loop_player.h>
#include <stdio.h>
#include <string.h>

static unsigned passed, failed;
/* The statuses that a call has answered. */
static bool met[256];

static void check(bool holds, const char *what, int line) {
    if (holds) {
        passed += 1;
    } else {
        failed += 1;
        fprintf(stderr, "line %d: %s does not hold\n", line, what);
    }
}
#define CHECK(condition) check(condition, #condition, __LINE__)

/* A status that a call answered is the one that is expected. */
static void answered(uint8_t status, uint8_t expected, int line) {
    met[status] = true;
    check(status == expected, bpg_status_text(expected), line);
}
#define ANSWERED(call, expected) answered(call, expected, __LINE__)

/* The desk's examples; B is A with the length of its data given. */
static const uint8_t A[] = {0x42, 0x50, 0x47, 0xFB, 0x20, 0x00, 0x08, 0x84, 0x1E, 0x00, 0x03, 0x92, 0x4D, 0x00, 0x26, 0x01};
static const uint8_t B[] = {0x42, 0x50, 0x47, 0xFB, 0x20, 0x00, 0x08, 0x84, 0x1E, 0x06, 0x03, 0x92, 0x4D, 0x00, 0x26, 0x01};
static const uint8_t C[] = {0x42, 0x50, 0x47, 0xFB, 0x20, 0x09, 0x08, 0x84, 0x1E, 0x00, 0x05,
                            0x05, 0x03, 0x00, 0x01, 0x0A, 0x03, 0x92, 0x4D, 0x00, 0x26, 0x01};

/* A file in pieces, and how long it is. */
struct file {
    uint8_t bytes[512];
    size_t length;
};

static void put(struct file *file, const void *bytes, size_t length) {
    memcpy(file->bytes + file->length, bytes, length);
    file->length += length;
}

/* A with one byte changed. */
static struct file changed(size_t at, uint8_t byte) {
    struct file file = {{0}, 0};
    put(&file, A, sizeof A);
    file.bytes[at] = byte;
    return file;
}

/* A with this data. */
static struct file with_data(const void *data, size_t length) {
    struct file file = {{0}, 0};
    put(&file, A, 14);
    put(&file, data, length);
    return file;
}

/* A with an extension block of these bytes, fewer than 16,384: its length has two bytes from 128 on. */
static struct file with_block(const void *block, size_t length) {
    struct file file = changed(5, 0x08);
    const uint8_t block_length[] = {(uint8_t)(0x80 | length / 128), (uint8_t)(length % 128)};
    const size_t first = length < 128 ? 1 : 0;
    file.length = 10;
    put(&file, block_length + first, 2 - first);
    put(&file, block, length);
    put(&file, A + 10, 6);
    return file;
}

/* So many entries with tag 6 and no payload. */
static struct file with_entries(size_t count) {
    uint8_t block[2 * (BPG_MAX_ENTRIES + 1)] = {0};
    size_t k;
    for (k = 0; k < count; k++) {
        block[2 * k] = 6;
    }
    return with_block(block, 2 * count);
}

static struct bpg_record record_of(const uint8_t *file, size_t length) {
    struct bpg_record record;
    size_t offset;
    memset(&record, 0, sizeof record);
    ANSWERED(bpg_read_record(file, length, &record, &offset), BPG_OK);
    CHECK(offset == 0);
    return record;
}

/* A file is refused so, and the record stays as it was. */
static void refused(const uint8_t *file, size_t length, uint8_t status, size_t place, int line) {
    struct bpg_record record, before;
    size_t offset;
    memset(&record, 0xA5, sizeof record);
    before = record;
    answered(bpg_read_record(file, length, &record, &offset), status, line);
    check(offset == place, "the offset", line);
    check(memcmp(&record, &before, sizeof record) == 0, "the record stays", line);
}
#define REFUSED(file, status, place) refused((file).bytes, (file).length, status, place, __LINE__)

static void read_examples(void) {
    struct bpg_record a = record_of(A, sizeof A), c = record_of(C, sizeof C);
    CHECK(a.pixel_format == BPG_PIXEL_FORMAT_420_JPEG && a.bit_depth_minus_8 == 0 && a.color_space == BPG_COLOR_SPACE_YCBCR_BT601);
    CHECK(a.picture_width == 8 && a.picture_height == 542 && a.coded_width == 8 && a.coded_height == 544);
    CHECK(a.limited_range_flag == 0 && a.animation_flag == 0 && a.extension_present_flag == 0 && a.explicit_length == 0);
    CHECK(a.entry_count == 0 && a.data_start == 14 && a.data_length == 2);
    CHECK(record_of(B, sizeof B).explicit_length == 1);
    CHECK(c.animation_flag == 1 && c.extension_present_flag == 1 && c.entry_count == 1);
    CHECK(c.entries[0].tag == BPG_TAG_ANIMATION_CONTROL && c.entries[0].start == 13 && c.entries[0].length == 3);
    CHECK(c.entries[0].tag_offset == 11);
    CHECK(c.loop_count == 0 && c.frame_period_num == 1 && c.frame_period_den == 10);
    CHECK(record_of(A, sizeof A).color_header.sample_adaptive_offset_enabled_flag == 1);
}

static void read_refusals(void) {
    static const uint8_t large_tb[] = {0x42, 0x50, 0x47, 0xFB, 0x20, 0x00, 0x08, 0x08, 0x00, 0x03, 0x92, 0x58, 0x00, 0x26, 0x01};
    static const uint8_t seven_bits[] = {0x42, 0x50, 0x47, 0xFB, 0x20, 0x00, 0x08, 0x08, 0x00, 0x04, 0x92, 0x4D, 0x81, 0x00, 0x26};
    struct file cut = changed(0, 0x42), period = with_block("\x05\x03\x00\x00\x0A", 5);
    cut.length = 9;
    REFUSED(cut, BPG_TRUNCATED, 9);
    REFUSED(changed(0, 0x58), BPG_MAGIC, 0);
    REFUSED(changed(4, 0xC0), BPG_BAD_PIXEL_FORMAT, 4);
    REFUSED(changed(4, 0x27), BPG_BAD_BIT_DEPTH, 4);
    REFUSED(changed(5, 0x50), BPG_BAD_COLOR_SPACE, 5);
    REFUSED(changed(6, 0x80), BPG_NUMBER_NOT_SHORTEST, 6);
    REFUSED(with_block("\x90\x80\x80\x80\x00\x00", 6), BPG_NUMBER_TOO_LARGE, 15);
    REFUSED(changed(6, 0x00), BPG_EMPTY_PICTURE, 6);
    REFUSED(changed(9, 0x05), BPG_BAD_DATA_LENGTH, 9);
    REFUSED(with_entries(BPG_MAX_ENTRIES + 1), BPG_TOO_MANY_ENTRIES, 12 + 2 * BPG_MAX_ENTRIES);
    REFUSED(period, BPG_ZERO_PERIOD, 14);
    REFUSED(with_block("\x05\x03\x00\x01\x0A\x05\x00", 7), BPG_SECOND_LOOP, 16);
    REFUSED(changed(5, 0x01), BPG_NO_LOOP, 5);
    REFUSED(changed(10, 0x02), BPG_BAD_HEADER, 10);
    refused(large_tb, sizeof large_tb, BPG_HEVC_RULE, 9, __LINE__);
    refused(seven_bits, sizeof seven_bits, BPG_FORBIDDEN_BIT, 9, __LINE__);
    REFUSED(with_data("", 0), BPG_BAD_DATA_START, 14);
    REFUSED(with_data("\0\0\1", 3), BPG_BAD_DATA_START, 14);
}

/* A list is read where it has the numbers that the file needs, keeps what stands after them, and is left alone where it is shorter. */
static void read_list(const struct file *file, size_t needed) {
    uint64_t numbers[BPG_RECORD_NUMBERS + 1];
    size_t offset;
    memset(numbers, 0xA5, sizeof numbers);
    ANSWERED(bpg_read(file->bytes, file->length, numbers, needed - 1, &offset), BPG_BUFFER_TOO_SMALL);
    CHECK(offset == 0 && numbers[0] == 0xA5A5A5A5A5A5A5A5u);
    ANSWERED(bpg_read(file->bytes, file->length, numbers, needed, &offset), BPG_OK);
    CHECK(numbers[8] == 8 && numbers[9] == 542 && numbers[needed] == 0xA5A5A5A5A5A5A5A5u);
    numbers[needed] = 0;
    ANSWERED(bpg_read(file->bytes, file->length, numbers, needed + 1, &offset), BPG_OK);
    CHECK(numbers[needed] == 0);
}

static void lists(void) {
    struct file none = with_entries(0), one = with_entries(1), all = with_entries(BPG_MAX_ENTRIES);
    read_list(&none, BPG_FIXED_NUMBERS);
    read_list(&one, BPG_FIXED_NUMBERS + BPG_ENTRY_NUMBERS);
    read_list(&all, BPG_RECORD_NUMBERS);
}

/* The longest head: three numbers of five bytes, and a fourth that is refused at its sixth byte. */
static const uint8_t longest[BPG_HEAD_BYTES] = {0x42, 0x50, 0x47, 0xFB, 0x20, 0x08, 0x8F, 0xFF, 0xFF, 0xFF, 0x7F, 0x8F, 0xFF, 0xFF,
                                                0xFF, 0x7F, 0x8F, 0xFF, 0xFF, 0xFF, 0x7F, 0x8F, 0xFF, 0xFF, 0xFF, 0xFF, 0x00};

/* A file's head is refused so, and the struct stays as it was. */
static void head_refused(const uint8_t *file, size_t length, uint8_t status, size_t place, int line) {
    struct bpg_head head, before;
    size_t offset;
    memset(&head, 0xA5, sizeof head);
    before = head;
    answered(bpg_read_head(file, length, &head, &offset), status, line);
    check(offset == place, "the offset", line);
    check(memcmp(&head, &before, sizeof head) == 0, "the head stays", line);
}

static void heads(void) {
    struct bpg_head head;
    uint64_t numbers[BPG_HEAD_NUMBERS + 1];
    size_t offset;
    struct file cut = changed(0, 0x42), wide = changed(6, 0x00), oversize = with_block("", 0);
    ANSWERED(bpg_read_head(C, sizeof C, &head, &offset), BPG_OK);
    CHECK(offset == 0 && head.pixel_format == BPG_PIXEL_FORMAT_420_JPEG && head.bit_depth_minus_8 == 0 && head.color_space == 0);
    CHECK(head.extension_present_flag == 1 && head.animation_flag == 1 && head.alpha1_flag == 0 && head.alpha2_flag == 0);
    CHECK(head.limited_range_flag == 0 && head.picture_width == 8 && head.picture_height == 542);
    CHECK(head.data_length == 0 && head.extension_length == 5);
    ANSWERED(bpg_read_head(B, 10, &head, &offset), BPG_OK);
    CHECK(head.data_length == 6 && head.extension_length == 0);
    oversize.bytes[10] = 0x7F; /* the block is longer than the file: the body's to refuse */
    ANSWERED(bpg_read_head(oversize.bytes, oversize.length, &head, &offset), BPG_OK);
    CHECK(head.extension_length == 127);
    cut.length = 9;
    head_refused(cut.bytes, cut.length, BPG_TRUNCATED, 9, __LINE__);
    head_refused(wide.bytes, wide.length, BPG_EMPTY_PICTURE, 6, __LINE__);
    head_refused(longest, BPG_HEAD_BYTES, BPG_NUMBER_TOO_LARGE, 26, __LINE__);
    head_refused(longest, BPG_HEAD_BYTES - 1, BPG_TRUNCATED, 26, __LINE__);
    memset(numbers, 0xA5, sizeof numbers);
    ANSWERED(bpg_head(cut.bytes, cut.length, numbers, 0, &offset), BPG_TRUNCATED);
    ANSWERED(bpg_head(A, sizeof A, numbers, BPG_HEAD_NUMBERS - 1, &offset), BPG_BUFFER_TOO_SMALL);
    CHECK(offset == 0 && numbers[0] == 0xA5A5A5A5A5A5A5A5u);
    ANSWERED(bpg_head(A, sizeof A, numbers, BPG_HEAD_NUMBERS + 1, &offset), BPG_OK);
    CHECK(numbers[8] == 8 && numbers[9] == 542 && numbers[BPG_HEAD_NUMBERS] == 0xA5A5A5A5A5A5A5A5u);
}

/* The head of A with this number, for a file. */
static uint8_t with_number(size_t at, uint64_t number, const uint8_t *file, size_t length, size_t *offset) {
    uint64_t head[BPG_HEAD_NUMBERS], numbers[BPG_RECORD_NUMBERS];
    ANSWERED(bpg_head(A, sizeof A, head, BPG_HEAD_NUMBERS, offset), BPG_OK);
    head[at] = number;
    return bpg_body(head, BPG_HEAD_NUMBERS, file, length, numbers, BPG_RECORD_NUMBERS, offset);
}

static void bodies(void) {
    struct bpg_head head;
    struct bpg_record record, read = record_of(C, sizeof C);
    uint64_t numbers[BPG_RECORD_NUMBERS];
    size_t offset, at;
    struct file wide = changed(6, 0x00);
    memset(&record, 0, sizeof record);
    ANSWERED(bpg_read_head(C, sizeof C, &head, &offset), BPG_OK);
    ANSWERED(bpg_read_body(&head, C, sizeof C, &record, &offset), BPG_OK);
    CHECK(offset == 0 && memcmp(&record, &read, sizeof record) == 0);
    ANSWERED(bpg_read_body(&head, A, sizeof A, &record, &offset), BPG_OTHER_HEAD);
    CHECK(offset == 0 && memcmp(&record, &read, sizeof record) == 0);
    ANSWERED(bpg_read_body(&head, wide.bytes, wide.length, &record, &offset), BPG_EMPTY_PICTURE);
    CHECK(offset == 6);
    ANSWERED(bpg_body((const uint64_t *)&head, BPG_HEAD_NUMBERS - 1, C, sizeof C, numbers, BPG_RECORD_NUMBERS, &offset), BPG_OTHER_HEAD);
    ANSWERED(bpg_body((const uint64_t *)&head, BPG_HEAD_NUMBERS, C, sizeof C, numbers, BPG_FIXED_NUMBERS, &offset), BPG_BUFFER_TOO_SMALL);
    CHECK(offset == 0);
    ANSWERED(with_number(0, 1, A, sizeof A, &offset), BPG_OK);
    for (at = 0; at < BPG_HEAD_NUMBERS; at++) {
        ANSWERED(with_number(at, 543, A, sizeof A, &offset), BPG_OTHER_HEAD);
        ANSWERED(with_number(at, UINT64_MAX, A, sizeof A, &offset), BPG_OTHER_HEAD);
    }
    ANSWERED(with_number(8, ((uint64_t)1 << 32) + 8, A, sizeof A, &offset), BPG_OTHER_HEAD);
    ANSWERED(with_number(0, 257, A, sizeof A, &offset), BPG_OTHER_HEAD);
}

static void limits(void) {
    static uint8_t file[BPG_MAX_FILE + 1];
    struct bpg_record record = record_of(A, sizeof A);
    struct bpg_head head;
    size_t count, offset;
    memcpy(file, A, sizeof A);
    ANSWERED(bpg_canonical_size(file, BPG_MAX_FILE, &count, &offset), BPG_OK);
    CHECK(count == BPG_MAX_FILE);
    refused(file, BPG_MAX_FILE + 1, BPG_FILE_TOO_LONG, 0, __LINE__);
    memset(&head, 0, sizeof head);
    ANSWERED(bpg_read_body(&head, file, BPG_MAX_FILE + 1, &record, &offset), BPG_FILE_TOO_LONG);
    ANSWERED(bpg_read_head(file, BPG_MAX_FILE + 1, &head, &offset), BPG_OK); /* the head has no limit */
    ANSWERED(bpg_read_body(&head, file, BPG_MAX_FILE, &record, &offset), BPG_OK);
    record.data_length = BPG_MAX_FILE - 14;
    ANSWERED(bpg_write_record_size(&record, file, sizeof file, &count), BPG_OK);
    CHECK(count == BPG_MAX_FILE);
    record.data_length += 1;
    ANSWERED(bpg_write_record_size(&record, file, sizeof file, &count), BPG_FILE_TOO_LONG);
    CHECK(count == 0);
}

static void entries_to_the_limit(void) {
    struct bpg_record record = record_of(A, sizeof A);
    size_t count, k;
    for (k = 0; k < BPG_MAX_ENTRIES; k++) {
        CHECK(bpg_push_entry(&record, 6, 0, 0));
    }
    CHECK(record.entry_count == BPG_MAX_ENTRIES && record.extension_present_flag == 1);
    CHECK(!bpg_push_entry(&record, 6, 0, 0) && record.entry_count == BPG_MAX_ENTRIES);
    ANSWERED(bpg_write_record_size(&record, A, sizeof A, &count), BPG_OK);
    CHECK(count == with_entries(BPG_MAX_ENTRIES).length);
    record.entry_count += 1;
    ANSWERED(bpg_write_record_size(&record, A, sizeof A, &count), BPG_TOO_MANY_ENTRIES);
}

/* The tag is written and read back, and its payload found, by index and in the record. */
static void tag(uint32_t tag) {
    struct bpg_record record = record_of(A, sizeof A);
    struct file file = {{0}, 0};
    uint32_t found, start, length, tag_offset;
    size_t payload_length;
    CHECK(bpg_push_entry(&record, tag, 11, 3));
    ANSWERED(bpg_write_record(&record, A, sizeof A, file.bytes, sizeof file.bytes, &file.length), BPG_OK);
    record = record_of(file.bytes, file.length);
    CHECK(record.entry_count == 1 && record.entries[0].tag == tag);
    CHECK(bpg_entry(file.bytes, file.length, 0, &found, &start, &length, &tag_offset) && found == tag);
    CHECK(tag_offset == record.entries[0].tag_offset && tag_offset == 11);
    CHECK(start == record.entries[0].start && length == record.entries[0].length && length == 3);
    CHECK(bpg_payload(file.bytes, file.length, &record, 0, &payload_length) == file.bytes + start && payload_length == 3);
    CHECK(memcmp(file.bytes + start, A + 11, 3) == 0);
    CHECK(!bpg_entry(file.bytes, file.length, 1, &found, &start, &length, &tag_offset) && found == 0 && start == 0);
    CHECK(length == 0 && tag_offset == 0);
}

static void tags(void) {
    CHECK(BPG_TAG_EXIF == 1 && BPG_TAG_ICC_PROFILE == 2 && BPG_TAG_XMP == 3);
    tag(BPG_TAG_EXIF);
    tag(BPG_TAG_ICC_PROFILE);
    tag(BPG_TAG_XMP);
    tag(BPG_TAG_THUMBNAIL);
    tag(4294967295u);
}

static void parts(void) {
    struct bpg_record record = record_of(C, sizeof C);
    size_t length;
    CHECK(bpg_data(C, sizeof C, &record, &length) == C + 20 && length == 2);
    CHECK(bpg_data(C, sizeof C - 1, &record, &length) == NULL && length == 0);
    CHECK(bpg_payload(C, sizeof C, &record, 0, &length) == C + 13 && length == 3);
    CHECK(bpg_payload(C, sizeof C, &record, 1, &length) == NULL && length == 0);
    CHECK(bpg_find_entry(&record, BPG_TAG_ANIMATION_CONTROL) == 0 && bpg_find_entry(&record, BPG_TAG_EXIF) == BPG_MAX_ENTRIES);
    CHECK(bpg_payload(C, sizeof C, &record, bpg_find_entry(&record, BPG_TAG_EXIF), &length) == NULL && length == 0);
    record.entries[1].tag = BPG_TAG_EXIF; /* not in use */
    CHECK(bpg_find_entry(&record, BPG_TAG_EXIF) == BPG_MAX_ENTRIES);
    CHECK(bpg_payload(C, 15, &record, 0, &length) == NULL && length == 0);
    record.entry_count = UINT64_MAX;
    CHECK(bpg_payload(C, sizeof C, &record, BPG_MAX_ENTRIES, &length) == NULL && length == 0);
    record.entries[0].start = record.entries[0].length = UINT64_MAX;
    CHECK(bpg_payload(C, sizeof C, &record, 0, &length) == NULL && length == 0);
    record.entries[0].start = sizeof C;
    record.entries[0].length = 0;
    CHECK(bpg_payload(C, sizeof C, &record, 0, &length) == C + sizeof C && length == 0);
}

/* Byte 4 and 5 as a file has them. */
static struct bpg_record formatted(unsigned format, unsigned space) {
    struct file file = changed(4, (uint8_t)(format << 5));
    file.bytes[5] = (uint8_t)(space << 4);
    return record_of(file.bytes, file.length);
}

static void formats_and_spaces(void) {
    CHECK(formatted(0, 0).pixel_format == BPG_PIXEL_FORMAT_GRAYSCALE);
    REFUSED(changed(4, BPG_PIXEL_FORMAT_GRAYSCALE << 5 | 0x0F), BPG_BAD_BIT_DEPTH, 4);
    CHECK(formatted(1, 0).pixel_format == BPG_PIXEL_FORMAT_420_JPEG);
    CHECK(formatted(2, 0).pixel_format == BPG_PIXEL_FORMAT_422_JPEG);
    CHECK(formatted(3, 0).pixel_format == BPG_PIXEL_FORMAT_444);
    CHECK(formatted(4, 0).pixel_format == BPG_PIXEL_FORMAT_420_MPEG2);
    CHECK(formatted(5, 0).pixel_format == BPG_PIXEL_FORMAT_422_MPEG2);
    CHECK(formatted(1, 0).color_space == BPG_COLOR_SPACE_YCBCR_BT601);
    CHECK(formatted(1, 1).color_space == BPG_COLOR_SPACE_RGB);
    CHECK(formatted(1, 2).color_space == BPG_COLOR_SPACE_YCGCO);
    CHECK(formatted(1, 3).color_space == BPG_COLOR_SPACE_YCBCR_BT709);
    CHECK(formatted(1, 4).color_space == BPG_COLOR_SPACE_YCBCR_BT2020);
}

/* A file with these flags, which has the alpha plane's header before the color's. */
static enum bpg_alpha_kind alpha_kind(uint8_t alpha1, uint8_t alpha2) {
    struct file file = changed(4, (uint8_t)(0x20 | alpha1 << 4));
    struct bpg_record record;
    file.bytes[5] = (uint8_t)(alpha2 << 2);
    if (alpha1 != 0 || alpha2 != 0) {
        put(&file, A + 10, 6);
        memcpy(file.bytes + 14, A + 10, 6);
        file.length = 20;
    }
    record = record_of(file.bytes, file.length);
    CHECK(record.alpha_header.strong_intra_smoothing_enabled_flag == (alpha1 | alpha2));
    CHECK((uint64_t)bpg_alpha_kind_of(&record) == record.alpha1_flag + 2 * record.alpha2_flag);
    return bpg_alpha_kind_of(&record);
}

static void alpha_kinds(void) {
    CHECK(alpha_kind(0, 0) == BPG_ALPHA_NONE);
    CHECK(alpha_kind(1, 0) == BPG_ALPHA_PLAIN);
    CHECK(alpha_kind(0, 1) == BPG_ALPHA_WHITE);
    CHECK(alpha_kind(1, 1) == BPG_ALPHA_PREMULTIPLIED);
}

/* A member of the color header set to a value: the file of A then has these header bytes. */
static void coded(size_t member, uint64_t value, const void *header, size_t length, int line) {
    struct bpg_record record = record_of(A, sizeof A);
    struct file file = {{0}, 0};
    record.color_header.sps_extension_present_flag = record.color_header.sps_range_extension_flag = 1;
    memcpy((uint8_t *)&record.color_header + member, &value, sizeof value);
    answered(bpg_write_record(&record, A, sizeof A, file.bytes, sizeof file.bytes, &file.length), BPG_OK, line);
    check(file.length == 11 + length + 2 && file.bytes[10] == length, "the header's length", line);
    check(memcmp(file.bytes + 11, header, length) == 0, "the header's bytes", line);
}
#define CODED(member, value, header) coded(offsetof(struct bpg_hevc_header, member), value, header, sizeof header - 1, __LINE__)

/* A member of the color header set to 1 is refused. */
static void forbidden(size_t member, uint8_t status, int line) {
    struct bpg_record record = record_of(A, sizeof A);
    size_t count;
    uint64_t value = 1;
    record.color_header.sps_extension_present_flag = record.color_header.sps_range_extension_flag = 1;
    memcpy((uint8_t *)&record.color_header + member, &value, sizeof value);
    answered(bpg_write_record_size(&record, A, sizeof A, &count), status, line);
}
#define FORBIDDEN(member, status) forbidden(offsetof(struct bpg_hevc_header, member), status, __LINE__)

/* A's header is 1 00100 1 00100 1 1 0 1, then extension flag, range flag, seven bits and nine flags. */
static void header_members(void) {
    CODED(sps_range_extension_flag, 1, "\x92\x4D\xC0\x00\x00");
    CODED(sample_adaptive_offset_enabled_flag, 0, "\x92\x49\xC0\x00\x00");
    CODED(strong_intra_smoothing_enabled_flag, 0, "\x92\x4C\xC0\x00\x00");
    CODED(transform_skip_rotation_enabled_flag, 1, "\x92\x4D\xC0\x40\x00");
    CODED(transform_skip_context_enabled_flag, 1, "\x92\x4D\xC0\x20\x00");
    CODED(implicit_rdpcm_enabled_flag, 1, "\x92\x4D\xC0\x10\x00");
    CODED(intra_smoothing_disabled_flag, 1, "\x92\x4D\xC0\x02\x00");
    CODED(persistent_rice_adaptation_enabled_flag, 1, "\x92\x4D\xC0\x00\x80");
    FORBIDDEN(sps_extension_7bits, BPG_FORBIDDEN_BIT);
    FORBIDDEN(explicit_rdpcm_enabled_flag, BPG_FORBIDDEN_BIT);
    FORBIDDEN(extended_precision_processing_flag, BPG_FORBIDDEN_BIT);
    FORBIDDEN(high_precision_offsets_enabled_flag, BPG_FORBIDDEN_BIT);
    FORBIDDEN(cabac_bypass_alignment_enabled_flag, BPG_FORBIDDEN_BIT);
    FORBIDDEN(pcm_sample_bit_depth_luma_minus1, BPG_INCONSISTENT);
    FORBIDDEN(pcm_sample_bit_depth_chroma_minus1, BPG_INCONSISTENT);
    FORBIDDEN(log2_min_pcm_luma_coding_block_size_minus3, BPG_INCONSISTENT);
    FORBIDDEN(log2_diff_max_min_pcm_luma_coding_block_size, BPG_INCONSISTENT);
    FORBIDDEN(pcm_loop_filter_disabled_flag, BPG_INCONSISTENT);
}

/* Sizes and PCM fields, each with a value of its own, by their names. */
static void header_sizes(void) {
    struct bpg_record record = record_of(A, sizeof A), again;
    struct bpg_hevc_header *header = &record.color_header;
    struct file file = {{0}, 0};
    header->log2_min_luma_coding_block_size_minus3 = 1;
    header->log2_diff_max_min_luma_coding_block_size = 2;
    header->log2_min_transform_block_size_minus2 = 0;
    header->log2_diff_max_min_transform_block_size = 3;
    header->max_transform_hierarchy_depth_intra = 4;
    header->pcm_enabled_flag = 1;
    header->pcm_sample_bit_depth_luma_minus1 = 5;
    header->pcm_sample_bit_depth_chroma_minus1 = 6;
    header->log2_min_pcm_luma_coding_block_size_minus3 = 2;
    header->log2_diff_max_min_pcm_luma_coding_block_size = 0;
    header->pcm_loop_filter_disabled_flag = 1;
    header->strong_intra_smoothing_enabled_flag = 0;
    ANSWERED(bpg_write_record(&record, A, sizeof A, file.bytes, sizeof file.bytes, &file.length), BPG_OK);
    CHECK(file.bytes[10] == 5 && memcmp(file.bytes + 11, "\x4E\x42\xEA\xCF\x00", 5) == 0);
    again = record_of(file.bytes, file.length);
    CHECK(memcmp(&again.color_header, header, sizeof *header) == 0);
}

static void write_examples(void) {
    struct bpg_record record = record_of(B, sizeof B);
    uint8_t out[64];
    size_t count;
    memset(out, 0xA5, sizeof out);
    ANSWERED(bpg_write_record_size(&record, B, sizeof B, &count), BPG_OK);
    CHECK(count == sizeof B);
    ANSWERED(bpg_write_record(&record, B, sizeof B, out, sizeof B - 1, &count), BPG_BUFFER_TOO_SMALL);
    CHECK(count == 0 && out[0] == 0xA5);
    ANSWERED(bpg_write_record(&record, B, sizeof B, out, sizeof out, &count), BPG_OK);
    CHECK(count == sizeof B && memcmp(out, B, sizeof B) == 0 && out[count] == 0xA5);
    record = record_of(C, sizeof C);
    ANSWERED(bpg_write_record(&record, C, sizeof C, out, sizeof out, &count), BPG_OK);
    CHECK(count == sizeof C && memcmp(out, C, sizeof C) == 0);
    record.frame_period_den = 11;
    ANSWERED(bpg_write_record_size(&record, C, sizeof C, &count), BPG_INCONSISTENT);
    record.entries[0].length = UINT32_MAX;
    ANSWERED(bpg_write_record_size(&record, C, sizeof C, &count), BPG_RANGE_OUTSIDE);
}

/* The list's own refusals, in their order: each is undone before the next. */
static void write_lists(void) {
    uint64_t numbers[BPG_RECORD_NUMBERS] = {0};
    size_t count, offset;
    struct file file = with_entries(2);
    const size_t needed = BPG_FIXED_NUMBERS + 2 * BPG_ENTRY_NUMBERS;
    ANSWERED(bpg_read(file.bytes, file.length, numbers, needed, &offset), BPG_OK);
    numbers[needed] = UINT64_MAX; /* no part of the record */
    numbers[needed - 1] = UINT32_MAX; /* the second tag's offset, to which writing pays no heed */
    ANSWERED(bpg_write_size(numbers, BPG_RECORD_NUMBERS, file.bytes, file.length, &count), BPG_OK);
    CHECK(count == file.length);
    numbers[0] = 256;
    numbers[BPG_FIXED_NUMBERS - 1] = BPG_MAX_ENTRIES + 1;
    ANSWERED(bpg_write_size(numbers, BPG_FIXED_NUMBERS - 1, file.bytes, file.length, &count), BPG_BUFFER_TOO_SMALL);
    ANSWERED(bpg_write_size(numbers, BPG_FIXED_NUMBERS, file.bytes, file.length, &count), BPG_INCONSISTENT);
    numbers[0] = 1;
    ANSWERED(bpg_write_size(numbers, BPG_FIXED_NUMBERS, file.bytes, file.length, &count), BPG_TOO_MANY_ENTRIES);
    numbers[BPG_FIXED_NUMBERS - 1] = 2;
    numbers[needed - 1] = (uint64_t)UINT32_MAX + 1;
    ANSWERED(bpg_write_size(numbers, needed - 1, file.bytes, file.length, &count), BPG_BUFFER_TOO_SMALL);
    ANSWERED(bpg_write_size(numbers, needed, file.bytes, file.length, &count), BPG_INCONSISTENT);
    CHECK(count == 0);
}

static void canonicalize_examples(void) {
    uint8_t out[sizeof A + 1];
    size_t count, offset;
    memset(out, 0xA5, sizeof out);
    ANSWERED(bpg_canonical_size(B, sizeof B, &count, &offset), BPG_OK);
    CHECK(count == sizeof A && offset == 0);
    ANSWERED(bpg_canonicalize(B, sizeof B, out, sizeof A - 1, &count, &offset), BPG_BUFFER_TOO_SMALL);
    CHECK(count == 0 && offset == 0 && out[0] == 0xA5);
    ANSWERED(bpg_canonicalize(B, sizeof B, out, sizeof out, &count, &offset), BPG_OK);
    CHECK(count == sizeof A && memcmp(out, A, sizeof A) == 0 && out[count] == 0xA5);
    ANSWERED(bpg_canonical_size(B, 9, &count, &offset), BPG_TRUNCATED);
    CHECK(count == 0 && offset == 9);
}

/* A with this data has these frames, or is refused so. */
static void frames(const void *data, size_t length, uint8_t status, size_t count, size_t place) {
    struct file file = with_data(data, length);
    uint16_t durations[4] = {7, 7, 7, 7};
    size_t frame_count, offset;
    ANSWERED(bpg_frame_count(file.bytes, file.length, &frame_count, &offset), status);
    CHECK(frame_count == count && offset == place);
    ANSWERED(bpg_frames(file.bytes, file.length, durations, 4, &frame_count, &offset), status);
    CHECK(frame_count == count && offset == place);
    CHECK(durations[0] == (status == BPG_OK ? 1 : 7) && durations[1] == 7);
}

static void frame_examples(void) {
    struct file still = with_data("\x26\x01\x80", 3);
    uint16_t duration;
    size_t count, offset;
    frames("\x26\x01\x80", 3, BPG_OK, 1, 0);
    frames("\x26\x01", 2, BPG_BAD_NAL_UNIT, 0, 14);
    frames("\x40\x01\x80", 3, BPG_BAD_NAL_LAYER, 0, 14);
    frames("\x4E\x01\xFF\x02\x02\x00\x00\x80", 8, BPG_BAD_DURATION, 0, 14);
    frames("\x26\x01\x80\x00\x00\x01\x26\x01\x80", 9, BPG_BAD_FRAME_COUNT, 0, 14);
    ANSWERED(bpg_frames(still.bytes, still.length, &duration, 0, &count, &offset), BPG_BUFFER_TOO_SMALL);
}

/* A file of this width whose one entry is the thumbnail. */
static struct file parent(uint64_t width, const struct file *thumbnail) {
    struct file source = *thumbnail, file = {{0}, 0};
    struct bpg_record record = record_of(A, sizeof A);
    record.picture_width = width;
    record.data_start = source.length;
    put(&source, A + 14, 2);
    CHECK(bpg_push_entry(&record, BPG_TAG_THUMBNAIL, 0, (uint32_t)thumbnail->length));
    ANSWERED(bpg_write_record(&record, source.bytes, source.length, file.bytes, sizeof file.bytes, &file.length), BPG_OK);
    return file;
}

static void thumbnails(void) {
    struct file file = changed(0, 0x42), bad = changed(0, 0x58), same = parent(8, &file), spoiled = parent(9, &bad);
    size_t offset;
    uint64_t width;
    ANSWERED(bpg_check_thumbnails(same.bytes, same.length, &offset), BPG_LARGE_THUMBNAIL);
    CHECK(offset == 13);
    ANSWERED(bpg_check_thumbnails(spoiled.bytes, spoiled.length, &offset), BPG_BAD_THUMBNAIL);
    CHECK(offset == 13);
    for (width = 9; width < 12; width++) {
        file = parent(width, &file);
        ANSWERED(bpg_check_thumbnails(file.bytes, file.length, &offset), BPG_OK);
    }
    file = parent(width, &file);
    ANSWERED(bpg_check_thumbnails(file.bytes, file.length, &offset), BPG_DEEP_THUMBNAIL);
    CHECK(offset > 13);
}

static void batches(void) {
    uint8_t buffer[sizeof A + 9], statuses[2] = {7, 7};
    uint32_t lengths[2] = {sizeof A, 8}, offsets[2] = {7, 7};
    memcpy(buffer, A, sizeof A);
    memcpy(buffer + sizeof A, A, 9);
    ANSWERED(bpg_batch(buffer, sizeof buffer, lengths, 2, statuses, 2, offsets, 2), BPG_BAD_BATCH);
    CHECK(statuses[0] == 7 && offsets[0] == 7);
    lengths[1] = 9;
    ANSWERED(bpg_batch(buffer, sizeof buffer, lengths, 2, statuses, 2, offsets, 2), BPG_OK);
    CHECK(statuses[0] == BPG_OK && offsets[0] == 0 && statuses[1] == BPG_TRUNCATED && offsets[1] == 9);
}

/* One pixel of each rule, worked out by hand, and each refusal with its buffers kept. */
static void samples(void) {
    static const uint16_t r[] = {64}, g[] = {128}, b[] = {7}, a[] = {128}, w[] = {175}, y[] = {255}, cg[] = {0}, large[] = {256};
    uint16_t p[1] = {7777}, q[1] = {7777}, s[1] = {7777}, t[1] = {7777};
    ANSWERED(bpg_unpremultiply(r, 1, g, 1, b, 1, a, 0, p, 1, q, 1, s, 1, 15), BPG_UNEQUAL_LENGTHS);
    ANSWERED(bpg_cmyk(r, 1, g, 1, b, 1, large, 1, p, 1, q, 1, s, 1, t, 1, 15), BPG_BAD_SAMPLE_DEPTH);
    ANSWERED(bpg_default_from_white(r, 1, g, 1, b, 1, large, 1, p, 1, q, 1, s, 1, 8), BPG_SAMPLE_TOO_LARGE);
    ANSWERED(bpg_limited_luma(large, 1, p, 1), BPG_SAMPLE_TOO_LARGE);
    CHECK(p[0] == 7777 && q[0] == 7777 && s[0] == 7777 && t[0] == 7777);
    ANSWERED(bpg_unpremultiply(r, 1, g, 1, b, 1, a, 1, p, 1, q, 1, s, 1, 8), BPG_OK);
    CHECK(p[0] == 128 && q[0] == 255 && s[0] == 14);
    ANSWERED(bpg_cmyk(r, 1, g, 1, b, 1, w, 1, p, 1, q, 1, s, 1, t, 1, 8), BPG_OK);
    CHECK(p[0] == 191 && q[0] == 127 && s[0] == 248 && t[0] == 80);
    ANSWERED(bpg_default_from_white(r, 1, g, 1, b, 1, w, 1, p, 1, q, 1, s, 1, 8), BPG_OK);
    CHECK(p[0] == 44 && q[0] == 88 && s[0] == 5);
    ANSWERED(bpg_ycgco(y, 1, cg, 1, y, 1, p, 1, q, 1, s, 1, 8), BPG_OK);
    CHECK(p[0] == 255 && q[0] == 127 && s[0] == 255);
    ANSWERED(bpg_limited_luma(g, 1, p, 1), BPG_OK);
    CHECK(p[0] == 130);
}

static void partitions(void) {
    size_t head, entry_heads, payloads, headers, data, offset;
    ANSWERED(bpg_partition(C, sizeof C, &head, &entry_heads, &payloads, &headers, &data, &offset), BPG_OK);
    CHECK(head == 11 && entry_heads == 2 && payloads == 3 && headers == 4 && data == 2 && offset == 0);
    CHECK(head + entry_heads + payloads + headers + data == sizeof C);
    ANSWERED(bpg_partition(C, 9, &head, &entry_heads, &payloads, &headers, &data, &offset), BPG_TRUNCATED);
    CHECK(head == 0 && entry_heads == 0 && payloads == 0 && headers == 0 && data == 0 && offset == 9);
}

static void escapes(void) {
    static const uint8_t bytes[] = {0x26, 0x00, 0x00, 0x01}, unit[] = {0x26, 0x00, 0x00, 0x03, 0x01};
    uint8_t out[sizeof unit];
    size_t count;
    ANSWERED(bpg_escape(bytes, sizeof bytes, out, sizeof out, &count), BPG_OK);
    CHECK(count == sizeof unit && memcmp(out, unit, sizeof unit) == 0);
    ANSWERED(bpg_unescape(unit, sizeof unit, out, sizeof out, &count), BPG_OK);
    CHECK(count == sizeof bytes && memcmp(out, bytes, sizeof bytes) == 0);
    ANSWERED(bpg_unescape(bytes, sizeof bytes, out, sizeof out, &count), BPG_BAD_NAL_UNIT);
    ANSWERED(bpg_escape(bytes, sizeof bytes, out, 4, &count), BPG_BUFFER_TOO_SMALL);
}

/* File A with entries of these tags, whose payloads are the same. */
static struct file tagged(const uint32_t *tags, size_t count, const uint8_t *payload, size_t length) {
    struct bpg_record record;
    struct file source = changed(0, 0x42), file;
    size_t offset, k;
    ANSWERED(bpg_read_record(source.bytes, source.length, &record, &offset), BPG_OK);
    memcpy(source.bytes + source.length, payload, length);
    for (k = 0; k < count; k++) {
        CHECK(bpg_push_entry(&record, tags[k], (uint32_t)source.length, (uint32_t)length));
    }
    ANSWERED(bpg_write_record(&record, source.bytes, source.length + length, file.bytes, sizeof file.bytes, &file.length), BPG_OK);
    return file;
}

static void segments(void) {
    static const uint32_t tags[] = {BPG_TAG_ICC_PROFILE, BPG_TAG_XMP, BPG_TAG_EXIF, BPG_TAG_XMP};
    static const uint8_t exif[] = {0xff, 0xe1, 0x00, 0x0a, 'E', 'x', 'i', 'f', 0, 0, 'h', 'i'};
    static uint8_t big[70000];
    struct file file = tagged(tags, 3, (const uint8_t *)"hi", 2), twice = tagged(tags, 4, (const uint8_t *)"", 0);
    uint8_t run[128], back[128];
    size_t count, offset, exif_len, xmp_len, icc_len;
    ANSWERED(bpg_export_segments(file.bytes, file.length, run, sizeof run, &count, &offset), BPG_OK);
    CHECK(count == sizeof exif + 35 + 20 && offset == 0 && memcmp(run, exif, sizeof exif) == 0);
    ANSWERED(bpg_import_segments(run, count, back, sizeof back, &exif_len, &xmp_len, &icc_len), BPG_OK);
    CHECK(exif_len == 2 && xmp_len == 2 && icc_len == 2 && memcmp(back, "hihihi", 6) == 0);
    ANSWERED(bpg_import_segments(run, count, back, 5, &exif_len, &xmp_len, &icc_len), BPG_BUFFER_TOO_SMALL);
    CHECK(exif_len == 0 && xmp_len == 0 && icc_len == 0);
    ANSWERED(bpg_import_segments(run, count - 1, back, sizeof back, &exif_len, &xmp_len, &icc_len), BPG_BAD_SEGMENTS);
    ANSWERED(bpg_export_segments(file.bytes, file.length, run, count - 1, &count, &offset), BPG_BUFFER_TOO_SMALL);
    CHECK(count == 0 && offset == 0);
    ANSWERED(bpg_export_segments(twice.bytes, twice.length, run, sizeof run, &count, &offset), BPG_TAG_TWICE);
    ANSWERED(bpg_export_segments(A, 9, run, sizeof run, &count, &offset), BPG_TRUNCATED);
    CHECK(offset == 9);
    /* EXIF of 65,528 bytes: file A with one entry */
    memcpy(big, A, 10);
    big[5] = 0x08;
    memcpy(big + 10, "\x83\xff\x7c\x01\x83\xff\x78", 7);
    memcpy(big + 17 + 65528, A + 10, sizeof A - 10);
    ANSWERED(bpg_export_segments(big, 17 + 65528 + sizeof A - 10, run, sizeof run, &count, &offset), BPG_PAYLOAD_TOO_LONG);
}

/* The first number with these words. */
static unsigned first_with(const char *text) {
    unsigned number = 0;
    while (number < 255 && strcmp(bpg_status_text((uint8_t)number), text) != 0) {
        number += 1;
    }
    return number;
}

/* Each status was answered by a call above, and has words of its own. */
/* What a call of the player answers. */
struct shown {
    uint32_t frame;
    bool ended;
};

static void shows(struct shown shown, uint32_t frame, bool ended, int line) {
    check(shown.frame == frame && shown.ended == ended, "the frame and the end", line);
}
#define SHOWS(frame, ended) shows(shown, frame, ended, __LINE__)

/* A loop of three frames of 1, 2 and 3 ticks, played twice. */
static void player(void) {
    static const uint16_t durations[] = {1, 2, 3}, zero[] = {1, 0, 3};
    uint16_t many[PLAYER_MAX_FRAMES + 1];
    struct shown shown = {9, true};
    uint64_t ticks = 9;
    size_t k;
    ANSWERED(player_frame_at(2, 1, 10, durations, 3, 7, &shown.frame, &shown.ended), PLAYER_OK);
    SHOWS(1, false);
    ANSWERED(player_frame_at(2, 1, 10, durations, 3, 11, &shown.frame, &shown.ended), PLAYER_OK);
    SHOWS(2, false);
    ANSWERED(player_frame_at(2, 1, 10, durations, 3, 12, &shown.frame, &shown.ended), PLAYER_OK);
    SHOWS(2, true);
    ANSWERED(player_frame_at(0, 1, 10, durations, 3, UINT64_MAX, &shown.frame, &shown.ended), PLAYER_OK);
    SHOWS(2, false);
    for (k = 0; k <= PLAYER_MAX_FRAMES; k++) {
        many[k] = 1;
    }
    ANSWERED(player_frame_at(0, 1, 10, many, PLAYER_MAX_FRAMES, 255, &shown.frame, &shown.ended), PLAYER_OK);
    SHOWS(255, false);
    ANSWERED(player_frame_at(0, 1, 10, many, PLAYER_MAX_FRAMES + 1, 255, &shown.frame, &shown.ended), BPG_UNPLAYABLE);
    SHOWS(0, false);
    ANSWERED(player_frame_at(1, 1, 10, zero, 3, 99, &shown.frame, &shown.ended), PLAYER_UNPLAYABLE);
    ANSWERED(player_frame_at(1, 1, 10, zero, 0, 99, &shown.frame, &shown.ended), PLAYER_UNPLAYABLE);
    ANSWERED(player_frame_at(1, 0, 10, durations, 3, 99, &shown.frame, &shown.ended), PLAYER_UNPLAYABLE);
    SHOWS(0, false);
    ANSWERED(player_ticks(1099, 1, 10, &ticks), PLAYER_OK);
    CHECK(ticks == 10);
    ANSWERED(player_ticks(1099, 1, 0, &ticks), PLAYER_UNPLAYABLE);
    CHECK(ticks == 0);
}

/* File C with two frames of 1 tick; a still file, which has no period; and a file that is refused. */
static void player_files(void) {
    static const uint8_t data[] = {0x80, 0x00, 0x00, 0x01, 0x26, 0x01, 0x80};
    struct file file = {{0}, 0};
    struct shown shown = {9, true};
    size_t offset = 9;
    put(&file, C, sizeof C);
    put(&file, data, sizeof data);
    ANSWERED(player_frame_at_time(file.bytes, file.length, 150, &shown.frame, &shown.ended, &offset), PLAYER_OK);
    SHOWS(1, false);
    CHECK(offset == 0);
    file = with_data("\x26\x01\x80", 3);
    ANSWERED(player_frame_at_time(file.bytes, file.length, 150, &shown.frame, &shown.ended, &offset), PLAYER_UNPLAYABLE);
    SHOWS(0, false);
    ANSWERED(player_frame_at_time(C, sizeof C, 150, &shown.frame, &shown.ended, &offset), BPG_BAD_NAL_UNIT);
    CHECK(offset == 20);
}

static void statuses(void) {
    static const struct {
        uint8_t number;
        const char *text;
    } all[] = {
#define STATUS(name, number, text) {name, text},
        BPG_STATUSES(STATUS)
#undef STATUS
    };
    const size_t count = sizeof all / sizeof all[0];
    size_t i;
    CHECK(strcmp(bpg_status_text(255), "unknown status") == 0);
    for (i = 0; i < count; i++) {
        check(met[all[i].number], all[i].text, __LINE__);
        CHECK(strlen(all[i].text) > 0 && first_with(all[i].text) == all[i].number);
    }
}

static void version(void) {
    char text[32];
    sprintf(text, "%d.%d.%d", BPG_VERSION_MAJOR, BPG_VERSION_MINOR, BPG_VERSION_PATCH);
    CHECK(strcmp(text, BPG_VERSION) == 0);
}

int main(void) {
    version();
    read_examples();
    read_refusals();
    lists();
    heads();
    bodies();
    limits();
    entries_to_the_limit();
    tags();
    parts();
    formats_and_spaces();
    alpha_kinds();
    header_members();
    header_sizes();
    write_examples();
    write_lists();
    canonicalize_examples();
    frame_examples();
    thumbnails();
    batches();
    partitions();
    samples();
    escapes();
    player();
    player_files();
    segments();
    statuses();
    printf("%u checks passed, %u failed\n", passed, failed);
    return failed == 0 ? 0 : 1;
}
