/* Answers cases with the native library, for native.mjs: calls from standard input, answers to standard output, as raw.mjs has them. A call is
 * its number, one byte, then its values (8 bytes) and lists (4 bytes for the count, then the elements). An answer is the status, then results
 * and the lists that may be written, in the order of the parameters. Results begin as all ones. */
#include "../../include/bpg.h"
#include "../../include/loop_player.h"

#include <stdio.h>
#include <stdlib.h>
#include <string.h>

struct list {
    void *at;
    size_t count, size;
};

static void get(void *to, size_t size) {
    if (size != 0 && fread(to, size, 1, stdin) != 1) exit(2);
}

static void put(const void *from, size_t size) {
    if (size != 0 && fwrite(from, size, 1, stdout) != 1) exit(2);
}

static size_t get_value(void) {
    uint64_t value;
    get(&value, sizeof value);
    return value;
}

/* malloc, and not one buffer for all, so that a sanitizer would see an access outside a list. */
static struct list get_list(size_t size) {
    uint32_t count;
    get(&count, sizeof count);
    struct list list = {malloc(count * size + 1), count, size};
    if (list.at == NULL) exit(2);
    get(list.at, count * size);
    return list;
}

static void put_list(struct list list) {
    put(list.at, list.count * list.size);
}

static void drop(struct list *list) {
    free(list->at);
    list->at = NULL;
}

/* What a call has: its lists, which are kept until it is answered, its status and its results. */
static struct list a, b, c, d, slices[8];
static uint8_t status;
static size_t first, second, third;

static void put_status(void) {
    put(&status, sizeof status);
}

static void put_first(void) {
    put(&first, sizeof first);
}

static void put_both(void) {
    put_first(), put(&second, sizeof second);
}

static void read_file(void) {
    a = get_list(1), b = get_list(8);
    status = bpg_read(a.at, a.count, b.at, b.count, &first);
    put_status(), put_list(b), put_first();
}

static void entry(void) {
    uint32_t tag = UINT32_MAX, start = UINT32_MAX, length = UINT32_MAX, tag_offset = UINT32_MAX;
    a = get_list(1);
    status = bpg_entry(a.at, a.count, get_value(), &tag, &start, &length, &tag_offset);
    put_status(), put(&tag, sizeof tag), put(&start, sizeof start), put(&length, sizeof length), put(&tag_offset, sizeof tag_offset);
}

static void write_file(void) {
    a = get_list(8), b = get_list(1), c = get_list(1);
    status = bpg_write(a.at, a.count, b.at, b.count, c.at, c.count, &first);
    put_status(), put_list(c), put_first();
}

static void canonicalize(void) {
    a = get_list(1), b = get_list(1);
    status = bpg_canonicalize(a.at, a.count, b.at, b.count, &first, &second);
    put_status(), put_list(b), put_both();
}

static void frames(void) {
    a = get_list(1), b = get_list(2);
    status = bpg_frames(a.at, a.count, b.at, b.count, &first, &second);
    put_status(), put_list(b), put_both();
}

static void frame_count(void) {
    a = get_list(1);
    status = bpg_frame_count(a.at, a.count, &first, &second);
    put_status(), put_both();
}

static void check_thumbnails(void) {
    a = get_list(1);
    status = bpg_check_thumbnails(a.at, a.count, &first);
    put_status(), put_first();
}

static void batch(void) {
    a = get_list(1), b = get_list(4), c = get_list(1), d = get_list(4);
    status = bpg_batch(a.at, a.count, b.at, b.count, c.at, c.count, d.at, d.count);
    put_status(), put_list(c), put_list(d);
}

static void unescape(void) {
    a = get_list(1), b = get_list(1);
    status = bpg_unescape(a.at, a.count, b.at, b.count, &first);
    put_status(), put_list(b), put_first();
}

static void escape(void) {
    a = get_list(1), b = get_list(1);
    status = bpg_escape(a.at, a.count, b.at, b.count, &first);
    put_status(), put_list(b), put_first();
}

static void write_size(void) {
    a = get_list(8), b = get_list(1);
    status = bpg_write_size(a.at, a.count, b.at, b.count, &first);
    put_status(), put_first();
}

static void canonical_size(void) {
    a = get_list(1);
    status = bpg_canonical_size(a.at, a.count, &first, &second);
    put_status(), put_both();
}

static uint8_t get_samples(size_t planes, size_t buffers, bool has_depth) {
    for (size_t k = 0; k < planes + buffers; k++) slices[k] = get_list(2);
    return has_depth ? (uint8_t)get_value() : 0;
}

static void put_samples(size_t planes, size_t buffers) {
    put_status();
    for (size_t k = planes; k < planes + buffers; k++) put_list(slices[k]);
}

#define SLICE(k) slices[k].at, slices[k].count

static void unpremultiply(void) {
    uint8_t depth = get_samples(4, 3, true);
    status = bpg_unpremultiply(SLICE(0), SLICE(1), SLICE(2), SLICE(3), SLICE(4), SLICE(5), SLICE(6), depth);
    put_samples(4, 3);
}

static void cmyk(void) {
    uint8_t depth = get_samples(4, 4, true);
    status = bpg_cmyk(SLICE(0), SLICE(1), SLICE(2), SLICE(3), SLICE(4), SLICE(5), SLICE(6), SLICE(7), depth);
    put_samples(4, 4);
}

static void default_from_white(void) {
    uint8_t depth = get_samples(4, 3, true);
    status = bpg_default_from_white(SLICE(0), SLICE(1), SLICE(2), SLICE(3), SLICE(4), SLICE(5), SLICE(6), depth);
    put_samples(4, 3);
}

static void ycgco(void) {
    uint8_t depth = get_samples(3, 3, true);
    status = bpg_ycgco(SLICE(0), SLICE(1), SLICE(2), SLICE(3), SLICE(4), SLICE(5), depth);
    put_samples(3, 3);
}

static void limited_luma(void) {
    get_samples(1, 1, false);
    status = bpg_limited_luma(SLICE(0), SLICE(1));
    put_samples(1, 1);
}

/* A result that is a flag is one byte, all ones before the call. */
static uint32_t frame;
static bool ended;

static void put_shown(void) {
    uint8_t flag;
    memcpy(&flag, &ended, sizeof flag);
    put_status(), put(&frame, sizeof frame), put(&flag, sizeof flag);
}

static void player_frame(void) {
    uint16_t loop_count = (uint16_t)get_value(), num = (uint16_t)get_value(), den = (uint16_t)get_value();
    a = get_list(2);
    status = player_frame_at(loop_count, num, den, a.at, a.count, get_value(), &frame, &ended);
    put_shown();
}

static void player_tick_count(void) {
    uint64_t ticks = UINT64_MAX;
    uint32_t ms = (uint32_t)get_value();
    uint16_t num = (uint16_t)get_value(), den = (uint16_t)get_value();
    status = player_ticks(ms, num, den, &ticks);
    put_status(), put(&ticks, sizeof ticks);
}

static void player_time(void) {
    a = get_list(1);
    status = player_frame_at_time(a.at, a.count, (uint32_t)get_value(), &frame, &ended, &first);
    put_shown(), put_first();
}

static void partition(void) {
    size_t results[6] = {SIZE_MAX, SIZE_MAX, SIZE_MAX, SIZE_MAX, SIZE_MAX, SIZE_MAX};
    a = get_list(1);
    status = bpg_partition(a.at, a.count, results, results + 1, results + 2, results + 3, results + 4, results + 5);
    put_status(), put(results, sizeof results);
}

static void head(void) {
    a = get_list(1), b = get_list(8);
    status = bpg_head(a.at, a.count, b.at, b.count, &first);
    put_status(), put_list(b), put_first();
}

static void body(void) {
    a = get_list(8), b = get_list(1), c = get_list(8);
    status = bpg_body(a.at, a.count, b.at, b.count, c.at, c.count, &first);
    put_status(), put_list(c), put_first();
}

static void export_segments(void) {
    a = get_list(1), b = get_list(1);
    status = bpg_export_segments(a.at, a.count, b.at, b.count, &first, &second);
    put_status(), put_list(b), put_both();
}

static void import_segments(void) {
    a = get_list(1), b = get_list(1);
    status = bpg_import_segments(a.at, a.count, b.at, b.count, &first, &second, &third);
    put_status(), put_list(b), put_both(), put(&third, sizeof third);
}

/* In the order of SIGNATURES in raw.mjs. */
static void (*const calls[])(void) = {
    read_file, entry, write_file, canonicalize, frames, frame_count, check_thumbnails, batch, unescape, escape, write_size,
    canonical_size, unpremultiply, cmyk, default_from_white, ycgco, limited_luma, player_frame, player_tick_count, player_time, partition, head, body,
    export_segments, import_segments,
};

int main(void) {
    for (int number; (number = getchar()) != EOF;) {
        if ((size_t)number >= sizeof calls / sizeof *calls) return 2;
        first = second = SIZE_MAX;
        calls[number]();
        drop(&a), drop(&b), drop(&c), drop(&d);
        for (size_t k = 0; k < sizeof slices / sizeof *slices; k++) drop(&slices[k]);
    }
    return 0;
}
