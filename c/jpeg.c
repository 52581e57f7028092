/* For c/jpeg: files with metadata, their export, and the metadata segments of a JPEG.
 *   jpeg make EXIF XMP ICC OUT.bpg    a file with these payloads
 *   jpeg export IN.bpg OUT            its segments
 *   jpeg find IN.jpg OUT              the EXIF, XMP and ICC segments of a JPEG, as they follow each other in it
 *   jpeg import RUN EXIF XMP ICC      the payloads of a run */
#include "bpg.h"
#include <stdio.h>
#include <stdlib.h>
#include <string.h>

enum { SPACE = BPG_MAX_FILE + 8192 };
static uint8_t in[SPACE], out[SPACE];

static void check(int good, const char *what) {
    if (!good) {
        fprintf(stderr, "jpeg: %s\n", what);
        exit(1);
    }
}

static size_t load(const char *name, uint8_t *bytes) {
    FILE *stream = fopen(name, "rb");
    size_t count;
    check(stream != NULL, name);
    count = fread(bytes, 1, (size_t)(in + SPACE - bytes), stream);
    fclose(stream);
    return count;
}

static void store(const char *name, const uint8_t *bytes, size_t count) {
    FILE *stream = fopen(name, "wb");
    check(stream != NULL && fwrite(bytes, 1, count, stream) == count && fclose(stream) == 0, name);
}

static void accept(uint8_t status) {
    check(status == BPG_OK, bpg_status_text(status));
}

/* ICC first in the file, and EXIF last. */
static void make(char **names) {
    static const uint8_t a[] = {'B', 'P', 'G', 0xfb, 0x20, 0, 8, 0x84, 0x1e, 0, 3, 0x92, 0x4d, 0, 0x26, 1};
    static const uint32_t tags[] = {BPG_TAG_EXIF, BPG_TAG_XMP, BPG_TAG_ICC_PROFILE};
    struct bpg_record record;
    size_t end = sizeof a, offset, count;
    int k;
    memcpy(in, a, sizeof a);
    accept(bpg_read_record(in, sizeof a, &record, &offset));
    for (k = 2; k >= 0; k--) {
        size_t length = load(names[k], in + end);
        check(bpg_push_entry(&record, tags[k], (uint32_t)end, (uint32_t)length), "too many entries");
        end += length;
    }
    accept(bpg_write_record(&record, in, end, out, SPACE, &count));
    store(names[3], out, count);
}

/* A segment is metadata if it begins as an EXIF, XMP or ICC segment does. */
static int is_metadata(const uint8_t *segment) {
    return (segment[1] == 0xe1 && (memcmp(segment + 4, "Exif", 5) == 0 || memcmp(segment + 4, "http://ns.adobe.com/xap/1.0/", 29) == 0)) ||
           (segment[1] == 0xe2 && memcmp(segment + 4, "ICC_PROFILE", 12) == 0);
}

/* Up to the start of the scan, FF DA. */
static size_t find(size_t count) {
    size_t at = 2, found = 0;
    check(count > 2 && in[0] == 0xff && in[1] == 0xd8, "no JPEG");
    while (at + 64 < count && in[at] == 0xff && in[at + 1] != 0xda) {
        size_t length = 2 + ((size_t)in[at + 2] << 8) + in[at + 3];
        check(length <= count - at, "a segment is cut off");
        if (is_metadata(in + at)) {
            memcpy(out + found, in + at, length);
            found += length;
        }
        at += length;
    }
    return found;
}

int main(int argc, char **argv) {
    const char *call = argc > 1 ? argv[1] : "";
    size_t count, offset, exif, xmp, icc;
    if (argc == 6 && strcmp(call, "make") == 0) {
        make(argv + 2);
    } else if (argc == 4 && strcmp(call, "export") == 0) {
        accept(bpg_export_segments(in, load(argv[2], in), out, SPACE, &count, &offset));
        store(argv[3], out, count);
    } else if (argc == 4 && strcmp(call, "find") == 0) {
        store(argv[3], out, find(load(argv[2], in)));
    } else if (argc == 6 && strcmp(call, "import") == 0) {
        accept(bpg_import_segments(in, load(argv[2], in), out, SPACE, &exif, &xmp, &icc));
        store(argv[3], out, exif);
        store(argv[4], out + exif, xmp);
        store(argv[5], out + exif + xmp, icc);
    } else {
        check(0, "usage: jpeg make|export|find|import ..");
    }
    return 0;
}
