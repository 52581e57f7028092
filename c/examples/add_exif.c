/* Adds EXIF data to a BPG file: add_exif IN.bpg EXIF OUT.bpg */
#include <bpg.h>
#include <stdio.h>
#include <stdlib.h>

static uint8_t source[2 * BPG_MAX_FILE];

/* How many bytes of a file stand at source + start then; the program ends if it cannot be read. */
static size_t load(const char *name, size_t start) {
    FILE *stream = fopen(name, "rb");
    if (stream == NULL) {
        perror(name);
        exit(1);
    }
    size_t count = fread(source + start, 1, sizeof source - start, stream);
    fclose(stream);
    return count;
}

static void check(uint8_t status, size_t offset) {
    if (status != BPG_OK) {
        fprintf(stderr, "refused %d at %zu: %s\n", status, offset, bpg_status_text(status));
        exit(1);
    }
}

int main(int argc, char **argv) {
    if (argc != 4) {
        fprintf(stderr, "usage: add_exif IN.bpg EXIF OUT.bpg\n");
        return 2;
    }
    /* The parts of a record are ranges of one source: here the file, and the new payload behind it. */
    size_t file_len = load(argv[1], 0);
    size_t exif_len = load(argv[2], file_len);

    struct bpg_record record;
    size_t offset, count;
    uint8_t status = bpg_read_record(source, file_len, &record, &offset);
    check(status, offset);
    if (!bpg_push_entry(&record, BPG_TAG_EXIF, (uint32_t)file_len, (uint32_t)exif_len)) {
        check(BPG_TOO_MANY_ENTRIES, 0);
    }

    check(bpg_write_record_size(&record, source, file_len + exif_len, &count), 0);
    uint8_t *out = (uint8_t *)malloc(count);
    if (out == NULL) {
        perror("malloc");
        return 1;
    }
    check(bpg_write_record(&record, source, file_len + exif_len, out, count, &count), 0);

    FILE *stream = fopen(argv[3], "wb");
    if (stream == NULL || fwrite(out, 1, count, stream) != count || fclose(stream) != 0) {
        perror(argv[3]);
        return 1;
    }
    free(out);
    return 0;
}
