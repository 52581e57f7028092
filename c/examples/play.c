/* Prints which frame of a loop stands at each period of its first second: play [FILE.bpg] */
#include <bpg.h>
#include <loop_player.h>
#include <stdio.h>
#include <stdlib.h>

/* File C of the examples, with three frames that are shown for 1, 2 and 3 periods of 100 ms. */
static const uint8_t chart[] = {0x42, 0x50, 0x47, 0xFB, 0x20, 0x09, 0x08, 0x84, 0x1E, 0x00, 0x05, 0x05, 0x03, 0x00, 0x01, 0x0A, 0x03, 0x92, 0x4D, 0x00,
                                0x26, 0x01, 0x80, 0x00, 0x00, 0x01, 0x4E, 0x01, 0xFF, 0x02, 0x02, 0x00, 0x02, 0x80, 0x00, 0x00, 0x01,
                                0x26, 0x01, 0x80, 0x00, 0x00, 0x01, 0x4E, 0x01, 0xFF, 0x02, 0x02, 0x00, 0x03, 0x80, 0x00, 0x00, 0x01, 0x26, 0x01, 0x80};

static uint8_t file[BPG_MAX_FILE + 1];

static void check(uint8_t status, size_t offset) {
    if (status != BPG_OK) {
        fprintf(stderr, "refused %d at %zu: %s\n", status, offset, bpg_status_text(status));
        exit(1);
    }
}

/* The bytes of the file that is named, or else of the chart. */
static const uint8_t *load(int argc, char **argv, size_t *length) {
    if (argc != 2) {
        *length = sizeof chart;
        return chart;
    }
    FILE *stream = fopen(argv[1], "rb");
    if (stream == NULL) {
        perror(argv[1]);
        exit(1);
    }
    *length = fread(file, 1, sizeof file, stream);
    fclose(stream);
    return file;
}

int main(int argc, char **argv) {
    size_t length, count, offset;
    const uint8_t *bytes = load(argc, argv, &length);

    /* The file is read once; then each question is answered from its numbers. */
    struct bpg_record record;
    uint16_t durations[PLAYER_MAX_FRAMES];
    uint8_t status = bpg_read_record(bytes, length, &record, &offset);
    check(status, offset);
    status = bpg_frames(bytes, length, durations, PLAYER_MAX_FRAMES, &count, &offset);
    /* A list that is too short means more frames than are played. */
    check(status == BPG_BUFFER_TOO_SMALL ? (uint8_t)BPG_UNPLAYABLE : status, offset);

    uint16_t num = (uint16_t)record.frame_period_num, den = (uint16_t)record.frame_period_den;
    uint64_t last, tick;
    check(player_ticks(1000, num, den, &last), 0);
    for (tick = 0; tick <= last; tick++) {
        uint32_t frame;
        bool ended;
        check(player_frame_at((uint16_t)record.loop_count, num, den, durations, count, tick, &frame, &ended), 0);
        printf("tick %2u: frame %u%s\n", (unsigned)tick, (unsigned)frame, ended ? ", ended" : "");
    }
    return 0;
}
