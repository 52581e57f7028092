/* The loop player: which frame of an animated BPG file stands at a time.
 *
 * A library of its own (libloop_player, made from crates/loop_player_export_c), above the one that reads files. What each function here answers is
 * proved, for every input. The proof does not cover
 *   - a pointer that is null or not aligned (with a length of 0 pass any valid address), or memory that is shorter than its length says;
 *   - results that overlap each other, the durations or the file;
 *   - memory that another thread changes during a call;
 *   - these declarations, which c/test compiles as C and as C++ and runs.
 *
 * The library keeps nothing between calls, so that calls may run at the same time.
 *
 * A call answers a status: PLAYER_OK, or the number of a refusal. Every result is always written; a refusal has frame 0, not ended, and 0 ticks. */
#ifndef LOOP_PLAYER_H
#define LOOP_PLAYER_H

#include <stdbool.h>
#include <stddef.h>
#include <stdint.h>

#ifdef __cplusplus
extern "C" {
#endif

/* The most frames of a loop that is played. */
#define PLAYER_MAX_FRAMES 256

/* The player's statuses; bpg.h has them too, with words for all (bpg_status_text). */
enum player_status {
    PLAYER_OK = 0,
    PLAYER_UNPLAYABLE = 37 /* no frame, or more than 256; a duration of 0; a period number of 0 */
};

/* The frame, from 0, that stands at a tick, a tick being one frame period; durations are in ticks, as bpg_frames gives them. With a loop count above 0,
 * the last frame stays and *ended is true once the loop was played so often; a loop count of 0 plays for ever. */
uint8_t player_frame_at(uint16_t loop_count, uint16_t period_num, uint16_t period_den, const uint16_t *durations, size_t durations_len, uint64_t tick,
                        uint32_t *frame, bool *ended);

/* Milliseconds as whole ticks: the whole part of ms * period_den / (1000 * period_num). */
uint8_t player_ticks(uint32_t ms, uint16_t period_num, uint16_t period_den, uint64_t *ticks);

/* The frame of a file that stands at a time in milliseconds. Refusals are those of bpg_frame_count, with their *offset, then 37 at 0. A still file goes by
 * its record's numbers: without an animation control entry they are 0, and it is refused. Each call reads the file and looks through its data: who
 * asks often keeps the durations, and calls player_ticks and player_frame_at. */
uint8_t player_frame_at_time(const uint8_t *file, size_t file_len, uint32_t ms, uint32_t *frame, bool *ended, size_t *offset);

#ifdef __cplusplus
}
#endif

#endif
