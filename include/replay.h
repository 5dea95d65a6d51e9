/* The replay of tree identify, for programs in C: the calls of libreplay_c.a, which `rt lib` in crates/replay_c writes.
 *
 * Every call answers six numbers in one word: refusal, place, steps, outcome, root, waiting. docs/C.md and docs/ANSWERS.md say what
 * they mean. Each call ends, keeps nothing between calls, allocates nothing, and may be made from several threads at once.
 *
 * What the caller owes, for each buffer, a pointer and the number of its bytes:
 *   - the pointer is not null, even where the number is 0; no byte is read or written through it then, so any other pointer will do
 *   - that many bytes from it on lie in one object, have been initialised, and are at most PTRDIFF_MAX
 *   - a buffer that is written (no `const`) overlaps no other buffer of the same call; two that are only read may overlap
 *   - no other thread writes a lent buffer, or reads one that is written, until the call returns
 * No number of bytes and no content is wrong beside that: every upload, image and batch has its answer.
 *
 * A refused call leaves every buffer as it was. No call writes beyond its output: what lies behind it keeps its bytes.
 */
#ifndef REPLAY_H
#define REPLAY_H

#include <stddef.h>
#include <stdint.h>

#ifdef __cplusplus
extern "C" {
#endif

enum {
    REPLAY_MAX_IMAGE = 315,   /* the longest image: 63 nodes and 126 links */
    REPLAY_MAX_UPLOAD = 3328, /* the longest upload: 126 links and 1,024 actions */
    REPLAY_MAX_LIST = 1890,   /* room for any list: a step of kinds 1 and 5 for each node, two of kinds 2 to 4 for each direction */
    REPLAY_MAX_BATCH = 65536,
    REPLAY_MAX_ENTRIES = 64,
    REPLAY_MAX_TEXT = 1600, /* room for any text: 64 lines of 25 bytes at most */
    REPLAY_NO_ROOT = 255
};

/* Makes the fresh image of an upload's table in image, which has n + 2m bytes; its old bytes are not read. Answers the report. */
uint64_t replay_fresh(const uint8_t *upload, size_t upload_length, uint8_t *image, size_t image_length);

/* Reports an image: outcome, root, waiting; steps is 0. */
uint64_t replay_report(const uint8_t *upload, size_t upload_length, const uint8_t *image, size_t image_length);

/* Lists the possible steps of an image in out, three bytes each (kind, x, y), ascending. Steps is how many there are. 13 where out is too short. */
uint64_t replay_list(const uint8_t *upload, size_t upload_length, const uint8_t *image, size_t image_length, uint8_t *out, size_t out_length);

/* Takes one step on an image, as action 0. Taken: steps 1, the new image and its report. Refused by 9 to 11: steps 0 and the report of the image as it is. */
uint64_t replay_step(const uint8_t *upload, size_t upload_length, uint8_t *image, size_t image_length, uint8_t kind, uint8_t x, uint8_t y);

/* The runner: starts fresh, takes the first listed step until none is left, and leaves the end image. Steps is the number taken. */
uint64_t replay_run(const uint8_t *upload, size_t upload_length, uint8_t *image, size_t image_length);

/* Replays the actions of an upload from the fresh state. Steps is the number of actions taken. */
uint64_t replay_upload(const uint8_t *upload, size_t upload_length);

/* The answer of entry `number` of a batch, counted from 0. 1 where the header is refused, 2 where the span is outside or there is no such entry. */
uint64_t replay_entry(const uint8_t *batch, size_t batch_length, size_t number);

/* Writes a batch's text in out: a line for each entry, or `refused 1`. Steps is the length of the text in bytes. 13 where out is too short. */
uint64_t replay_lines(const uint8_t *batch, size_t batch_length, uint8_t *out, size_t out_length);

/* The six numbers of a word, from its highest bits down: 8, 16, 16, 8, 8 and 8 bits. */
static inline unsigned replay_refusal_of(uint64_t word) { return (unsigned)(word >> 56); }
static inline unsigned replay_place_of(uint64_t word) { return (unsigned)(word >> 40 & 0xffff); }
static inline unsigned replay_steps_of(uint64_t word) { return (unsigned)(word >> 24 & 0xffff); }
static inline unsigned replay_outcome_of(uint64_t word) { return (unsigned)(word >> 16 & 0xff); }
static inline unsigned replay_root_of(uint64_t word) { return (unsigned)(word >> 8 & 0xff); }
static inline unsigned replay_waiting_of(uint64_t word) { return (unsigned)(word & 0xff); }

#ifdef __cplusplus
}
#endif

#endif
