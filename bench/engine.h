/* An engine: the eight calls of include/replay.h, by whoever answers them. */
#ifndef ENGINE_H
#define ENGINE_H

#include <stddef.h>
#include <stdint.h>

struct engine {
    const char *name;
    uint64_t (*fresh)(const uint8_t *upload, size_t upload_length, uint8_t *image, size_t image_length);
    uint64_t (*report)(const uint8_t *upload, size_t upload_length, const uint8_t *image, size_t image_length);
    uint64_t (*list)(const uint8_t *upload, size_t upload_length, const uint8_t *image, size_t image_length, uint8_t *out, size_t out_length);
    uint64_t (*step)(const uint8_t *upload, size_t upload_length, uint8_t *image, size_t image_length, uint8_t kind, uint8_t x, uint8_t y);
    uint64_t (*run)(const uint8_t *upload, size_t upload_length, uint8_t *image, size_t image_length);
    uint64_t (*upload)(const uint8_t *upload, size_t upload_length);
    uint64_t (*entry)(const uint8_t *batch, size_t batch_length, size_t number);
    uint64_t (*lines)(const uint8_t *batch, size_t batch_length, uint8_t *out, size_t out_length);
};

/* the archive; C that keeps the image and scans the links; C that builds words of nodes once for each call */
extern const struct engine proved, scan, words;

/* The six numbers of an answer. */
struct answer {
    unsigned refusal, place, steps, outcome, root, waiting;
};

static inline uint64_t packed(struct answer a)
{
    return (uint64_t)a.refusal << 56 | (uint64_t)a.place << 40 | (uint64_t)a.steps << 24 | (uint64_t)a.outcome << 16 | (uint64_t)a.root << 8 | a.waiting;
}

static inline struct answer refused(unsigned number, unsigned place)
{
    return (struct answer){number, place, 0, 0, 255, 0};
}

/* The batch and its text, the same for both versions in C: each gives its own replay of an upload. */
typedef struct answer replay_of(const uint8_t *upload, size_t length);

struct answer entry_with(replay_of *replay, const uint8_t *batch, size_t length, size_t number);
struct answer lines_with(replay_of *replay, const uint8_t *batch, size_t length, uint8_t *out, size_t out_length);

#endif
