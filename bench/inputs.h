/* The inputs of the measurements, and the jobs that are done with them. */
#ifndef INPUTS_H
#define INPUTS_H

#include "engine.h"
#include <replay.h>

enum { MOST_INPUTS = 64 };

/* A job's input: an upload or a batch, an image for the calls that take one, and an action for a step. */
struct input {
    size_t length, image_length;
    uint8_t bytes[REPLAY_MAX_BATCH];
    uint8_t image[REPLAY_MAX_IMAGE];
    uint8_t kind, x, y;
};

extern struct input inputs[MOST_INPUTS];
extern unsigned input_count;

/* What a call leaves: its word, and the bytes of the buffers lent to it. */
struct left {
    uint64_t word;
    uint8_t image[REPLAY_MAX_IMAGE];
    uint8_t out[REPLAY_MAX_LIST];
};

typedef uint64_t job(const struct engine *engine, const struct input *input, struct left *left);

job fresh_job, report_job, list_job, step_job, run_job, upload_job, entry_job, lines_job;

/* a number below a bound, the same ones in each run */
unsigned below(unsigned bound);

/* a table of n nodes and m links in one piece: a random tree, then random links that are not there yet */
void make_table(struct input *i, unsigned n, unsigned m);

/* an upload of n nodes and n - 1 links with the longest log that there is, 3n steps */
void make_full(struct input *i, unsigned n);

/* what all inputs are from then on */
void full_uploads(unsigned n);
void into_batch(void);
void images(unsigned n, unsigned m);
void steps_on_images(unsigned n, unsigned m);
void refused_tables(void);
void refused_actions(void);

/* does nothing; how long it is moves the code behind it */
void stand_aside(void);

#endif
