/* The inputs of the measurements: tables, logs, images and batches, the same ones in each run. */
#include "inputs.h"
#include <string.h>

const struct engine proved = {"archive", replay_fresh, replay_report, replay_list, replay_step, replay_run, replay_upload, replay_entry, replay_lines};

struct input inputs[MOST_INPUTS];
unsigned input_count;

uint64_t fresh_job(const struct engine *e, const struct input *i, struct left *l)
{
    return e->fresh(i->bytes, i->length, l->image, i->image_length);
}

uint64_t report_job(const struct engine *e, const struct input *i, struct left *l)
{
    (void)l;
    return e->report(i->bytes, i->length, i->image, i->image_length);
}

uint64_t list_job(const struct engine *e, const struct input *i, struct left *l)
{
    return e->list(i->bytes, i->length, i->image, i->image_length, l->out, sizeof l->out);
}

uint64_t step_job(const struct engine *e, const struct input *i, struct left *l)
{
    memcpy(l->image, i->image, i->image_length);
    return e->step(i->bytes, i->length, l->image, i->image_length, i->kind, i->x, i->y);
}

uint64_t run_job(const struct engine *e, const struct input *i, struct left *l)
{
    return e->run(i->bytes, i->length, l->image, i->image_length);
}

uint64_t upload_job(const struct engine *e, const struct input *i, struct left *l)
{
    (void)l;
    return e->upload(i->bytes, i->length);
}

uint64_t entry_job(const struct engine *e, const struct input *i, struct left *l)
{
    (void)l;
    return e->entry(i->bytes, i->length, 63);
}

uint64_t lines_job(const struct engine *e, const struct input *i, struct left *l)
{
    return e->lines(i->bytes, i->length, l->out, sizeof l->out);
}

static uint32_t seed = 1;

unsigned below(unsigned bound)
{
    seed ^= seed << 13;
    seed ^= seed >> 17;
    seed ^= seed << 5;
    return seed % bound;
}

void make_table(struct input *i, unsigned n, unsigned m)
{
    uint8_t joined[63][63] = {{0}}, name[63];
    for (unsigned x = 0; x < n; x++)
        name[x] = x;
    for (unsigned x = n; x > 1; x--) {
        unsigned y = below(x);
        uint8_t keep = name[x - 1];
        name[x - 1] = name[y];
        name[y] = keep;
    }
    i->bytes[0] = n;
    i->bytes[1] = m;
    i->bytes[2] = i->bytes[3] = 0;
    for (unsigned k = 0; k < m;) {
        unsigned x = k + 1 < n ? name[k + 1] : below(n), y = k + 1 < n ? name[below(k + 1)] : below(n);
        if (x == y || joined[x][y])
            continue;
        joined[x][y] = joined[y][x] = 1;
        i->bytes[4 + 2 * k] = x;
        i->bytes[5 + 2 * k] = y;
        k++;
    }
    i->length = 4 + 2 * m;
    i->image_length = n + 2 * m;
}

/* Takes up to `most` random possible steps from fresh, and makes them the upload's actions; answers how many there are, the end image stays. */
static unsigned make_log(struct input *i, unsigned most)
{
    uint8_t list[REPLAY_MAX_LIST];
    size_t table = 4 + 2 * (size_t)i->bytes[1];
    unsigned steps = 0;
    i->bytes[2] = i->bytes[3] = 0;
    i->length = table;
    words.fresh(i->bytes, table, i->image, i->image_length);
    while (steps < most) {
        unsigned listed = replay_steps_of(words.list(i->bytes, table, i->image, i->image_length, list, sizeof list));
        if (listed == 0)
            break;
        const uint8_t *step = list + 3 * below(listed);
        words.step(i->bytes, table, i->image, i->image_length, step[0], step[1], step[2]);
        memcpy(i->bytes + table + 3 * steps, step, 3);
        steps++;
    }
    i->bytes[2] = steps >> 8;
    i->bytes[3] = steps & 255;
    i->length = table + 3 * steps;
    return steps;
}

void make_full(struct input *i, unsigned n)
{
    make_table(i, n, n - 1);
    while (make_log(i, 1024) != 3 * n)
        continue;
}

void full_uploads(unsigned n)
{
    input_count = MOST_INPUTS;
    for (unsigned k = 0; k < input_count; k++)
        make_full(&inputs[k], n);
}

static void four(uint8_t *at, size_t number)
{
    for (unsigned k = 0; k < 4; k++)
        at[k] = (uint8_t)(number >> (24 - 8 * k));
}

/* One batch of all the inputs, as the only input. */
void into_batch(void)
{
    static uint8_t batch[REPLAY_MAX_BATCH];
    size_t at = 4 + 8 * (size_t)input_count;
    four(batch, input_count);
    for (unsigned k = 0; k < input_count; k++) {
        four(batch + 4 + 8 * k, at);
        four(batch + 8 + 8 * k, inputs[k].length);
        memcpy(batch + at, inputs[k].bytes, inputs[k].length);
        at += inputs[k].length;
    }
    memcpy(inputs[0].bytes, batch, at);
    inputs[0].length = at;
    input_count = 1;
}

/* Tables with an image part of the way: a random number of random steps from fresh. */
void images(unsigned n, unsigned m)
{
    input_count = MOST_INPUTS;
    for (unsigned k = 0; k < input_count; k++) {
        make_table(&inputs[k], n, m);
        unsigned steps = make_log(&inputs[k], below(3 * n));
        const uint8_t *last = inputs[k].bytes + 4 + 2 * m + 3 * (steps - 1);
        inputs[k].kind = steps ? last[0] : 1;
        inputs[k].x = steps ? last[1] : 0;
        inputs[k].y = steps ? last[2] : 255;
        inputs[k].length = 4 + 2 * (size_t)m;
        inputs[k].bytes[2] = inputs[k].bytes[3] = 0;
    }
}

/* The same with a possible step on each image. */
void steps_on_images(unsigned n, unsigned m)
{
    uint8_t list[REPLAY_MAX_LIST];
    images(n, m);
    for (unsigned k = 0; k < input_count; k++) {
        unsigned listed = replay_steps_of(words.list(inputs[k].bytes, inputs[k].length, inputs[k].image, inputs[k].image_length, list, sizeof list));
        const uint8_t *step = list + 3 * below(listed ? listed : 1);
        if (listed) {
            inputs[k].kind = step[0];
            inputs[k].x = step[1];
            inputs[k].y = step[2];
        }
    }
}

/* Full uploads, each spoilt at its table, by refusals 3 to 8 in turn. */
void refused_tables(void)
{
    full_uploads(63);
    for (unsigned k = 0; k < input_count; k++) {
        uint8_t *b = inputs[k].bytes;
        unsigned last = 4 + 2 * 61;
        switch (k % 6) {
        case 0: inputs[k].length--; break;
        case 1: b[0] = 64; break;
        case 2: b[last + 1] = 63; break;
        case 3: b[last + 1] = b[last]; break;
        case 4: memcpy(b + last, b + 4, 2); break;
        default: memcpy(b + last, b + last - 2, 1), b[last + 1] = b[5] == b[last] ? b[4] : b[5];
        }
    }
}

/* Full uploads, each with an action half way that is refused by 9, 10 or 11. */
void refused_actions(void)
{
    full_uploads(63);
    for (unsigned k = 0; k < input_count; k++) {
        uint8_t *action = inputs[k].bytes + 4 + 2 * 62 + 3 * 94;
        action[0] = k % 3 == 0 ? 6 : k % 3 == 1 ? 2 : 1;
        if (k % 3 == 1)
            action[2] = action[1];
        if (k % 3 == 2)
            action[1] = action[1] < 63 ? action[1] : 0, action[2] = 255;
    }
}

