/* Version two in C: words of nodes, built once for each call, so that a step scans nothing. */
#include "engine.h"
#include <string.h>

enum { WAITING = 1, CONTENDING = 2, ROOT = 4, CHILD = 1, REQUEST = 1, ACKNOWLEDGEMENT = 2 };

/* Bit x of a word is node x. heard[x] has the nodes whose direction into x has child; requests[x] and acknowledgements[x] those that a message of x is on its way to. */
struct state {
    unsigned n, m, a;
    const uint8_t *link, *action;
    uint64_t waiting, contending, root;
    uint64_t near[63], heard[63], requests[63], acknowledgements[63];
};

static uint64_t bit(unsigned x)
{
    return (uint64_t)1 << x;
}

static unsigned lowest(uint64_t word)
{
    return (unsigned)__builtin_ctzll(word);
}

static int has(uint64_t word, unsigned x)
{
    return word >> x & 1;
}

static int one_piece(const struct state *s)
{
    uint64_t all = bit(s->n) - 1, reached = 1, edge = 1;
    while (edge) {
        uint64_t next = 0;
        for (; edge; edge &= edge - 1)
            next |= s->near[lowest(edge)];
        edge = next & ~reached;
        reached |= next;
    }
    return reached == all;
}

/* checks 3 to 8; fills in the table */
static struct answer check(struct state *s, const uint8_t *upload, size_t length)
{
    if (length < 4)
        return refused(3, 0);
    s->n = upload[0];
    s->m = upload[1];
    s->a = (unsigned)upload[2] << 8 | upload[3];
    if (s->n < 1 || s->n > 63 || s->m > 126 || s->a > 1024)
        return refused(4, 0);
    if (length != 4 + 2 * (size_t)s->m + 3 * (size_t)s->a)
        return refused(3, 0);
    s->link = upload + 4;
    s->action = upload + 4 + 2 * s->m;
    memset(s->near, 0, s->n * sizeof s->near[0]);
    for (unsigned i = 0; i < s->m; i++) {
        unsigned p = s->link[2 * i], q = s->link[2 * i + 1];
        if (p >= s->n || q >= s->n)
            return refused(5, i);
        if (p == q)
            return refused(6, i);
        if (has(s->near[p], q))
            return refused(7, i);
        s->near[p] |= bit(q);
        s->near[q] |= bit(p);
    }
    return refused(one_piece(s) ? 0 : 8, 0);
}

static void make_fresh(struct state *s)
{
    s->waiting = bit(s->n) - 1;
    s->contending = s->root = 0;
    memset(s->heard, 0, s->n * sizeof s->heard[0]);
    memset(s->requests, 0, s->n * sizeof s->requests[0]);
    memset(s->acknowledgements, 0, s->n * sizeof s->acknowledgements[0]);
}

/* reads an image; answers whether it is sound */
static int read_image(struct state *s, const uint8_t *image)
{
    make_fresh(s);
    s->waiting = 0;
    for (unsigned x = 0; x < s->n; x++) {
        if (image[x] > 7)
            return 0;
        s->waiting |= (uint64_t)(image[x] & 1) << x;
        s->contending |= (uint64_t)(image[x] >> 1 & 1) << x;
        s->root |= (uint64_t)(image[x] >> 2) << x;
    }
    for (unsigned d = 0; d < 2 * s->m; d++) {
        unsigned x = s->link[d], y = s->link[d ^ 1], byte = image[s->n + d];
        if (byte > 5 || (byte > 1 && has(s->waiting, x)))
            return 0;
        s->heard[y] |= (uint64_t)(byte & 1) << x;
        s->requests[x] |= (uint64_t)(byte >> 1 & 1) << y;
        s->acknowledgements[x] |= (uint64_t)(byte >> 2) << y;
    }
    return 1;
}

static void write_image(const struct state *s, uint8_t *image)
{
    for (unsigned x = 0; x < s->n; x++)
        image[x] = (uint8_t)(has(s->waiting, x) | has(s->contending, x) << 1 | has(s->root, x) << 2);
    for (unsigned d = 0; d < 2 * s->m; d++) {
        unsigned x = s->link[d], y = s->link[d ^ 1];
        image[s->n + d] = (uint8_t)(has(s->heard[y], x) | has(s->requests[x], y) << 1 | has(s->acknowledgements[x], y) << 2);
    }
}

static uint64_t unheard(const struct state *s, unsigned x)
{
    return s->near[x] & ~s->heard[x];
}

static int one_at_most(uint64_t word)
{
    return (word & (word - 1)) == 0;
}

static int possible(const struct state *s, unsigned kind, unsigned x, unsigned y)
{
    switch (kind) {
    case 1: return has(s->waiting, x) && one_at_most(unheard(s, x));
    case 2: return has(s->waiting, y) && has(s->requests[x] | s->acknowledgements[x], y);
    case 3: return !has(s->waiting, y) && has(s->requests[x] | s->acknowledgements[x], y);
    case 4: return has(s->contending, x) && has(s->contending, y);
    default: return !has(s->root, x) && unheard(s, x) == 0;
    }
}

static void take(struct state *s, unsigned kind, unsigned x, unsigned y)
{
    switch (kind) {
    case 1:
        s->waiting &= ~bit(x);
        s->requests[x] = unheard(s, x);
        s->acknowledgements[x] = s->near[x] & s->heard[x];
        break;
    case 2:
        s->heard[y] |= bit(x);
        s->requests[x] &= ~bit(y);
        s->acknowledgements[x] &= ~bit(y);
        break;
    case 3:
        if (has(s->requests[x], y))
            s->contending |= bit(y);
        else
            s->contending &= ~bit(y);
        s->requests[x] &= ~bit(y);
        s->acknowledgements[x] &= ~bit(y);
        break;
    case 4:
        s->heard[y] |= bit(x);
        s->contending &= ~(bit(x) | bit(y));
        break;
    default:
        s->root |= bit(x);
    }
}

static unsigned act(struct state *s, unsigned kind, unsigned x, unsigned y)
{
    if (kind < 1 || kind > 5 || x >= s->n)
        return 9;
    if (kind == 1 || kind == 5) {
        if (y != 255)
            return 9;
    } else {
        if (y >= s->n)
            return 9;
        if (!has(s->near[x], y))
            return 10;
    }
    if (!possible(s, kind, x, y))
        return 11;
    take(s, kind, x, y);
    return 0;
}

static int moving(const struct state *s)
{
    for (unsigned x = 0; x < s->n; x++) {
        uint64_t open = unheard(s, x);
        if ((has(s->waiting, x) && one_at_most(open)) || (!has(s->root, x) && open == 0) || s->requests[x] | s->acknowledgements[x]
            || (has(s->contending, x) && s->near[x] & s->contending))
            return 1;
    }
    return 0;
}

static struct answer report(const struct state *s, unsigned number, unsigned place, unsigned steps)
{
    unsigned outcome = moving(s) ? 1 : s->root && one_at_most(s->root) ? 2 : !s->root && s->waiting && s->m >= s->n ? 3 : 4;
    return (struct answer){number, place, steps, outcome, s->root ? lowest(s->root) : 255, (unsigned)__builtin_popcountll(s->waiting)};
}

static struct answer replay(const uint8_t *upload, size_t length)
{
    struct state s;
    struct answer checked = check(&s, upload, length);
    if (checked.refusal)
        return checked;
    make_fresh(&s);
    for (unsigned i = 0; i < s.a; i++) {
        unsigned number = act(&s, s.action[3 * i], s.action[3 * i + 1], s.action[3 * i + 2]);
        if (number)
            return report(&s, number, i, i);
    }
    return report(&s, 0, 0, s.a);
}

/* the nodes y to which the step of kinds 2 to 4 from x is possible */
static uint64_t targets(const struct state *s, unsigned kind, unsigned x)
{
    uint64_t messages = s->requests[x] | s->acknowledgements[x];
    if (kind == 4)
        return has(s->contending, x) ? s->near[x] & s->contending : 0;
    return kind == 2 ? messages & s->waiting : messages & ~s->waiting;
}

/* the list in out, which has room for any; answers how many steps it has */
static size_t list_all(const struct state *s, uint8_t *out)
{
    size_t count = 0;
    for (unsigned kind = 1; kind <= 5; kind++)
        for (unsigned x = 0; x < s->n; x++) {
            if (kind == 1 || kind == 5) {
                if (possible(s, kind, x, 255)) {
                    out[3 * count] = kind;
                    out[3 * count + 1] = x;
                    out[3 * count++ + 2] = 255;
                }
                continue;
            }
            for (uint64_t left = targets(s, kind, x); left; left &= left - 1) {
                out[3 * count] = kind;
                out[3 * count + 1] = x;
                out[3 * count++ + 2] = lowest(left);
            }
        }
    return count;
}

static int take_first(struct state *s)
{
    for (unsigned kind = 1; kind <= 5; kind++)
        for (unsigned x = 0; x < s->n; x++) {
            if (kind == 1 || kind == 5) {
                if (possible(s, kind, x, 255)) {
                    take(s, kind, x, 255);
                    return 1;
                }
                continue;
            }
            uint64_t found = targets(s, kind, x);
            if (found) {
                take(s, kind, x, lowest(found));
                return 1;
            }
        }
    return 0;
}

static uint64_t words_fresh(const uint8_t *upload, size_t length, uint8_t *image, size_t image_length)
{
    struct state s;
    struct answer checked = check(&s, upload, length);
    if (checked.refusal)
        return packed(checked);
    if (image_length != s.n + 2 * s.m)
        return packed(refused(12, 0));
    make_fresh(&s);
    write_image(&s, image);
    return packed(report(&s, 0, 0, 0));
}

static uint64_t words_report(const uint8_t *upload, size_t length, const uint8_t *image, size_t image_length)
{
    struct state s;
    struct answer checked = check(&s, upload, length);
    if (checked.refusal)
        return packed(checked);
    if (image_length != s.n + 2 * s.m || !read_image(&s, image))
        return packed(refused(12, 0));
    return packed(report(&s, 0, 0, 0));
}

static uint64_t words_list(const uint8_t *upload, size_t length, const uint8_t *image, size_t image_length, uint8_t *out, size_t out_length)
{
    struct state s;
    struct answer checked = check(&s, upload, length);
    if (checked.refusal)
        return packed(checked);
    if (image_length != s.n + 2 * s.m || !read_image(&s, image))
        return packed(refused(12, 0));
    uint8_t list[3 * (2 * 63 + 2 * 252)];
    size_t count = list_all(&s, list);
    if (3 * count > out_length)
        return packed(refused(13, 0));
    memcpy(out, list, 3 * count);
    return packed(report(&s, 0, 0, (unsigned)count));
}

static uint64_t words_step(const uint8_t *upload, size_t length, uint8_t *image, size_t image_length, uint8_t kind, uint8_t x, uint8_t y)
{
    struct state s;
    struct answer checked = check(&s, upload, length);
    if (checked.refusal)
        return packed(checked);
    if (image_length != s.n + 2 * s.m || !read_image(&s, image))
        return packed(refused(12, 0));
    unsigned number = act(&s, kind, x, y);
    if (number == 0)
        write_image(&s, image);
    return packed(report(&s, number, 0, number == 0));
}

static uint64_t words_run(const uint8_t *upload, size_t length, uint8_t *image, size_t image_length)
{
    struct state s;
    struct answer checked = check(&s, upload, length);
    if (checked.refusal)
        return packed(checked);
    if (image_length != s.n + 2 * s.m)
        return packed(refused(12, 0));
    make_fresh(&s);
    unsigned steps = 0;
    while (take_first(&s))
        steps++;
    write_image(&s, image);
    return packed(report(&s, 0, 0, steps));
}

static uint64_t words_upload(const uint8_t *upload, size_t length)
{
    return packed(replay(upload, length));
}

static uint64_t words_entry(const uint8_t *batch, size_t length, size_t number)
{
    return packed(entry_with(replay, batch, length, number));
}

static uint64_t words_lines(const uint8_t *batch, size_t length, uint8_t *out, size_t out_length)
{
    return packed(lines_with(replay, batch, length, out, out_length));
}

const struct engine words = {"C, words", words_fresh, words_report, words_list, words_step, words_run, words_upload, words_entry, words_lines};
