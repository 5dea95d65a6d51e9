/* Version one in C: the state is the image, and every question scans the links, as the archive does. */
#include "engine.h"
#include <string.h>

enum { WAITING = 1, CONTENDING = 2, ROOT = 4, CHILD = 1, REQUEST = 2, ACKNOWLEDGEMENT = 4, MESSAGE = 6 };

struct table {
    unsigned n, m, a;
    const uint8_t *link, *action;
};

static struct table table_of(const uint8_t *upload)
{
    unsigned m = upload[1];
    return (struct table){upload[0], m, (unsigned)upload[2] << 8 | upload[3], upload + 4, upload + 4 + 2 * m};
}

static int one_piece(struct table t)
{
    uint8_t label[63];
    for (unsigned x = 0; x < t.n; x++)
        label[x] = x;
    for (unsigned i = 0; i < t.m; i++) {
        uint8_t to = label[t.link[2 * i]], from = label[t.link[2 * i + 1]];
        for (unsigned x = 0; x < t.n; x++)
            label[x] = label[x] == from ? to : label[x];
    }
    for (unsigned x = 1; x < t.n; x++)
        if (label[x] != label[0])
            return 0;
    return 1;
}

/* checks 3 to 8 */
static struct answer check(const uint8_t *upload, size_t length)
{
    if (length < 4)
        return refused(3, 0);
    struct table t = table_of(upload);
    if (t.n < 1 || t.n > 63 || t.m > 126 || t.a > 1024)
        return refused(4, 0);
    if (length != 4 + 2 * (size_t)t.m + 3 * (size_t)t.a)
        return refused(3, 0);
    for (unsigned i = 0; i < t.m; i++) {
        uint8_t p = t.link[2 * i], q = t.link[2 * i + 1];
        if (p >= t.n || q >= t.n)
            return refused(5, i);
        if (p == q)
            return refused(6, i);
        int repeats = 0;
        for (unsigned j = 0; j < i; j++) {
            uint8_t r = t.link[2 * j], s = t.link[2 * j + 1];
            repeats |= ((p == r) & (q == s)) | ((p == s) & (q == r));
        }
        if (repeats)
            return refused(7, i);
    }
    return refused(one_piece(t) ? 0 : 8, 0);
}

static int sound(struct table t, const uint8_t *image)
{
    int good = 1;
    for (unsigned x = 0; x < t.n; x++)
        good &= image[x] < 8;
    for (unsigned d = 0; d < 2 * t.m; d++) {
        uint8_t byte = image[t.n + d];
        good &= (byte < 6) & !((byte > 1) & image[t.link[d]]);
    }
    return good;
}

/* at most so many directions into x lack child: byte d of the links is the source of direction d, byte d ^ 1 its target */
static int unheard_within(struct table t, const uint8_t *image, unsigned x, unsigned few)
{
    unsigned count = 0;
    for (unsigned d = 0; d < 2 * t.m; d++)
        if (t.link[d ^ 1] == x && !(image[t.n + d] & CHILD) && ++count > few)
            return 0;
    return 1;
}

static int node_possible(struct table t, const uint8_t *image, unsigned kind, unsigned x)
{
    if (kind == 1)
        return image[x] & WAITING && unheard_within(t, image, x, 1);
    return !(image[x] & ROOT) && unheard_within(t, image, x, 0);
}

static int direction_possible(struct table t, const uint8_t *image, unsigned kind, unsigned d)
{
    uint8_t x = image[t.link[d]], y = image[t.link[d ^ 1]], byte = image[t.n + d];
    if (kind == 2)
        return y & WAITING && byte & MESSAGE;
    if (kind == 3)
        return !(y & WAITING) && byte & MESSAGE;
    return x & y & CONTENDING;
}

static int moving(struct table t, const uint8_t *image)
{
    for (unsigned x = 0; x < t.n; x++)
        if (node_possible(t, image, 1, x) || node_possible(t, image, 5, x))
            return 1;
    for (unsigned d = 0; d < 2 * t.m; d++)
        if (image[t.n + d] & MESSAGE || image[t.link[d]] & image[t.link[d ^ 1]] & CONTENDING)
            return 1;
    return 0;
}

static struct answer report(struct table t, const uint8_t *image, unsigned number, unsigned place, unsigned steps)
{
    unsigned waiting = 0, roots = 0, root = 255;
    for (unsigned x = 0; x < t.n; x++) {
        waiting += image[x] & WAITING;
        if (image[x] & ROOT && roots++ == 0)
            root = x;
    }
    unsigned outcome = moving(t, image) ? 1 : roots == 1 ? 2 : roots == 0 && waiting && t.m >= t.n ? 3 : 4;
    return (struct answer){number, place, steps, outcome, root, waiting};
}

static void make_fresh(struct table t, uint8_t *image)
{
    memset(image, WAITING, t.n);
    memset(image + t.n, 0, 2 * t.m);
}

static void take_at_node(struct table t, uint8_t *image, unsigned kind, unsigned x)
{
    if (kind == 5) {
        image[x] |= ROOT;
        return;
    }
    image[x] &= ~WAITING;
    for (unsigned d = 0; d < 2 * t.m; d++)
        if (t.link[d] == x)
            image[t.n + d] = (image[t.n + d] & CHILD) | (image[t.n + (d ^ 1)] & CHILD ? ACKNOWLEDGEMENT : REQUEST);
}

static void take_on_link(struct table t, uint8_t *image, unsigned kind, unsigned d)
{
    uint8_t *byte = image + t.n + d, *x = image + t.link[d], *y = image + t.link[d ^ 1];
    if (kind == 2) {
        *byte = CHILD;
    } else if (kind == 3) {
        *y = *byte & REQUEST ? *y | CONTENDING : *y & ~CONTENDING;
        *byte &= CHILD;
    } else {
        *x &= ~CONTENDING;
        *y &= ~CONTENDING;
        *byte |= CHILD;
    }
}

/* tries an action and takes it if it can be taken; answers the number by which it is refused */
static unsigned act(struct table t, uint8_t *image, unsigned kind, unsigned x, unsigned y)
{
    if (kind == 1 || kind == 5) {
        if (x >= t.n || y != 255)
            return 9;
        if (!node_possible(t, image, kind, x))
            return 11;
        take_at_node(t, image, kind, x);
        return 0;
    }
    if (kind < 2 || kind > 4 || x >= t.n || y >= t.n)
        return 9;
    for (unsigned d = 0; d < 2 * t.m; d++)
        if (t.link[d] == x && t.link[d ^ 1] == y) {
            if (!direction_possible(t, image, kind, d))
                return 11;
            take_on_link(t, image, kind, d);
            return 0;
        }
    return 10;
}

static struct answer replay(const uint8_t *upload, size_t length)
{
    struct answer checked = check(upload, length);
    if (checked.refusal)
        return checked;
    struct table t = table_of(upload);
    uint8_t image[315];
    make_fresh(t, image);
    for (unsigned i = 0; i < t.a; i++) {
        unsigned number = act(t, image, t.action[3 * i], t.action[3 * i + 1], t.action[3 * i + 2]);
        if (number)
            return report(t, image, number, i, i);
    }
    return report(t, image, 0, 0, t.a);
}

/* the list, as far as there is room; answers how many steps it has */
static size_t list_into(struct table t, const uint8_t *image, uint8_t *out, size_t room)
{
    size_t count = 0;
    for (unsigned kind = 1; kind <= 5; kind++)
        for (unsigned x = 0; x < t.n; x++) {
            if (kind == 1 || kind == 5) {
                if (node_possible(t, image, kind, x)) {
                    if (3 * count + 3 <= room) {
                        out[3 * count] = kind;
                        out[3 * count + 1] = x;
                        out[3 * count + 2] = 255;
                    }
                    count++;
                }
                continue;
            }
            if (kind == 4 && !(image[x] & CONTENDING))
                continue;
            uint8_t direction[63];
            memset(direction, 255, t.n);
            for (unsigned d = 0; d < 2 * t.m; d++)
                if (t.link[d] == x)
                    direction[t.link[d ^ 1]] = d;
            for (unsigned y = 0; y < t.n; y++)
                if (direction[y] != 255 && direction_possible(t, image, kind, direction[y])) {
                    if (3 * count + 3 <= room) {
                        out[3 * count] = kind;
                        out[3 * count + 1] = x;
                        out[3 * count + 2] = y;
                    }
                    count++;
                }
        }
    return count;
}

/* takes the first listed step, if there is one */
static int take_first(struct table t, uint8_t *image)
{
    for (unsigned x = 0; x < t.n; x++)
        if (node_possible(t, image, 1, x)) {
            take_at_node(t, image, 1, x);
            return 1;
        }
    for (unsigned kind = 2; kind <= 4; kind++) {
        unsigned first = 65536, at = 0;
        for (unsigned d = 0; d < 2 * t.m; d++)
            if (direction_possible(t, image, kind, d)) {
                unsigned name = (unsigned)t.link[d] << 8 | t.link[d ^ 1];
                if (name < first) {
                    first = name;
                    at = d;
                }
            }
        if (first < 65536) {
            take_on_link(t, image, kind, at);
            return 1;
        }
    }
    for (unsigned x = 0; x < t.n; x++)
        if (node_possible(t, image, 5, x)) {
            take_at_node(t, image, 5, x);
            return 1;
        }
    return 0;
}

static uint64_t scan_fresh(const uint8_t *upload, size_t length, uint8_t *image, size_t image_length)
{
    struct answer checked = check(upload, length);
    if (checked.refusal)
        return packed(checked);
    struct table t = table_of(upload);
    if (image_length != t.n + 2 * t.m)
        return packed(refused(12, 0));
    make_fresh(t, image);
    return packed(report(t, image, 0, 0, 0));
}

static uint64_t scan_report(const uint8_t *upload, size_t length, const uint8_t *image, size_t image_length)
{
    struct answer checked = check(upload, length);
    if (checked.refusal)
        return packed(checked);
    struct table t = table_of(upload);
    if (image_length != t.n + 2 * t.m || !sound(t, image))
        return packed(refused(12, 0));
    return packed(report(t, image, 0, 0, 0));
}

static uint64_t scan_list(const uint8_t *upload, size_t length, const uint8_t *image, size_t image_length, uint8_t *out, size_t out_length)
{
    struct answer checked = check(upload, length);
    if (checked.refusal)
        return packed(checked);
    struct table t = table_of(upload);
    if (image_length != t.n + 2 * t.m || !sound(t, image))
        return packed(refused(12, 0));
    if (out_length < 6 * t.n + 12 * t.m && out_length < 3 * list_into(t, image, out, 0))
        return packed(refused(13, 0));
    size_t count = list_into(t, image, out, out_length);
    return packed(report(t, image, 0, 0, (unsigned)count));
}

static uint64_t scan_step(const uint8_t *upload, size_t length, uint8_t *image, size_t image_length, uint8_t kind, uint8_t x, uint8_t y)
{
    struct answer checked = check(upload, length);
    if (checked.refusal)
        return packed(checked);
    struct table t = table_of(upload);
    if (image_length != t.n + 2 * t.m || !sound(t, image))
        return packed(refused(12, 0));
    unsigned number = act(t, image, kind, x, y);
    return packed(report(t, image, number, 0, number == 0));
}

static uint64_t scan_run(const uint8_t *upload, size_t length, uint8_t *image, size_t image_length)
{
    struct answer checked = check(upload, length);
    if (checked.refusal)
        return packed(checked);
    struct table t = table_of(upload);
    if (image_length != t.n + 2 * t.m)
        return packed(refused(12, 0));
    make_fresh(t, image);
    unsigned steps = 0;
    while (take_first(t, image))
        steps++;
    return packed(report(t, image, 0, 0, steps));
}

static uint64_t scan_upload(const uint8_t *upload, size_t length)
{
    return packed(replay(upload, length));
}

static uint64_t scan_entry(const uint8_t *batch, size_t length, size_t number)
{
    return packed(entry_with(replay, batch, length, number));
}

static uint64_t scan_lines(const uint8_t *batch, size_t length, uint8_t *out, size_t out_length)
{
    return packed(lines_with(replay, batch, length, out, out_length));
}

const struct engine scan = {"C, scans", scan_fresh, scan_report, scan_list, scan_step, scan_run, scan_upload, scan_entry, scan_lines};
