/* A batch in C: header, spans, and the printed text, over a replay of either version. */
#include "engine.h"
#include <string.h>

static uint32_t four(const uint8_t *at)
{
    return (uint32_t)at[0] << 24 | (uint32_t)at[1] << 16 | (uint32_t)at[2] << 8 | at[3];
}

static int header_wrong(const uint8_t *batch, size_t length)
{
    if (length < 4 || length > 65536)
        return 1;
    uint32_t count = four(batch);
    return count < 1 || count > 64 || length < 4 + 8 * (size_t)count;
}

static struct answer entry_of(replay_of *replay, const uint8_t *batch, size_t length, size_t number)
{
    uint32_t count = four(batch);
    if (number >= count)
        return refused(2, 0);
    uint64_t offset = four(batch + 4 + 8 * number), size = four(batch + 8 + 8 * number);
    if (offset < 4 + 8 * (uint64_t)count || offset + size > length)
        return refused(2, 0);
    return replay(batch + offset, size);
}

struct answer entry_with(replay_of *replay, const uint8_t *batch, size_t length, size_t number)
{
    return header_wrong(batch, length) ? refused(1, 0) : entry_of(replay, batch, length, number);
}

static size_t decimal(uint8_t *out, unsigned number)
{
    uint8_t digits[10];
    size_t count = 0, i = 0;
    do {
        digits[count++] = '0' + number % 10;
        number /= 10;
    } while (number);
    while (count)
        out[i++] = digits[--count];
    return i;
}

static size_t line(uint8_t *out, unsigned number, struct answer a)
{
    unsigned numbers[7] = {number, a.refusal, a.place, a.steps, a.outcome, a.root, a.waiting};
    size_t at = 0;
    for (int i = 0; i < 7; i++) {
        at += decimal(out + at, numbers[i]);
        out[at++] = i < 6 ? ' ' : '\n';
    }
    return at;
}

struct answer lines_with(replay_of *replay, const uint8_t *batch, size_t length, uint8_t *out, size_t out_length)
{
    uint8_t text[64 * 48];
    size_t size = 0;
    if (header_wrong(batch, length)) {
        size = 10;
        memcpy(text, "refused 1\n", size);
    } else {
        uint32_t count = four(batch);
        for (uint32_t i = 0; i < count; i++)
            size += line(text + size, i, entry_of(replay, batch, length, i));
    }
    if (size > out_length)
        return refused(13, 0);
    memcpy(out, text, size);
    return (struct answer){0, 0, (unsigned)size, 0, 255, 0};
}
