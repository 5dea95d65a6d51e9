/* Answers files of recorded cases through the archive, as the second program does, and damages such files:
 *     fuzz answer-KIND FILE            prints the lines that `second answer-KIND FILE` prints; KIND is calls, batches, lines or entries
 *     fuzz damage-KIND SEED IN OUT     writes the cases of IN with random damage
 * Every buffer is lent so that it ends where memory ends: a byte read or written behind it ends the program. A buffer that is only read, and
 * the bytes in front of one, must be as before.
 */
#include <replay.h>
#include <stdio.h>
#include <stdlib.h>
#include <string.h>
#include <sys/mman.h>

static void fail(const char *what)
{
    fprintf(stderr, "fuzz: %s\n", what);
    exit(2);
}

enum { PAGE = 4096, REGION = 64 * PAGE, FRONT = 64, FRONT_BYTE = 0x3c };

/* A region of memory with nothing behind it, a copy of what was lent in it, and where that starts. */
struct lent {
    uint8_t *region, *at, *copy;
    size_t length;
};

static void make_region(struct lent *l)
{
    l->region = mmap(NULL, REGION + PAGE, PROT_READ | PROT_WRITE, MAP_PRIVATE | MAP_ANONYMOUS, -1, 0);
    l->copy = malloc(REGION);
    if (l->region == MAP_FAILED || !l->copy || mprotect(l->region + REGION, PAGE, PROT_NONE) != 0)
        fail("no memory");
}

static void lend(struct lent *l, const uint8_t *bytes, size_t length)
{
    if (length + FRONT > REGION)
        fail("a record is longer than any that is made");
    l->length = length;
    l->at = l->region + REGION - length;
    memcpy(l->at, bytes, length);
    memcpy(l->copy, bytes, length);
    memset(l->at - FRONT, FRONT_BYTE, FRONT);
}

static void kept_front(const struct lent *l)
{
    for (unsigned k = 1; k <= FRONT; k++)
        if (l->at[-(int)k] != FRONT_BYTE)
            fail("a byte in front of a buffer has changed");
}

static void kept(const struct lent *l)
{
    kept_front(l);
    if (memcmp(l->at, l->copy, l->length) != 0)
        fail("a buffer that is only read, or that a refused call was lent, has changed");
}

static uint8_t *file;
static size_t file_length, place;

static void read_file(const char *name)
{
    FILE *f = fopen(name, "rb");
    size_t room = (size_t)1 << 28;
    file = malloc(room);
    if (!f || !file)
        fail("a file cannot be opened");
    file_length = fread(file, 1, room, f);
    if (ferror(f) || fclose(f) != 0)
        fail("a file cannot be read");
}

static const uint8_t *take(size_t count)
{
    if (count > file_length - place)
        fail("the last record is not whole");
    const uint8_t *at = file + place;
    place += count;
    return at;
}

static size_t number(unsigned bytes)
{
    const uint8_t *at = take(bytes);
    size_t value = 0;
    for (unsigned k = 0; k < bytes; k++)
        value = value << 8 | at[k];
    return value;
}

static void print_numbers(uint64_t word)
{
    printf("%u %u %u %u %u %u", replay_refusal_of(word), replay_place_of(word), replay_steps_of(word), replay_outcome_of(word), replay_root_of(word),
           replay_waiting_of(word));
}

static void print_bytes(const struct lent *l)
{
    static char text[2 * REGION + 2];
    size_t at = 0;
    text[at++] = ' ';
    if (l->length == 0)
        text[at++] = '-';
    for (size_t k = 0; k < l->length; k++) {
        text[at++] = "0123456789abcdef"[l->at[k] >> 4];
        text[at++] = "0123456789abcdef"[l->at[k] & 15];
    }
    fwrite(text, 1, at, stdout);
}

static struct lent first, image, buffer;

/* a part of a record: its length in so many bytes, then its bytes */
static void lend_part(struct lent *l, unsigned bytes)
{
    size_t length = number(bytes);
    lend(l, take(length), length);
}

static void answer_call(void)
{
    uint8_t call = *take(1);
    const uint8_t *action = take(3);
    lend_part(&first, 2);
    lend_part(&image, 2);
    lend_part(&buffer, 2);
    uint64_t word = 0;
    switch (call) {
    case 1: word = replay_fresh(first.at, first.length, image.at, image.length); break;
    case 2: word = replay_report(first.at, first.length, image.at, image.length); break;
    case 3: word = replay_list(first.at, first.length, image.at, image.length, buffer.at, buffer.length); break;
    case 4: word = replay_step(first.at, first.length, image.at, image.length, action[0], action[1], action[2]); break;
    case 5: word = replay_run(first.at, first.length, image.at, image.length); break;
    case 6: word = replay_upload(first.at, first.length); break;
    default: fail("there is no such call");
    }
    kept(&first);
    kept_front(&image);
    kept_front(&buffer);
    if (replay_refusal_of(word) != 0 || call == 2 || call == 3 || call == 6)
        kept(&image);
    if (replay_refusal_of(word) != 0 || call != 3)
        kept(&buffer);
    print_numbers(word);
    print_bytes(&image);
    print_bytes(&buffer);
    printf("\n");
}

static void answer_batch(size_t count)
{
    static uint8_t blank[REPLAY_MAX_TEXT];
    lend_part(&first, 4);
    lend(&buffer, blank, sizeof blank);
    uint64_t word = replay_lines(first.at, first.length, buffer.at, buffer.length);
    if (replay_refusal_of(word) != 0)
        fail("a text has no room in REPLAY_MAX_TEXT bytes");
    kept(&first);
    kept_front(&buffer);
    printf("batch %zu\n", count);
    fwrite(buffer.at, 1, replay_steps_of(word), stdout);
}

static void answer_lines(void)
{
    lend_part(&first, 4);
    lend_part(&buffer, 2);
    uint64_t word = replay_lines(first.at, first.length, buffer.at, buffer.length);
    kept(&first);
    kept_front(&buffer);
    if (replay_refusal_of(word) != 0)
        kept(&buffer);
    print_numbers(word);
    print_bytes(&buffer);
    printf("\n");
}

static void answer_entry(void)
{
    lend_part(&first, 4);
    uint64_t word = replay_entry(first.at, first.length, number(2));
    kept(&first);
    print_numbers(word);
    printf("\n");
}

static uint32_t seed;

static unsigned below(unsigned bound)
{
    seed ^= seed << 13;
    seed ^= seed >> 17;
    seed ^= seed << 5;
    return seed % bound;
}

static FILE *damaged;

static void put(const uint8_t *bytes, size_t count)
{
    if (fwrite(bytes, 1, count, damaged) != count)
        fail("a file cannot be written");
}

static void put_number(size_t value, unsigned bytes)
{
    for (unsigned k = bytes; k > 0; k--) {
        uint8_t byte = (uint8_t)(value >> (8 * (k - 1)));
        put(&byte, 1);
    }
}

/* Damages bytes in place, and answers their new length, `most` or less. */
static size_t damage(uint8_t *bytes, size_t length, size_t most)
{
    static const uint8_t telling[] = {0, 1, 2, 3, 4, 5, 6, 7, 8, 62, 63, 64, 126, 127, 128, 254, 255};
    for (unsigned times = below(4); times > 0; times--) {
        size_t at = length ? below((unsigned)length) : 0, near = length < 24 ? length : 24;
        switch (below(8)) {
        case 0:
            if (length)
                bytes[at] = (uint8_t)below(256);
            break;
        case 1:
            if (length)
                bytes[at] = telling[below(sizeof telling)];
            break;
        case 2:
            if (near)
                bytes[below((unsigned)near)] = telling[below(sizeof telling)];
            break;
        case 3:
            if (length)
                bytes[at] ^= (uint8_t)(1 << below(8));
            break;
        case 4:
            if (length)
                bytes[at] = bytes[below((unsigned)length)];
            break;
        case 5:
            if (near)
                bytes[below((unsigned)near)] += (uint8_t)(below(3) - 1);
            break;
        case 6:
            if (length && below(3) == 0)
                length = at;
            break;
        default:
            if (length < most && below(3) == 0)
                bytes[length++] = (uint8_t)below(256);
        }
    }
    return length;
}

static void damage_part(unsigned bytes, size_t most)
{
    static uint8_t part[REGION];
    size_t length = number(bytes);
    if (length > REGION - FRONT - 16)
        fail("a record is longer than any that is made");
    memcpy(part, take(length), length);
    length = damage(part, length, length > most ? length : most);
    put_number(length, bytes);
    put(part, length);
}

static void damage_record(const char *kind)
{
    if (strcmp(kind, "calls") == 0) {
        uint8_t head[4];
        memcpy(head, take(4), 4);
        if (below(8) == 0)
            head[0] = (uint8_t)(1 + below(6));
        if (below(4) == 0)
            damage(head + 1, 3, 3);
        put(head, 4);
        damage_part(2, 65535);
        damage_part(2, 65535);
        damage_part(2, 65535);
    } else {
        damage_part(4, 65600);
        if (strcmp(kind, "lines") == 0)
            damage_part(2, 65535);
        if (strcmp(kind, "entries") == 0)
            put(take(2), 2);
    }
}

int main(int count, char **word)
{
    if (count == 3) {
        make_region(&first);
        make_region(&image);
        make_region(&buffer);
        read_file(word[2]);
        for (size_t record = 0; place < file_length; record++) {
            if (strcmp(word[1], "answer-calls") == 0)
                answer_call();
            else if (strcmp(word[1], "answer-batches") == 0)
                answer_batch(record);
            else if (strcmp(word[1], "answer-lines") == 0)
                answer_lines();
            else if (strcmp(word[1], "answer-entries") == 0)
                answer_entry();
            else
                fail("there is no such command");
        }
        if (fflush(stdout) != 0)
            fail("standard output cannot be written");
        return 0;
    }
    if (count == 5 && memcmp(word[1], "damage-", 7) == 0) {
        seed = (uint32_t)strtoul(word[2], NULL, 10) | 1;
        read_file(word[3]);
        damaged = fopen(word[4], "wb");
        if (!damaged)
            fail("a file cannot be made");
        while (place < file_length)
            damage_record(word[1] + 7);
        if (fclose(damaged) != 0)
            fail("a file cannot be written");
        return 0;
    }
    fail("usage: fuzz answer-KIND FILE, or fuzz damage-KIND SEED IN OUT");
}
