/* The archive and the two versions in C, alternately, on the same inputs: are all answers equal, and how much processor time does each take? */
#include "inputs.h"
#include <stdio.h>
#include <stdlib.h>
#include <string.h>
#include <time.h>

enum { ENGINES = 3, MOST_ROUNDS = 101 };
static const struct engine *const engines[ENGINES] = {&proved, &scan, &words};

static unsigned rounds = 31;

static double seconds(void)
{
    struct timespec t;
    clock_gettime(CLOCK_PROCESS_CPUTIME_ID, &t);
    return (double)t.tv_sec + (double)t.tv_nsec / 1e9;
}

static int by_size(const void *left, const void *right)
{
    double a = *(const double *)left, b = *(const double *)right;
    return a < b ? -1 : a > b;
}

static double median(double *times, unsigned count)
{
    qsort(times, count, sizeof *times, by_size);
    return times[count / 2];
}

static struct left after[ENGINES];

/* All engines answer every input alike: the word, and every byte of the buffers. */
static void compare(const char *row, job *run)
{
    for (unsigned k = 0; k < input_count; k++) {
        memset(after, 0xa5, sizeof after);
        for (unsigned e = 0; e < ENGINES; e++)
            after[e].word = run(engines[e], &inputs[k], &after[e]);
        for (unsigned e = 1; e < ENGINES; e++)
            if (memcmp(&after[0], &after[e], sizeof after[0]) != 0) {
                printf("%s: input %u: %s answers %016llx, %s answers %016llx\n", row, k, engines[0]->name, (unsigned long long)after[0].word,
                       engines[e]->name, (unsigned long long)after[e].word);
                exit(1);
            }
    }
}

static volatile uint64_t sink;

static double once(const struct engine *engine, job *run, unsigned times)
{
    uint64_t sum = 0;
    double start = seconds();
    for (unsigned t = 0; t < times; t++)
        for (unsigned k = 0; k < input_count; k++)
            sum += run(engine, &inputs[k], &after[0]);
    double taken = seconds() - start;
    sink = sum;
    return taken;
}

/* A row: the median time of a call for each engine, and the ratios. */
static void measure(const char *row, job *run)
{
    static double times[ENGINES][MOST_ROUNDS];
    compare(row, run);
    unsigned repeats = 1;
    while (once(engines[0], run, repeats) < 0.004)
        repeats *= 2;
    for (unsigned r = 0; r < rounds; r++)
        for (unsigned e = 0; e < ENGINES; e++) {
            unsigned at = (e + r) % ENGINES;
            times[at][r] = once(engines[at], run, repeats);
        }
    double ratio[ENGINES][MOST_ROUNDS], calls = (double)repeats * input_count;
    for (unsigned r = 0; r < rounds; r++)
        for (unsigned e = 1; e < ENGINES; e++)
            ratio[e][r] = times[0][r] / times[e][r];
    printf("| %s | %.0f | %.2f | %.2f |\n", row, median(times[0], rounds) / calls * 1e9, median(ratio[1], rounds), median(ratio[2], rounds));
    fflush(stdout);
}

int main(int count, char **words_of_call)
{
    if (count > 1)
        rounds = (unsigned)strtoul(words_of_call[1], NULL, 10);
    if (rounds < 1 || rounds > MOST_ROUNDS) {
        fprintf(stderr, "bench: rounds are 1 to %d\n", MOST_ROUNDS);
        return 2;
    }
    stand_aside();
    char row[80];
    printf("| job | archive, ns a call | archive / C that scans | archive / C with words |\n|---|---|---|---|\n");
    full_uploads(63);
    measure("a full upload: 63 nodes, 189 steps", upload_job);
    into_batch();
    measure("the last entry of a full batch", entry_job);
    measure("a full batch: 64 of them, with its text", lines_job);
    input_count = MOST_INPUTS;
    for (unsigned k = 0; k < input_count; k++)
        make_full(&inputs[k], 1 + k % 6 < 2 ? 2 : 1 + k % 6);
    measure("a small upload: 2 to 6 nodes, 3n steps", upload_job);
    into_batch();
    measure("a batch of 64 small uploads", lines_job);
    refused_tables();
    measure("a full upload refused by 3 to 8", upload_job);
    refused_actions();
    measure("a full upload refused by 9 to 11 half way", upload_job);
    images(63, 62);
    measure("the list: 63 nodes, 62 links", list_job);
    images(63, 126);
    measure("the list: 63 nodes, 126 links", list_job);
    images(63, 62);
    measure("the runner: 63 nodes, 62 links", run_job);
    images(63, 126);
    measure("the runner: 63 nodes, 126 links", run_job);
    images(63, 62);
    measure("fresh: 63 nodes, 62 links", fresh_job);
    measure("the report: 63 nodes, 62 links", report_job);
    steps_on_images(63, 62);
    measure("a single step: 63 nodes, 62 links", step_job);
    printf("\n| cost as links grow: 63 nodes, no step | archive, ns a call | archive / C that scans | archive / C with words |\n|---|---|---|---|\n");
    for (unsigned m = 62; m <= 126; m += 16) {
        input_count = MOST_INPUTS;
        for (unsigned k = 0; k < input_count; k++)
            make_table(&inputs[k], 63, m);
        row[0] = '0' + m / 100;
        row[1] = '0' + m / 10 % 10;
        row[2] = '0' + m % 10;
        row[3] = 0;
        measure(row[0] == '0' ? row + 1 : row, upload_job);
    }
    printf("\n| cost as steps grow: 63 nodes, 62 links | archive, ns a call | archive / C that scans | archive / C with words |\n|---|---|---|---|\n");
    for (unsigned a = 0; a <= 189; a += 63) {
        input_count = MOST_INPUTS;
        full_uploads(63);
        for (unsigned k = 0; k < input_count; k++) {
            inputs[k].bytes[3] = a;
            inputs[k].length = 4 + 2 * 62 + 3 * a;
        }
        row[0] = '0' + a / 100;
        row[1] = '0' + a / 10 % 10;
        row[2] = '0' + a % 10;
        row[3] = 0;
        measure(a >= 100 ? row : a >= 10 ? row + 1 : row + 2, upload_job);
    }
    return 0;
}
