/* Answers a batch from standard input: prints its lines, and on standard error the answer of each refused entry.
 *
 * With the kit's compiler: examples/build answer_batch examples/answer_batch.c && .ci/start answer_batch <samples/whole.batch
 * With any other for x86-64: cc -I include examples/answer_batch.c crates/replay_c/out/libreplay_c.a -o answer_batch
 */
#include <stdio.h>
#include <replay.h>

/* one byte more than any batch, so that a longer one is seen to be longer */
static uint8_t batch[REPLAY_MAX_BATCH + 1];
static uint8_t text[REPLAY_MAX_TEXT];

/* how many entries the batch says that it has, 64 at most */
static size_t entries(size_t length)
{
    size_t count = 0;
    if (length >= 4)
        count = (size_t)batch[0] << 24 | (size_t)batch[1] << 16 | (size_t)batch[2] << 8 | batch[3];
    return count < REPLAY_MAX_ENTRIES ? count : REPLAY_MAX_ENTRIES;
}

int main(void)
{
    size_t length = fread(batch, 1, sizeof batch, stdin);
    if (ferror(stdin)) {
        fprintf(stderr, "answer_batch: standard input cannot be read\n");
        return 2;
    }
    uint64_t word = replay_lines(batch, length, text, sizeof text);
    if (replay_refusal_of(word) != 0) {
        fprintf(stderr, "answer_batch: refused %u\n", replay_refusal_of(word));
        return 2;
    }
    if (fwrite(text, 1, replay_steps_of(word), stdout) != replay_steps_of(word) || fflush(stdout) != 0) {
        fprintf(stderr, "answer_batch: standard output cannot be written\n");
        return 2;
    }
    for (size_t number = 0; number < entries(length); number++) {
        uint64_t answer = replay_entry(batch, length, number);
        if (replay_refusal_of(answer) != 0)
            fprintf(stderr, "entry %zu: refused %u at place %u, outcome %u, root %u, waiting %u, after %u steps\n", number,
                    replay_refusal_of(answer), replay_place_of(answer), replay_outcome_of(answer), replay_root_of(answer),
                    replay_waiting_of(answer), replay_steps_of(answer));
    }
    return 0;
}
