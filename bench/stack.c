/* How deep the stack is that each call of the archive uses: a stack of one's own is painted before the call, and looked at after it. */
#include "engine.h"
#include "inputs.h"
#include <replay.h>
#include <stdio.h>
#include <string.h>

enum { ROOM = 1 << 17 };
static uint8_t stack[ROOM] __attribute__((aligned(64)));

/* a call on the painted stack: what it is lent comes through these */
static job *current_job;
static const struct engine *current_engine;
static const struct input *current_input;
static struct left current_left;

static __attribute__((noinline)) void call(void)
{
    current_left.word = current_job(current_engine, current_input, &current_left);
}

static void call_on(uint8_t *top)
{
    __asm__ volatile("movq %%rsp, %%rbx\n\tmovq %0, %%rsp\n\tcall *%1\n\tmovq %%rbx, %%rsp"
                     :
                     : "r"(top), "r"(call)
                     : "rbx", "rax", "rcx", "rdx", "rsi", "rdi", "r8", "r9", "r10", "r11", "xmm0", "xmm1", "xmm2", "xmm3", "xmm4", "xmm5", "xmm6",
                       "xmm7", "xmm8", "xmm9", "xmm10", "xmm11", "xmm12", "xmm13", "xmm14", "xmm15", "memory", "cc");
}

/* bytes from the deepest one that was written up to the top, with one paint */
static size_t depth_with(uint8_t paint)
{
    memset(stack, paint, sizeof stack);
    call_on(stack + sizeof stack);
    size_t at = 0;
    while (at < sizeof stack && stack[at] == paint)
        at++;
    return sizeof stack - at;
}

static size_t depth(const struct engine *engine, job *run, const struct input *input)
{
    current_engine = engine;
    current_job = run;
    current_input = input;
    size_t one = depth_with(0xa5), other = depth_with(0x5a);
    return one > other ? one : other;
}

/* an engine that does nothing: what the call itself takes */
static uint64_t none_fresh(const uint8_t *u, size_t n, uint8_t *i, size_t k)
{
    (void)u, (void)n, (void)i, (void)k;
    return 0;
}
static uint64_t none_report(const uint8_t *u, size_t n, const uint8_t *i, size_t k)
{
    (void)u, (void)n, (void)i, (void)k;
    return 0;
}
static uint64_t none_list(const uint8_t *u, size_t n, const uint8_t *i, size_t k, uint8_t *o, size_t l)
{
    (void)u, (void)n, (void)i, (void)k, (void)o, (void)l;
    return 0;
}
static uint64_t none_step(const uint8_t *u, size_t n, uint8_t *i, size_t k, uint8_t kind, uint8_t x, uint8_t y)
{
    (void)u, (void)n, (void)i, (void)k, (void)kind, (void)x, (void)y;
    return 0;
}
static uint64_t none_upload(const uint8_t *u, size_t n)
{
    (void)u, (void)n;
    return 0;
}
static uint64_t none_entry(const uint8_t *b, size_t n, size_t k)
{
    (void)b, (void)n, (void)k;
    return 0;
}
static const struct engine none = {"none", none_fresh, none_report, none_list, none_step, none_fresh, none_upload, none_entry, none_fresh};

static void deepest(const char *name, job *run)
{
    size_t most = 0, start = depth(&none, run, &inputs[0]);
    for (unsigned k = 0; k < input_count; k++) {
        size_t found = depth(&proved, run, &inputs[k]);
        most = found > most ? found : most;
    }
    printf("| `%s` | %zu |\n", name, most - start);
}

int main(void)
{
    printf("| call | bytes of stack |\n|---|---|\n");
    images(63, 62);
    deepest("replay_fresh", fresh_job);
    deepest("replay_report", report_job);
    deepest("replay_list", list_job);
    steps_on_images(63, 62);
    deepest("replay_step", step_job);
    deepest("replay_run", run_job);
    full_uploads(63);
    deepest("replay_upload", upload_job);
    into_batch();
    deepest("replay_entry", entry_job);
    deepest("replay_lines", lines_job);
    return 0;
}
