/* Performs events on a machine of two harts, one by one and as a run. From the repository's root:
 *
 *   tools/build capi
 *   cc -Wall -Wextra -Iinclude examples/events.c target/staticlib/libcapi.a -o target/events
 *   target/events
 */
#include <inttypes.h>
#include <stdio.h>

#include "floecavern.h"

static uint8_t mem[128];
static floecavern_machine machine;

/* Two harts at pc 0, x5 = 64 in each, with two words at 0. */
static void start(void)
{
    static const uint32_t words[] = {0x1002a32f /* lr.w x6,(x5) */, 0x1882a3af /* sc.w x7,x8,(x5) */};
    memset(mem, 0, sizeof mem);
    floecavern_refusal refusal = floecavern_machine_start(&machine, 2, 0, mem, sizeof mem);
    if (refusal == FLOECAVERN_REFUSAL_NONE)
        refusal = floecavern_machine_put_words(&machine, 0, words, 2);
    if (refusal != FLOECAVERN_REFUSAL_NONE)
        printf("no machine: %s\n", floecavern_refusal_text(refusal));
    for (int h = 0; h < 2; h++)
        machine.state.x[h][5] = 64;
    machine.state.x[1][8] = 0x12345678;
}

/* The harts whose reservation an event broke, if it broke any: as on the line of a report, and by name. */
static void show_broke(const floecavern_outcome *o)
{
    if (o->broke == 0)
        return;
    printf(" broke %02" PRIx64 " (", o->broke);
    const char *between = "";
    for (size_t h = 0; h < machine.state.count; h++)
        if (floecavern_broke(o, h)) {
            printf("%sh%zu", between, h);
            between = " ";
        }
    printf(")");
}

static void show(const char *what, floecavern_outcome o)
{
    printf("%s: ", what);
    switch (o.kind) {
    case FLOECAVERN_RETIRED:
        printf("retired");
        break;
    case FLOECAVERN_SC_STORED:
        printf("sc stored");
        break;
    case FLOECAVERN_SC_FAILED:
        printf("sc failed");
        break;
    case FLOECAVERN_TRAP:
        printf("trap %d %016" PRIx64 " (%s)", (int)o.cause, o.value, floecavern_cause_text(o.cause));
        break;
    case FLOECAVERN_REFUSED:
        printf("refused %d (%s)", (int)o.refusal, floecavern_refusal_text(o.refusal));
        break;
    }
    show_broke(&o);
    printf("\n");
}

static void step(const char *what, size_t hart)
{
    show(what, floecavern_machine_step(&machine, hart));
}

static void device_write(const char *what, uint64_t addr, size_t size, uint64_t data)
{
    show(what, floecavern_machine_device_write(&machine, addr, size, data));
}

static void run(const char *what, const floecavern_event *events, size_t count, size_t budget)
{
    floecavern_ran ran = floecavern_machine_run(&machine, events, count, budget);
    if (ran.refusal == FLOECAVERN_REFUSAL_NONE)
        printf("%s: performed %" PRIu64 "\n", what, ran.performed);
    else
        printf("%s: refused %d at %" PRIu64 " (%s)\n", what, (int)ran.refusal, ran.place,
               floecavern_refusal_text(ran.refusal));
}

static void words(void)
{
    uint32_t word;
    memcpy(&word, mem + 64, sizeof word);
    printf("x7 of the harts: %" PRIu64 " %" PRIu64 "; the word at 64: %08" PRIx32 "\n", machine.state.x[0][7],
           machine.state.x[1][7], word);
}

/* Hart 1 stores at 72 while hart 0 holds the 4 bytes at 64, with sets of so many bytes. A state can be begun by itself, with
 * the initialiser: a state of zeros is refused, since its set size is 0. */
static void store_beside(const char *what, uint64_t set_size)
{
    static const uint32_t word = 0x0082a023; /* sw x8,0(x5) */
    floecavern_state state = FLOECAVERN_STATE_INIT;
    state.count = 2;
    state.set_size = set_size;
    state.x[1][5] = 72;
    state.reservation[0].held = 1;
    state.reservation[0].addr = 64;
    state.reservation[0].width = 4;
    machine.state = state;
    floecavern_machine_put_words(&machine, 0, &word, 1);
    step(what, 1);
}

/* Hart 0's LR, a device write to a byte that it read, and hart 0's SC, under a version of A. */
static void write_between(const char *what, uint64_t version)
{
    start();
    machine.state.version = version;
    step("h0 lr.w", 0);
    device_write(what, 67, 1, 0xff);
    step("h0 sc.w", 0);
}

/* Writes what is still held back. Where not all could be written (a full disk, say), says so; the exit status. */
static int written(void)
{
    if (fflush(stdout) == 0 && !ferror(stdout))
        return 0;
    perror("standard output");
    return 1;
}

int main(void)
{
    start();
    step("h0 lr.w", 0);
    device_write("a byte at 72", 72, 1, 0xff);
    step("h1 lr.w", 1);
    step("h1 sc.w", 1);
    step("h0 sc.w", 0);
    words();
    step("h0 fetches a zero word", 0);
    step("h2", 2);
    device_write("9 bytes", 64, 9, 0);
    device_write("8 bytes at 124", 124, 8, 0);

    start();
    step("h1 lr.w", 1);
    printf("h1 holds %" PRIu64 " bytes at %" PRIu64 "\n", machine.state.reservation[1].width,
           machine.state.reservation[1].addr);
    show("h1 yields", floecavern_machine_yield_hart(&machine, 1));
    step("h1 sc.w", 1);

    start();
    step("h0 lr.w", 0);
    step("h1 lr.w", 1);
    device_write("a byte at 67", 67, 1, 0xff);

    store_beside("h1 sw at 72, sets of 64 bytes", FLOECAVERN_SET_SIZE);
    store_beside("h1 sw at 72, sets of 16 bytes", 16);
    store_beside("h1 sw at 72, sets of 8 bytes", 8);
    store_beside("h1 sw at 72, sets of 12 bytes", 12);

    write_between("a byte at 67, A 2.1", FLOECAVERN_A_2_1);
    write_between("a byte at 67, A 2.0", FLOECAVERN_A_2_0);
    write_between("a byte at 67, A 2.2", 22);

    floecavern_event events[] = {floecavern_event_step(0), floecavern_event_device_write(72, 1, 0xff),
                                 floecavern_event_step(1), floecavern_event_step(1), floecavern_event_step(0)};
    start();
    run("a run of 5 events", events, 5, SIZE_MAX);
    words();
    start();
    run("with a budget of 2", events, 5, 2);
    events[4] = floecavern_event_step(7);
    run("with an event of hart 7", events, 5, SIZE_MAX);
    return written();
}
