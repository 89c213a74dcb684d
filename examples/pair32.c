/* A machine of the 32-bit kind: AMOCAS.D compares and swaps 8 bytes with pairs of its registers. examples/pair32.py does
 * the same from Python. From the repository's root:
 *
 *   tools/build capi
 *   cc -Wall -Wextra -Iinclude examples/pair32.c target/staticlib/libcapi.a -o target/pair32
 *   target/pair32
 */
#include <inttypes.h>
#include <stdio.h>

#include "floecavern.h"

static uint8_t mem[128];
static floecavern_machine machine;

static void show_refusal(const char *what, floecavern_refusal refusal)
{
    printf("%s: refusal %d: %s\n", what, (int)refusal, floecavern_refusal_text(refusal));
}

/* A hart at pc 0 with x5 = 64, where two words stand: in x8 and x9 the same, in x10 and x11 what is to replace them. */
static void start(void)
{
    static const uint32_t code[] = {0x28a2b42f /* amocas.d x8,x10,(x5) */, 0x28a2b42f,
                                    0x28a2b4af /* amocas.d x9,x10,(x5): rd is odd */};
    static const uint32_t data[] = {0x22222222, 0x11111111};
    floecavern_refusal refusal = floecavern_machine_start_kind(&machine, FLOECAVERN_KIND_32, 1, 0, mem, sizeof mem);
    if (refusal == FLOECAVERN_REFUSAL_NONE)
        refusal = floecavern_machine_put_words(&machine, 0, code, 3);
    if (refusal == FLOECAVERN_REFUSAL_NONE)
        refusal = floecavern_machine_put_words(&machine, 64, data, 2);
    if (refusal != FLOECAVERN_REFUSAL_NONE)
        show_refusal("no machine", refusal);
    machine.state.x[0][5] = 64;
    machine.state.x[0][8] = data[0];
    machine.state.x[0][9] = data[1];
    machine.state.x[0][10] = (uint32_t)-1; /* a register's upper half is zero */
    machine.state.x[0][11] = 7;
}

static void step(const char *what)
{
    floecavern_outcome o = floecavern_machine_step(&machine, 0);
    uint32_t words[2];
    memcpy(words, mem + 64, sizeof words);
    if (o.kind == FLOECAVERN_REFUSED)
        show_refusal(what, o.refusal);
    else if (o.kind == FLOECAVERN_TRAP)
        printf("%s: trap %d %016" PRIx64 ": %s\n", what, (int)o.cause, o.value, floecavern_cause_text(o.cause));
    else
        printf("%s: x8 %08" PRIx64 ", x9 %08" PRIx64 ", the words at 64 %08" PRIx32 " %08" PRIx32 "\n", what,
               machine.state.x[0][8], machine.state.x[0][9], words[0], words[1]);
}

/* Writes what is still held back. Where not all could be written (a full disk, say), says so; the exit status. */
static int written(void)
{
    if (fflush(stdout) == 0 && !ferror(stdout))
        return 0;
    perror("standard output");
    return 1;
}

int main(void)
{
    start();
    step("equal");
    step("not equal");
    step("rd is x9");
    machine.state.x[0][8] = UINT64_MAX;
    step("64 bits in x8");
    show_refusal("a memory that ends above 2^32",
                 floecavern_machine_start_kind(&machine, FLOECAVERN_KIND_32, 1, UINT32_MAX - 63, mem, sizeof mem));
    return written();
}
