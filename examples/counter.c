/* A program for the model: each hart adds to two counters, one by an AMO and one by an LR/SC loop (compare and exchange), waits for all harts, and
 * checks the sums. It ends in ecall (cause 8) if they are right, else in ebreak (cause 3). examples/counter.txt is a case that runs it. From the
 * repository's root, with Debian's gcc-riscv64-linux-gnu:
 *
 *   riscv64-linux-gnu-gcc -O2 -nostdlib -static -ffreestanding -march=rv64ia -mabi=lp64 -mno-relax \
 *     -Wl,-N,-Ttext=0x1000,--build-id=none examples/counter.c -o target/counter.elf
 *   tools/case make examples/counter.txt -o target/counter.case
 *   target/bin/floecavern < target/counter.case
 *
 * There is no C library and nothing that starts the program: the case gives each hart its stack (sp) and _start's arguments (a0, a1).
 */
#include <stdatomic.h>

static volatile int start = 7;          /* .data */
static atomic_int added, exchanged;     /* .bss */
static atomic_int finished;

static void end(int right)
{
    for (;;)
        if (right)
            __asm__ volatile("ecall");
        else
            __asm__ volatile("ebreak");
}

/* Of so many harts, the one that adds `hart + 1` in each of its five rounds. */
void _start(int hart, int harts)
{
    for (int round = 0; round < 5; round++) {
        atomic_fetch_add(&added, hart + 1);
        int was = atomic_load(&exchanged);
        while (!atomic_compare_exchange_weak(&exchanged, &was, was + hart + 1))
            ;
    }
    atomic_fetch_add(&finished, 1);
    while (atomic_load(&finished) != harts)
        ;
    int sum = 0;
    for (int k = 1; k <= harts; k++)
        sum += 5 * k;
    end(start == 7 && atomic_load(&added) == sum && atomic_load(&exchanged) == sum);
}
