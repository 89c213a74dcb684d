"""The programs of examples/ over the static library: they compile without a warning, and what they print. The header's typed form, in every standard."""
import os
import re
import shutil
import socket
import struct
import subprocess
import tempfile
import unittest

from common import EXAMPLE, EXAMPLE_LINES, PAIRS, ROOT, data
import casetext
import outside

LIBRARY = os.path.join(ROOT, 'target', 'staticlib', 'libcapi.a')
CC, CXX = shutil.which('cc'), shutil.which('c++')

EVENTS = b'''\
h0 lr.w: retired
a byte at 72: retired
h1 lr.w: retired
h1 sc.w: sc stored broke 01 (h0)
h0 sc.w: sc failed
x7 of the harts: 1 0; the word at 64: 12345678
h0 fetches a zero word: trap 2 0000000000000000 (illegal instruction)
h2: refused 3 (the hart is not below the count)
9 bytes: refused 4 (a device write of 0 or more than 8 bytes)
8 bytes at 124: refused 5 (a device write not wholly in memory)
h1 lr.w: retired
h1 holds 4 bytes at 64
h1 yields: retired
h1 sc.w: sc failed
h0 lr.w: retired
h1 lr.w: retired
a byte at 67: retired broke 03 (h0 h1)
h1 sw at 72, sets of 64 bytes: retired broke 01 (h0)
h1 sw at 72, sets of 16 bytes: retired broke 01 (h0)
h1 sw at 72, sets of 8 bytes: retired
h1 sw at 72, sets of 12 bytes: refused 1 (the set size or the memory's length or base is wrong)
h0 lr.w: retired
a byte at 67, A 2.1: retired broke 01 (h0)
h0 sc.w: sc failed
h0 lr.w: retired
a byte at 67, A 2.0: retired
h0 sc.w: sc stored
h0 lr.w: refused 2 (a setting other than the set size, or the state, is wrong)
a byte at 67, A 2.2: refused 2 (a setting other than the set size, or the state, is wrong)
h0 sc.w: refused 2 (a setting other than the set size, or the state, is wrong)
a run of 5 events: performed 5
x7 of the harts: 1 0; the word at 64: 12345678
with a budget of 2: performed 2
with an event of hart 7: refused 11 at 96 (an event or the length of the events is wrong)
'''

# Every function that writes, with each buffer a byte short, a byte long and empty (too small, for a report), a state without misaligned, without kind,
# without version or without set_size too, as programs of versions 0.8, 0.7, 0.6 and 0.5 have it, and a block that isn't whole words, under any version
# and kind: nothing is written.
SIZES = '''
#include <stdlib.h>
#include <string.h>
#include "floecavern.h"
static uint8_t state[2345], mem[128], out[25], was_state[2345], was_mem[128], was_out[25];
static void check(uint64_t r)
{
    if (r != FLOECAVERN_BAD_SIZE || memcmp(state, was_state, 2345) || memcmp(mem, was_mem, 128) || memcmp(out, was_out, 25))
        abort();
}
int main(void)
{
    size_t sizeless = offsetof(floecavern_state, set_size), versionless = offsetof(floecavern_state, version);
    size_t kindless = offsetof(floecavern_state, kind), alignless = offsetof(floecavern_state, misaligned);
    was_state[0] = state[0] = 1;
    was_state[sizeless] = state[sizeless] = 64;
    was_state[versionless] = state[versionless] = 21;
    mem[0] = was_mem[0] = 0x13; /* addi x0,x0,0 is 0x00000013 */
    memset(out, 0xa5, 25);
    memset(was_out, 0xa5, 25);
    static const uint8_t event[24] = {1};
    static const char row[] = "0 0000000000000000 00000013 00 0000000000000000\\n";
    size_t sizes[][4] = {{2343, 8, 16, 24}, {2345, 8, 16, 24}, {sizeless, 8, 16, 24}, {versionless, 8, 16, 24}, {kindless, 8, 16, 24},
                         {alignless, 8, 16, 24}, {0, 8, 16, 24}, {2344, 7, 15, 23}, {2344, 9, 17, 25}, {2344, 0, 0, 0}};
    for (size_t i = 0; i < sizeof sizes / sizeof *sizes; i++) {
        size_t n = sizes[i][0], v = sizes[i][1], r = sizes[i][2], t = sizes[i][3];
        check(floecavern_step(state, n, 0, mem, 128, 0, out, v));
        check(floecavern_device_write(state, n, 0, mem, 128, 64, 1, 1, out, v));
        check(floecavern_yield(state, n, 0, mem, 128, 0, out, v));
        check(floecavern_run(state, n, 0, mem, 128, event, 24, 1, out, r));
        check(floecavern_replay(state, n, 0, mem, 128, (const uint8_t *)row, 48, out, t));
    }
    static uint8_t room[FLOECAVERN_REPORT_ROOM];
    for (size_t i = 0; i < 2; i++) {
        check(floecavern_report(event, 24, room, i == 0 ? 0 : FLOECAVERN_REPORT_ROOM - 1));
        for (size_t k = 0; k < sizeof room; k++)
            if (room[k] != 0)
                abort();
    }
    static uint8_t boards[408];
    static const size_t rooms[][2] = {{383, 16}, {385, 16}, {0, 16}, {384, 15}, {384, 17}, {384, 0}, {400, 24}};
    for (size_t i = 0; i < sizeof rooms / sizeof *rooms; i++)
        check(floecavern_read_settings(event, 24, boards, rooms[i][0], out, rooms[i][1]));
    for (size_t n = 0; n < sizeof boards; n++) {
        if (n % 24 != 0)
            check(floecavern_write_settings(boards, n, room, sizeof room, out, 8));
        if (n != 8)
            check(floecavern_write_settings(boards, 24, room, sizeof room, out, n < 25 ? n : 25));
    }
    for (size_t k = 0; k < sizeof boards; k++)
        if (boards[k] != 0 || room[k] != 0)
            abort();
    for (size_t n = 1; n < 8; n++) {
        if ((floecavern_check_loop(event, n) == FLOECAVERN_BAD_SIZE) != (n % 4 != 0))
            abort();
        for (uint64_t version = 19; version < 23; version++)
            for (uint64_t kind = 0; kind < 3; kind++)
                if ((floecavern_check_loop_for(version, kind, event, n) == FLOECAVERN_BAD_SIZE) != (n % 4 != 0))
                    abort();
    }
    if (floecavern_replay(state, 2344, 0, mem, 128, (const uint8_t *)row, 48, out, 24) != FLOECAVERN_STOP_AGREED || out[0] != 1 || out[1] != 0)
        abort();
    state[2056] = 0;
    return floecavern_step(state, 2344, 0, mem, 128, 0, out, 8) == FLOECAVERN_RETIRED ? 0 : 1;
}
'''


# The typed form, in the C that is also C++: each line that doesn't hold is printed. Then the texts, one line each.
TYPED = r"""
#include <stdio.h>
#include "floecavern.h"
#define CHECK(condition) do { if (!(condition)) printf("%d: %s\n", __LINE__, #condition); } while (0)
static uint8_t mem[128], bytes[24];
static const uint32_t loop[4] = {0x1002a32f, 0x00031663, 0x1882a3af, 0xfe039ae3};
static const uint32_t words[2] = {0x1002a32f, 0x1882a3af};
static floecavern_machine machine, was;
static floecavern_text text;

static void start(void)
{
    memset(mem, 0, sizeof mem);
    CHECK(floecavern_machine_start(&machine, 2, 4096, mem, sizeof mem) == FLOECAVERN_REFUSAL_NONE);
    CHECK(floecavern_machine_put_words(&machine, 4096, words, 2) == FLOECAVERN_REFUSAL_NONE);
    machine.state.x[0][5] = machine.state.x[1][5] = 4160;
}

/* An outcome that broke no reservation. */
static int is(floecavern_outcome o, floecavern_kind kind, int cause, uint64_t value, int refusal)
{
    return o.kind == kind && (int)o.cause == cause && o.value == value && (int)o.refusal == refusal && o.broke == 0;
}

static int refused(floecavern_outcome o, int number)
{
    return is(o, FLOECAVERN_REFUSED, 0, 0, number) && memcmp(&machine, &was, sizeof was) == 0;
}

static void outcomes(void)
{
    start();
    CHECK(machine.state.pc[1] == 4096 && machine.state.pc[2] == 0);
    CHECK(is(floecavern_machine_step(&machine, 0), FLOECAVERN_RETIRED, 0, 0, 0));
    CHECK(machine.state.reservation[0].held == 1 && machine.state.reservation[0].addr == 4160);
    CHECK(is(floecavern_machine_device_write(&machine, 4168, 2, 0xffabcd), FLOECAVERN_RETIRED, 0, 0, 0));
    CHECK(mem[72] == 0xcd && mem[73] == 0xab && mem[74] == 0);
    CHECK(is(floecavern_machine_step(&machine, 1), FLOECAVERN_RETIRED, 0, 0, 0));
    CHECK(is(floecavern_machine_yield_hart(&machine, 1), FLOECAVERN_RETIRED, 0, 0, 0));
    CHECK(machine.state.reservation[1].held == 0);
    CHECK(is(floecavern_machine_step(&machine, 1), FLOECAVERN_SC_FAILED, 0, 0, 0));
    CHECK(is(floecavern_machine_step(&machine, 0), FLOECAVERN_SC_STORED, 0, 0, 0));
    machine.state.pc[0] = 8192;
    CHECK(is(floecavern_machine_step(&machine, 0), FLOECAVERN_TRAP, FLOECAVERN_CAUSE_INSTRUCTION_ACCESS_FAULT, 8192, 0));
    was = machine;
    CHECK(refused(floecavern_machine_step(&machine, 2), FLOECAVERN_REFUSAL_HART));
    CHECK(refused(floecavern_machine_yield_hart(&machine, SIZE_MAX), FLOECAVERN_REFUSAL_HART));
    CHECK(refused(floecavern_machine_device_write(&machine, 4096, 9, 0), FLOECAVERN_REFUSAL_DEVICE_SIZE));
    CHECK(refused(floecavern_machine_device_write(&machine, 0, 1, 0), FLOECAVERN_REFUSAL_DEVICE_ADDRESS));
}

enum { LR = 0x1002a32f, SC = 0x1882a3af, SW = 0x0082a023, LW = 0x0002a303, AMOADD = 0x0082a4af, AMOCAS = 0x2882a4af,
       RET = 0x00008067 /* jalr x0,0(x1) */, JALR_X5 = 0x000082e7 /* jalr x5,0(x1), which writes the LR's rs1 */ };

/* Four harts with the word at their pc, hart 1 with these registers; all else is 0. Harts 0, 1 and 2 hold the 4 bytes at 4160,
 * hart 3 the 8 bytes at 4224. */
static void contended(uint32_t word, uint64_t x5, uint64_t x9)
{
    static uint8_t wide[320];
    size_t h;
    memset(wide, 0, sizeof wide);
    CHECK(floecavern_machine_start(&machine, 4, 4096, wide, sizeof wide) == FLOECAVERN_REFUSAL_NONE);
    CHECK(floecavern_machine_put_words(&machine, 4096, &word, 1) == FLOECAVERN_REFUSAL_NONE);
    for (h = 0; h < 4; h++) {
        machine.state.reservation[h].held = 1;
        machine.state.reservation[h].addr = h == 3 ? 4224 : 4160;
        machine.state.reservation[h].width = h == 3 ? 8 : 4;
    }
    machine.state.x[1][5] = x5;
    machine.state.x[1][9] = x9;
    was = machine;
}

static floecavern_outcome stepped(uint32_t word, uint64_t x5, uint64_t x9)
{
    contended(word, x5, x9);
    return floecavern_machine_step(&machine, 1);
}

static floecavern_outcome written(uint64_t addr, size_t size)
{
    contended(0, 0, 0);
    return floecavern_machine_device_write(&machine, addr, size, 0);
}

/* A retired event broke the reservations of these harts, and those that hold one afterwards are left. */
static int broke(floecavern_outcome o, floecavern_kind kind, uint64_t harts, uint64_t left)
{
    uint64_t held = 0;
    size_t h;
    for (h = 0; h < 4; h++)
        held |= machine.state.reservation[h].held << h;
    for (h = 0; h < 200; h++)
        if (floecavern_broke(&o, h) != (h < 8 ? (int)(harts >> h & 1) : 0))
            return 0;
    return o.kind == kind && o.broke == harts && held == left && (int)o.cause == 0 && o.value == 0 && (int)o.refusal == 0;
}

static void breaks(void)
{
    static const uint8_t told[8] = {5};
    uint8_t value[8];
    floecavern_outcome o;
    CHECK(broke(stepped(SW, 4160, 0), FLOECAVERN_RETIRED, 5, 10));
    CHECK(broke(stepped(SW, 4220, 0), FLOECAVERN_RETIRED, 5, 10));
    CHECK(broke(stepped(SW, 4224, 0), FLOECAVERN_RETIRED, 8, 7));
    CHECK(broke(stepped(SW, 4156, 0), FLOECAVERN_RETIRED, 0, 15));
    CHECK(broke(stepped(AMOADD, 4160, 0), FLOECAVERN_RETIRED, 5, 10));
    CHECK(broke(stepped(AMOCAS, 4160, 0), FLOECAVERN_RETIRED, 5, 10));
    CHECK(broke(stepped(SC, 4160, 0), FLOECAVERN_SC_STORED, 5, 8));
    CHECK(broke(stepped(AMOCAS, 4160, 1), FLOECAVERN_RETIRED, 0, 15)); /* x9 and the memory are not equal */
    CHECK(broke(stepped(LR, 4224, 0), FLOECAVERN_RETIRED, 0, 15) && machine.state.reservation[1].addr == 4224);
    CHECK(broke(stepped(LW, 4160, 0), FLOECAVERN_RETIRED, 0, 15));
    CHECK(broke(stepped(SC, 4224, 0), FLOECAVERN_SC_FAILED, 0, 13)); /* outside the set */
    CHECK(broke(written(4164, 8), FLOECAVERN_RETIRED, 0, 15)); /* in the set, beside the bytes that the LR read */
    CHECK(broke(written(4163, 1), FLOECAVERN_RETIRED, 7, 8));
    CHECK(broke(written(4231, 1), FLOECAVERN_RETIRED, 8, 7));
    contended(0, 0, 0);
    CHECK(broke(floecavern_machine_yield_hart(&machine, 1), FLOECAVERN_RETIRED, 0, 13));
    CHECK(is(stepped(SW, 4167, 0), FLOECAVERN_TRAP, FLOECAVERN_CAUSE_STORE_ADDRESS_MISALIGNED, 4167, 0));
    CHECK(is(stepped(SW, 8192 + 4, 0), FLOECAVERN_TRAP, FLOECAVERN_CAUSE_STORE_ACCESS_FAULT, 8196, 0));
    CHECK(memcmp(&machine, &was, sizeof was) == 0);
    CHECK(refused(floecavern_machine_step(&machine, 4), FLOECAVERN_REFUSAL_HART));
    CHECK(refused(written(4160, 9), FLOECAVERN_REFUSAL_DEVICE_SIZE));
    /* The same number as bytes: all 8 of them are written. */
    contended(SW, 4160, 0);
    memset(value, 0xa5, sizeof value);
    CHECK(floecavern_step((uint8_t *)&machine.state, sizeof machine.state, 4096, machine.mem, machine.mem_len, 1, value, 8) == FLOECAVERN_RETIRED);
    CHECK(memcmp(value, told, sizeof told) == 0);
    memset(&o, 0xff, sizeof o);
    CHECK(floecavern_broke(&o, 63) == 1 && floecavern_broke(&o, 64) == 0 && floecavern_broke(&o, SIZE_MAX) == 0);
}

/* Harts 0 and 1 hold the 4 bytes at lr, with sets of so many bytes; hart 1 has the word at its pc. */
static void reserved(uint64_t set_size, uint64_t lr, uint32_t word, uint64_t x5)
{
    static uint8_t large[8192];
    size_t h;
    memset(large, 0, sizeof large);
    CHECK(floecavern_machine_start(&machine, 2, 8192, large, sizeof large) == FLOECAVERN_REFUSAL_NONE);
    CHECK(machine.state.set_size == 64);
    machine.state.set_size = set_size;
    CHECK(floecavern_machine_run(&machine, NULL, 0, 0).refusal == FLOECAVERN_REFUSAL_NONE);
    CHECK(floecavern_machine_put_words(&machine, 8192, &word, 1) == FLOECAVERN_REFUSAL_NONE);
    for (h = 0; h < 2; h++) {
        machine.state.reservation[h].held = 1;
        machine.state.reservation[h].addr = lr;
        machine.state.reservation[h].width = 4;
    }
    machine.state.x[1][5] = x5;
}

/* Every size that is allowed. Two addresses that differ in one bit alone are in one set if the bit is worth less than the size. */
static void sets(void)
{
    uint64_t size, bit, lr = 8192 + 0x6a8;
    for (size = 8; size <= 4096; size *= 2)
        for (bit = 4; bit <= 4096; bit *= 2) {
            int in = bit < size;
            reserved(size, lr, SW, lr ^ bit);
            CHECK(broke(floecavern_machine_step(&machine, 1), FLOECAVERN_RETIRED, in ? 1 : 0, in ? 2 : 3));
            reserved(size, lr, SC, lr ^ bit);
            CHECK(broke(floecavern_machine_step(&machine, 1), in ? FLOECAVERN_SC_STORED : FLOECAVERN_SC_FAILED, in ? 1 : 0, in ? 0 : 1));
            reserved(size, lr, LR, lr ^ bit);
            CHECK(broke(floecavern_machine_step(&machine, 1), FLOECAVERN_RETIRED, 0, 3));
            CHECK(broke(floecavern_machine_device_write(&machine, lr ^ bit, 4, 0), FLOECAVERN_RETIRED, 2, 1));
            CHECK(machine.state.set_size == size);
        }
}

static int fits(uint64_t set_size, uint64_t base, size_t len)
{
    static uint8_t large[8192];
    floecavern_machine_start(&machine, 1, base, large, len);
    machine.state.set_size = set_size;
    return floecavern_machine_run(&machine, NULL, 0, 0).refusal == FLOECAVERN_REFUSAL_NONE;
}

static void wrong_sets(void)
{
    static const uint64_t wrong[] = {0, 1, 2, 4, 7, 9, 12, 24, 63, 65, 96, 4095, 4097, 6144, 8192, (uint64_t)1 << 63, UINT64_MAX};
    static const char row[] = "0 0000000000001000 1002a32f 06 0000000000000000\n";
    floecavern_event event = floecavern_event_step(0);
    size_t i, count;
    for (i = 0; i < sizeof wrong / sizeof *wrong; i++)
        for (count = 0; count < 3; count++) { /* 1 is tried before 2 */
            start();
            machine.state.set_size = wrong[i];
            machine.state.count = count;
            was = machine;
            CHECK(refused(floecavern_machine_step(&machine, 0), FLOECAVERN_REFUSAL_MEMORY));
            CHECK(refused(floecavern_machine_yield_hart(&machine, 9), FLOECAVERN_REFUSAL_MEMORY));
            CHECK(refused(floecavern_machine_device_write(&machine, 0, 0, 0), FLOECAVERN_REFUSAL_MEMORY));
            CHECK(floecavern_machine_run(&machine, &event, 1, 1).refusal == FLOECAVERN_REFUSAL_MEMORY);
            CHECK(floecavern_machine_replay(&machine, (const uint8_t *)row, 48).refusal == FLOECAVERN_REFUSAL_MEMORY);
            CHECK(memcmp(&machine, &was, sizeof was) == 0);
        }
    CHECK(fits(8, 64, 64) && fits(16, 64, 64) && fits(64, 64, 64) && !fits(8, 8, 64) && !fits(8, 64, 72));
    CHECK(fits(128, 128, 128) && !fits(128, 64, 128) && !fits(128, 128, 64) && !fits(128, 128, 192));
    CHECK(fits(4096, 4096, 4096) && fits(4096, 0, 8192) && !fits(4096, 0, 64) && !fits(4096, 64, 4096) && !fits(4096, 0, 4160));
    CHECK(fits(4096, (uint64_t)1 << 40, 4096) && !fits(4096, ((uint64_t)1 << 40) + 4096, 4096));
}

/* Hart 0's LR, a device write of 4 bytes and hart 0's SC. */
static void device_between(uint64_t version, uint64_t addr, int breaks)
{
    start();
    machine.state.version = version;
    machine.state.x[0][8] = 0x12345678;
    CHECK(is(floecavern_machine_step(&machine, 0), FLOECAVERN_RETIRED, 0, 0, 0));
    CHECK(broke(floecavern_machine_device_write(&machine, addr, 4, 0xdeadbeef), FLOECAVERN_RETIRED, breaks, !breaks));
    CHECK(mem[addr - 4096] == 0xef && mem[addr - 4096 + 3] == 0xde && mem[addr - 4096 + 4] == 0);
    CHECK(is(floecavern_machine_step(&machine, 0), breaks ? FLOECAVERN_SC_FAILED : FLOECAVERN_SC_STORED, 0, 0, 0));
    CHECK(mem[67] == (breaks ? (addr == 4160 ? 0xde : 0xef) : 0x12));
    CHECK(machine.state.version == version && machine.state.set_size == 64);
}

/* What a device write breaks is all that a state's version changes. */
static void versions(void)
{
    floecavern_event events[3];
    CHECK(FLOECAVERN_A_2_0 == 20 && FLOECAVERN_A_2_1 == 21);
    device_between(FLOECAVERN_A_2_1, 4160, 1);
    device_between(FLOECAVERN_A_2_1, 4163, 1);
    device_between(FLOECAVERN_A_2_1, 4164, 0);
    device_between(FLOECAVERN_A_2_0, 4160, 0);
    device_between(FLOECAVERN_A_2_0, 4163, 0);
    device_between(FLOECAVERN_A_2_0, 4164, 0);
    contended(SW, 4160, 0);
    machine.state.version = FLOECAVERN_A_2_0;
    CHECK(broke(floecavern_machine_device_write(&machine, 4160, 8, 0), FLOECAVERN_RETIRED, 0, 15));
    CHECK(broke(floecavern_machine_device_write(&machine, 4231, 1, 0), FLOECAVERN_RETIRED, 0, 15));
    CHECK(broke(floecavern_machine_step(&machine, 1), FLOECAVERN_RETIRED, 5, 10));
    CHECK(broke(floecavern_machine_yield_hart(&machine, 1), FLOECAVERN_RETIRED, 0, 8));
    was = machine;
    CHECK(refused(floecavern_machine_device_write(&machine, 4160, 9, 0), FLOECAVERN_REFUSAL_DEVICE_SIZE));
    CHECK(refused(floecavern_machine_device_write(&machine, 4409, 8, 0), FLOECAVERN_REFUSAL_DEVICE_ADDRESS));
    events[0] = floecavern_event_step(0);
    events[1] = floecavern_event_device_write(4160, 1, 7);
    events[2] = floecavern_event_step(0);
    start();
    CHECK(floecavern_machine_run(&machine, events, 3, SIZE_MAX).performed == 3 && machine.state.x[0][7] == 1 && mem[64] == 7);
    start();
    machine.state.version = FLOECAVERN_A_2_0;
    CHECK(floecavern_machine_run(&machine, events, 3, SIZE_MAX).performed == 3 && machine.state.x[0][7] == 0 && mem[64] == 0);
}

/* No versions; some have the number of one in a part of their bits. */
static const uint64_t wrong_version[] = {0, 1, 2, 19, 22, 32, 210, (uint64_t)20 << 32, 256 + 20, 65536 + 21, ((uint64_t)1 << 32) + 20,
                                         ((uint64_t)1 << 63) + 21, UINT64_MAX};

/* 2 is tried after 1, and before what is asked of a call alone. */
static void wrong_versions(void)
{
    static const char row[] = "0 0000000000001000 1002a32f 06 0000000000000000\n";
    floecavern_event event = floecavern_event_step(9);
    size_t i;
    for (i = 0; i < sizeof wrong_version / sizeof *wrong_version; i++) {
        start();
        machine.state.version = wrong_version[i];
        was = machine;
        CHECK(refused(floecavern_machine_step(&machine, 0), FLOECAVERN_REFUSAL_STATE));
        CHECK(refused(floecavern_machine_yield_hart(&machine, 9), FLOECAVERN_REFUSAL_STATE));
        CHECK(refused(floecavern_machine_device_write(&machine, 4160, 1, 1), FLOECAVERN_REFUSAL_STATE) && mem[64] == 0);
        CHECK(refused(floecavern_machine_device_write(&machine, 0, 0, 0), FLOECAVERN_REFUSAL_STATE));
        CHECK(floecavern_machine_run(&machine, &event, 1, 1).refusal == FLOECAVERN_REFUSAL_STATE);
        CHECK(floecavern_machine_replay(&machine, (const uint8_t *)row, 47).refusal == FLOECAVERN_REFUSAL_STATE);
        CHECK(memcmp(&machine, &was, sizeof was) == 0);
        machine.state.set_size = was.state.set_size = 24;
        CHECK(refused(floecavern_machine_step(&machine, 0), FLOECAVERN_REFUSAL_MEMORY));
        machine.state.set_size = was.state.set_size = 64;
        machine.mem_len = was.mem_len = 127;
        CHECK(refused(floecavern_machine_step(&machine, 0), FLOECAVERN_REFUSAL_MEMORY));
    }
}

enum { LR_D = 0x1002b32f, SC_D = 0x1882b3af, ADDI = 0x00130313 /* addi x6,x6,1 */, ADDIW = 0x0013031b, ADDW = 0x0083033b /* addw x6,x6,x8 */,
       SLLI_31 = 0x01f31313 /* slli x6,x6,31 */, SLLI_32 = 0x02031313, PAIR = 0x28a2b42f /* amocas.d x8,x10,(x5) */ };

/* A hart of a kind at 4096 with the word there and x5 = 4160, where 0x80000001 stands. */
static void start_kind(uint64_t kind, uint32_t word)
{
    static const uint32_t negative = 0x80000001;
    memset(mem, 0, sizeof mem);
    CHECK(floecavern_machine_start_kind(&machine, kind, 1, 4096, mem, sizeof mem) == FLOECAVERN_REFUSAL_NONE);
    CHECK(machine.state.kind == kind && machine.state.pc[0] == 4096 && machine.state.set_size == 64 && machine.state.version == 21);
    CHECK(floecavern_machine_put_words(&machine, 4096, &word, 1) == FLOECAVERN_REFUSAL_NONE);
    CHECK(floecavern_machine_put_words(&machine, 4160, &negative, 1) == FLOECAVERN_REFUSAL_NONE);
    machine.state.x[0][5] = 4160;
    was = machine;
}

/* What a word leaves in x6, by the kind. */
static void leaves(uint32_t word, uint64_t x6_32, uint64_t x6_64)
{
    start_kind(FLOECAVERN_KIND_32, word);
    CHECK(is(floecavern_machine_step(&machine, 0), FLOECAVERN_RETIRED, 0, 0, 0) && machine.state.x[0][6] == x6_32 && machine.state.kind == 1);
    start_kind(FLOECAVERN_KIND_64, word);
    CHECK(is(floecavern_machine_step(&machine, 0), FLOECAVERN_RETIRED, 0, 0, 0) && machine.state.x[0][6] == x6_64 && machine.state.kind == 0);
}

/* Legal words of the 64-bit core that the 32-bit one does not have: ld, lwu, sd, addw, addiw, a shift by 32, lr.d, sc.d, amoadd.d, amocas.q, and
 * amocas.d of an odd rd and of an odd rs2. */
static const uint32_t wide_word[] = {0x0002b303, 0x0002e303, 0x0082b023, ADDW, ADDIW, SLLI_32, LR_D, SC_D, 0x0082b4af, 0x28a2c42f, 0x28a2b4af, 0x28b2b42f};

static void kinds(void)
{
    static const char row[] = "0 0000000000001000 fff00313 06 00000000ffffffff\n", wide[] = "0 0000000000001000 fff00313 06 ffffffffffffffff\n";
    static const uint32_t minus_1 = 0xfff00313; /* addi x6,x0,-1 */
    floecavern_event event = floecavern_event_step(0);
    floecavern_replayed r;
    size_t i;
    CHECK(FLOECAVERN_KIND_64 == 0 && FLOECAVERN_KIND_32 == 1 && FLOECAVERN_STATE_SIZE == 2344);
    for (i = 0; i < sizeof wide_word / sizeof *wide_word; i++) {
        start_kind(FLOECAVERN_KIND_32, wide_word[i]);
        CHECK(is(floecavern_machine_step(&machine, 0), FLOECAVERN_TRAP, FLOECAVERN_CAUSE_ILLEGAL_INSTRUCTION, wide_word[i], 0));
        CHECK(memcmp(&machine, &was, sizeof was) == 0);
        start_kind(FLOECAVERN_KIND_64, wide_word[i]);
        CHECK(!is(floecavern_machine_step(&machine, 0), FLOECAVERN_TRAP, FLOECAVERN_CAUSE_ILLEGAL_INSTRUCTION, wide_word[i], 0));
    }
    leaves(minus_1, 0xffffffff, UINT64_MAX);
    leaves(LW, 0x80000001, UINT64_MAX - 0x7ffffffe);
    leaves(LR, 0x80000001, UINT64_MAX - 0x7ffffffe);
    leaves(0x80000337 /* lui x6,0x80000 */, 0x80000000, UINT64_MAX - 0x7fffffff);
    start_kind(FLOECAVERN_KIND_32, minus_1);
    CHECK(floecavern_machine_run(&machine, &event, 1, 1).performed == 1 && machine.state.x[0][6] == 0xffffffff);
    start_kind(FLOECAVERN_KIND_32, minus_1);
    CHECK(floecavern_machine_replay(&machine, (const uint8_t *)row, 48).kind == FLOECAVERN_STOP_AGREED && machine.state.x[0][6] == 0xffffffff);
    start_kind(FLOECAVERN_KIND_32, minus_1);
    r = floecavern_machine_replay(&machine, (const uint8_t *)wide, 48);
    CHECK(r.kind == FLOECAVERN_STOP_VALUE && r.board == UINT64_MAX && r.model == 0xffffffff);
    start_kind(FLOECAVERN_KIND_32, LW); /* an address is not cut to 32 bits where it is no register */
    CHECK(is(floecavern_machine_device_write(&machine, ((uint64_t)1 << 32) + 4160, 1, 0), FLOECAVERN_REFUSED, 0, 0, FLOECAVERN_REFUSAL_DEVICE_ADDRESS));
    CHECK(is(floecavern_machine_device_write(&machine, 4160, 8, UINT64_MAX), FLOECAVERN_RETIRED, 0, 0, 0) && mem[71] == 0xff);
}

/* AMOCAS.D at x5 of the words 0x80000001 and 0, with x8 and x9 and, in x10 and x11, 0xffffffff and 7: whether it swapped them. */
static int swapped(uint32_t word, uint64_t x8, uint64_t x9)
{
    static const uint8_t new_bytes[8] = {0xff, 0xff, 0xff, 0xff, 7}, old_bytes[8] = {1, 0, 0, 0x80};
    start_kind(FLOECAVERN_KIND_32, word);
    machine.state.x[0][1] = 9;
    machine.state.x[0][8] = x8;
    machine.state.x[0][9] = x9;
    machine.state.x[0][10] = 0xffffffff;
    machine.state.x[0][11] = 7;
    CHECK(is(floecavern_machine_step(&machine, 0), FLOECAVERN_RETIRED, 0, 0, 0));
    CHECK(machine.state.x[0][0] == 0 && machine.state.x[0][1] == 9);
    CHECK(memcmp(mem + 64, new_bytes, 8) == 0 || memcmp(mem + 64, old_bytes, 8) == 0);
    return memcmp(mem + 64, new_bytes, 8) == 0;
}

static void pairs(void)
{
    CHECK(swapped(PAIR, 0x80000001, 0) && machine.state.x[0][8] == 0x80000001 && machine.state.x[0][9] == 0);
    CHECK(!swapped(PAIR, 0x80000001, 1) && machine.state.x[0][8] == 0x80000001 && machine.state.x[0][9] == 0);
    CHECK(!swapped(PAIR, 0, 0x80000001) && machine.state.x[0][8] == 0x80000001 && machine.state.x[0][9] == 0);
    CHECK(!swapped(0x28a2b02f /* amocas.d x0,x10,(x5) */, 5, 6) && machine.state.x[0][8] == 5 && machine.state.x[0][9] == 6);
    start_kind(FLOECAVERN_KIND_32, PAIR);
    machine.state.x[0][5] = 4164;
    CHECK(is(floecavern_machine_step(&machine, 0), FLOECAVERN_TRAP, FLOECAVERN_CAUSE_STORE_ADDRESS_MISALIGNED, 4164, 0));
}

/* No kinds; some have the number of one in a part of their bits. */
static const uint64_t wrong_kind[] = {2, 3, 32, 64, 256, 257, (uint64_t)1 << 32, ((uint64_t)1 << 32) + 1, ((uint64_t)1 << 63) + 1, UINT64_MAX};

/* Every call of the machine is refused by a number, and nothing changes. */
static int all_refused(int number)
{
    static const char row[] = "0 0000000000001000 1002a32f 06 0000000000000000\n";
    floecavern_event event = floecavern_event_step(9);
    was = machine;
    return refused(floecavern_machine_step(&machine, 0), number) && refused(floecavern_machine_yield_hart(&machine, 9), number) &&
           refused(floecavern_machine_device_write(&machine, 0, 0, 0), number) &&
           (int)floecavern_machine_run(&machine, &event, 1, 1).refusal == number &&
           (int)floecavern_machine_replay(&machine, (const uint8_t *)row, 47).refusal == number && memcmp(&machine, &was, sizeof was) == 0;
}

static void wrong_kinds(void)
{
    const uint64_t top = (uint64_t)1 << 32;
    size_t i;
    for (i = 0; i < sizeof wrong_kind / sizeof *wrong_kind; i++) {
        CHECK(floecavern_machine_start_kind(&machine, wrong_kind[i], 1, 4096, mem, 128) == FLOECAVERN_REFUSAL_STATE);
        CHECK(machine.state.kind == wrong_kind[i] && all_refused(FLOECAVERN_REFUSAL_STATE));
        CHECK(floecavern_machine_start_kind(&machine, wrong_kind[i], 1, 4095, mem, 128) == FLOECAVERN_REFUSAL_MEMORY);
        CHECK(floecavern_machine_start_kind(&machine, wrong_kind[i], 1, top, mem, 128) == FLOECAVERN_REFUSAL_STATE);
    }
    for (i = 1; i < 35; i++) { /* the registers, the pc, a reservation; of the hart that is used, and of one that is not */
        start_kind(FLOECAVERN_KIND_32, ADDI);
        *(i < 32 ? &machine.state.x[7][i] : &machine.state.pc[7]) = top;
        machine.state.reservation[7].held = machine.state.reservation[7].width = 8;
        CHECK(is(floecavern_machine_step(&machine, 0), FLOECAVERN_RETIRED, 0, 0, 0));
        machine.state.reservation[0].held = i == 33;
        machine.state.reservation[0].addr = 4160;
        machine.state.reservation[0].width = 8;
        if (i != 33)
            *(i < 32 ? &machine.state.x[0][i] : &machine.state.pc[0]) = i == 34 ? UINT64_MAX - 3 : top;
        CHECK(all_refused(FLOECAVERN_REFUSAL_STATE));
        machine.state.kind = FLOECAVERN_KIND_64;
        CHECK(floecavern_machine_run(&machine, NULL, 0, 0).refusal == FLOECAVERN_REFUSAL_NONE);
    }
    CHECK(floecavern_machine_start_kind(&machine, FLOECAVERN_KIND_32, 1, top - 128, mem, 128) == FLOECAVERN_REFUSAL_NONE);
    CHECK(floecavern_machine_start_kind(&machine, FLOECAVERN_KIND_32, 0, top - 64, mem, 128) == FLOECAVERN_REFUSAL_MEMORY); /* 1 before 2 */
    CHECK(all_refused(FLOECAVERN_REFUSAL_MEMORY));
    CHECK(floecavern_machine_start_kind(&machine, FLOECAVERN_KIND_32, 1, top, mem, 64) == FLOECAVERN_REFUSAL_MEMORY);
    CHECK(floecavern_machine_start(&machine, 1, top, mem, 64) == FLOECAVERN_REFUSAL_NONE && machine.state.kind == FLOECAVERN_KIND_64);
}

/* How a state is begun, and how not. */
static void states(void)
{
    static const uint32_t nop = 0x13; /* addi x0,x0,0 */
    floecavern_state first = FLOECAVERN_STATE_INIT, second, zeros;
    uint8_t value[8];
    memset(&second, 0xa5, sizeof second);
    floecavern_state_start(&second, 8);
    CHECK(second.count == 8 && second.set_size == FLOECAVERN_SET_SIZE && second.version == FLOECAVERN_A_2_1 && first.count == 0);
    CHECK(second.kind == FLOECAVERN_KIND_64 && first.kind == FLOECAVERN_KIND_64);
    CHECK(second.misaligned == FLOECAVERN_MISALIGNED_4_AND_6 && first.misaligned == FLOECAVERN_MISALIGNED_4_AND_6);
    first.count = 8;
    CHECK(memcmp(&first, &second, sizeof first) == 0);
    memset(&zeros, 0, sizeof zeros);
    zeros.count = 8;
    first.set_size = first.version = 0;
    CHECK(memcmp(&first, &zeros, sizeof first) == 0); /* only set size and version have another default than 0 */
    memset(mem, 0, sizeof mem);
    memcpy(mem, &nop, sizeof nop);
    CHECK(floecavern_step((uint8_t *)&zeros, sizeof zeros, 0, mem, sizeof mem, 7, value, 8) == 512 + FLOECAVERN_REFUSAL_MEMORY);
    CHECK(memcmp(&first, &zeros, sizeof first) == 0);
    CHECK(floecavern_step((uint8_t *)&second, sizeof second, 0, mem, sizeof mem, 7, value, 8) == FLOECAVERN_RETIRED && second.pc[7] == 4);
    floecavern_state_start(&second, 0);
    CHECK(floecavern_step((uint8_t *)&second, sizeof second, 0, mem, sizeof mem, 0, value, 8) == 512 + FLOECAVERN_REFUSAL_STATE);
}

static void starts(void)
{
    CHECK(floecavern_machine_start(&machine, 2, 0, NULL, 128) == FLOECAVERN_REFUSAL_MEMORY);
    was = machine;
    CHECK(refused(floecavern_machine_step(&machine, 0), FLOECAVERN_REFUSAL_MEMORY));
    CHECK(refused(floecavern_machine_yield_hart(&machine, 0), FLOECAVERN_REFUSAL_MEMORY));
    CHECK(refused(floecavern_machine_device_write(&machine, 0, 1, 0), FLOECAVERN_REFUSAL_MEMORY));
    CHECK(floecavern_machine_put_words(&machine, 0, words, 1) == FLOECAVERN_REFUSAL_DEVICE_ADDRESS);
    CHECK(floecavern_machine_start(&machine, 2, 1, mem, 128) == FLOECAVERN_REFUSAL_MEMORY);
    CHECK(floecavern_machine_start(&machine, 2, 0, mem, 127) == FLOECAVERN_REFUSAL_MEMORY);
    CHECK(floecavern_machine_start(&machine, 0, 0, mem, 128) == FLOECAVERN_REFUSAL_STATE);
    CHECK(floecavern_machine_start(&machine, 9, 0, mem, 128) == FLOECAVERN_REFUSAL_STATE);
    CHECK(floecavern_machine_start(&machine, UINT64_MAX, 0, mem, 128) == FLOECAVERN_REFUSAL_STATE);
    start();
    CHECK(floecavern_machine_put_words(&machine, 4216, words, 2) == FLOECAVERN_REFUSAL_NONE && mem[124] == 0xaf);
    CHECK(floecavern_machine_put_words(&machine, 4224, words, 0) == FLOECAVERN_REFUSAL_NONE);
    CHECK(floecavern_machine_put_words(&machine, 4220, words, 2) == FLOECAVERN_REFUSAL_DEVICE_ADDRESS && mem[120] == 0x2f);
    CHECK(floecavern_machine_put_words(&machine, 4092, words, 1) == FLOECAVERN_REFUSAL_DEVICE_ADDRESS);
    CHECK(floecavern_machine_put_words(&machine, UINT64_MAX, words, 1) == FLOECAVERN_REFUSAL_DEVICE_ADDRESS);
    CHECK(floecavern_machine_put_words(&machine, 4096, words, SIZE_MAX) == FLOECAVERN_REFUSAL_DEVICE_ADDRESS);
    CHECK(floecavern_machine_put_words(&machine, 4096, NULL, 1) == FLOECAVERN_REFUSAL_DEVICE_ADDRESS && mem[0] == 0x2f);
}

static int ran(floecavern_ran r, int refusal, uint64_t performed, uint64_t place)
{
    return (int)r.refusal == refusal && r.performed == performed && r.place == place;
}

static void runs(void)
{
    static const uint8_t device[24] = {2, 0, 3, 0, 0, 0, 0, 0, 0x48, 0x10, 0, 0, 0, 0, 0, 0, 0xfe, 0xff, 0xff};
    floecavern_event events[3];
    events[0] = floecavern_event_step(0);
    events[1] = floecavern_event_device_write(4168, 3, UINT64_MAX - 1);
    events[2] = floecavern_event_yield_hart(1);
    floecavern_event_encode(&events[1], bytes);
    CHECK(memcmp(bytes, device, 24) == 0);
    start();
    CHECK(ran(floecavern_machine_run(&machine, events, 3, SIZE_MAX), 0, 3, 0) && mem[72] == 0xfe && mem[75] == 0);
    start();
    CHECK(ran(floecavern_machine_run(&machine, events, 3, 1), 0, 1, 0) && mem[72] == 0 && machine.state.pc[0] == 4100);
    was = machine;
    CHECK(ran(floecavern_machine_run(&machine, NULL, 0, 1), 0, 0, 0));
    CHECK(ran(floecavern_machine_run(&machine, NULL, 3, 1), 11, 0, 0));
    CHECK(ran(floecavern_machine_run(&machine, events, SIZE_MAX / 24 + 1, 1), 11, 0, 0));
    CHECK(ran(floecavern_machine_run(&machine, events, (size_t)1 << 61, 1), 11, 0, 0)); /* 24 times that is 0 modulo 2^64 */
    CHECK(ran(floecavern_machine_run_bytes(&machine, bytes, 23, 1), 11, 0, 0));
    CHECK(ran(floecavern_machine_run_bytes(&machine, NULL, 24, 1), 11, 0, 0));
    events[2] = floecavern_event_step(256);
    CHECK(ran(floecavern_machine_run(&machine, events, 3, 1), 11, 0, 48));
    events[2] = floecavern_event_yield_hart(SIZE_MAX);
    CHECK(ran(floecavern_machine_run(&machine, events, 3, 1), 11, 0, 48));
    events[1] = floecavern_event_device_write(4168, 257, 0);
    CHECK(ran(floecavern_machine_run(&machine, events, 3, 1), 11, 0, 24));
    events[1] = floecavern_event_device_write(4168, 0, 5);
    CHECK(ran(floecavern_machine_run(&machine, events, 3, 1), 11, 0, 24));
    CHECK(memcmp(&machine, &was, sizeof was) == 0);
    machine.state.count = 0;
    CHECK(ran(floecavern_machine_run(&machine, events, 3, 1), 2, 0, 0));
}

static int replayed(floecavern_replayed r, floecavern_stop kind, uint64_t rows, uint64_t board, uint64_t model)
{
    return r.kind == kind && r.rows == rows && r.board == board && r.model == model && (int)r.refusal == 0 && (int)r.cause == 0 && r.value == 0;
}

/* The log of a machine from start: hart 1's LR and SC, then hart 0's LR. */
static const char rows[] = "1 0000000000001000 1002a32f 06 0000000000000000\n"
                           "1 0000000000001004 1882a3af 07 0000000000000000\n"
                           "0 0000000000001000 1002a32f 06 0000000000000000\n";

/* The log with another byte, replayed from start. */
static floecavern_replayed other(size_t place, char byte)
{
    uint8_t log[144];
    memcpy(log, rows, 144);
    log[place] = (uint8_t)byte;
    start();
    return floecavern_machine_replay(&machine, log, 144);
}

static void replays(void)
{
    floecavern_replayed r;
    CHECK(replayed(other(0, '1'), FLOECAVERN_STOP_AGREED, 3, 0, 0) && machine.state.pc[0] == 4100 && machine.state.pc[1] == 4104);
    CHECK(replayed(other(48, '2'), FLOECAVERN_STOP_FORM, 1, 0, 0) && machine.state.pc[1] == 4100 && machine.state.reservation[1].held == 1);
    CHECK(replayed(other(48 + 17, '8'), FLOECAVERN_STOP_PC, 1, 4104, 4100));
    CHECK(replayed(other(96 + 26, 'e'), FLOECAVERN_STOP_WORD, 2, 0x1002a32e, 0x1002a32f) && machine.state.pc[1] == 4104);
    CHECK(replayed(other(48 + 28, '9'), FLOECAVERN_STOP_RD, 1, 97, 7) && machine.state.pc[1] == 4100 && machine.state.reservation[1].held == 1);
    CHECK(replayed(other(96 + 46, 'a'), FLOECAVERN_STOP_VALUE, 2, 10, 0) && machine.state.pc[0] == 4096 && machine.state.reservation[0].held == 0);
    start();
    machine.state.x[1][5] = 4161;
    r = floecavern_machine_replay(&machine, (const uint8_t *)rows, 144);
    CHECK(r.kind == FLOECAVERN_STOP_TRAP && r.cause == FLOECAVERN_CAUSE_LOAD_ADDRESS_MISALIGNED && r.value == 4161 && r.rows == 0 && r.model == 0);
    was = machine;
    r = floecavern_machine_replay(&machine, (const uint8_t *)rows, 143);
    CHECK(r.kind == FLOECAVERN_STOP_REFUSED && r.refusal == FLOECAVERN_REFUSAL_LOG_LENGTH && r.rows == 0);
    CHECK(floecavern_machine_replay(&machine, (const uint8_t *)rows, 0).refusal == FLOECAVERN_REFUSAL_LOG_EMPTY);
    CHECK(floecavern_machine_replay(&machine, NULL, 0).refusal == FLOECAVERN_REFUSAL_LOG_EMPTY);
    CHECK(floecavern_machine_replay(&machine, NULL, 48).refusal == FLOECAVERN_REFUSAL_LOG_LENGTH);
    CHECK(memcmp(&machine, &was, sizeof was) == 0);
    machine.mem = NULL;
    CHECK(floecavern_machine_replay(&machine, NULL, 1).refusal == FLOECAVERN_REFUSAL_MEMORY);
}

static int verdict(floecavern_verdict v, int refusal, int reason, uint64_t place)
{
    return (int)v.refusal == refusal && (int)v.reason == reason && v.place == place;
}

/* A block that has its first JALR at a place: under 2.1 it is rejected for that, under 2.0 for a reason elsewhere or, by 0, for none. */
static void with_jalr(uint32_t first, uint32_t second, uint32_t third, uint64_t jalr, int reason, uint64_t place)
{
    uint32_t block[3];
    uint64_t kind;
    block[0] = first;
    block[1] = second;
    block[2] = third;
    CHECK(verdict(floecavern_check_words(block, 3), 0, FLOECAVERN_REASON_NOT_PERMITTED, jalr));
    for (kind = FLOECAVERN_KIND_64; kind <= FLOECAVERN_KIND_32; kind++) {
        CHECK(verdict(floecavern_check_words_for(FLOECAVERN_A_2_0, kind, block, 3), 0, reason, place));
        CHECK(verdict(floecavern_check_words_for(FLOECAVERN_A_2_1, kind, block, 3), 0, FLOECAVERN_REASON_NOT_PERMITTED, jalr));
        CHECK(verdict(floecavern_check_words_for(22, kind, block, 3), FLOECAVERN_REFUSAL_STATE, 0, 0));
    }
}

static void loops(void)
{
    static const uint32_t backward = 0xfff28367; /* jalr x6,-1(x5): no jump of reason 3 */
    uint32_t long_block[17];
    size_t i, others = sizeof wrong_version / sizeof *wrong_version;
    with_jalr(LR, RET, SC, 1, 0, 0);
    with_jalr(LR, SC, RET, 2, 0, 0);
    with_jalr(LR, backward, SC, 1, 0, 0);
    with_jalr(LR, SC, JALR_X5, 2, 0, 0);
    with_jalr(LR, JALR_X5, SC, 1, FLOECAVERN_REASON_WRITES_RS1, 1);
    with_jalr(LR, RET, RET, 1, FLOECAVERN_REASON_NO_SC, 3);
    for (i = 0; i < 17; i++)
        long_block[i] = i == 0 ? LR : i == 15 ? SC : RET;
    CHECK(verdict(floecavern_check_words_for(FLOECAVERN_A_2_0, FLOECAVERN_KIND_64, long_block, 16), 0, 0, 0));
    for (i = 0; i < others + 2; i++) {
        int known = i >= others;
        uint64_t version = known ? i == others ? FLOECAVERN_A_2_0 : FLOECAVERN_A_2_1 : wrong_version[i];
        int refusal = known ? FLOECAVERN_REFUSAL_BLOCK : FLOECAVERN_REFUSAL_STATE;
        CHECK(verdict(floecavern_check_words_for(version, FLOECAVERN_KIND_64, loop, 4), known ? 0 : FLOECAVERN_REFUSAL_STATE, 0, 0));
        CHECK(verdict(floecavern_check_words_for(version, FLOECAVERN_KIND_64, loop, 1), refusal, 0, 0));
        CHECK(verdict(floecavern_check_words_for(version, FLOECAVERN_KIND_64, NULL, 0), refusal, 0, 0));
        CHECK(verdict(floecavern_check_words_for(version, FLOECAVERN_KIND_64, NULL, 4), refusal, 0, 0));
        CHECK(verdict(floecavern_check_words_for(version, FLOECAVERN_KIND_64, long_block, 17), refusal, 0, 0));
        CHECK(verdict(floecavern_check_words_for(version, FLOECAVERN_KIND_64, long_block, SIZE_MAX), refusal, 0, 0));
        /* The same numbers, of the function over bytes. */
        CHECK(floecavern_check_loop_for(version, FLOECAVERN_KIND_64, (const uint8_t *)loop, 16) ==
              (known ? FLOECAVERN_LOOP_ACCEPTED : FLOECAVERN_LOOP_SETTING_REFUSED));
        CHECK(floecavern_check_loop_for(version, FLOECAVERN_KIND_64, (const uint8_t *)loop, 4) ==
              (known ? FLOECAVERN_LOOP_REFUSED : FLOECAVERN_LOOP_SETTING_REFUSED));
        CHECK(floecavern_check_loop_for(version, FLOECAVERN_KIND_64, (const uint8_t *)loop, 3) == FLOECAVERN_BAD_SIZE);
    }
}

/* What the words of a block are, read as each kind reads them: a reason and its place, or 0. */
static void by_kind(uint32_t first, uint32_t second, uint32_t third, int reason32, uint64_t place32, int reason64, uint64_t place64)
{
    uint32_t block[3];
    uint64_t version;
    block[0] = first;
    block[1] = second;
    block[2] = third;
    CHECK(verdict(floecavern_check_words(block, 3), 0, reason64, place64));
    for (version = FLOECAVERN_A_2_0; version <= FLOECAVERN_A_2_1; version++) {
        CHECK(verdict(floecavern_check_words_for(version, FLOECAVERN_KIND_32, block, 3), 0, reason32, place32));
        CHECK(verdict(floecavern_check_words_for(version, FLOECAVERN_KIND_64, block, 3), 0, reason64, place64));
    }
}

static void loops_by_kind(void)
{
    size_t i;
    by_kind(LR, ADDI, SC, 0, 0, 0, 0);
    by_kind(LR, SLLI_31, SC, 0, 0, 0, 0);
    by_kind(LR_D, ADDI, SC_D, FLOECAVERN_REASON_NO_LR, 0, 0, 0);
    by_kind(LR, ADDI, SC_D, FLOECAVERN_REASON_NOT_PERMITTED, 2, FLOECAVERN_REASON_OTHER_SC, 2);
    by_kind(LR, ADDIW, SC, FLOECAVERN_REASON_NOT_PERMITTED, 1, 0, 0);
    by_kind(LR, SC, ADDW, FLOECAVERN_REASON_NOT_PERMITTED, 2, 0, 0);
    by_kind(LR, SLLI_32, SC, FLOECAVERN_REASON_NOT_PERMITTED, 1, 0, 0);
    by_kind(LR, PAIR, SC, FLOECAVERN_REASON_NOT_PERMITTED, 1, FLOECAVERN_REASON_NOT_PERMITTED, 1);
    for (i = 0; i < sizeof wrong_kind / sizeof *wrong_kind; i++) {
        CHECK(verdict(floecavern_check_words_for(FLOECAVERN_A_2_1, wrong_kind[i], loop, 4), FLOECAVERN_REFUSAL_STATE, 0, 0));
        CHECK(verdict(floecavern_check_words_for(FLOECAVERN_A_2_0, wrong_kind[i], loop, 1), FLOECAVERN_REFUSAL_STATE, 0, 0));
        CHECK(verdict(floecavern_check_words_for(22, wrong_kind[i], NULL, 0), FLOECAVERN_REFUSAL_STATE, 0, 0));
        CHECK(floecavern_check_loop_for(21, wrong_kind[i], (const uint8_t *)loop, 16) == FLOECAVERN_LOOP_SETTING_REFUSED);
        CHECK(floecavern_check_loop_for(21, wrong_kind[i], (const uint8_t *)loop, 15) == FLOECAVERN_BAD_SIZE);
    }
    CHECK(verdict(floecavern_check_words_for(FLOECAVERN_A_2_1, FLOECAVERN_KIND_32, NULL, 0), FLOECAVERN_REFUSAL_BLOCK, 0, 0));
    CHECK(floecavern_check_loop_for(FLOECAVERN_A_2_1, FLOECAVERN_KIND_32, (const uint8_t *)loop, 16) == FLOECAVERN_LOOP_ACCEPTED);
}

/* A misaligned LR, SC, AMO or AMOCAS by the setting, a load and a store whatever it is; no other number is taken. */
static void misaligned(void)
{
    static const struct {
        uint32_t word;
        floecavern_cause low, high;
    } access[] = {{LR, FLOECAVERN_CAUSE_LOAD_ADDRESS_MISALIGNED, FLOECAVERN_CAUSE_LOAD_ACCESS_FAULT},
                  {SC, FLOECAVERN_CAUSE_STORE_ADDRESS_MISALIGNED, FLOECAVERN_CAUSE_STORE_ACCESS_FAULT},
                  {0x0082a3af /* amoadd.w x7,x8,(x5) */, FLOECAVERN_CAUSE_STORE_ADDRESS_MISALIGNED, FLOECAVERN_CAUSE_STORE_ACCESS_FAULT},
                  {0x28a2c42f /* amocas.q x8,x10,(x5) */, FLOECAVERN_CAUSE_STORE_ADDRESS_MISALIGNED, FLOECAVERN_CAUSE_STORE_ACCESS_FAULT},
                  {LW, FLOECAVERN_CAUSE_LOAD_ADDRESS_MISALIGNED, FLOECAVERN_CAUSE_LOAD_ADDRESS_MISALIGNED},
                  {0x0082a023 /* sw x8,0(x5) */, FLOECAVERN_CAUSE_STORE_ADDRESS_MISALIGNED, FLOECAVERN_CAUSE_STORE_ADDRESS_MISALIGNED}};
    static const uint64_t wrong[] = {2, 3, 255, 256, 257, (uint64_t)1 << 32, UINT64_MAX};
    size_t i;
    for (i = 0; i < sizeof access / sizeof *access; i++) {
        start_kind(FLOECAVERN_KIND_64, access[i].word);
        machine.state.x[0][5] = 4162;
        CHECK(is(floecavern_machine_step(&machine, 0), FLOECAVERN_TRAP, access[i].low, 4162, 0));
        machine.state.misaligned = FLOECAVERN_MISALIGNED_5_AND_7;
        was = machine;
        CHECK(is(floecavern_machine_step(&machine, 0), FLOECAVERN_TRAP, access[i].high, 4162, 0));
        CHECK(memcmp(&machine, &was, sizeof was) == 0);
    }
    for (i = 0; i < sizeof wrong / sizeof *wrong; i++) {
        start_kind(FLOECAVERN_KIND_64, LR);
        machine.state.misaligned = wrong[i];
        was = machine;
        CHECK(refused(floecavern_machine_step(&machine, 0), FLOECAVERN_REFUSAL_STATE));
        CHECK(floecavern_machine_run(&machine, NULL, 0, 0).refusal == FLOECAVERN_REFUSAL_STATE && memcmp(&machine, &was, sizeof was) == 0);
    }
}

/* What boards are set to, written and read. */
static void settings(void)
{
    /* Format 1, two boards; the second one's version stands at 29. */
    static const uint8_t old[] = {1, 0, 0, 0, 2, 0, 0, 0, 24, 0, 0, 0, 3, 0, 0, 0, 27, 0, 0, 0, 3, 0, 0, 0, 0, 16, 20, 64, 0, 21};
    static const uint8_t untouched[FLOECAVERN_SETTINGS_ROOM] = {0};
    uint8_t file[FLOECAVERN_SETTINGS_ROOM] = {0}, bad[sizeof old];
    floecavern_board boards[FLOECAVERN_BOARDS + 1];
    floecavern_settings read = floecavern_settings_read(old, sizeof old);
    floecavern_written written;
    size_t i;
    CHECK(read.refusal == FLOECAVERN_REFUSAL_NONE && read.place == 0 && read.format == 1 && read.count == 2);
    CHECK(read.boards[0].set_size == 4096 && read.boards[0].version == FLOECAVERN_A_2_0 && read.boards[0].misaligned == 0);
    CHECK(read.boards[1].set_size == 64 && read.boards[1].version == FLOECAVERN_A_2_1 && read.boards[2].set_size == 0);
    memcpy(bad, old, sizeof old);
    bad[29] = 22;
    read = floecavern_settings_read(bad, sizeof bad);
    CHECK(read.refusal == FLOECAVERN_REFUSAL_SETTINGS_BOARD && read.place == 27 && read.format == 0 && read.count == 0 && read.boards[0].set_size == 0);
    read = floecavern_settings_read(old, sizeof old - 1);
    CHECK(read.refusal == FLOECAVERN_REFUSAL_SETTINGS_TABLE && read.place == 0);
    bad[0] = 3;
    CHECK(floecavern_settings_read(bad, 8).refusal == FLOECAVERN_REFUSAL_SETTINGS_FORMAT);
    CHECK(floecavern_settings_read(NULL, 8).refusal == FLOECAVERN_REFUSAL_SETTINGS_TABLE);
    for (i = 0; i <= FLOECAVERN_BOARDS; i++) {
        boards[i].set_size = (uint64_t)8 << i % 10;
        boards[i].version = 20 + i % 2;
        boards[i].misaligned = i / 2 % 2;
    }
    written = floecavern_settings_write(boards, FLOECAVERN_BOARDS, file, sizeof file);
    CHECK(written.refusal == FLOECAVERN_REFUSAL_NONE && written.place == 0 && written.len == FLOECAVERN_SETTINGS_ROOM);
    read = floecavern_settings_read(file, written.len);
    CHECK(read.format == 2 && read.count == FLOECAVERN_BOARDS && memcmp(read.boards, boards, sizeof read.boards) == 0);
    memset(file, 0, sizeof file);
    CHECK(floecavern_settings_write(boards, 2, file, 31).refusal == FLOECAVERN_REFUSAL_SETTINGS_TABLE);
    CHECK(floecavern_settings_write(boards, 0, file, sizeof file).refusal == FLOECAVERN_REFUSAL_SETTINGS_TABLE);
    CHECK(floecavern_settings_write(boards, FLOECAVERN_BOARDS + 1, file, sizeof file).refusal == FLOECAVERN_REFUSAL_SETTINGS_TABLE);
    CHECK(floecavern_settings_write(boards, SIZE_MAX, file, sizeof file).refusal == FLOECAVERN_REFUSAL_SETTINGS_TABLE);
    CHECK(floecavern_settings_write(NULL, 2, file, sizeof file).refusal == FLOECAVERN_REFUSAL_SETTINGS_TABLE);
    CHECK(floecavern_settings_write(boards, 2, NULL, 200).refusal == FLOECAVERN_REFUSAL_SETTINGS_TABLE);
    boards[1].misaligned = 256;
    written = floecavern_settings_write(boards, 2, file, sizeof file);
    CHECK(written.refusal == FLOECAVERN_REFUSAL_SETTINGS_BOARD && written.place == 28 && written.len == 0);
    CHECK(memcmp(file, untouched, sizeof file) == 0);
    start_kind(FLOECAVERN_KIND_32, LR);
    floecavern_state_set_board(&machine.state, &boards[3]);
    CHECK(machine.state.set_size == 64 && machine.state.version == 21 && machine.state.misaligned == 1 && machine.state.kind == FLOECAVERN_KIND_32);
}

static void others(void)
{
    floecavern_refused_at refused;
    CHECK(verdict(floecavern_check_words(loop, 4), 0, 0, 0));
    CHECK(verdict(floecavern_check_words(loop, 2), 0, FLOECAVERN_REASON_NO_SC, 2));
    CHECK(verdict(floecavern_check_words(loop + 1, 3), 0, FLOECAVERN_REASON_NO_LR, 0));
    CHECK(verdict(floecavern_check_words(loop, 1), FLOECAVERN_REFUSAL_BLOCK, 0, 0));
    CHECK(verdict(floecavern_check_words(NULL, 0), FLOECAVERN_REFUSAL_BLOCK, 0, 0));
    CHECK(verdict(floecavern_check_words(NULL, 4), FLOECAVERN_REFUSAL_BLOCK, 0, 0));
    refused = floecavern_report_text(NULL, 40, &text);
    CHECK(refused.refusal == FLOECAVERN_REFUSAL_FILE_LENGTH && refused.place == 0);
    CHECK(text.len == 12 && memcmp(text.bytes, "refused 7 0\n", 12) == 0);
    CHECK(FLOECAVERN_VERSION_MAJOR == 0 && FLOECAVERN_VERSION_MINOR == 9 && FLOECAVERN_VERSION_PATCH == 0);
}

int main(int argc, char **argv)
{
    static uint8_t file[65536];
    FILE *f = fopen(argv[argc - 1], "rb");
    size_t n = f == NULL ? 0 : fread(file, 1, sizeof file, f);
    uint64_t i;
    outcomes();
    breaks();
    sets();
    wrong_sets();
    versions();
    wrong_versions();
    kinds();
    pairs();
    wrong_kinds();
    states();
    starts();
    runs();
    replays();
    loops();
    loops_by_kind();
    misaligned();
    settings();
    others();
    CHECK(floecavern_report_text(file, n, &text).refusal == FLOECAVERN_REFUSAL_NONE && text.len > 40);
    file[720] = 9;
    CHECK(floecavern_report_text(file, n, &text).refusal == FLOECAVERN_REFUSAL_EVENTS);
    CHECK(floecavern_report_text(file, n, &text).place == 720);
    for (i = 0; i <= 9; i++)
        printf("cause %d %s\n", (int)i, floecavern_cause_text(i));
    for (i = 0; i <= 24; i++)
        printf("refusal %d %s\n", (int)i, floecavern_refusal_text(i));
    for (i = 0; i <= 7; i++)
        printf("reason %d %s\n", (int)i, floecavern_reason_text(i));
    return 0;
}
"""

# A stand-in for a library whose states have another size: it writes nothing, and the typed form tells it as a refusal that the model doesn't have.
OTHER_VERSION = r"""
#include <stdio.h>
#include "floecavern.h"
#pragma GCC diagnostic ignored "-Wunused-parameter"
#define STATE uint8_t *state, size_t state_len, uint64_t base, uint8_t *mem, size_t mem_len
#define OUT uint8_t *out, size_t out_len
uint64_t floecavern_step(STATE, size_t hart, OUT) { return FLOECAVERN_BAD_SIZE; }
uint64_t floecavern_device_write(STATE, uint64_t addr, size_t size, uint64_t data, OUT) { return FLOECAVERN_BAD_SIZE; }
uint64_t floecavern_yield(STATE, size_t hart, OUT) { return FLOECAVERN_BAD_SIZE; }
uint64_t floecavern_run(STATE, const uint8_t *events, size_t len, size_t budget, OUT) { return FLOECAVERN_BAD_SIZE; }
uint64_t floecavern_replay(STATE, const uint8_t *log, size_t len, OUT) { return FLOECAVERN_BAD_SIZE; }
uint64_t floecavern_check_loop_for(uint64_t version, uint64_t kind, const uint8_t *words, size_t len) { return FLOECAVERN_LOOP_REFUSED; }
uint64_t floecavern_read_settings(const uint8_t *file, size_t len, uint8_t *boards, size_t boards_len, OUT) { return FLOECAVERN_BAD_SIZE; }
uint64_t floecavern_write_settings(const uint8_t *boards, size_t len, uint8_t *file, size_t file_len, OUT) { return FLOECAVERN_BAD_SIZE; }

static void refused(floecavern_outcome o)
{
    printf("%d %d %d %d %s\n", o.kind == FLOECAVERN_REFUSED, (int)o.cause, (int)o.value, (int)o.broke, floecavern_refusal_text(o.refusal));
}

int main(void)
{
    static uint8_t mem[64];
    floecavern_machine m;
    floecavern_event event = floecavern_event_step(0);
    floecavern_ran ran;
    floecavern_replayed replayed;
    floecavern_verdict verdict;
    static const uint32_t words[2] = {0x1002a32f, 0x1882a3af};
    printf("%s\n", floecavern_refusal_text(floecavern_machine_start(&m, 1, 0, mem, sizeof mem)));
    refused(floecavern_machine_step(&m, 0));
    refused(floecavern_machine_yield_hart(&m, 0));
    refused(floecavern_machine_device_write(&m, 0, 1, 0));
    ran = floecavern_machine_run(&m, &event, 1, 1);
    printf("%d %d %s\n", (int)ran.performed, (int)ran.place, floecavern_refusal_text(ran.refusal));
    replayed = floecavern_machine_replay(&m, mem, 48);
    printf("%d %d %s\n", replayed.kind == FLOECAVERN_STOP_REFUSED, (int)replayed.rows, floecavern_refusal_text(replayed.refusal));
    verdict = floecavern_check_words(words, 2);
    printf("%d %d %s\n", (int)verdict.reason, (int)verdict.place, floecavern_refusal_text(verdict.refusal));
    return 0;
}
"""

CAUSES = ['instruction address misaligned', 'instruction access fault', 'illegal instruction', 'breakpoint', 'load address misaligned', 'load access fault',
          'store/AMO address misaligned', 'store/AMO access fault', 'environment call', 'no cause of the model']
REFUSALS = ['not refused', "the set size or the memory's length or base is wrong", 'a setting other than the set size, or the state, is wrong',
            'the hart is not below the count', 'a device write of 0 or more than 8 bytes', 'a device write not wholly in memory',
            'a block of fewer than 2 or more than 16 words', "the file's length is not 40 to 65536", 'the table of contents is wrong',
            'the harts body is wrong', "the memory body's length, or base plus length, is wrong",
            'an event or the length of the events is wrong', "the log's length is not a multiple of 48", 'the log has no rows',
            *['no refusal of the model'] * 7, "the settings file's length, number of boards, table or room is wrong", "the settings file's format is not 1 or 2",
            "a board's set size, version of A or misaligned is wrong", 'no refusal of the model']
REASONS = ['not rejected', 'place 0 is not an LR', 'a word that a retry loop may not hold', 'a jump or branch that a retry loop may not make',
           "the LR's rs1 is written before the SC", 'the SC has another width or rs1 than the LR', 'no SC', 'no reason of the model']
TEXTS = ''.join('%s %d %s\n' % (name, n, line) for name, lines in [('cause', CAUSES), ('refusal', REFUSALS), ('reason', REASONS)]
                for n, line in enumerate(lines))

C_STANDARDS, CXX_STANDARDS = ['c89', 'c99', 'c11', 'c17'], ['c++98', 'c++11', 'c++14', 'c++17']


# Calls of every function on a painted stack: prints how many bytes of it the deepest used, beyond what a thread that calls none does.
STACK = '''
#define _GNU_SOURCE
#include <pthread.h>
#include <stdio.h>
#include <string.h>
#include "floecavern.h"
enum { SIZE = 1 << 18 };
static uint8_t stack[SIZE] __attribute__((aligned(4096)));
static uint8_t file[65536], out[FLOECAVERN_REPORT_ROOM], mem[65536], value[8], ran[16], told[24], events[24 * 1000], boards[384], kept[200];
static size_t len;
static floecavern_state state = FLOECAVERN_STATE_INIT;
static void *nothing(void *p) { return p; }
static void *report(void *p) { floecavern_report(file, len, out, sizeof out); return p; }
static void *loop(void *p) { floecavern_check_loop(mem, 64); return p; }
static void *loop_for(void *p) { floecavern_check_loop_for(FLOECAVERN_A_2_0, FLOECAVERN_KIND_32, mem, 64); return p; }
static void *step(void *p) { floecavern_step((uint8_t *)&state, sizeof state, 0, mem, sizeof mem, 0, value, 8); return p; }
static void *device(void *p) { floecavern_device_write((uint8_t *)&state, sizeof state, 0, mem, sizeof mem, 64, 8, 1, value, 8); return p; }
static void *yield(void *p) { floecavern_yield((uint8_t *)&state, sizeof state, 0, mem, sizeof mem, 0, value, 8); return p; }
static void *run(void *p) { floecavern_run((uint8_t *)&state, sizeof state, 0, mem, sizeof mem, events, sizeof events, 1000, ran, 16); return p; }
static void *read_settings(void *p) { floecavern_read_settings(kept, 200, boards, sizeof boards, ran, 16); return p; }
static void *write_settings(void *p) { floecavern_write_settings(boards, sizeof boards, kept, sizeof kept, value, 8); return p; }
static void *replay(void *p)
{
    static const char row[] = "0 0000000000000000 1002a32f 06 000000001002a32e\\n";
    memset(&state.pc, 0, sizeof state.pc);
    floecavern_replay((uint8_t *)&state, sizeof state, 0, mem, sizeof mem, (const uint8_t *)row, 48, told, 24);
    return p;
}
static size_t used(void *(*call)(void *))
{
    pthread_attr_t attr;
    pthread_t thread;
    memset(stack, 0xa5, SIZE);
    pthread_attr_init(&attr);
    pthread_attr_setstack(&attr, stack, SIZE);
    if (pthread_create(&thread, &attr, call, NULL) != 0 || pthread_join(thread, NULL) != 0)
        return SIZE;
    size_t i = 0;
    while (i < SIZE && stack[i] == 0xa5)
        i++;
    return SIZE - i;
}
int main(int argc, char **argv)
{
    FILE *f = fopen(argv[argc - 1], "rb");
    len = fread(file, 1, sizeof file, f);
    fclose(f);
    state.count = 8;
    mem[0] = 0x2f, mem[1] = 0xa3, mem[2] = 0x02, mem[3] = 0x10; /* lr.w x6,(x5) */
    for (size_t i = 0; i < sizeof events; i += 24)
        events[i] = 1, events[i + 1] = i / 24 % 8;
    for (size_t i = 0; i < sizeof boards; i += 24)
        boards[i] = 64, boards[i + 8] = 21;
    void *(*calls[])(void *) = {report, loop, loop_for, step, device, yield, run, replay, write_settings, read_settings};
    size_t most = 0, none = used(nothing);
    for (size_t i = 0; i < sizeof calls / sizeof *calls; i++) {
        size_t n = used(calls[i]);
        most = n > most ? n : most;
    }
    printf("%zu", most - none);
    return 0;
}
'''


@unittest.skipUnless(shutil.which('nm') and os.path.exists(LIBRARY), 'no nm, or target/staticlib/libcapi.a is not built')
class Needs(unittest.TestCase):
    """What the library needs from outside, as the header says: a program without a C library gives it these two."""

    def test_memcpy_and_memset(self):
        run = subprocess.run(['nm', '-u', LIBRARY], stdout=subprocess.PIPE, check=True, text=True)
        self.assertEqual(set(re.findall(r' U (\S+)', run.stdout)), {'memcpy', 'memset'})


@unittest.skipUnless(CC and os.path.exists(LIBRARY), 'no C compiler, or target/staticlib/libcapi.a is not built')
class Library(unittest.TestCase):
    def setUp(self):
        self.folder = tempfile.mkdtemp()
        self.addCleanup(shutil.rmtree, self.folder)

    def output(self, source, *args, given=b'', compiler=CC, language='c', standard='c11'):
        """What a program prints, compiled with every warning an error."""
        program = os.path.join(self.folder, 'program')
        made = subprocess.run([compiler, '-x', language, '-std=' + standard, '-Wall', '-Wextra', '-pedantic', '-Wmissing-field-initializers', '-Werror',
                               '-I' + os.path.join(ROOT, 'include'), source, '-x', 'none', LIBRARY, '-pthread', '-o', program], capture_output=True)
        self.assertEqual((made.returncode, made.stderr.decode()), (0, ''))
        done = subprocess.run([program, *args], input=given, capture_output=True)
        self.assertEqual((done.returncode, done.stderr), (0, b''))
        return done.stdout

    def written(self, name, text):
        source = os.path.join(self.folder, name)
        with open(source, 'w') as file:
            file.write(text)
        return source

    def example(self, name, *args, given=b''):
        return self.output(os.path.join(ROOT, 'examples', name + '.c'), *args, given=given)

    def test_report(self):
        self.assertEqual(self.example('report', EXAMPLE), data(EXAMPLE_LINES))

    def test_loop(self):
        crate = os.path.join(ROOT, 'crates', 'loopcheck')
        self.assertEqual(self.example('loop', given=data(os.path.join(crate, 'stdin'))), data(os.path.join(crate, 'stdout')))

    def test_loop_lengths(self):
        bad = b'bad input: length is not a multiple of 4'
        for length, line in [(0, b'refused 6'), (67, bad), (68, b'refused 6'), (69, bad), (72, b'refused 6')]:
            self.assertEqual(self.example('loop', given=bytes(length)), line + b'\n')

    def test_loop_versions(self):
        """The version is the first argument, a decimal number; 2.1 without it."""
        jalr = struct.pack('<3I', 0x1002a32f, 0x00008067, 0x1882a3af)
        for args, line in [([], b'rejected 1 2'), (['21'], b'rejected 1 2'), (['20'], b'accepted'), (['020'], b'accepted'), (['0'], b'refused 2'),
                           (['22'], b'refused 2'), (['276'], b'refused 2'), (['%d' % (2**64 + 20)], b'refused 2'), (['9' * 100], b'refused 2')]:
            self.assertEqual(self.example('loop', *args, given=jalr), line + b'\n')
        self.assertEqual(self.example('loop', '22'), b'refused 2\n')
        self.assertEqual(self.example('loop', '22', given=b'abc'), b'bad input: length is not a multiple of 4\n')
        for args in [[''], ['x'], ['2x'], ['-20'], ['+20'], [' 20'], ['20 '], ['2.0'], ['20', ''], ['20', 'x'], ['20', '-1'], ['20', '0', '0']]:
            done = subprocess.run([self.built('loop'), *args], input=jalr, capture_output=True)
            self.assertEqual((done.returncode, done.stdout, done.stderr), (2, b'', b'usage: loop [VERSION [KIND]] < WORDS\n'))

    def test_loop_kinds(self):
        """The kind is the second argument; the 64-bit one without it."""
        wide, jalr = struct.pack('<2I', 0x1002b32f, 0x1882b3af), struct.pack('<3I', 0x1002a32f, 0x00008067, 0x1882a3af)  # lr.d, sc.d; lr.w, jalr, sc.w
        for block, args, line in [(wide, ['21'], b'accepted'), (wide, ['21', '0'], b'accepted'), (wide, ['21', '1'], b'rejected 0 1'),
                                  (wide, ['21', '01'], b'rejected 0 1'), (jalr, ['20', '1'], b'accepted'), (jalr, ['21', '1'], b'rejected 1 2'),
                                  (wide, ['21', '2'], b'refused 2'), (wide, ['22', '1'], b'refused 2'), (wide, ['21', '%d' % (2**64 + 1)], b'refused 2'),
                                  (b'', ['21', '2'], b'refused 2'), (b'', ['21', '1'], b'refused 6')]:
            self.assertEqual(self.example('loop', *args, given=block), line + b'\n')

    def test_events(self):
        self.assertEqual(self.example('events'), EVENTS)

    def test_pairs(self):
        self.assertEqual(self.example('pair32').decode(), PAIRS)

    def test_replay_of_32_bits(self):
        """The logs of request 10, and the case that says the kind: each as the program replay answers it."""
        for path in outside.cases(outside.LOGS):
            with self.subTest(log=os.path.basename(path)):
                done = subprocess.run([self.built('replay'), path + '.case', path + '.log'], capture_output=True)
                self.assertEqual((done.returncode, done.stdout, done.stderr), (0, data(path + '.out'), b''))

    def test_replay(self):
        crate = os.path.join(ROOT, 'crates', 'replay')
        case, log = os.path.join(crate, 'data', 'case'), os.path.join(crate, 'data', 'log')
        self.assertEqual(self.example('replay', case, log), data(os.path.join(crate, 'stdout')))
        rows = data(log).decode()
        for given, lines in [(rows[:480], 'log 10 rows\nagreed 10\nend 10\n'), (rows[:479], 'refused 12 0\n'), ('', 'refused 13 0\n'),
                             (rows[:96] + 'x' * 48, 'log 3 rows\nrow 2 form\nend 2\n')]:
            self.assertEqual(self.example('replay', case, self.written('log', given)).decode(), lines)
        self.assertEqual(self.example('replay', log, log), b'refused 7 0\n' if len(rows) > 65536 else b'refused 8 0\n')

    def test_stack(self):
        used = int(self.output(self.written('stack.c', STACK), EXAMPLE))
        self.assertTrue(4096 < used <= 16384, used)

    def test_wrong_sizes(self):
        self.assertEqual(self.output(self.written('sizes.c', SIZES)), b'')

    def test_typed_in_every_standard(self):
        """By every compiler that is there: cc and c++ are often GCC, and Clang warns of other things."""
        source = self.written('typed.c', TYPED)
        kinds = [('c', C_STANDARDS, {CC, shutil.which('clang')}), ('c++', CXX_STANDARDS, {CXX, shutil.which('clang++')})]
        for language, standards, compilers in kinds:
            for compiler in sorted(compilers - {None}):
                for standard in standards:
                    with self.subTest(compiler=compiler, standard=standard):
                        printed = self.output(source, EXAMPLE, compiler=compiler, language=language, standard=standard)
                        self.assertEqual(printed.decode(), TEXTS)

    def test_other_version(self):
        none = 'no refusal of the model\n'
        for compiler, language, standard in [(CC, 'c', 'c89'), (CC, 'c', 'c17'), (CXX, 'c++', 'c++17')]:
            if compiler is not None:
                printed = self.output(self.written('other.c', OTHER_VERSION), compiler=compiler, language=language, standard=standard)
                self.assertEqual(printed.decode(), none + 3 * ('1 0 0 0 ' + none) + '0 0 ' + none + '1 0 ' + none + '0 0 ' + none)

    def built(self, name):
        """An example's program, made once in a test."""
        program = os.path.join(self.folder, name)
        if os.path.exists(program):
            return program
        subprocess.run([CC, '-I' + os.path.join(ROOT, 'include'), os.path.join(ROOT, 'examples', name + '.c'), LIBRARY, '-o', program], check=True)
        return program

    def test_refused_report(self):
        """The example's exit status is that of writing; why a file is refused goes to standard error."""
        done = subprocess.run([self.built('report'), self.written('empty', '')], capture_output=True)
        self.assertEqual((done.returncode, done.stdout), (0, b'refused 7 0\n'))
        self.assertRegex(done.stderr.decode(), "empty: the file's length is not 40 to 65536 \\(byte 0\\)\n$")

    def long_case(self):
        """A case with more lines than C holds back."""
        path = os.path.join(self.folder, 'long.case')
        with open(path, 'wb') as file:
            file.write(casetext.make('memory 64\nhart 0\nevents\nstep 0 times 2000\n'))
        return path

    def test_output_that_is_lost(self):
        """The examples tell that not all could be written: on a full disk, and where standard output is closed."""
        crate = os.path.join(ROOT, 'crates', 'loopcheck')
        for name, args, given in [('report', [EXAMPLE], b''), ('report', [self.long_case()], b''), ('events', [], b''), ('pair32', [], b''),
                                  ('replay', [os.path.join(ROOT, 'crates', 'replay', 'data', name) for name in ['case', 'log']], b''),
                                  ('loop', [], data(os.path.join(crate, 'stdin'))), ('loop', [], b''), ('loop', [], b'abc')]:
            program = self.built(name)
            with open('/dev/full', 'wb') as full:
                done = subprocess.run([program, *args], input=given, stdout=full, stderr=subprocess.PIPE)
            self.assertEqual((done.returncode, done.stderr), (1, b'standard output: No space left on device\n'), name)
            done = subprocess.run(['/bin/sh', '-c', 'exec "$@" >&-', 'sh', program, *args], input=given, capture_output=True)
            self.assertEqual((done.returncode, done.stderr), (1, b'standard output: Bad file descriptor\n'), name)

    def test_input_that_is_not_read(self):
        """An input that can't be read, or not to its end, is no block."""
        program = self.built('loop')
        given = os.open(self.folder, os.O_RDONLY)
        done = subprocess.run([program], stdin=given, capture_output=True)
        os.close(given)
        self.assertEqual((done.returncode, done.stdout, done.stderr), (1, b'', b'standard input: Is a directory\n'))
        done = subprocess.run(['/bin/sh', '-c', 'exec "$@" <&-', 'sh', program], capture_output=True)
        self.assertEqual((done.returncode, done.stdout, done.stderr), (1, b'', b'standard input: Bad file descriptor\n'))
        for sent in (16, 68, 5000):
            mine, other = socket.socketpair()
            with mine, subprocess.Popen([program], stdin=mine, stdout=subprocess.PIPE, stderr=subprocess.PIPE) as process:
                mine.sendall(b'unread')
                other.sendall(bytes(sent))
                other.close()
                self.assertEqual(process.communicate(), (b'', b'standard input: Connection reset by peer\n'))
            self.assertEqual(process.returncode, 1)


class Versions(unittest.TestCase):
    def test_rust(self):
        """offset_of! came with Rust 1.77, whose Cargo reads lock files of format 3 and none above."""
        self.assertIn('\nrust-version = "1.77"\n', data(os.path.join(ROOT, 'rust', 'Cargo.toml')).decode())
        self.assertIn('\nversion = 3\n', data(os.path.join(ROOT, 'rust', 'Cargo.lock')).decode())
        self.assertTrue(b'Rust 1.77 or later' in data(os.path.join(ROOT, 'docs', 'USING.md')))

    def test_one_version(self):
        header = data(os.path.join(ROOT, 'include', 'floecavern.h')).decode()
        numbers = [re.search(r'#define FLOECAVERN_VERSION_%s (\d+)\n' % part, header).group(1) for part in ['MAJOR', 'MINOR', 'PATCH']]
        version = '.'.join(numbers)
        self.assertIn('#define FLOECAVERN_VERSION "%s"\n' % version, header)
        self.assertIn('\nversion = "%s"\n' % version, data(os.path.join(ROOT, 'rust', 'Cargo.toml')).decode())
        for folder in ['rust', 'bench']:
            self.assertIn('\nname = "floecavern"\nversion = "%s"\n' % version, data(os.path.join(ROOT, folder, 'Cargo.lock')).decode())
