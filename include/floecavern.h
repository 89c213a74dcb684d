/* Floecavern: a proved reference model of RISC-V atomics, as a static library for x86-64 Linux.
 *
 * `tools/build capi` proves the crate and writes target/staticlib/libcapi.a. It needs only memcpy and memset, keeps no
 * state, allocates nothing, reads and writes nothing but what it is lent, and may be called from several threads at
 * once, each with buffers of its own.
 *
 * Every function takes any values: nothing is asked of the contents or the lengths. What is asked is what C cannot
 * say: a pointer is not NULL, also where its length is 0; its length in bytes follows it, and that many bytes are the
 * caller's; a buffer that is written overlaps no other argument. A call needs up to 16 KiB of stack.
 *
 * The contracts are in crates/capi_c/src/lib.rt (those of crates/capi/src, whose functions it exports), the numbers in
 * crates/capi/specs/Answers.antt, Events.antt, Replay.antt and Boards.antt.
 *
 * The machine is performed in two ways: floecavern_report takes a whole case file; floecavern_step,
 * floecavern_device_write, floecavern_yield and floecavern_run take a state and a memory that the caller keeps, and so
 * does floecavern_replay, which compares a board's step log with the model. floecavern_check_loop and
 * floecavern_check_loop_for look at a block of words alone, and floecavern_read_settings and floecavern_write_settings
 * at a settings file, which says what boards are set to.
 *
 * Those ten functions take bytes and answer a number. The second half of this file is the typed form, for programs:
 * inline functions over the ten, with a machine, events and outcomes as structs. Compiles as C89 to C17 and as C++.
 */
#ifndef FLOECAVERN_H
#define FLOECAVERN_H

#include <stddef.h>
#include <stdint.h>
#include <string.h>

/* The version of this interface: of this header, of rust/ and of python/ alike. (That of the extension A is another
 * thing: FLOECAVERN_A_2_0 and FLOECAVERN_A_2_1, below.) The library has to be of the same one: a state may have another
 * size in another version, and a state of a wrong size is answered FLOECAVERN_BAD_SIZE. The typed form makes of that a
 * refusal whose text is "no refusal of the model", first of all in floecavern_machine_start. */
#define FLOECAVERN_VERSION "0.9.0"
#define FLOECAVERN_VERSION_MAJOR 0
#define FLOECAVERN_VERSION_MINOR 9
#define FLOECAVERN_VERSION_PATCH 0

/* A condition that must hold where this is compiled: name is an identifier that no other assertion has. */
#if defined(__cplusplus) && __cplusplus >= 201103L
#define FLOECAVERN_ASSERT(name, condition) static_assert(condition, #name)
#elif !defined(__cplusplus) && defined(__STDC_VERSION__) && __STDC_VERSION__ >= 201112L
#define FLOECAVERN_ASSERT(name, condition) _Static_assert(condition, #name)
#else
#define FLOECAVERN_ASSERT(name, condition) typedef char floecavern_assert_##name[(condition) ? 1 : -1]
#endif

#ifdef __cplusplus
extern "C" {
#endif

/* The answer to arguments of a wrong size. */
#define FLOECAVERN_BAD_SIZE UINT64_MAX

/* The versions of the extension A that the model has. A state says which one its machine follows, 2.1 by default. Under
 * 2.0 a device write breaks no reservation, since the text of 2.0 speaks only of harts, and a retry loop may have a JALR,
 * which that text does not exclude; all else is the same. */
#define FLOECAVERN_A_2_0 20
#define FLOECAVERN_A_2_1 21

/* The kinds of core that the model has: registers and addresses of 64 bits, or of 32. A state says which one its machine
 * is, and so does a case file; the default is the 64-bit one. What the 32-bit one is stands with the state, below. (The
 * type floecavern_kind is another thing: what an event came to.) */
#define FLOECAVERN_KIND_64 0
#define FLOECAVERN_KIND_32 1

/* What a misaligned LR, SC, AMO or AMOCAS gives: its own causes, 4 of an LR and 6 of the others, or those of an access
 * outside memory, 5 and 7, as the text of A 2.1 permits. A state says which, the first by default. A misaligned load is 4 and
 * a misaligned store 6 in either case, and the value is the address. */
#define FLOECAVERN_MISALIGNED_4_AND_6 0
#define FLOECAVERN_MISALIGNED_5_AND_7 1

/* The room that a report needs, in bytes. */
#define FLOECAVERN_REPORT_ROOM 262144

/* The report of a case file: all that the program `floecavern` writes for these bytes without a board, whatever they are. A file that is
 * no case gives one line, `refused NUMBER PLACE`. docs/USING.md has an example, byte by byte, and every line.
 *
 * file, file_len   the bytes of the case file
 * out, out_len     where the lines go: FLOECAVERN_REPORT_ROOM bytes or more
 *
 * A case file; numbers have their lowest byte first:
 *   at 0          the number 3, and of each body, kinds 1, 2 and 3, its kind, offset and length: 4 bytes each
 *   kind 1        harts: base (8 bytes), count of harts (4), kind of core (4); of each hart x1 to x31 and pc (8 bytes
 *                 each)
 *   kind 2        memory: its bytes
 *   kind 3        events: 24 bytes each, as for floecavern_run
 * The bodies follow one another without a gap from 40 to the end of the file. No hart starts with a reservation, a
 * reservation's set has FLOECAVERN_SET_SIZE bytes, the machine follows A 2.1, and a misaligned LR, SC, AMO or
 * AMOCAS gives cause 4 or 6: a case file says no other.
 *
 * Refusals, in the order they are tried, and the place, counted from the file's first byte: 7 the length is not 40 to
 * 65536 (0); 8 the table is wrong (its first wrong field; 36 if the last body does not end the file); 9 the harts body:
 * its length, count, kind of core, base or a pc, or, of a 32-bit core, the upper half of a register or a pc (40); 10 the
 * memory's length is not 64 or more and a multiple of 64, or, of a 32-bit core, base plus length is above 2^32 (its
 * start); 11 the events' length is not a multiple of 24 (their start), or an event is wrong (the event's start).
 *
 * Lines: `case H harts B bytes E events`; for event N `N hH ok`, `N hH sc 0`, `N hH sc 1`, `N hH trap CAUSE VALUE`,
 * `N d ok` or `N yH ok`; `end E`. Where the event broke reservations, `N hH ok`, `N hH sc 0` and `N d ok` have
 * ` broke XX` behind them: the harts that held them, two lower-case hex digits, bit 0 for hart 0.
 *
 * Answers how many bytes of out are the report: at most FLOECAVERN_REPORT_ROOM. No 0 byte ends them. What stands in
 * out between the report and FLOECAVERN_REPORT_ROOM is unspecified; what stands behind that is as it was.
 * Answers FLOECAVERN_BAD_SIZE, and leaves out as it was, if out_len is below FLOECAVERN_REPORT_ROOM.
 */
uint64_t floecavern_report(const uint8_t *file, size_t file_len, uint8_t *out, size_t out_len);

/* Whether a block of instruction words is a retry loop that is accepted under A 2.1, read as the 64-bit core reads them.
 *
 * words, words_len   the words, 4 bytes each, the lowest byte first; words_len counts bytes
 *
 * Answers
 *   FLOECAVERN_LOOP_ACCEPTED (0)   the block is accepted
 *   FLOECAVERN_LOOP_REFUSED (6)    it has fewer than 2 or more than 16 words: refusal 6
 *   256 * (place + 1) + reason     it is rejected: the lowest place, counted in words from 0, that has a reason, and the
 *                                  lowest reason there, 1 to 6. Such an answer is 257 or more
 *   FLOECAVERN_BAD_SIZE            words_len is not a multiple of 4
 *
 * The reasons: 1 place 0 is not an LR; 2 a later word, other than the first SC, is not LUI, AUIPC, JAL, a branch, or an
 * OP, OP-IMM, OP-32 or OP-IMM-32 word of RV64I; 3 a JAL or branch whose offset is not a multiple of 4, or is not above 0
 * unless it stands after the first SC and leads to place 0; 4 the LR or a word before the first SC writes the LR's rs1,
 * which is not x0; 5 the first SC has another width or another rs1 than the LR; 6 there is no SC (place: the number of
 * words).
 */
uint64_t floecavern_check_loop(const uint8_t *words, size_t words_len);

/* The same under a version of A, FLOECAVERN_A_2_0 or FLOECAVERN_A_2_1, and read as a kind of core reads them,
 * FLOECAVERN_KIND_64 or FLOECAVERN_KIND_32.
 *
 * Under 2.0 reason 2 does not apply to a JALR. Before the first SC reason 4 applies to its rd, as to that of any word
 * there; a JALR is no jump of reason 3. So, of each kind, the blocks that are accepted under 2.1 are exactly those that are
 * accepted under 2.0 and have no JALR. That an accepted loop finishes if it is left alone is proved of these blocks, on a
 * machine of the kind that they were read as, of either version; of a block with a JALR it is not claimed.
 *
 * Of the 32-bit kind the words are those of RV32I, LR.W and SC.W. So an LR.D at place 0 is reason 1; a later SC.D, LR.D,
 * OP-32 or OP-IMM-32 word or a shift by 32 or more is reason 2, and an SC.D is not the first SC.
 *
 * Answers, the first that applies of
 *   FLOECAVERN_BAD_SIZE                   words_len is not a multiple of 4
 *   FLOECAVERN_LOOP_SETTING_REFUSED (2)   the version or the kind is neither of the two: refusal 2
 *   FLOECAVERN_LOOP_REFUSED (6)           the block has fewer than 2 or more than 16 words: refusal 6
 *   256 * (place + 1) + reason            it is rejected, as above
 *   FLOECAVERN_LOOP_ACCEPTED (0)          it is accepted
 *
 * Before version 0.8.0 this function had no kind: the library has to be of this header's version, and no answer of this
 * function tells that it is not. A later version of this interface may add arguments again; floecavern_check_loop stays as
 * it is. */
uint64_t floecavern_check_loop_for(uint64_t version, uint64_t kind, const uint8_t *words, size_t words_len);

#define FLOECAVERN_LOOP_ACCEPTED 0
#define FLOECAVERN_LOOP_SETTING_REFUSED 2
#define FLOECAVERN_LOOP_REFUSED 6

/* The place and the reason of an answer r of either function that is 257 or more and not FLOECAVERN_BAD_SIZE. */
#define FLOECAVERN_LOOP_PLACE(r) ((r) / 256 - 1)
#define FLOECAVERN_LOOP_REASON(r) ((r) % 256)

/* ---- A machine of one's own ---- */

/* The state of the machine: 2344 bytes. A function that takes a state takes these bytes, as (uint8_t *)&state and
 * sizeof state; every number has 8 bytes, the lowest first, as x86-64 keeps them.
 *
 *   offset   field
 *        0   count: how many harts are used, 1 to 8
 *        8   x: register r of hart h, x[h][r], at 8 + 8 * (32 * h + r); x[h][0] is 0
 *     2056   pc: that of hart h at 2056 + 8 * h, a multiple of 4
 *     2120   reservation: that of hart h at 2120 + 24 * h, three numbers: held, addr and width. held 0: the hart has no
 *            reservation, and addr and width mean nothing; any other number: it has the one that an LR of width bytes
 *            (4 or 8) at addr made
 *     2312   set_size: how many bytes the set of a reservation has, of every hart: a power of two from 8 to 4096
 *     2320   version: that of A which the machine follows: FLOECAVERN_A_2_0 (20) or FLOECAVERN_A_2_1 (21)
 *     2328   kind: that of the core: FLOECAVERN_KIND_64 (0) or FLOECAVERN_KIND_32 (1)
 *     2336   misaligned: FLOECAVERN_MISALIGNED_4_AND_6 (0) or FLOECAVERN_MISALIGNED_5_AND_7 (1)
 *
 * A machine of the 32-bit kind. Registers, pcs and addresses have 32 bits, and sums of them are taken modulo 2^32. They
 * are kept as numbers of 64 bits whose upper half is zero, so that -1 in a register is 0xffffffff: of a hart below the
 * count any other register or pc is refused by 2. Every event keeps the upper halves zero, and the value of a trap has a
 * zero upper half too. The words are those of RV32I, LR.W, SC.W, the W AMOs, AMOCAS.W, and AMOCAS.D on pairs of
 * registers, an even one and the one above it: the 8 bytes, at a multiple of 8, are compared with the pair of rd, whose
 * even register is the lower 4 of them, and replaced by the pair of rs2 if they are equal; the pair of rd gets what was
 * there. The pair of x0 is zero, whatever x1 holds, and is not written. Every other word is cause 2: so are LD, LWU, SD,
 * OP-32 and OP-IMM-32, shifts by 32 or more, LR.D, SC.D, the D AMOs, AMOCAS.D with an odd rd or rs2, and AMOCAS.Q. A
 * reservation is 4 wide: a width of 8 is refused by 2. The memory ends at 2^32 or below: base plus length above that is
 * refused by 1. Versions of A, set sizes and device writes, of up to 8 bytes, are as with the 64-bit kind.
 *
 * A start without reservations is FLOECAVERN_STATE_INIT, or what floecavern_state_start writes, with count, registers and
 * pcs filled in. A state of zeros is no start: its set size is 0, and so it is refused by 1. A later version may have more
 * fields, behind these; a state that is begun by one of the two has their defaults too. */
typedef struct {
    uint64_t held;
    uint64_t addr;
    uint64_t width;
} floecavern_reservation;

typedef struct {
    uint64_t count;
    uint64_t x[8][32];
    uint64_t pc[8];
    floecavern_reservation reservation[8];
    uint64_t set_size;
    uint64_t version;
    uint64_t kind;
    uint64_t misaligned;
} floecavern_state;

#define FLOECAVERN_STATE_SIZE 2344

/* The set size that a state has by default, and that the machine of a case file has where no board is given. */
#define FLOECAVERN_SET_SIZE 64

/* A state with the defaults, to begin one with: floecavern_state state = FLOECAVERN_STATE_INIT; It has no harts yet: a
 * count of 0, which is refused by 2. */
#define FLOECAVERN_STATE_INIT \
    {0, {{0}}, {0}, {{0, 0, 0}}, FLOECAVERN_SET_SIZE, FLOECAVERN_A_2_1, FLOECAVERN_KIND_64, FLOECAVERN_MISALIGNED_4_AND_6}

FLOECAVERN_ASSERT(a_state_is_2344_bytes, sizeof(floecavern_state) == FLOECAVERN_STATE_SIZE);
FLOECAVERN_ASSERT(x_stands_at_8, offsetof(floecavern_state, x) == 8);
FLOECAVERN_ASSERT(pc_stands_at_2056, offsetof(floecavern_state, pc) == 2056);
FLOECAVERN_ASSERT(reservations_stand_at_2120, offsetof(floecavern_state, reservation) == 2120);
FLOECAVERN_ASSERT(set_size_stands_at_2312, offsetof(floecavern_state, set_size) == 2312);
FLOECAVERN_ASSERT(version_stands_at_2320, offsetof(floecavern_state, version) == 2320);
FLOECAVERN_ASSERT(kind_stands_at_2328, offsetof(floecavern_state, kind) == 2328);
FLOECAVERN_ASSERT(misaligned_stands_at_2336, offsetof(floecavern_state, misaligned) == 2336);

/* The memory is the caller's bytes: mem_len of them, 64 to 1048576, at the address base, at most 2^40. Both are multiples
 * of 64, and of the state's set_size where that is larger. Of the 32-bit kind base plus mem_len is at most 2^32.
 *
 * What an event is answered:
 *
 *   FLOECAVERN_RETIRED (0)      it is retired: a step that is no SC, a device write, a yield
 *   FLOECAVERN_SC_STORED (1)    a step that retired an SC, which stored: also where its rd is x0
 *   FLOECAVERN_SC_FAILED (2)    a step that retired an SC, which failed
 *   256 + cause                 the step trapped: FLOECAVERN_IS_TRAP, FLOECAVERN_CAUSE
 *   512 + number                it is refused: FLOECAVERN_IS_REFUSAL, FLOECAVERN_NUMBER
 *   FLOECAVERN_BAD_SIZE         state_len is not 2344 or value_len is not 8
 *
 * Causes, and the value with each: 0 a jump or taken branch to a target that is not a multiple of 4 (the target); 1 the
 * word at pc is not wholly in memory (pc); 2 the word is no instruction of the core (the word); 3 EBREAK (0); 4 a
 * misaligned load or LR, 5 an aligned one not wholly in memory (the address); 6 a misaligned store, SC, AMO or AMOCAS,
 * 7 an aligned store, SC, AMO or AMOCAS not wholly in memory, SC also without a reservation, AMOCAS also where it would
 * not write (the address); 8 ECALL (0). Where misaligned is 1, a misaligned LR is 5 and a misaligned SC, AMO or AMOCAS 7,
 * in memory or not. A trap changes nothing: an SC that traps leaves its hart's reservation.
 *
 * Refusals, in the order they are tried: 1 the set size breaks the rules above, or else the length of memory or the base
 * does, or else, of the 32-bit kind, their sum; 2 so does the rest of the state: its count, its version, its kind or its
 * misaligned; or, of a hart below the count, x0 is not 0, pc is not a multiple of 4, or the reservation's width is not 4 or 8, its
 * address not aligned to that, or its bytes not in memory; or, of the 32-bit kind, a register or the pc has an upper half
 * that is not zero, or the reservation is 8 wide; 3 the hart is not below the count; 4 a device write of 0 or more than 8
 * bytes; 5 one not wholly in memory; 11, of a run alone: its events; 12 and 13, of a replay alone: its log.
 *
 * What is written. value gets 8 bytes, the lowest first: of a retired event, answers 0 to 2, the harts whose reservation
 * it broke, bit 0 for hart 0, so 0 where it broke none; of a trap, the trap's value; of a refusal, 0. A retired event
 * changes state and memory as the model says: of the state, the registers and the pcs, and each used hart's reservation,
 * of which it writes held 1, addr and width, or three zeros, also where it is as before. The count and the four
 * settings, from the set size on, never change, and no byte of a hart at or above the count. An answer of 256 or more to an event or
 * a run leaves every byte of state and memory as it was; FLOECAVERN_BAD_SIZE leaves value too. After each call the bytes
 * mean the state that the model's answer has, so calls one after another perform events one after another
 * (crates/capi_means/proofs/Means.antt).
 *
 * Whose reservation is broken. A retired write of a hart (a store, an AMO, an equal AMOCAS, an SC that stored) breaks a
 * reservation of another hart if it touches a byte of its set, the aligned set_size bytes around the LR's address. A
 * device write breaks a hart's reservation if it touches a byte that the LR read, whatever the set size. Both do also
 * where they write the bytes that were there. Under A 2.0 a device write breaks no reservation; its bytes are written all
 * the same. A step never sets the bit of its own hart, also where it drops that hart's reservation (an SC) or replaces it
 * (an LR). So value is 0 after a retired event that writes nothing: a load, an LR, an unequal AMOCAS,
 * FLOECAVERN_SC_FAILED, a yield. Only bits below the count are ever set, so it is at most 255; what a hart at or above the
 * count seems to hold is not looked at (crates/capi_means/proofs/Values.antt). A run and a replay do not tell what their
 * events broke.
 *
 * A memory of a wrong length, as a wrong base or set size, is refusal 1 and no bad size.
 *
 * The macros below are for answers to events, runs, replays and settings files, not for those about a retry loop; some use
 * r twice. */
typedef enum {
    FLOECAVERN_RETIRED = 0,
    FLOECAVERN_SC_STORED = 1,
    FLOECAVERN_SC_FAILED = 2,
    FLOECAVERN_TRAP = 256,   /* 256 + cause, in an answer */
    FLOECAVERN_REFUSED = 512 /* 512 + number, in an answer */
} floecavern_kind;

#define FLOECAVERN_IS_TRAP(r) ((r) >= 256 && (r) < 512)
#define FLOECAVERN_CAUSE(r) ((r) - 256)
#define FLOECAVERN_IS_REFUSAL(r) ((r) >= 512 && (r) != FLOECAVERN_BAD_SIZE)
#define FLOECAVERN_NUMBER(r) ((r) - 512)

/* A step of a hart: fetches the word at its pc and performs it. Refusals 1 to 3. */
uint64_t floecavern_step(uint8_t *state, size_t state_len, uint64_t base, uint8_t *mem, size_t mem_len, size_t hart,
                         uint8_t *value, size_t value_len);

/* A device writes the size lowest bytes of data at addr, the lowest first: 1 to 8 bytes. Refusals 1, 2, 4 and 5. */
uint64_t floecavern_device_write(uint8_t *state, size_t state_len, uint64_t base, uint8_t *mem, size_t mem_len,
                                 uint64_t addr, size_t size, uint64_t data, uint8_t *value, size_t value_len);

/* A yield: drops the hart's reservation. Refusals 1 to 3. */
uint64_t floecavern_yield(uint8_t *state, size_t state_len, uint64_t base, uint8_t *mem, size_t mem_len, size_t hart,
                          uint8_t *value, size_t value_len);

/* A run of events, the first budget of them or all if there are fewer. Traps do not stop it.
 *
 * events, events_len   24 bytes an event: kind (1 step, 2 device write, 3 yield), hart and size, a byte each; five zeros;
 *                      address and data, 8 bytes each with the lowest first, data zero above size. Fields that a kind
 *                      does not use are zero
 * ran, ran_len         16 bytes, which get two numbers of 8 bytes, the lowest first: how many events were performed; and
 *                      the place of refusal 11, counted in bytes from the first event. A refused run performed 0, and
 *                      the place is 0 with every other answer
 *
 * Answers
 *   FLOECAVERN_PERFORMED (0)   the smaller of budget and the number of events was performed; the state is written as
 *                              after a retired event, whatever the events came to, also if there were none
 *   512 + number               the run is refused, and state and memory are as they were: 1 or 2 as above; 11 if events
 *                              is no multiple of 24 bytes (place 0) or an event's kind, hart, size, address or zeros are
 *                              wrong (the place of the first such event), also beyond the budget
 *   FLOECAVERN_BAD_SIZE        state_len is not 2344 or ran_len is not 16: nothing is written
 *
 * To perform n events costs less by one run than by n calls: each call reads the 2344 bytes and writes them. */
uint64_t floecavern_run(uint8_t *state, size_t state_len, uint64_t base, uint8_t *mem, size_t mem_len,
                        const uint8_t *events, size_t events_len, size_t budget, uint8_t *ran, size_t ran_len);

#define FLOECAVERN_PERFORMED 0

/* A board's step log, replayed: the hart of each row steps, up to the first row that does not agree with the model.
 *
 * log, log_len     48 bytes a row: `H PPPPPPPPPPPPPPPP WWWWWWWW DD VVVVVVVVVVVVVVVV` and a line feed. The hart, one decimal
 *                  digit; its pc and the word there, lower-case hex digits; rd, two decimal digits, and the value in rd
 *                  after the step, hex digits. rd is 00 and its value zero where the word has no rd, as FENCE, a branch
 *                  or a store; of a pair it is the first register. pc and value have 16 digits for a 32-bit core too, the
 *                  upper 8 of them zeros in a row that agrees. A log has no greatest length
 * told, told_len   24 bytes, which get three numbers of 8 bytes, the lowest first: how many rows there are before the
 *                  stop, which is the number of the row that stopped it, from 0; the board's value; the model's value
 *
 * Answers, each row tried in the order of this list, and what is told behind the number of rows
 *   FLOECAVERN_STOP_AGREED (0)   every row agreed (0, 0)
 *   FLOECAVERN_STOP_FORM (1)     the row is badly formed, or its hart is not below the count (0, 0)
 *   FLOECAVERN_STOP_PC (2)       its pc is not the hart's (the row's pc, the hart's)
 *   FLOECAVERN_STOP_WORD (3)     its word is not the one at the pc, which is wholly in memory (the row's word, that one)
 *   256 + cause                  the step traps (0, the trap's value)
 *   FLOECAVERN_STOP_RD (4)       its rd is not the word's (the row's rd, the word's)
 *   FLOECAVERN_STOP_VALUE (5)    its value is not what rd holds after the step (the row's value, what rd holds)
 *   512 + number                 the replay is refused, and state and memory are as they were: 1 or 2 as above; 12 the
 *                                log is no multiple of 48 bytes; 13 it has no rows (0, 0, behind 0 rows)
 *   FLOECAVERN_BAD_SIZE          state_len is not 2344 or told_len is not 24: nothing is written
 *
 * A stop, also one by a trap, is no refusal: state and memory are then written as after exactly the rows before it, and
 * with FLOECAVERN_STOP_AGREED as after all of them. What the bytes mean afterwards is the state that the model's replay
 * has (crates/capi_means/proofs/ReplayMeans.antt); so a log that is cut between two rows can be replayed by two calls. */
uint64_t floecavern_replay(uint8_t *state, size_t state_len, uint64_t base, uint8_t *mem, size_t mem_len,
                           const uint8_t *log, size_t log_len, uint8_t *told, size_t told_len);

/* Why a replay ended. */
typedef enum {
    FLOECAVERN_STOP_AGREED = 0,
    FLOECAVERN_STOP_FORM = 1,
    FLOECAVERN_STOP_PC = 2,
    FLOECAVERN_STOP_WORD = 3,
    FLOECAVERN_STOP_RD = 4,
    FLOECAVERN_STOP_VALUE = 5,
    FLOECAVERN_STOP_TRAP = 256,   /* 256 + cause, in an answer */
    FLOECAVERN_STOP_REFUSED = 512 /* 512 + number, in an answer */
} floecavern_stop;

#define FLOECAVERN_ROW_SIZE 48

/* ---- What boards are set to ---- */

/* A board, as a settings file says it: 24 bytes, three numbers as a state has them. The kind of the core is not among
 * them: every case says its own. */
typedef struct {
    uint64_t set_size;
    uint64_t version;
    uint64_t misaligned;
} floecavern_board;

#define FLOECAVERN_BOARD_SIZE 24
#define FLOECAVERN_BOARDS 16         /* the most boards that a settings file has */

/* The bytes of the longest settings file. A program that reads one from a disk takes one byte more than this, if there is
 * one: cut off at this length, a longer file, which is refused, may look like a good one. */
#define FLOECAVERN_SETTINGS_ROOM 200

FLOECAVERN_ASSERT(a_board_is_24_bytes, sizeof(floecavern_board) == FLOECAVERN_BOARD_SIZE);

/* A settings file; numbers have their lowest byte first:
 *   at 0             its format, 1 or 2, and how many boards it has, 1 to 16: 4 bytes each
 *   at 8 + 8 k       where the body of board k starts and how many bytes it has: 4 bytes each
 *   then the bodies  set size (2 bytes), version of A (1); in format 2 also misaligned (1). In format 1 it is 0
 * The bodies follow one another without a gap, from the end of the table to the end of the file.
 *
 * Reads one, whatever the bytes are.
 *
 * file, file_len       the bytes of the file
 * boards, boards_len   384 bytes, which get 16 boards: those of the file, and zeros behind them. All zeros if it is refused
 * told, told_len       16 bytes, which get two numbers of 8 bytes, the lowest first: the format and the number of boards;
 *                      if it is refused, the place and 0
 *
 * Answers, the first that applies of
 *   FLOECAVERN_BAD_SIZE   boards_len is not 384 or told_len is not 16: nothing is written
 *   512 + 21              the file is shorter than 8 bytes (place 0)
 *   512 + 22              its format is neither 1 nor 2 (place 0)
 *   512 + 21              its number of boards, its table or its end is wrong (place 0); so is a body whose length is not 3
 *                         in format 1 or 4 in format 2
 *   512 + 23              a body is wrong: a set size that is no power of two from 8 to 4096, a version that is neither 20
 *                         nor 21, or a misaligned that is neither 0 nor 1 (place: where the first such body starts)
 *   0                     it is read */
uint64_t floecavern_read_settings(const uint8_t *file, size_t file_len, uint8_t *boards, size_t boards_len, uint8_t *told,
                                  size_t told_len);

/* Writes a settings file of format 2.
 *
 * boards, boards_len   the boards, 24 bytes each
 * out, out_len         where the file goes: 8 + 12 n bytes for n boards. What stands behind it is as it was
 * told, told_len       8 bytes, which get a number, the lowest byte first: how many bytes the file has; if it is refused,
 *                      the place
 *
 * Answers, the first that applies of
 *   FLOECAVERN_BAD_SIZE   boards_len is no multiple of 24 or told_len is not 8: nothing is written
 *   512 + 21              there are no boards or more than 16, or else out is too short (place 0)
 *   512 + 23              a board is wrong, as above (place: where the body of the first such board would start)
 *   0                     it is written
 * A refusal leaves out as it was. What is written is read by the function above as the boards that were given
 * (crates/capi_means/proofs/Boards.antt), and no other boards are written as the same bytes
 * (crates/boards/proofs/Back.antt). */
uint64_t floecavern_write_settings(const uint8_t *boards, size_t boards_len, uint8_t *out, size_t out_len, uint8_t *told,
                                   size_t told_len);

/* ---- The typed form ----
 *
 * Inline functions over the ten above. Sizes are right by type; a NULL or a length that no buffer can have is refused
 * by the model's own number, as each function says. What is asked is that state, machine, text, event, outcome, board and
 * bytes are not NULL, that a length is that of the buffer before it, and that a machine, its memory, a text and an out
 * overlap no other argument. */
#if defined(__GNUC__)
#define FLOECAVERN_INLINE static __inline__
#elif defined(__cplusplus) || (defined(__STDC_VERSION__) && __STDC_VERSION__ >= 199901L)
#define FLOECAVERN_INLINE static inline
#else
#define FLOECAVERN_INLINE static
#endif

/* Causes, by the names that the privileged manual has for them. */
typedef enum {
    FLOECAVERN_CAUSE_INSTRUCTION_ADDRESS_MISALIGNED = 0,
    FLOECAVERN_CAUSE_INSTRUCTION_ACCESS_FAULT = 1,
    FLOECAVERN_CAUSE_ILLEGAL_INSTRUCTION = 2,
    FLOECAVERN_CAUSE_BREAKPOINT = 3,
    FLOECAVERN_CAUSE_LOAD_ADDRESS_MISALIGNED = 4,
    FLOECAVERN_CAUSE_LOAD_ACCESS_FAULT = 5,
    FLOECAVERN_CAUSE_STORE_ADDRESS_MISALIGNED = 6,
    FLOECAVERN_CAUSE_STORE_ACCESS_FAULT = 7,
    FLOECAVERN_CAUSE_ENVIRONMENT_CALL = 8
} floecavern_cause;

/* Refusals: 1 to 5 of an event, 2 and 6 of a block, 7 to 11 of a case file, 1, 2 and 11 of a run, 1, 2, 12 and 13 of a
 * replay, 21 to 23 of a settings file. */
typedef enum {
    FLOECAVERN_REFUSAL_NONE = 0,
    FLOECAVERN_REFUSAL_MEMORY = 1,
    FLOECAVERN_REFUSAL_STATE = 2,
    FLOECAVERN_REFUSAL_HART = 3,
    FLOECAVERN_REFUSAL_DEVICE_SIZE = 4,
    FLOECAVERN_REFUSAL_DEVICE_ADDRESS = 5,
    FLOECAVERN_REFUSAL_BLOCK = 6,
    FLOECAVERN_REFUSAL_FILE_LENGTH = 7,
    FLOECAVERN_REFUSAL_TABLE = 8,
    FLOECAVERN_REFUSAL_HARTS_BODY = 9,
    FLOECAVERN_REFUSAL_MEMORY_BODY = 10,
    FLOECAVERN_REFUSAL_EVENTS = 11,
    FLOECAVERN_REFUSAL_LOG_LENGTH = 12,
    FLOECAVERN_REFUSAL_LOG_EMPTY = 13,
    FLOECAVERN_REFUSAL_SETTINGS_TABLE = 21,
    FLOECAVERN_REFUSAL_SETTINGS_FORMAT = 22,
    FLOECAVERN_REFUSAL_SETTINGS_BOARD = 23
} floecavern_refusal;

/* Why a block of words is rejected. */
typedef enum {
    FLOECAVERN_REASON_NONE = 0,
    FLOECAVERN_REASON_NO_LR = 1,
    FLOECAVERN_REASON_NOT_PERMITTED = 2,
    FLOECAVERN_REASON_JUMP = 3,
    FLOECAVERN_REASON_WRITES_RS1 = 4,
    FLOECAVERN_REASON_OTHER_SC = 5,
    FLOECAVERN_REASON_NO_SC = 6
} floecavern_reason;

/* A short text for a cause, a refusal or a reason, of any number. */
FLOECAVERN_INLINE const char *floecavern_cause_text(uint64_t cause)
{
    switch (cause) {
    case 0: return "instruction address misaligned";
    case 1: return "instruction access fault";
    case 2: return "illegal instruction";
    case 3: return "breakpoint";
    case 4: return "load address misaligned";
    case 5: return "load access fault";
    case 6: return "store/AMO address misaligned";
    case 7: return "store/AMO access fault";
    case 8: return "environment call";
    default: return "no cause of the model";
    }
}

FLOECAVERN_INLINE const char *floecavern_refusal_text(uint64_t refusal)
{
    switch (refusal) {
    case 0: return "not refused";
    case 1: return "the set size or the memory's length or base is wrong";
    case 2: return "a setting other than the set size, or the state, is wrong";
    case 3: return "the hart is not below the count";
    case 4: return "a device write of 0 or more than 8 bytes";
    case 5: return "a device write not wholly in memory";
    case 6: return "a block of fewer than 2 or more than 16 words";
    case 7: return "the file's length is not 40 to 65536";
    case 8: return "the table of contents is wrong";
    case 9: return "the harts body is wrong";
    case 10: return "the memory body's length, or base plus length, is wrong";
    case 11: return "an event or the length of the events is wrong";
    case 12: return "the log's length is not a multiple of 48";
    case 13: return "the log has no rows";
    case 21: return "the settings file's length, number of boards, table or room is wrong";
    case 22: return "the settings file's format is not 1 or 2";
    case 23: return "a board's set size, version of A or misaligned is wrong";
    default: return "no refusal of the model";
    }
}

FLOECAVERN_INLINE const char *floecavern_reason_text(uint64_t reason)
{
    switch (reason) {
    case 0: return "not rejected";
    case 1: return "place 0 is not an LR";
    case 2: return "a word that a retry loop may not hold";
    case 3: return "a jump or branch that a retry loop may not make";
    case 4: return "the LR's rs1 is written before the SC";
    case 5: return "the SC has another width or rs1 than the LR";
    case 6: return "no SC";
    default: return "no reason of the model";
    }
}

/* What an event came to. cause and value are a trap's, refusal is a refusal's; they are 0 with every other kind.
 *
 * broke is the harts whose reservation the event broke, bit 0 for hart 0; 0 with a trap and a refusal. A bit is set by a
 * retired write of a hart other than the one that holds the reservation, if it touches a byte of the set, and by a
 * device write that touches a byte that the LR read, but not under A 2.0. It is 0 after all that writes nothing: a load, an
 * LR, an unequal AMOCAS, an SC that failed, a yield. Of the 8 bytes of value above, a trap's are value here, a retired
 * event's broke. */
typedef struct {
    floecavern_kind kind;
    floecavern_cause cause;
    floecavern_refusal refusal;
    uint64_t value;
    uint64_t broke;
} floecavern_outcome;

/* Whether an event broke the reservation of a hart: 1 or 0. 0 also for a hart that no machine has. */
FLOECAVERN_INLINE int floecavern_broke(const floecavern_outcome *outcome, size_t hart)
{
    /* A shift by 64 or more is undefined. */
    return hart < 64 && (outcome->broke >> hart & 1) != 0;
}

/* What a run did: how many events it performed; or, if refusal is not FLOECAVERN_REFUSAL_NONE, none, and the place of
 * refusal 11, counted in bytes from the first event (0 with 1 and 2). */
typedef struct {
    floecavern_refusal refusal;
    uint64_t performed;
    uint64_t place;
} floecavern_ran;

/* What a replay came to: why it ended, and how many rows there are before the stop. board and model are the two values of
 * a difference, cause and value are a trap's, refusal is a refusal's; they are 0 with every other kind. */
typedef struct {
    floecavern_stop kind;
    floecavern_refusal refusal;
    floecavern_cause cause;
    uint64_t rows;
    uint64_t board;
    uint64_t model;
    uint64_t value;
} floecavern_replayed;

/* What the checker says of a block: accepted if reason and refusal are both NONE. */
typedef struct {
    floecavern_refusal refusal;
    floecavern_reason reason;
    uint64_t place;
} floecavern_verdict;

/* An event, laid out as an events body has it, so that an array of events is a body. The functions below make them. */
typedef struct {
    uint8_t kind;
    uint8_t hart;
    uint8_t size;
    uint8_t zeros[5];
    uint64_t addr;
    uint64_t data;
} floecavern_event;

#define FLOECAVERN_EVENT_SIZE 24
#define FLOECAVERN_EVENT_STEP 1
#define FLOECAVERN_EVENT_DEVICE_WRITE 2
#define FLOECAVERN_EVENT_YIELD 3

FLOECAVERN_ASSERT(an_event_is_24_bytes, sizeof(floecavern_event) == FLOECAVERN_EVENT_SIZE);
FLOECAVERN_ASSERT(an_address_stands_at_8, offsetof(floecavern_event, addr) == 8);
FLOECAVERN_ASSERT(data_stands_at_16, offsetof(floecavern_event, data) == 16);

/* A hart or a size has one byte. A number that does not fit becomes 255, which every run refuses, so that no event
 * turns into another one. */
FLOECAVERN_INLINE uint8_t floecavern_event_byte(size_t number)
{
    return (uint8_t)(number > 255 ? 255 : number);
}

FLOECAVERN_INLINE floecavern_event floecavern_event_make(int kind, size_t hart, size_t size, uint64_t addr, uint64_t data)
{
    floecavern_event event;
    memset(&event, 0, sizeof event);
    event.kind = (uint8_t)kind;
    event.hart = floecavern_event_byte(hart);
    event.size = floecavern_event_byte(size);
    event.addr = addr;
    event.data = data;
    return event;
}

FLOECAVERN_INLINE floecavern_event floecavern_event_step(size_t hart)
{
    return floecavern_event_make(FLOECAVERN_EVENT_STEP, hart, 0, 0, 0);
}

/* Data above the size is left out, as floecavern_device_write leaves it out: a run refuses an event that has it. */
FLOECAVERN_INLINE floecavern_event floecavern_event_device_write(uint64_t addr, size_t size, uint64_t data)
{
    uint64_t low = size < 8 ? data & (((uint64_t)1 << (8 * size)) - 1) : data;
    return floecavern_event_make(FLOECAVERN_EVENT_DEVICE_WRITE, 0, size, addr, low);
}

FLOECAVERN_INLINE floecavern_event floecavern_event_yield_hart(size_t hart)
{
    return floecavern_event_make(FLOECAVERN_EVENT_YIELD, hart, 0, 0, 0);
}

/* Writes the 24 bytes of an event, such as a case file has. */
FLOECAVERN_INLINE void floecavern_event_encode(const floecavern_event *event, uint8_t *bytes)
{
    memcpy(bytes, event, sizeof *event);
}

/* Begins a state: count harts with pc 0, registers 0 and no reservations; all else as in FLOECAVERN_STATE_INIT. */
FLOECAVERN_INLINE void floecavern_state_start(floecavern_state *state, uint64_t count)
{
    static const floecavern_state defaults = FLOECAVERN_STATE_INIT;
    *state = defaults;
    state->count = count;
}

/* Sets a state to what a board is set to. Its kind stays. */
FLOECAVERN_INLINE void floecavern_state_set_board(floecavern_state *state, const floecavern_board *board)
{
    state->set_size = board->set_size;
    state->version = board->version;
    state->misaligned = board->misaligned;
}

/* A machine: its state, and where its memory is, mem_len bytes of the caller's at the address base. All of it may be
 * read and written between calls. A mem of NULL is a memory of 0 bytes, which is refused by 1. */
typedef struct {
    floecavern_state state;
    uint64_t base;
    uint8_t *mem;
    size_t mem_len;
} floecavern_machine;

/* Bytes to point at where there are none: the library asks for a pointer that is not NULL. */
FLOECAVERN_INLINE uint8_t *floecavern_machine_bytes(const floecavern_machine *machine)
{
    static uint8_t none[1];
    return machine->mem == NULL ? none : machine->mem;
}

FLOECAVERN_INLINE size_t floecavern_machine_length(const floecavern_machine *machine)
{
    return machine->mem == NULL ? 0 : machine->mem_len;
}

/* A number of 8 bytes, the lowest first. */
FLOECAVERN_INLINE uint64_t floecavern_number(const uint8_t *bytes)
{
    uint64_t number;
    memcpy(&number, bytes, sizeof number);
    return number;
}

/* The outcome that an answer and its value are. The sizes are right by type, so that FLOECAVERN_BAD_SIZE is the answer of
 * a library of another version: a refusal that is none of the model's, and value is not written. */
FLOECAVERN_INLINE floecavern_outcome floecavern_outcome_of(uint64_t answer, const uint8_t *value)
{
    floecavern_outcome outcome;
    memset(&outcome, 0, sizeof outcome);
    if (FLOECAVERN_IS_TRAP(answer)) {
        outcome.kind = FLOECAVERN_TRAP;
        outcome.cause = (floecavern_cause)FLOECAVERN_CAUSE(answer);
        outcome.value = floecavern_number(value);
    } else if (answer >= FLOECAVERN_REFUSED) {
        outcome.kind = FLOECAVERN_REFUSED;
        outcome.refusal = (floecavern_refusal)FLOECAVERN_NUMBER(answer);
    } else {
        outcome.kind = (floecavern_kind)answer;
        outcome.broke = floecavern_number(value);
    }
    return outcome;
}

/* A step of a hart. Refusals 1 to 3. */
FLOECAVERN_INLINE floecavern_outcome floecavern_machine_step(floecavern_machine *machine, size_t hart)
{
    uint8_t value[8];
    return floecavern_outcome_of(floecavern_step((uint8_t *)&machine->state, sizeof machine->state, machine->base,
                                                 floecavern_machine_bytes(machine), floecavern_machine_length(machine),
                                                 hart, value, sizeof value),
                                 value);
}

/* A device writes the size lowest bytes of data at addr: 1 to 8 bytes. Refusals 1, 2, 4 and 5. */
FLOECAVERN_INLINE floecavern_outcome floecavern_machine_device_write(floecavern_machine *machine, uint64_t addr,
                                                                     size_t size, uint64_t data)
{
    uint8_t value[8];
    return floecavern_outcome_of(
        floecavern_device_write((uint8_t *)&machine->state, sizeof machine->state, machine->base,
                                floecavern_machine_bytes(machine), floecavern_machine_length(machine), addr, size, data,
                                value, sizeof value),
        value);
}

/* A yield: drops the hart's reservation. Refusals 1 to 3. */
FLOECAVERN_INLINE floecavern_outcome floecavern_machine_yield_hart(floecavern_machine *machine, size_t hart)
{
    uint8_t value[8];
    return floecavern_outcome_of(floecavern_yield((uint8_t *)&machine->state, sizeof machine->state, machine->base,
                                                  floecavern_machine_bytes(machine), floecavern_machine_length(machine),
                                                  hart, value, sizeof value),
                                 value);
}

/* A run of an events body: 24 bytes for each event, such as a case file's. A body of NULL that has a length is refused
 * by 11 at place 0, as one whose length is no multiple of 24. */
FLOECAVERN_INLINE floecavern_ran floecavern_machine_run_bytes(floecavern_machine *machine, const uint8_t *body, size_t len,
                                                              size_t budget)
{
    static const uint8_t none[1] = {0};
    uint8_t numbers[16] = {0};
    floecavern_ran ran;
    uint64_t answer;
    if (body == NULL) {
        body = none;
        len = len == 0 ? 0 : 1;
    }
    answer = floecavern_run((uint8_t *)&machine->state, sizeof machine->state, machine->base,
                            floecavern_machine_bytes(machine), floecavern_machine_length(machine), body, len, budget,
                            numbers, sizeof numbers);
    ran.refusal = answer == FLOECAVERN_PERFORMED ? FLOECAVERN_REFUSAL_NONE
                                                 : (floecavern_refusal)FLOECAVERN_NUMBER(answer);
    ran.performed = floecavern_number(numbers);
    ran.place = floecavern_number(numbers + 8);
    return ran;
}

/* A run of events, the first budget of them or all if there are fewer. SIZE_MAX is a budget for all. Refusals 1, 2
 * and 11; also 11, at place 0, for events of NULL or more of them than bytes can be counted. */
FLOECAVERN_INLINE floecavern_ran floecavern_machine_run(floecavern_machine *machine, const floecavern_event *events,
                                                        size_t count, size_t budget)
{
    if (count > SIZE_MAX / FLOECAVERN_EVENT_SIZE)
        return floecavern_machine_run_bytes(machine, NULL, 1, budget);
    return floecavern_machine_run_bytes(machine, (const uint8_t *)events, FLOECAVERN_EVENT_SIZE * count, budget);
}

/* The log of a board, replayed: len bytes, 48 for each row. Refusals 1, 2, 12 and 13. A log of NULL has no rows, which is
 * 13; one that has a length all the same is refused by 12, as one whose length is no multiple of 48. */
FLOECAVERN_INLINE floecavern_replayed floecavern_machine_replay(floecavern_machine *machine, const uint8_t *log, size_t len)
{
    static const uint8_t none[1] = {0};
    uint8_t told[24] = {0};
    floecavern_replayed replayed;
    uint64_t answer;
    if (log == NULL) {
        log = none;
        len = len == 0 ? 0 : 1;
    }
    answer = floecavern_replay((uint8_t *)&machine->state, sizeof machine->state, machine->base,
                               floecavern_machine_bytes(machine), floecavern_machine_length(machine), log, len, told,
                               sizeof told);
    memset(&replayed, 0, sizeof replayed);
    replayed.rows = floecavern_number(told);
    if (FLOECAVERN_IS_TRAP(answer)) {
        replayed.kind = FLOECAVERN_STOP_TRAP;
        replayed.cause = (floecavern_cause)FLOECAVERN_CAUSE(answer);
        replayed.value = floecavern_number(told + 16);
    } else if (answer >= FLOECAVERN_REFUSED) {
        replayed.kind = FLOECAVERN_STOP_REFUSED;
        replayed.refusal = (floecavern_refusal)FLOECAVERN_NUMBER(answer);
    } else {
        replayed.kind = (floecavern_stop)answer;
        replayed.board = floecavern_number(told + 8);
        replayed.model = floecavern_number(told + 16);
    }
    return replayed;
}

/* Starts a machine of a kind of core, FLOECAVERN_KIND_64 or FLOECAVERN_KIND_32: count harts with their pc at base,
 * registers 0 and no reservations, and the defaults of FLOECAVERN_STATE_INIT. The memory is left as it is. Answers FLOECAVERN_REFUSAL_NONE, or 1 or 2: the machine is then filled in all the same, and every call of it is
 * refused by that number. It asks by a run of no events, which changes nothing of such a machine. With a library of another
 * version the answer is no refusal of the model.
 *
 * For another set size, set machine->state.set_size after the start: where a memory fits that size, the start takes it
 * too. For A 2.0, set machine->state.version to FLOECAVERN_A_2_0, for the other causes machine->state.misaligned; for
 * all three at once, as a board has them, there is floecavern_state_set_board. If the size does not fit, every call from
 * then on is refused by 1, and by 2 if the version or misaligned is neither of its two;
 * floecavern_machine_run(machine, NULL, 0, 0).refusal asks for that. */
FLOECAVERN_INLINE floecavern_refusal floecavern_machine_start_kind(floecavern_machine *machine, uint64_t kind,
                                                                   uint64_t count, uint64_t base, uint8_t *mem,
                                                                   size_t mem_len)
{
    size_t hart;
    memset(machine, 0, sizeof *machine);
    floecavern_state_start(&machine->state, count);
    machine->state.kind = kind;
    machine->base = base;
    machine->mem = mem;
    machine->mem_len = mem_len;
    for (hart = 0; hart < 8 && hart < count; hart++)
        machine->state.pc[hart] = base;
    return floecavern_machine_run(machine, NULL, 0, 0).refusal;
}

/* The same of the 64-bit kind. */
FLOECAVERN_INLINE floecavern_refusal floecavern_machine_start(floecavern_machine *machine, uint64_t count, uint64_t base,
                                                              uint8_t *mem, size_t mem_len)
{
    return floecavern_machine_start_kind(machine, FLOECAVERN_KIND_64, count, base, mem, mem_len);
}

/* Puts words into a machine's memory from addr on, 4 bytes each with the lowest first. This is no event: it breaks no
 * reservation. Answers 5, and writes nothing, if they are not wholly in memory, or are NULL; else
 * FLOECAVERN_REFUSAL_NONE. */
FLOECAVERN_INLINE floecavern_refusal floecavern_machine_put_words(floecavern_machine *machine, uint64_t addr,
                                                                  const uint32_t *words, size_t count)
{
    size_t len = floecavern_machine_length(machine);
    if (addr < machine->base || addr - machine->base > len || count > (len - (addr - machine->base)) / 4 ||
        (words == NULL && count > 0))
        return FLOECAVERN_REFUSAL_DEVICE_ADDRESS;
    if (count > 0)
        memcpy(machine->mem + (addr - machine->base), words, 4 * count);
    return FLOECAVERN_REFUSAL_NONE;
}

/* Whether the library takes states of this size: 1 or 0. One of another version may take other arguments, which a function
 * without a state does not tell. The memory of 0 bytes is refused by 1, and so nothing is done. */
FLOECAVERN_INLINE int floecavern_library_fits(void)
{
    floecavern_state state;
    uint8_t none[1] = {0}, value[8];
    floecavern_state_start(&state, 1);
    return floecavern_yield((uint8_t *)&state, sizeof state, 0, none, 0, 0, value, sizeof value) != FLOECAVERN_BAD_SIZE;
}

/* Whether a block of instruction words is a retry loop that is accepted under a version of A, FLOECAVERN_A_2_0 or
 * FLOECAVERN_A_2_1, read as a kind of core reads them, FLOECAVERN_KIND_64 or FLOECAVERN_KIND_32. Refusals 2, of any other
 * version or kind, and 6; with a library of another version, one that is no refusal of the model. words may be NULL if
 * count is 0. A later version of this interface may add arguments to this function. */
FLOECAVERN_INLINE floecavern_verdict floecavern_check_words_for(uint64_t version, uint64_t kind, const uint32_t *words,
                                                                size_t count)
{
    static const uint32_t none[1] = {0};
    /* A block of 17 or more words is refused whatever the words are, so that 17 of them say it. */
    size_t looked_at = count > 17 ? 17 : count;
    floecavern_verdict verdict;
    uint64_t answer;
    memset(&verdict, 0, sizeof verdict);
    if (!floecavern_library_fits()) {
        verdict.refusal = (floecavern_refusal)FLOECAVERN_NUMBER(FLOECAVERN_BAD_SIZE);
        return verdict;
    }
    answer = floecavern_check_loop_for(version, kind, (const uint8_t *)(words == NULL ? none : words),
                                       words == NULL ? 0 : 4 * looked_at);
    if (answer == FLOECAVERN_LOOP_SETTING_REFUSED) {
        verdict.refusal = FLOECAVERN_REFUSAL_STATE;
    } else if (answer == FLOECAVERN_LOOP_REFUSED) {
        verdict.refusal = FLOECAVERN_REFUSAL_BLOCK;
    } else if (answer != FLOECAVERN_LOOP_ACCEPTED) {
        verdict.reason = (floecavern_reason)FLOECAVERN_LOOP_REASON(answer);
        verdict.place = FLOECAVERN_LOOP_PLACE(answer);
    }
    return verdict;
}

/* The same under A 2.1 of the 64-bit kind: refusal 6 alone. */
FLOECAVERN_INLINE floecavern_verdict floecavern_check_words(const uint32_t *words, size_t count)
{
    return floecavern_check_words_for(FLOECAVERN_A_2_1, FLOECAVERN_KIND_64, words, count);
}

/* What a settings file says: its format, and count boards; those behind them are zeros. If refusal is not
 * FLOECAVERN_REFUSAL_NONE, there are none, format is 0, and place is the refusal's, counted in bytes from the file's first.
 */
typedef struct {
    floecavern_refusal refusal;
    uint64_t place;
    uint64_t format;
    size_t count;
    floecavern_board boards[FLOECAVERN_BOARDS];
} floecavern_settings;

/* Reads a settings file, whatever the bytes are. Refusals 21 to 23. file may be NULL: a file of 0 bytes. */
FLOECAVERN_INLINE floecavern_settings floecavern_settings_read(const uint8_t *file, size_t len)
{
    static const uint8_t none[1] = {0};
    uint8_t told[16] = {0};
    floecavern_settings settings;
    uint64_t answer;
    memset(&settings, 0, sizeof settings);
    answer = floecavern_read_settings(file == NULL ? none : file, file == NULL ? 0 : len, (uint8_t *)settings.boards,
                                      sizeof settings.boards, told, sizeof told);
    if (answer == 0) {
        settings.format = floecavern_number(told);
        settings.count = (size_t)floecavern_number(told + 8);
    } else {
        settings.refusal = (floecavern_refusal)FLOECAVERN_NUMBER(answer);
        settings.place = floecavern_number(told);
    }
    return settings;
}

/* What the writing of a settings file came to: how many bytes it has; or, if refusal is not FLOECAVERN_REFUSAL_NONE, 0,
 * and the refusal's place. */
typedef struct {
    floecavern_refusal refusal;
    uint64_t place;
    size_t len;
} floecavern_written;

/* Writes a settings file of format 2 for count boards. Refusals 21, also of boards or out of NULL, and 23; out is as it
 * was then. FLOECAVERN_SETTINGS_ROOM bytes are enough for every file. */
FLOECAVERN_INLINE floecavern_written floecavern_settings_write(const floecavern_board *boards, size_t count, uint8_t *out,
                                                               size_t out_len)
{
    /* 17 boards are refused whatever they are, so that 17 of them say it of more. */
    static const floecavern_board none[FLOECAVERN_BOARDS + 1] = {{0, 0, 0}};
    static uint8_t nowhere[1];
    uint8_t told[8] = {0};
    floecavern_written written;
    uint64_t answer;
    if (boards == NULL)
        count = 0;
    if (boards == NULL || count > FLOECAVERN_BOARDS)
        boards = none;
    if (count > FLOECAVERN_BOARDS)
        count = FLOECAVERN_BOARDS + 1;
    answer = floecavern_write_settings((const uint8_t *)boards, FLOECAVERN_BOARD_SIZE * count, out == NULL ? nowhere : out,
                                       out == NULL ? 0 : out_len, told, sizeof told);
    memset(&written, 0, sizeof written);
    if (answer == 0) {
        written.len = (size_t)floecavern_number(told);
    } else {
        written.refusal = (floecavern_refusal)FLOECAVERN_NUMBER(answer);
        written.place = floecavern_number(told);
    }
    return written;
}

/* A report: len characters of bytes are the lines, and no 0 ends them. It has 256 KiB: static or allocated, rather than
 * on a stack. */
typedef struct {
    size_t len;
    char bytes[FLOECAVERN_REPORT_ROOM];
} floecavern_text;

/* A refusal with its place, counted in bytes from the file's first. */
typedef struct {
    floecavern_refusal refusal;
    uint64_t place;
} floecavern_refused_at;

/* The refusal of a report's text, if it is `refused NUMBER PLACE`. */
FLOECAVERN_INLINE floecavern_refused_at floecavern_text_refused(const floecavern_text *text)
{
    static const char word[] = "refused ";
    floecavern_refused_at refused;
    uint64_t numbers[2];
    size_t at = sizeof word - 1, n;
    memset(&refused, 0, sizeof refused);
    if (text->len < at || memcmp(text->bytes, word, at) != 0)
        return refused;
    for (n = 0; n < 2; n++, at++)
        for (numbers[n] = 0; at < text->len && text->bytes[at] >= '0' && text->bytes[at] <= '9'; at++)
            numbers[n] = 10 * numbers[n] + (uint64_t)(text->bytes[at] - '0');
    refused.refusal = (floecavern_refusal)numbers[0];
    refused.place = numbers[1];
    return refused;
}

/* The report of a case file, as floecavern_report writes it, whatever the bytes are. Answers the refusal, 7 to 11, with
 * its place, of a file that is no case; the text is its one line then. file may be NULL: a file of 0 bytes. */
FLOECAVERN_INLINE floecavern_refused_at floecavern_report_text(const uint8_t *file, size_t len, floecavern_text *text)
{
    static const uint8_t none[1] = {0};
    text->len = (size_t)floecavern_report(file == NULL ? none : file, file == NULL ? 0 : len, (uint8_t *)text->bytes,
                                          sizeof text->bytes);
    return floecavern_text_refused(text);
}

#ifdef __cplusplus
}
#endif

#endif
