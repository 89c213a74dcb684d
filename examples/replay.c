/* Replays a board's step log on the machine of a case file: replay CASE LOG. Prints why it ended, in the lines of the
 * program `replay`. From the repository's root:
 *
 *   tools/build capi
 *   cc -Wall -Wextra -Iinclude examples/replay.c target/staticlib/libcapi.a -o target/replay
 *   target/replay crates/replay/data/case crates/replay/data/log
 */
#include <inttypes.h>
#include <stdio.h>
#include <stdlib.h>

#include "floecavern.h"

static floecavern_text text;
static floecavern_machine machine;

/* All bytes of a file, with a byte of room behind them. Ends the program where they can't be read. */
static uint8_t *read_file(const char *name, size_t *len)
{
    FILE *f = fopen(name, "rb");
    size_t room = 65536, n;
    uint8_t *bytes = malloc(room);
    *len = 0;
    while (f != NULL && bytes != NULL && (n = fread(bytes + *len, 1, room - *len, f)) > 0) {
        *len += n;
        if (*len == room)
            bytes = realloc(bytes, room *= 2);
    }
    if (f == NULL || bytes == NULL || ferror(f)) {
        perror(name);
        exit(1);
    }
    fclose(f);
    return bytes;
}

static uint32_t field(const uint8_t *bytes)
{
    uint32_t number;
    memcpy(&number, bytes, sizeof number);
    return number;
}

/* Starts the machine of a case file that isn't refused, of the case's kind and with the file's own bytes as its memory. */
static floecavern_refusal start(uint8_t *file)
{
    const uint8_t *harts = file + 40;
    floecavern_refusal refusal = floecavern_machine_start_kind(&machine, field(harts + 12), field(harts + 8),
                                                               floecavern_number(harts), file + field(file + 20),
                                                               field(file + 24));
    for (uint64_t h = 0; h < machine.state.count; h++) {
        for (int r = 1; r < 32; r++)
            machine.state.x[h][r] = floecavern_number(harts + 16 + 256 * h + 8 * (r - 1));
        machine.state.pc[h] = floecavern_number(harts + 16 + 256 * h + 248);
    }
    return refusal;
}

static void show(floecavern_replayed r)
{
    switch (r.kind) {
    case FLOECAVERN_STOP_AGREED:
        printf("agreed %" PRIu64 "\n", r.rows);
        break;
    case FLOECAVERN_STOP_FORM:
        printf("row %" PRIu64 " form\n", r.rows);
        break;
    case FLOECAVERN_STOP_PC:
        printf("row %" PRIu64 " pc %016" PRIx64 " %016" PRIx64 "\n", r.rows, r.board, r.model);
        break;
    case FLOECAVERN_STOP_WORD:
        printf("row %" PRIu64 " word %08" PRIx64 " %08" PRIx64 "\n", r.rows, r.board, r.model);
        break;
    case FLOECAVERN_STOP_RD:
        printf("row %" PRIu64 " rd %02" PRIu64 " %02" PRIu64 "\n", r.rows, r.board, r.model);
        break;
    case FLOECAVERN_STOP_VALUE:
        printf("row %" PRIu64 " value %016" PRIx64 " %016" PRIx64 "\n", r.rows, r.board, r.model);
        break;
    case FLOECAVERN_STOP_TRAP:
        printf("row %" PRIu64 " trap %d %016" PRIx64 "\n", r.rows, (int)r.cause, r.value);
        break;
    case FLOECAVERN_STOP_REFUSED:
        break;
    }
}

/* Writes what is still held back. Where not all could be written (a full disk, say), says so; the exit status. */
static int written(void)
{
    if (fflush(stdout) == 0 && !ferror(stdout))
        return 0;
    perror("standard output");
    return 1;
}

int main(int argc, char **argv)
{
    if (argc != 3) {
        fprintf(stderr, "usage: replay CASE LOG\n");
        return 2;
    }
    size_t file_len, log_len;
    uint8_t *file = read_file(argv[1], &file_len), *log = read_file(argv[2], &log_len);
    floecavern_refused_at refused = floecavern_report_text(file, file_len, &text);
    floecavern_replayed replayed = {0};
    if (refused.refusal == FLOECAVERN_REFUSAL_NONE && (refused.refusal = start(file)) == FLOECAVERN_REFUSAL_NONE) {
        replayed = floecavern_machine_replay(&machine, log, log_len);
        refused.refusal = replayed.refusal;
    }
    if (refused.refusal != FLOECAVERN_REFUSAL_NONE) {
        printf("refused %d %" PRIu64 "\n", (int)refused.refusal, refused.place);
    } else {
        printf("log %zu rows\n", log_len / FLOECAVERN_ROW_SIZE);
        show(replayed);
        printf("end %" PRIu64 "\n", replayed.rows);
    }
    free(file);
    free(log);
    return written();
}
