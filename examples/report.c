/* Prints the lines of a case file: report FILE. Says on standard error why a file is refused. From the repository's root:
 *
 *   tools/build capi
 *   cc -Wall -Wextra -Iinclude examples/report.c target/staticlib/libcapi.a -o target/report
 *   target/report crates/floecavern/stdin
 */
#include <inttypes.h>
#include <stdio.h>

#include "floecavern.h"

/* A byte more than a case file may have, so that a longer file is seen to be longer. */
static uint8_t file[65537];
static floecavern_text text;

/* Writes what is still held back. Where not all could be written (a full disk, say), says so; the exit status. */
static int written(void)
{
    if (fflush(stdout) == 0 && !ferror(stdout))
        return 0;
    perror("standard output");
    return 1;
}

int main(int argc, char **argv)
{
    if (argc != 2) {
        fprintf(stderr, "usage: report FILE\n");
        return 2;
    }
    FILE *f = fopen(argv[1], "rb");
    if (f == NULL) {
        perror(argv[1]);
        return 1;
    }
    size_t n = fread(file, 1, sizeof file, f);
    if (ferror(f)) {
        perror(argv[1]);
        return 1;
    }
    fclose(f);
    floecavern_refused_at refused = floecavern_report_text(file, n, &text);
    if (refused.refusal != FLOECAVERN_REFUSAL_NONE)
        fprintf(stderr, "%s: %s (byte %" PRIu64 ")\n", argv[1], floecavern_refusal_text(refused.refusal), refused.place);
    fwrite(text.bytes, 1, text.len, stdout);
    return written();
}
