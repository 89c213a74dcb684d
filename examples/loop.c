/* Says whether a retry loop is accepted: loop [VERSION [KIND]] < WORDS. VERSION is that of A, 20 for 2.0 or 21 for 2.1;
 * without it 2.1. KIND is that of the core, 0 for 64 bits or 1 for 32; without it 64. From the repository's root:
 *
 *   tools/build capi
 *   cc -Wall -Wextra -Iinclude examples/loop.c target/staticlib/libcapi.a -o target/loop
 *   target/loop < crates/loopcheck/stdin
 */
#include <inttypes.h>
#include <stdio.h>

#include "floecavern.h"

/* Writes what is still held back. Where not all could be written (a full disk, say), says so; the exit status. */
static int written(void)
{
    if (fflush(stdout) == 0 && !ferror(stdout))
        return 0;
    perror("standard output");
    return 1;
}

/* Reads a decimal number: 1, or 0 if the text is none. One of more than 64 bits becomes the largest that there is, which is
 * no version and no kind either. */
static int read_number(const char *text, uint64_t *number)
{
    *number = 0;
    if (*text == '\0')
        return 0;
    for (; *text >= '0' && *text <= '9'; text++) {
        uint64_t digit = (uint64_t)(*text - '0');
        *number = *number > (UINT64_MAX - digit) / 10 ? UINT64_MAX : 10 * *number + digit;
    }
    return *text == '\0';
}

int main(int argc, char **argv)
{
    uint64_t version = FLOECAVERN_A_2_1, kind = FLOECAVERN_KIND_64;
    if (argc > 3 || (argc > 1 && !read_number(argv[1], &version)) || (argc > 2 && !read_number(argv[2], &kind))) {
        fprintf(stderr, "usage: loop [VERSION [KIND]] < WORDS\n");
        return 2;
    }
    /* A word more than a block may have: a longer one is refused whatever its words, so that the rest is only counted. */
    static uint32_t words[17];
    static uint8_t rest[4096];
    size_t total = fread(words, 1, sizeof words, stdin), more;
    while ((more = fread(rest, 1, sizeof rest, stdin)) > 0)
        total += more;
    if (ferror(stdin)) {
        perror("standard input");
        return 1;
    }
    if (total % 4 != 0) {
        printf("bad input: length is not a multiple of 4\n");
        return written();
    }
    floecavern_verdict verdict = floecavern_check_words_for(version, kind, words, total / 4 > 17 ? 17 : total / 4);
    if (verdict.refusal != FLOECAVERN_REFUSAL_NONE)
        printf("refused %d\n", (int)verdict.refusal);
    else if (verdict.reason != FLOECAVERN_REASON_NONE)
        printf("rejected %" PRIu64 " %d\n", verdict.place, (int)verdict.reason);
    else
        printf("accepted\n");
    return written();
}
