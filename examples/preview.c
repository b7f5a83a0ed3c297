/* Says what another mass in one tier would do to the stack whose sheet is on standard input, before the box is moved.
   Exit status 0: the stack would be accepted; 1: it would not; 2: refused, or bad use.

   cc examples/preview.c target/staticlib/liblash.a -o preview        after `python3 -m lashlib.build`, in the repository's folder
   ./preview 4 28000 <sheet                                           tier 4, counted from 1 at the bottom, with 28,000 kg */
#include "../include/lash_check.h"

#include <errno.h>
#include <inttypes.h>
#include <stdio.h>
#include <stdlib.h>

enum { ACCEPTED = 0, NOT_ACCEPTED = 1, NO_ANSWER = 2 };

/* A number in decimal digits, not above `most`. */
static int number(const char *text, uint32_t most, uint32_t *value)
{
    char *end;
    errno = 0;
    unsigned long long read = strtoull(text, &end, 10);
    *value = (uint32_t)read;
    return text[0] >= '0' && text[0] <= '9' && *end == '\0' && errno == 0 && read <= most;
}

static void tell(const char *when, uint64_t result, const uint8_t *answer)
{
    if (lash_accepted(result, answer))
        printf("%s: accepted\n", when);
    else
        printf("%s: not accepted, %u limit(s) exceeded\n", when, lash_findings(result, answer));
}

static int refused(uint64_t result)
{
    if (lash_number_of(result) == LASH_NO_TIER)
        printf("refused: number %u: the stack has no tier %" PRIu64 "\n", LASH_NO_TIER, lash_second_of(result));
    else
        printf("refused: number %u, second number %" PRIu64 "\n", lash_number_of(result), lash_second_of(result));
    return NO_ANSWER;
}

int main(int argc, char **argv)
{
    uint8_t sheet[LASH_SHEET_SIZE + 1], now[LASH_ANSWER_SIZE], then[LASH_ANSWER_SIZE];
    uint32_t tier, mass;
    if (argc != 3 || !number(argv[1], UINT32_MAX, &tier) || !number(argv[2], UINT16_MAX, &mass)) {
        fprintf(stderr, "usage: preview TIER MASS, whole numbers, the stack sheet on standard input\n");
        return NO_ANSWER;
    }
    size_t length = fread(sheet, 1, sizeof sheet, stdin);
    uint64_t previewed = lash_preview(sheet, length, tier, (uint16_t)mass, then, sizeof then);
    if (lash_number_of(previewed) != LASH_TAKEN)
        return refused(previewed);
    tell("as it stands", lash_check(sheet, length, now, sizeof now), now);
    tell("with the move", previewed, then);
    return lash_accepted(previewed, then) ? ACCEPTED : NOT_ACCEPTED;
}
