/* Says whether the side walls of the stack whose sheet is on standard input hold while the ship pitches: racking of each tier beside its
   limit, and how far each level shifts lengthwise.
   Exit status 0: accepted; 1: not accepted; 2: refused, or bad use.

   cc examples/side.c target/staticlib/liblash.a -o side              after `python3 -m lashlib.build`, in the repository's folder
   ./side 300 310 320 <sheet                                          A_L of each tier in thousandths of g, lowest first */
#include "../include/lash_check.h"

#include <errno.h>
#include <inttypes.h>
#include <stdio.h>
#include <stdlib.h>

enum { ACCEPTED = 0, NOT_ACCEPTED = 1, NO_ANSWER = 2, MOST_GIVEN = 64 };

/* A number of two bytes in decimal digits. */
static int number(const char *text, uint16_t *value)
{
    char *end;
    errno = 0;
    unsigned long read = strtoul(text, &end, 10);
    *value = (uint16_t)read;
    return text[0] >= '0' && text[0] <= '9' && *end == '\0' && errno == 0 && read <= UINT16_MAX;
}

static int refused(uint64_t result)
{
    uint64_t second = lash_second_of(result);
    switch (lash_number_of(result)) {
    case LASH_PITCH:
        printf("refused: number %u: as many accelerations are needed as the stack has tiers\n", LASH_PITCH);
        break;
    case LASH_LONGITUDINAL:
        printf("refused: number %u: A_L of tier %" PRIu64 " is above 1500\n", LASH_LONGITUDINAL, second);
        break;
    default:
        printf("refused: number %u, second number %" PRIu64 "\n", lash_number_of(result), second);
    }
    return NO_ANSWER;
}

int main(int argc, char **argv)
{
    uint8_t sheet[LASH_SHEET_SIZE + 1], pitch[1 + 2 * MOST_GIVEN], side[LASH_SIDE_SIZE];
    int given = argc - 1;
    pitch[0] = (uint8_t)given;
    for (int i = 0; i < given; i++) {
        uint16_t value;
        if (given > MOST_GIVEN || !number(argv[i + 1], &value)) {
            fprintf(stderr, "usage: side A_L.., a whole number a tier, the stack sheet on standard input\n");
            return NO_ANSWER;
        }
        pitch[1 + 2 * i] = (uint8_t)value;
        pitch[2 + 2 * i] = (uint8_t)(value >> 8);
    }
    size_t length = fread(sheet, 1, sizeof sheet, stdin);
    uint64_t result = lash_side(sheet, length, pitch, 1 + 2 * (size_t)given, side, sizeof side);
    if (lash_number_of(result) != LASH_TAKEN)
        return refused(result);
    printf("%saccepted\n", lash_accepted(result, side) ? "" : "not ");
    for (unsigned tier = lash_tiers(result, side); tier > 0; tier--) {
        int64_t racking = lash_side_racking(result, side, tier), shift = lash_side_shift(result, side, tier);
        printf("  tier %u: racking %" PRId64 " N%s, shift %" PRId64 ".%03" PRId64 " mm\n", tier, racking,
               racking > LASH_SIDE_LIMIT ? ", over the limit" : "", shift / 1000, shift % 1000);
    }
    return lash_accepted(result, side) ? ACCEPTED : NOT_ACCEPTED;
}
