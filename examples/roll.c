/* Works out a box's accelerations from the ship's roll, as a tier of a stack sheet has them, and says them in words.
   Exit status 0: given; 2: refused, or bad use.

   cc examples/roll.c target/staticlib/liblash.a -o roll        after `python3 -m lashlib.build`, in the repository's folder
   ./roll 4226 9063 2012 2500 2000 300000 15000 150000 20000 30000
        sine, cosine and a0 in ten-thousandths, hundredths of a degree and of a second, in mm length, roll centre, x, y, z */
#include "../include/lash_check.h"

#include <errno.h>
#include <inttypes.h>
#include <stdio.h>
#include <stdlib.h>

enum { GIVEN = 0, NO_ANSWER = 2, NUMBERS = 10, UNSIGNED = 6 };

/* A number in decimal digits, with a sign before the last four, that fits 32 bits. */
static int number(const char *text, int is_signed, int64_t *value)
{
    char *end;
    const char *digits = text + (is_signed && text[0] == '-');
    errno = 0;
    *value = strtoll(text, &end, 10);
    int64_t least = is_signed ? INT32_MIN : 0, most = is_signed ? INT32_MAX : UINT32_MAX;
    return digits[0] >= '0' && digits[0] <= '9' && *end == '\0' && errno == 0 && *value >= least && *value <= most;
}

static int tell(uint64_t result)
{
    static const char *const names[] = {"?", "A_T", "A_Vmax", "A_Vmin"};
    switch (lash_number_of(result)) {
    case LASH_TAKEN:
        printf("A_T %" PRId64 ", A_Vmax %" PRId64 ", A_Vmin %" PRId64 " thousandths of g\n", lash_roll_a_t(result),
               lash_roll_a_vmax(result), lash_roll_a_vmin(result));
        return GIVEN;
    case LASH_CONDITION:
        printf("refused: number %u: a number out of range, x off the ship, or sine and cosine of no angle\n", LASH_CONDITION);
        return NO_ANSWER;
    case LASH_ACCELERATION:
        printf("refused: number %u: %s is outside what a sheet can hold\n", LASH_ACCELERATION, names[lash_second_of(result) & 3]);
        return NO_ANSWER;
    default:
        printf("refused: number %u, which this program does not know\n", lash_number_of(result));
        return NO_ANSWER;
    }
}

int main(int argc, char **argv)
{
    int64_t n[NUMBERS];
    int read = argc == NUMBERS + 1;
    for (int i = 0; read && i < NUMBERS; i++)
        read = number(argv[1 + i], i >= UNSIGNED, &n[i]);
    if (!read) {
        fprintf(stderr, "usage: roll SINE COSINE HEAVE ANGLE PERIOD LENGTH CENTRE X Y Z, whole numbers\n");
        return NO_ANSWER;
    }
    return tell(lash_roll((uint32_t)n[0], (uint32_t)n[1], (uint32_t)n[2], (uint32_t)n[3], (uint32_t)n[4], (uint32_t)n[5], (int32_t)n[6],
                          (int32_t)n[7], (int32_t)n[8], (int32_t)n[9]));
}
