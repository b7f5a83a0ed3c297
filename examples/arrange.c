/* Says which choices of the lashes aboard hold the stack whose sheet is on standard input, when they are used alike at both ends; fewest
   lashes first. The sheet's own lashes at the door end are the gear aboard.
   Exit status 0: some choice is accepted; 1: none is; 2: refused, or bad use.

   cc examples/arrange.c target/staticlib/liblash.a -o arrange        after `python3 -m lashlib.build`, in the repository's folder
   ./lash examples/gear-aboard.toml --write - | ./arrange */
#include "../include/lash_check.h"

#include <inttypes.h>
#include <stdio.h>
#include <string.h>

enum { ACCEPTED = 0, NONE_ACCEPTED = 1, NO_LIST = 2, COUNT_AT = 8, TIER = 12, LASH = 20 };

/* Takes the lashes out of a sheet that can be taken: those of the door end become the gear section. The new length of the sheet; one that
   is at fault stays as it is, with no gear. */
static size_t split(uint8_t *sheet, size_t length, uint8_t *gear, size_t *gear_length)
{
    uint8_t answer[LASH_ANSWER_SIZE];
    *gear_length = 1;
    gear[0] = 0;
    if (lash_number_of(lash_check(sheet, length, answer, sizeof answer)) != LASH_TAKEN)
        return length;
    size_t at = COUNT_AT + 1 + TIER * (size_t)sheet[COUNT_AT];
    *gear_length = 1 + LASH * (size_t)sheet[at];
    memcpy(gear, sheet + at, *gear_length);
    memset(sheet + at, 0, 2);
    return at + 2;
}

/* A choice in words: its lashes by tier, corner and kind. */
static void tell(uint64_t result, const uint8_t *list, unsigned index, const uint8_t *gear)
{
    const char *between = "";
    for (unsigned lash = 0; lash < gear[0]; lash++) {
        const uint8_t *entry = gear + 1 + LASH * lash;
        if (!lash_choice_uses(result, list, index, lash))
            continue;
        printf("%stier %u %s %s", between, entry[0], entry[1] ? "bottom" : "top", entry[2] ? "side" : "cross");
        between = ", ";
    }
    printf("%s\n", *between ? "" : "no lash");
}

int main(int argc, char **argv)
{
    uint8_t sheet[LASH_SHEET_SIZE + 1], gear[LASH_GEAR_SIZE], list[LASH_LIST_SIZE]; /* a byte more than any sheet that is taken */
    size_t gear_length;
    (void)argv;
    if (argc != 1) {
        fprintf(stderr, "usage: arrange, the stack sheet on standard input\n");
        return NO_LIST;
    }
    size_t length = split(sheet, fread(sheet, 1, sizeof sheet, stdin), gear, &gear_length);
    uint64_t result = lash_arrangements(sheet, length, gear, gear_length, list, sizeof list);
    if (lash_number_of(result) != LASH_TAKEN) {
        printf("refused: number %u, second number %" PRIu64 "\n", lash_number_of(result), lash_second_of(result));
        return NO_LIST;
    }
    printf("%u of %u choices accepted\n", lash_choices(result, list), 1u << gear[0]);
    for (unsigned index = 0; index < lash_choices(result, list); index++)
        tell(result, list, index, gear);
    return lash_choices(result, list) ? ACCEPTED : NONE_ACCEPTED;
}
