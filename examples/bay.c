/* Checks the bay whose sheet is on standard input and says in words what each row, from port to starboard, came to.
   Exit status 0: every loaded row is accepted; 1: not; 2: refused, or bad use.

   cc examples/bay.c target/staticlib/liblash.a -o bay        after `python3 -m lashlib.build`, in the repository's folder
   ./lash bay examples/bays/open-gap.toml --write - | ./bay */
#include "../include/lash_check.h"

#include <inttypes.h>
#include <stdio.h>

enum { ACCEPTED = 0, NOT_ACCEPTED = 1, NO_REPORT = 2 };

static int refused(uint64_t result)
{
    unsigned number = lash_number_of(result), row = lash_bay_row_of(result);
    if (row)
        printf("refused: row %u: number %u, second number %" PRIu64 "\n", row, number, lash_bay_second_of(result));
    else if (number == LASH_BAY)
        printf("refused: number %u: a count outside 1 to %d rows, or lengths that do not end with the bay's bytes\n", number,
               LASH_MOST_ROWS);
    else
        printf("refused: number %u, second number %" PRIu64 "\n", number, lash_bay_second_of(result));
    return NO_REPORT;
}

/* A row in words; whether it is loaded. */
static unsigned tell(uint64_t result, const uint8_t *report, unsigned row)
{
    struct lash_row found = lash_bay_row(result, report, row);
    if (!found.result)
        printf("row %u: empty\n", row);
    else if (lash_accepted(found.result, found.answer))
        printf("row %u: accepted\n", row);
    else
        printf("row %u: not accepted, %u limit(s) exceeded\n", row, lash_findings(found.result, found.answer));
    return found.result != 0;
}

int main(int argc, char **argv)
{
    static uint8_t bay[LASH_BAY_SIZE + 1], report[LASH_REPORT_SIZE]; /* a byte more than any bay that is taken: a longer one is refused */
    unsigned loaded = 0;
    (void)argv;
    if (argc != 1) {
        fprintf(stderr, "usage: bay, the bay sheet on standard input\n");
        return NO_REPORT;
    }
    size_t length = fread(bay, 1, sizeof bay, stdin);
    uint64_t result = lash_bay(bay, length, report, sizeof report);
    if (lash_number_of(result) != LASH_TAKEN)
        return refused(result);
    for (unsigned row = 1; row <= bay[0]; row++)
        loaded += tell(result, report, row);
    printf("%u of %u loaded row(s) accepted; %" PRId64 " kg in all, greatest racking %" PRId64 " N\n", lash_bay_accepted(result, report),
           loaded, lash_bay_mass(result, report), lash_bay_racking(result, report));
    return lash_bay_accepted(result, report) == loaded ? ACCEPTED : NOT_ACCEPTED;
}
