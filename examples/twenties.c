/* Asks whether the masses of a stack of 20-ft boxes in 40-ft cell guides are permitted, and says it in words.
   Exit status 0: permitted; 1: not permitted; 2: refused, or bad use.

   cc examples/twenties.c target/staticlib/liblash.a -o twenties        after `python3 -m lashlib.build`, in the repository's folder
   ./twenties 0 412 24000 22000 20000 18000        table 0 without, 1 with a 40-ft box on top; thousandths of g; kg, lowest first */
#include "../include/lash_check.h"

#include <errno.h>
#include <inttypes.h>
#include <stdio.h>
#include <stdlib.h>

enum { PERMITTED = 0, NOT_PERMITTED = 1, NO_ANSWER = 2, MOST_MASSES = 64 };

/* A number in decimal digits that fits 32 bits. */
static int number(const char *text, uint32_t *value)
{
    char *end;
    errno = 0;
    unsigned long long read = strtoull(text, &end, 10);
    *value = (uint32_t)read;
    return text[0] >= '0' && text[0] <= '9' && *end == '\0' && errno == 0 && read <= UINT32_MAX;
}

static int tell(uint64_t result)
{
    switch (lash_number_of(result)) {
    case LASH_TAKEN:
        printf("%s: all boxes but the lowest weigh %" PRId64 " kg together, permitted are %" PRId64 " kg\n",
               lash_twenties_yes(result) ? "permitted" : "not permitted", lash_twenties_total(result), lash_twenties_permitted(result));
        return lash_twenties_yes(result) ? PERMITTED : NOT_PERMITTED;
    case LASH_GUIDES:
        printf("refused: number %u: table above 1, acceleration outside 350 to 650, or a tier count outside 3 to 11\n", LASH_GUIDES);
        return NO_ANSWER;
    case LASH_BOX:
        printf("refused: number %u: a box over 30,480 kg or of mass 0\n", LASH_BOX);
        return NO_ANSWER;
    default:
        printf("refused: number %u, which this program does not know\n", lash_number_of(result));
        return NO_ANSWER;
    }
}

int main(int argc, char **argv)
{
    uint32_t table, acceleration, masses[MOST_MASSES];
    int count = argc - 3, read = count >= 0 && count <= MOST_MASSES;
    read = read && number(argv[1], &table) && number(argv[2], &acceleration);
    for (int i = 0; read && i < count; i++)
        read = number(argv[3 + i], &masses[i]);
    if (!read) {
        fprintf(stderr, "usage: twenties TABLE ACCELERATION MASS.., whole numbers, at most %d masses\n", MOST_MASSES);
        return NO_ANSWER;
    }
    return tell(lash_twenties(table, acceleration, masses, (size_t)count));
}
