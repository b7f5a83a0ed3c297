/* Searches for a lash's length beside each other: ns a length on long rods, on short ones and on all sides, and the most trial
   lengths that were squared for one lash. The check does the first (crates/lash_length). With --check, no times: what each search finds
   for sides that are read. */

#include "timing.h"

#include <inttypes.h>
#include <stdint.h>
#include <stdio.h>
#include <stdlib.h>
#include <string.h>

enum { LASHES = 8192, ROUNDS = 41, KINDS = 3 };

struct sides {
    uint64_t sum, longest, others;
};

static uint64_t greater(uint64_t a, uint64_t b)
{
    return a > b ? a : b;
}

static struct sides sides_of(const uint16_t side[3])
{
    uint64_t x = side[0], y = side[1], z = side[2], longest = greater(x, greater(y, z));
    return (struct sides){x * x + y * y + z * z, longest, x + y + z - longest};
}

/* Whether a trial's square is enough; it is counted. */
static int enough(struct sides g, uint64_t trial, unsigned *squared)
{
    *squared += 1;
    return g.sum <= trial * trial;
}

static uint64_t step(uint64_t sum, uint64_t x)
{
    return (x + sum / x) / 2 + 1;
}

static uint64_t start(struct sides g)
{
    return step(g.sum, step(g.sum, g.longest + g.others * 5 / 16));
}

static uint64_t one_trial(struct sides g, unsigned *squared)
{
    uint64_t length = start(g);
    return length - (uint64_t)enough(g, length - 1, squared);
}

static uint64_t loop(struct sides g, unsigned *squared)
{
    uint64_t length = start(g);
    while (enough(g, length - 1, squared))
        length--;
    return length;
}

/* L lies above the longest side, by at most 5,000. */
static uint64_t halving(struct sides g, unsigned *squared)
{
    uint64_t below = g.longest, above = g.longest + 5000;
    while (above - below > 1) {
        uint64_t middle = (below + above) / 2;
        if (enough(g, middle, squared))
            above = middle;
        else
            below = middle;
    }
    return above;
}

/* The same by parts of 4,096, 2,048, .. 1, each added if that is not enough. */
static uint64_t halving_without_branches(struct sides g, unsigned *squared)
{
    uint64_t below = g.longest;
    for (uint64_t part = 4096; part > 0; part /= 2)
        below += part & -(uint64_t)!enough(g, below + part, squared);
    return below + 1;
}

static uint16_t drawn[LASHES][3];

static uint16_t between(unsigned least, unsigned most)
{
    return (uint16_t)(least + (unsigned)rand() % (most - least + 1));
}

static void draw(const unsigned limits[6])
{
    for (int i = 0; i < LASHES; i++)
        for (int k = 0; k < 3; k++)
            drawn[i][k] = between(limits[2 * k], limits[2 * k + 1]);
}

/* Defines a function that gives the median of a search's times, and the most squares and the sum of its lengths. */
#define TIMED(search)                                                       \
    static double time_##search(unsigned *most, uint64_t *total)            \
    {                                                                       \
        double times[ROUNDS];                                               \
        for (int round = 0; round < ROUNDS; round++) {                      \
            double began = now();                                           \
            uint64_t lengths = 0;                                           \
            for (int i = 0; i < LASHES; i++) {                              \
                unsigned unused = 0;                                        \
                lengths += search(sides_of(drawn[i]), &unused);             \
            }                                                               \
            times[round] = (now() - began) / LASHES;                        \
            *total = lengths;                                               \
        }                                                                   \
        for (int i = 0; i < LASHES; i++) {                                  \
            unsigned squared = 0;                                           \
            search(sides_of(drawn[i]), &squared);                           \
            *most = squared > *most ? squared : *most;                      \
        }                                                                   \
        return median(times, ROUNDS);                                       \
    }

TIMED(one_trial)
TIMED(loop)
TIMED(halving)
TIMED(halving_without_branches)

static const struct {
    const char *name;
    uint64_t (*search)(struct sides g, unsigned *squared);
    double (*time)(unsigned *most, uint64_t *total);
} searches[] = {
    {"two steps, one trial", one_trial, time_one_trial},
    {"two steps, a loop", loop, time_loop},
    {"halving", halving, time_halving},
    {"halving without branches", halving_without_branches, time_halving_without_branches},
};
enum { SEARCHES = sizeof searches / sizeof searches[0] };

/* LX, LY, LZ from least to most: long rods, short rods, all. */
static const unsigned limits[KINDS][6] = {
    {4500, 5000, 9000, 10000, 18000, 20000},
    {0, 50, 500, 550, 500, 550},
    {0, 5000, 500, 10000, 500, 20000},
};

/* LX, LY, LZ of a lash from each line of standard input; of each search a line with the length and how many were squared for it. */
static int show_lengths(void)
{
    uint16_t side[3];
    while (scanf("%" SCNu16 "%" SCNu16 "%" SCNu16, &side[0], &side[1], &side[2]) == 3)
        for (int i = 0; i < SEARCHES; i++) {
            unsigned squared = 0;
            uint64_t length = searches[i].search(sides_of(side), &squared);
            printf("%s: %" PRIu64 " %u\n", searches[i].name, length, squared);
        }
    return 0;
}

static int show_times(void)
{
    double times[SEARCHES][KINDS];
    unsigned most[SEARCHES] = {0};
    for (int kind = 0; kind < KINDS; kind++) {
        uint64_t totals[SEARCHES];
        draw(limits[kind]);
        for (int i = 0; i < SEARCHES; i++) {
            times[i][kind] = searches[i].time(&most[i], &totals[i]);
            if (totals[i] != totals[0]) {
                fprintf(stderr, "%s finds other lengths\n", searches[i].name);
                return 1;
            }
        }
    }
    printf("%-26s%12s%12s%12s%14s\n", "ns a length", "long rods", "short rods", "all sides", "most squares");
    for (int i = 0; i < SEARCHES; i++)
        printf("%-26s%12.1f%12.1f%12.1f%14u\n", searches[i].name, times[i][0], times[i][1], times[i][2], most[i]);
    return 0;
}

int main(int argc, char **argv)
{
    if (argc == 1)
        return show_times();
    if (argc == 2 && strcmp(argv[1], "--check") == 0)
        return show_lengths();
    fprintf(stderr, "usage: lengths [--check]\n");
    return 2;
}
