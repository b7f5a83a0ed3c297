/* Times the proved check and the same check in doubles, plain and an expert's, interleaved in one run. Reads a corpus (bench/corpus.py)
   and prints a line a group: its number, its sheets, then medians in ns a sheet: whole check proved, in plain doubles, in the expert's,
   decode of the three, a preview of the sheet, and the check by a forecast. Groups from COLD_GROUP on are seen once a round, so that no
   branch is known from the pass before; of these the first three medians. Groups from BAY_GROUP on hold bays in place of sheets, those
   from GEAR_GROUP on a sheet without lashes and behind it a gear section; of these one median, in ns a bay or a list of choices. */
#include "../include/lash_check.h"
#include "doubles.h"
#include "expert.h"
#include "timing.h"

#include <stdio.h>
#include <stdlib.h>

enum { ROUNDS = 61, GROUPS = 256, COLD_GROUP = 64, BAY_GROUP = 128, GEAR_GROUP = 192, CHECKS = 3, MEASURES = 8 };
enum { COUNT_AT = 8, TIERS_AT = 9, TIER = 12, MASS_AT = 4, NO_LASHES = 2 };

typedef uint64_t check_call(const uint8_t *, size_t, uint8_t *, size_t);

/* A preview of the mass that the top tier has: it answers as the check of the sheet does. */
static uint64_t preview_top(const uint8_t *sheet, size_t length, uint8_t *answer, size_t room)
{
    uint32_t tier = sheet[COUNT_AT];
    const uint8_t *mass = sheet + TIERS_AT + TIER * (tier - 1) + MASS_AT;
    return lash_preview(sheet, length, tier, (uint16_t)(mass[0] | mass[1] << 8), answer, room);
}

/* The check by a forecast whose factor, 0.765, takes as many comparisons as any. */
static uint64_t by_forecast(const uint8_t *sheet, size_t sheet_len, uint8_t *answer, size_t answer_len)
{
    return lash_forecast(sheet, sheet_len, 365, 2500, 48, answer, answer_len);
}

/* Every choice of the gear that lies behind a sheet. */
static uint64_t arrange(const uint8_t *both, size_t length, uint8_t *list, size_t room)
{
    size_t sheet = TIERS_AT + TIER * (size_t)both[COUNT_AT] + NO_LASHES;
    return lash_arrangements(both, sheet, both + sheet, length - sheet, list, room);
}

/* A buffer one byte short is refused after the whole sheet was decoded: that times decode alone. */
static const struct measure {
    check_call *call;
    size_t room;
} measures[MEASURES] = {
    {lash_check, LASH_ANSWER_SIZE},
    {doubles_check, LASH_ANSWER_SIZE},
    {expert_check, LASH_ANSWER_SIZE},
    {lash_check, LASH_ANSWER_SIZE - 1},
    {doubles_check, LASH_ANSWER_SIZE - 1},
    {expert_check, LASH_ANSWER_SIZE - 1},
    {preview_top, LASH_ANSWER_SIZE},
    {by_forecast, LASH_ANSWER_SIZE},
};

static const struct measure of_bays[] = {{lash_bay, LASH_REPORT_SIZE}}, of_gears[] = {{arrange, LASH_LIST_SIZE}};

struct item {
    const uint8_t *bytes;
    size_t length;
};

struct group {
    struct item *items;
    size_t count;
    double times[MEASURES][ROUNDS];
};

static volatile uint64_t sink;

/* The mean of one pass over a group; the answer buffer is not cleared between sheets. */
static double pass(const struct measure *m, const struct group *g)
{
    static uint8_t answer[LASH_REPORT_SIZE];
    uint64_t sum = 0;
    double start = now();
    for (size_t i = 0; i < g->count; i++)
        sum += m->call(g->items[i].bytes, g->items[i].length, answer, m->room);
    double spent = now() - start;
    sink = sum + answer[0];
    return spent / (double)g->count;
}

static int count_of(int group) { return group < COLD_GROUP ? MEASURES : group < BAY_GROUP ? CHECKS : 1; }
static int is_cold(int group) { return group >= COLD_GROUP && group < BAY_GROUP; }

/* Every measure in turn, in the other order every second round; but for cold groups the pass before each timed one warms caches and
   branches for it. */
static void time_round(int group, struct group *g, int round)
{
    const struct measure *those = group < BAY_GROUP ? measures : group < GEAR_GROUP ? of_bays : of_gears;
    int count = count_of(group);
    for (int i = 0; i < count; i++) {
        int m = round % 2 ? count - 1 - i : i;
        if (!is_cold(group))
            pass(&those[m], g);
        g->times[m][round] = pass(&those[m], g);
    }
}

static void print_medians(int number, struct group *g)
{
    printf("%d %zu", number, g->count);
    for (int m = 0; m < count_of(number); m++)
        printf(" %.1f", median(g->times[m], ROUNDS));
    printf("\n");
}

static uint8_t *read_all(const char *path, size_t *size)
{
    FILE *f = fopen(path, "rb");
    uint8_t *bytes = NULL;
    long end = -1;
    if (f && fseek(f, 0, SEEK_END) == 0 && (end = ftell(f)) > 0 && fseek(f, 0, SEEK_SET) == 0)
        bytes = malloc((size_t)end);
    *size = bytes ? fread(bytes, 1, (size_t)end, f) : 0;
    if (f)
        fclose(f);
    return bytes;
}

/* Whether the corpus was well formed and there was memory for it. */
static int sort_into_groups(const uint8_t *bytes, size_t size, struct group *groups)
{
    for (size_t at = 0; at < size;) {
        size_t length = at + 3 <= size ? bytes[at + 1] | (size_t)bytes[at + 2] << 8 : size;
        if (at + 3 + length > size)
            return 0;
        struct group *g = &groups[bytes[at]];
        struct item *items = realloc(g->items, (g->count + 1) * sizeof *items);
        if (!items)
            return 0;
        g->items = items;
        g->items[g->count++] = (struct item){bytes + at + 3, length};
        at += 3 + length;
    }
    return 1;
}

int main(int argc, char **argv)
{
    static struct group groups[GROUPS];
    size_t size;
    uint8_t *bytes = argc == 2 ? read_all(argv[1], &size) : NULL;
    if (!bytes || !sort_into_groups(bytes, size, groups)) {
        fprintf(stderr, "bench: usage: bench CORPUS, a file that bench/run writes\n");
        return 2;
    }
    for (int round = 0; round < ROUNDS; round++)
        for (int i = 0; i < GROUPS; i++)
            if (groups[i].count)
                time_round(i, &groups[i], round);
    for (int i = 0; i < GROUPS; i++) {
        if (groups[i].count)
            print_medians(i, &groups[i]);
        free(groups[i].items);
    }
    free(bytes);
    return 0;
}
