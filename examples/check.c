/* Checks the stack sheet in a file, with three numbers more by the forecast of a short voyage, and says the result in words.
   Exit status 0: accepted; 1: not accepted; 2: refused, or no sheet to read.

   cc examples/check.c target/staticlib/liblash.a -o check        after `python3 -m lashlib.build`, in the repository's folder
   ./check SHEET
   ./check SHEET 300 2500 48                                      wave height and breadth in cm, voyage in hours */
#include "../include/lash_check.h"

#include <errno.h>
#include <inttypes.h>
#include <stdio.h>
#include <stdlib.h>
#include <string.h>

enum { ACCEPTED = 0, NOT_ACCEPTED = 1, NO_ANSWER = 2 };

static const char *const end_names[] = {[LASH_DOOR] = "door end", [LASH_CLOSED] = "closed end"};

/* By number: why a sheet is turned back, and what the second number is. */
static const struct {
    const char *reason, *second;
} refusals[] = {
    [LASH_SHORT] = {"too few bytes remain for the head, count or entry due next", "the sheet's length"},
    [LASH_SPARE] = {"bytes follow the last entry", "offset of the first spare byte"},
    [LASH_RULE] = {"rule number not 1 or 2, or the zero byte not zero", "offset of the rule number"},
    [LASH_ROUTE] = {"route above 12", "offset of the route"},
    [LASH_LOCK] = {"lock material or its breaking load outside its codes or limits", "offset of the material"},
    [LASH_TIER_COUNT] = {"tier count 0 or above 10", "offset of the count"},
    [LASH_TIER] = {"a tier field outside its codes or limits", "offset of the tier"},
    [LASH_SIZE] = {"size differs from tier 1", "offset of the tier"},
    [LASH_LASH_COUNT] = {"lash count above 8", "offset of the count"},
    [LASH_LASH] = {"hook, kind, material or a measure outside codes or limits", "offset of the lash"},
    [LASH_PLACE] = {"tier 0 or above the tier count, or bottom corner of tier 1", "offset of the lash"},
    [LASH_ORDER] = {"not later than the lash before it at the same end", "offset of the lash"},
    [LASH_ROOM] = {"the answer buffer is too short", "the bytes it must have"},
    [LASH_WITH_ROUTE] = {"a forecast on a route other than 0", "always 0"},
    [LASH_NO_FORECAST] = {"a voyage of 72 hours or more, or a breadth of 0", "always 0"},
};

/* By kind of finding: the force, where it stands, and what it exceeds. */
static const struct {
    const char *force, *place, *limit;
} kinds[] = {
    [LASH_OVER_RACKING] = {"racking", "tier", "its limit"},
    [LASH_OVER_COMPRESSION] = {"compression", "level", "its limit"},
    [LASH_OVER_CORNER] = {"tension", "level", "the corner's limit"},
    [LASH_OVER_LOCK] = {"tension", "level", "the lock's safe working load"},
    [LASH_OVER_TENSION] = {"lash tension", "lash", "its safe working load"},
    [LASH_OVER_VERTICAL] = {"vertical part", "lash", "its limit"},
    [LASH_OVER_ATHWART] = {"athwart part", "lash", "its limit"},
};

/* A checked sheet: what the call returned and the answer's bytes. */
struct checked {
    uint64_t result;
    uint8_t answer[LASH_ANSWER_SIZE];
};

static int64_t size_of(int64_t force) { return force < 0 ? -force : force; }

/* Which way a racking points; every other force has one way. */
static const char *way(unsigned kind, int64_t force)
{
    return kind != LASH_OVER_RACKING || force == 0 ? "" : force > 0 ? " to leeward" : " to windward";
}

static void print_finding(const struct checked *c, struct lash_found f)
{
    int64_t force = lash_found_force(c->result, c->answer, f);
    printf("  %s, %s %u: %s %" PRId64 " N%s is over %s\n", end_names[f.end], kinds[f.kind].place, f.index, kinds[f.kind].force,
           size_of(force), way(f.kind, force), kinds[f.kind].limit);
}

/* The largest force of a kind at an end and where it stands, in words. */
static const char *largest(const struct checked *c, unsigned end, unsigned kind, char *text, size_t size)
{
    struct lash_found at = {end, kind, kind == LASH_OVER_RACKING ? 1 : 0}, most = at;
    int64_t force, greatest = LASH_NONE;
    for (; (force = lash_found_force(c->result, c->answer, at)) != LASH_NONE; at.index++)
        if (greatest == LASH_NONE || size_of(force) > size_of(greatest)) {
            greatest = force;
            most = at;
        }
    if (greatest == LASH_NONE)
        return "-";
    snprintf(text, size, "%" PRId64 " N%s, %s %u", size_of(greatest), way(kind, greatest), kinds[kind].place, most.index);
    return text;
}

static int print_answer(const struct checked *c)
{
    static const unsigned rows[] = {LASH_OVER_RACKING, LASH_OVER_COMPRESSION, LASH_OVER_CORNER,
                                    LASH_OVER_TENSION, LASH_OVER_ATHWART,     LASH_OVER_VERTICAL};
    unsigned findings = lash_findings(c->result, c->answer);
    int accepted = lash_accepted(c->result, c->answer);
    if (accepted)
        printf("accepted: no limit is exceeded\n");
    else
        printf("not accepted: %u finding%s\n", findings, findings == 1 ? "" : "s");
    for (unsigned i = 0; i < findings; i++)
        print_finding(c, lash_finding_of(c->result, c->answer, i));
    printf("%-18s%-34s%s\n", "largest", end_names[LASH_DOOR], end_names[LASH_CLOSED]);
    for (size_t i = 0; i < sizeof rows / sizeof *rows; i++) {
        char door[64], closed[64];
        printf("  %-16s%-34s%s\n", kinds[rows[i]].force, largest(c, LASH_DOOR, rows[i], door, sizeof door),
               largest(c, LASH_CLOSED, rows[i], closed, sizeof closed));
    }
    return accepted ? ACCEPTED : NOT_ACCEPTED;
}

static int print_refusal(uint64_t result)
{
    unsigned number = lash_number_of(result);
    printf("refused: number %u: %s; second number %" PRIu64 ": %s\n", number, refusals[number].reason, lash_second_of(result),
           refusals[number].second);
    return NO_ANSWER;
}

/* Reads a sheet; one byte more than any sheet has is enough, since the check refuses it as it would all of a longer file. */
static int read_sheet(const char *path, uint8_t *sheet, size_t *length)
{
    FILE *file = fopen(path, "rb");
    int failed = !file;
    if (file) {
        *length = fread(sheet, 1, LASH_SHEET_SIZE + 1, file);
        failed = ferror(file);
    }
    if (failed)
        fprintf(stderr, "check: %s: %s\n", path, strerror(errno));
    if (file)
        fclose(file);
    return !failed;
}

/* Wave height, breadth and hours, as far as the call can be given them. */
static int read_forecast(char **words, unsigned long *numbers)
{
    static const unsigned long most[] = {UINT16_MAX, UINT16_MAX, UINT32_MAX};
    for (int i = 0; i < 3; i++) {
        char *end = words[i];
        errno = 0;
        numbers[i] = words[i][0] >= '0' && words[i][0] <= '9' ? strtoul(words[i], &end, 10) : 0;
        if (end == words[i] || *end != '\0' || errno || numbers[i] > most[i])
            return 0;
    }
    return 1;
}

int main(int argc, char **argv)
{
    uint8_t sheet[LASH_SHEET_SIZE + 1];
    unsigned long weather[3];
    struct checked c;
    size_t length;
    if (argc != 2 && !(argc == 5 && read_forecast(argv + 2, weather))) {
        fprintf(stderr, "usage: check SHEET [WAVE_HEIGHT BREADTH HOURS], a file with the bytes of a stack sheet, and a forecast\n");
        return NO_ANSWER;
    }
    if (!read_sheet(argv[1], sheet, &length))
        return NO_ANSWER;
    if (argc == 2)
        c.result = lash_check(sheet, length, c.answer, sizeof c.answer);
    else
        c.result = lash_forecast(sheet, length, (uint16_t)weather[0], (uint16_t)weather[1], (uint32_t)weather[2], c.answer,
                                 sizeof c.answer);
    return lash_number_of(c.result) == LASH_TAKEN ? print_answer(&c) : print_refusal(c.result);
}
