/* The readers of lash_check.h on one sheet: prints all that they give for its answer, tries places that the answer does not have,
   and reads it cut short at every length, with an unreadable page right behind, and with bytes behind it counted in. The same of the
   report of a bay with this sheet in two of three rows, and of a list of choices.

   usage: readers SHEET
   Exit status 0: done; 1: a reader gave something for a place that is not there; 2: no sheet to read, or no memory to run in. */
#define _GNU_SOURCE
#include "../include/lash_check.h"

#include <inttypes.h>
#include <stdio.h>
#include <string.h>
#include <sys/mman.h>
#include <unistd.h>

enum { TOO_MANY = 300 }; /* above any count that a byte can hold */

static int absent(uint64_t r, const uint8_t *a, unsigned end, unsigned tier, unsigned level, unsigned top, unsigned lash)
{
    struct lash_forces f = lash_forces_of(r, a, end, lash);
    return lash_racking(r, a, end, tier) == LASH_NONE && lash_compression(r, a, end, level) == LASH_NONE &&
           lash_tension(r, a, end, top) == LASH_NONE && f.tension == LASH_NONE && f.athwart == LASH_NONE && f.vertical == LASH_NONE;
}

/* Whether there is nothing past each list's end, before the first tier, at a third end and behind the last finding. */
static int bounded(uint64_t r, const uint8_t *a)
{
    unsigned n = lash_tiers(r, a);
    for (unsigned end = LASH_DOOR; end <= LASH_CLOSED; end++)
        if (!absent(r, a, end, n + 1, n + 1, n, lash_lashes(r, a, end)) || !absent(r, a, end, 0, TOO_MANY, TOO_MANY, TOO_MANY) ||
            !absent(r, a, end, UINT32_MAX, UINT32_MAX, UINT32_MAX, UINT32_MAX))
            return 0;
    return absent(r, a, 2, 1, 0, 0, 0) && absent(r, a, UINT32_MAX, 1, 0, 0, 0) && lash_lashes(r, a, 2) == 0 &&
           lash_finding_of(r, a, lash_findings(r, a)).kind == 0 && lash_finding_of(r, a, UINT32_MAX).kind == 0;
}

/* Whether a refusal that leaves this answer in the buffer is no acceptance and has no figures. */
static int silent_when_refused(const uint8_t *a)
{
    for (unsigned number = LASH_SHORT; number <= LASH_ROOM; number++) {
        uint64_t r = number | UINT64_C(834) << 8;
        if (lash_accepted(r, a) || lash_tiers(r, a) || lash_findings(r, a) || lash_lashes(r, a, LASH_DOOR) ||
            !absent(r, a, LASH_DOOR, 1, 0, 0, 0) || lash_finding_of(r, a, 0).kind)
            return 0;
    }
    return 1;
}

static void print_all(uint64_t r, const uint8_t *a)
{
    unsigned n = lash_tiers(r, a);
    printf("accepted %d\n", lash_accepted(r, a));
    for (unsigned end = LASH_DOOR; end <= LASH_CLOSED; end++) {
        printf("racking");
        for (unsigned tier = 1; tier <= n; tier++)
            printf(" %" PRId64, lash_racking(r, a, end, tier));
        printf("\ncompression");
        for (unsigned level = 0; level <= n; level++)
            printf(" %" PRId64, lash_compression(r, a, end, level));
        printf("\ntension");
        for (unsigned level = 0; level < n; level++)
            printf(" %" PRId64, lash_tension(r, a, end, level));
        printf("\nlashes");
        for (unsigned lash = 0; lash < lash_lashes(r, a, end); lash++) {
            struct lash_forces f = lash_forces_of(r, a, end, lash);
            printf(" %" PRId64 " %" PRId64 " %" PRId64, f.tension, f.athwart, f.vertical);
        }
        printf("\n");
    }
    printf("findings");
    for (unsigned i = 0; i < lash_findings(r, a); i++) {
        struct lash_found f = lash_finding_of(r, a, i);
        printf(" %u %u %u", f.end, f.kind, f.index);
    }
    printf("\n");
}

static int same(int64_t cut, int64_t whole) { return cut == LASH_NONE || cut == whole; }

/* Whether what is read from the first bytes of an answer is what the whole one has there, or nothing. */
static int part_of(uint64_t r, const uint8_t *a, uint64_t whole, const uint8_t *answer)
{
    int kept = 1;
    for (unsigned end = LASH_DOOR; end <= LASH_CLOSED; end++) {
        for (unsigned i = 0; i <= lash_tiers(whole, answer); i++) {
            kept &= same(lash_racking(r, a, end, i), lash_racking(whole, answer, end, i));
            kept &= same(lash_compression(r, a, end, i), lash_compression(whole, answer, end, i));
            kept &= same(lash_tension(r, a, end, i), lash_tension(whole, answer, end, i));
        }
        for (unsigned i = 0; i <= lash_lashes(whole, answer, end); i++) {
            struct lash_forces f = lash_forces_of(r, a, end, i), g = lash_forces_of(whole, answer, end, i);
            kept &= same(f.tension, g.tension) && same(f.athwart, g.athwart) && same(f.vertical, g.vertical);
        }
    }
    for (unsigned i = 0; i <= lash_findings(whole, answer); i++) {
        struct lash_found f = lash_finding_of(r, a, i), g = lash_finding_of(whole, answer, i);
        kept &= f.kind == 0 || (f.end == g.end && f.kind == g.kind && f.index == g.index);
        kept &= same(lash_found_force(r, a, f), lash_found_force(whole, answer, g));
    }
    return kept;
}

/* Whether the readers keep within the first bytes of an answer, for every number of them: an unreadable page follows. */
static int within_cut_answers(const uint8_t *answer, size_t length)
{
    size_t page = (size_t)sysconf(_SC_PAGESIZE);
    uint8_t *area = mmap(NULL, 2 * page, PROT_READ | PROT_WRITE, MAP_PRIVATE | MAP_ANONYMOUS, -1, 0);
    int kept = 1;
    if (area == MAP_FAILED || length > page || mprotect(area + page, page, PROT_NONE) != 0)
        return -1;
    for (size_t cut = 0; cut <= length; cut++) {
        uint8_t *a = area + page - cut;
        uint64_t r = (uint64_t)cut << 8;
        memcpy(a, answer, cut);
        kept &= part_of(r, a, (uint64_t)length << 8, answer);
        if (cut == 0)
            kept &= !lash_accepted(r, a);
    }
    munmap(area, 2 * page);
    return kept;
}

/* Whether a report cut short gives each row and total as the whole one does, or nothing. */
static int part_of_report(uint64_t r, const uint8_t *a, uint64_t whole, const uint8_t *report)
{
    int kept = same(lash_bay_mass(r, a), lash_bay_mass(whole, report)) && same(lash_bay_racking(r, a), lash_bay_racking(whole, report));
    for (unsigned row = 0; row <= LASH_MOST_ROWS + 1; row++) {
        struct lash_row f = lash_bay_row(r, a, row), g = lash_bay_row(whole, report, row);
        kept &= f.result == 0 || (f.result == g.result && memcmp(f.answer, g.answer, (size_t)lash_second_of(g.result)) == 0);
    }
    return kept;
}

/* Whether the readers keep within the first bytes of a report, for every number of them: an unreadable page follows. */
static int within_cut_reports(const uint8_t *sheet, size_t length)
{
    static uint8_t bay[1 + 3 * 2 + 2 * LASH_SHEET_SIZE], report[LASH_REPORT_SIZE];
    size_t page = (size_t)sysconf(_SC_PAGESIZE), first = 3 + length, last = first + 4;
    bay[0] = 3;
    bay[1] = bay[first + 2] = (uint8_t)length;
    bay[2] = bay[first + 3] = (uint8_t)(length >> 8);
    memcpy(bay + 3, sheet, length);
    memcpy(bay + last, sheet, length);
    uint64_t whole = lash_bay(bay, last + length, report, sizeof report);
    size_t size = lash_bay_second_of(whole);
    uint8_t *area = mmap(NULL, 2 * page, PROT_READ | PROT_WRITE, MAP_PRIVATE | MAP_ANONYMOUS, -1, 0);
    int kept = lash_number_of(whole) == LASH_TAKEN && lash_bay_row(whole, report, 1).result && !lash_bay_row(whole, report, 2).result &&
               lash_bay_row(whole, report, 3).result == lash_bay_row(whole, report, 1).result && !lash_bay_row(whole, report, 4).result;
    if (area == MAP_FAILED || size > page || mprotect(area + page, page, PROT_NONE) != 0)
        return -1;
    for (size_t cut = 0; cut <= size; cut++) {
        uint8_t *a = area + page - cut;
        memcpy(a, report, cut);
        kept &= part_of_report((uint64_t)cut << 8, a, whole, report);
        kept &= cut > 0 || lash_bay_accepted(0, a) == 0;
    }
    kept &= part_of_report(whole | LASH_BAY, report, whole, report) && lash_bay_accepted(whole | LASH_BAY, report) == 0;
    munmap(area, 2 * page);
    return kept;
}

/* Whether the readers of a list give its choices, and of its first bytes, for every number of them, what the whole one has there, or
   nothing: an unreadable page follows. */
static int within_cut_lists(void)
{
    static const uint8_t list[] = {5, 0, 0, 1, 128, 3, 255};
    const uint64_t whole = (uint64_t)sizeof list << 8;
    size_t page = (size_t)sysconf(_SC_PAGESIZE);
    uint8_t *area = mmap(NULL, 2 * page, PROT_READ | PROT_WRITE, MAP_PRIVATE | MAP_ANONYMOUS, -1, 0);
    int kept = lash_choices(whole, list) == 5 && lash_choice(whole, list, 5) == LASH_NONE && lash_choice_uses(whole, list, 2, 7) &&
               !lash_choice_uses(whole, list, 2, 0) && !lash_choice_uses(whole, list, 4, 8) && lash_choices(whole | LASH_LASHED, list) == 0;
    if (area == MAP_FAILED || mprotect(area + page, page, PROT_NONE) != 0)
        return -1;
    for (size_t cut = 0; cut <= sizeof list; cut++) {
        uint8_t *a = area + page - cut;
        uint64_t r = (uint64_t)cut << 8;
        memcpy(a, list, cut);
        for (unsigned i = 0; i <= sizeof list; i++) {
            kept &= same(lash_choice(r, a, i), lash_choice(whole, list, i));
            kept &= lash_choice(r | LASH_LASHED, a, i) == LASH_NONE && !lash_choice_uses(r, a, i, 8);
        }
    }
    munmap(area, 2 * page);
    return kept;
}

int main(int argc, char **argv)
{
    uint8_t sheet[LASH_SHEET_SIZE + 1], answer[LASH_ANSWER_SIZE];
    FILE *file = argc == 2 ? fopen(argv[1], "rb") : NULL;
    if (!file) {
        fprintf(stderr, "usage: readers SHEET, a file with the bytes of a stack sheet\n");
        return 2;
    }
    size_t length = fread(sheet, 1, sizeof sheet, file);
    fclose(file);
    memset(answer, 0, sizeof answer); /* an old verdict: accepted */
    uint64_t result = lash_check(sheet, length, answer, sizeof answer);
    if (lash_number_of(result) != LASH_TAKEN) {
        printf("refused %u %" PRIu64 "\n", lash_number_of(result), lash_second_of(result));
        return lash_accepted(result, answer) ? 1 : 0;
    }
    memset(answer + lash_second_of(result), 1, sizeof answer - (size_t)lash_second_of(result));
    print_all(result, answer);
    int kept = within_cut_answers(answer, (size_t)lash_second_of(result)), of_bay = within_cut_reports(sheet, length);
    int whole = bounded(result, answer) && bounded((uint64_t)sizeof answer << 8, answer), of_list = within_cut_lists();
    if (kept < 0 || of_bay < 0 || of_list < 0)
        return 2;
    return kept && of_bay && of_list && whole && silent_when_refused(answer) ? 0 : 1;
}
