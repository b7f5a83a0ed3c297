/* The boundary of the C calls. Sheets good, damaged and random: the sheet lies in memory that can only be read and the answer buffer
   in memory of its own; unreadable pages stand right before and behind both. Each sheet is checked twice, first against the pages
   behind, then against those before, over two patterns that differ in every byte: whatever the call wrote, a byte written is told
   from a byte left alone. Each sheet is previewed the same way with a tier and a mass, and held to the check of a copy. Then forecasts,
   a fifth as many, on sheets of their own in the same way; beside each the greatest factor, by which the call must do what the check
   does. Then side walls, on sheets of their own in the same way, each with a short sheet that lies as the stack sheet does. Then
   bays, in boundary_bay.h, and arrangements, in boundary_gear.h. Then twenties: their masses lie as the sheets do, and where no mass is
   to be read, on an unreadable page. Then accelerations from roll: no memory is lent, so only the numbers are tried.

   usage: boundary [--count N] [--seed N] [--dump FILE]
   Exit status 0: no fault; 1: a fault, shown with its sheet; 2: bad use, or no memory to run in. */
#define _GNU_SOURCE
#include "../include/lash_check.h"

#include <setjmp.h>
#include <signal.h>
#include <stdarg.h>
#include <stdio.h>
#include <stdlib.h>
#include <string.h>
#include <sys/mman.h>
#include <ucontext.h>
#include <unistd.h>

enum { HEAD = 8, TIER = 12, LASH = 20, MOST_TIERS = 10, MOST_LASHES = 8, LEAST_SHEET = 23 };
enum { RULE_AT = 0, ROUTE_AT = 1, ZERO_AT = 3, LEAST_RULE = 1, MOST_RULE = 2 };
enum { EVERY_LENGTH = 501, STRIDE = 211 }; /* no common divisor: every length has its turn */
enum { AREA = 8192, DUMPED = 600, ENOUGH = 10000, NUMBERS = LASH_ROOM + 1, SHEETS_A_FORECAST = 5, LEAST_HOURS_REFUSED = 72 };
enum { MASS_AT = 4 }; /* in a tier's bytes */
enum { SHEETS_A_SIDE = 5, MOST_LONGITUDINAL = 1500, MOST_PITCH = 1 + 2 * 255 };
enum { BAY_AREA = 16384, SHEETS_A_BAY = 10 };
enum { SHEETS_A_GEAR = 5, MOST_GEAR = EVERY_LENGTH };
enum { LEAST_TIERS_IN_GUIDES = 3, MOST_TIERS_IN_GUIDES = 11, MOST_MASS = 30480, SHEETS_A_QUESTION = 5 };

/* Numbers at random, the same for the same seed. */

static uint64_t state;

static uint64_t next_random(void)
{
    uint64_t z = state += UINT64_C(0x9e3779b97f4a7c15);
    z = (z ^ z >> 30) * UINT64_C(0xbf58476d1ce4e5b9);
    z = (z ^ z >> 27) * UINT64_C(0x94d049bb133111eb);
    return z ^ z >> 31;
}

static uint32_t below(uint32_t limit) { return (uint32_t)((next_random() >> 32) * limit >> 32); }
static uint32_t between(uint32_t least, uint32_t most) { return least + below(most - least + 1); }

/* Sheets. */

struct sheet {
    uint8_t bytes[AREA];
    size_t length;
    const char *kind;
    int known;      /* whether what must come out follows from how it was made */
    uint64_t due;   /* that, if the answer buffer is long enough */
};

/* Offset and bytes of a field, its limits, and what is common. */
struct field {
    uint32_t at, width, least, most, low, high;
};

static const struct field head_fields[] = {
    {RULE_AT, 1, LEAST_RULE, MOST_RULE, LEAST_RULE, MOST_RULE},
    {1, 1, 0, 12, 0, 12},
    {2, 1, 0, 2, 0, 2},
    {4, 4, 1, 2000000, 400000, 600000},
};
static const struct field tier_fields[] = {
    {1, 1, 0, 3, 0, 3},
    {4, 2, 1, 30480, 2200, 30480},
    {6, 2, 0, 1500, 250, 800},
    {8, 2, 0, 3000, 1050, 1600},
    {10, 2, 0, 1000, 400, 950},
};
static const struct field lash_fields[] = {
    {3, 1, 0, 3, 0, 3},
    {4, 2, 0, 5000, 0, 450},
    {6, 2, 500, 10000, 600, 2300},
    {8, 2, 500, 20000, 2400, 8000},
    {10, 2, 50, 1000, 380, 531},
    {12, 4, 10000, 200000, 97100, 176600},
    {16, 4, 1, 2000000, 360000, 490000},
};
static const uint32_t heights[2][2] = {{2438, 2591}, {2591, 2896}};

#define COUNT(list) (sizeof(list) / sizeof *(list))

static void put(uint8_t *p, uint32_t width, uint32_t value)
{
    for (uint32_t i = 0; i < width; i++)
        p[i] = (uint8_t)(value >> 8 * i);
}

static uint32_t get2(const uint8_t *p) { return p[0] | (uint32_t)p[1] << 8; }

/* Whether the rule number is one, and the zero byte zero. */
static int head_begins_well(const uint8_t *s) { return s[RULE_AT] >= LEAST_RULE && s[RULE_AT] <= MOST_RULE && s[ZERO_AT] == 0; }

/* A legal value: a common one, or mostly one of the two limits. */
static void put_fields(uint8_t *p, const struct field *fields, size_t count, int extreme)
{
    for (size_t i = 0; i < count; i++) {
        const struct field *f = &fields[i];
        uint32_t corners[] = {f->least, f->most, f->most, between(f->least, f->most)};
        put(p + f->at, f->width, extreme ? corners[below(4)] : between(f->low, f->high));
    }
}

static void add_tier(struct sheet *s, uint32_t feet, int extreme)
{
    uint8_t *p = s->bytes + s->length;
    s->length += TIER;
    p[0] = (uint8_t)feet;
    put(p + 2, 2, heights[feet == 40][below(2)]);
    put_fields(p, tier_fields, COUNT(tier_fields), extreme);
    if (get2(p + 10) > get2(p + 8))
        memcpy(p + 10, p + 8, 2);
}

static int bare; /* sheets are made without lashes */

/* Lashes at places drawn in sheet order: by tier, then hook, then kind, without the bottom of tier 1. */
static void add_end(struct sheet *s, uint32_t tiers, int extreme)
{
    uint32_t places = 4 * tiers - 2, due = bare ? 0 : below(MOST_LASHES + 1);
    due = due < places ? due : places;
    s->bytes[s->length++] = (uint8_t)due;
    for (uint32_t place = 0; due; place++) {
        if (below(places - place) >= due)
            continue;
        uint32_t key = place < 2 ? place : place + 2;
        uint8_t *p = s->bytes + s->length;
        s->length += LASH;
        p[0] = (uint8_t)(key / 4 + 1);
        p[1] = key / 2 % 2;
        p[2] = key % 2;
        put_fields(p, lash_fields, COUNT(lash_fields), extreme);
        due--;
    }
}

static void make_good(struct sheet *s, int extreme)
{
    uint32_t tiers = between(1, MOST_TIERS), feet = below(2) ? 40 : 20;
    s->bytes[ZERO_AT] = 0;
    put_fields(s->bytes, head_fields, COUNT(head_fields), extreme);
    s->bytes[HEAD] = (uint8_t)tiers;
    s->length = HEAD + 1;
    for (uint32_t i = 0; i < tiers; i++)
        add_tier(s, feet, extreme);
    add_end(s, tiers, extreme);
    add_end(s, tiers, extreme);
    s->known = 1;
    s->due = LASH_TAKEN;
}

static void fill(struct sheet *s, size_t from, size_t length)
{
    for (size_t i = from; i < length; i++)
        s->bytes[i] = (uint8_t)next_random();
    s->length = length;
}

/* Cut: too few bytes from there on. Filled up: the first byte behind the last entry is spare. */
static void resize(struct sheet *s, size_t length)
{
    size_t whole = s->length;
    fill(s, whole, length);
    if (length < whole)
        s->due = LASH_SHORT | (uint64_t)length << 8;
    else if (length > whole)
        s->due = LASH_SPARE | (uint64_t)whole << 8;
}

static void flip(struct sheet *s)
{
    for (uint32_t i = between(1, 4); i; i--)
        s->bytes[below((uint32_t)s->length)] = (uint8_t)next_random();
    s->known = 0;
}

static void scramble(struct sheet *s, size_t length)
{
    size_t keep = below(2) ? below((uint32_t)s->length + 1) : 0;
    fill(s, keep < length ? keep : length, length);
    s->known = 0;
}

/* A rule number that is one or none, or a zero byte that is not; what refuses this comes before all else of a whole head. */
static void edit_rule(struct sheet *s)
{
    if (below(4))
        s->bytes[RULE_AT] = (uint8_t)(below(4) ? below(MOST_RULE + 2) : next_random());
    else
        s->bytes[ZERO_AT] = (uint8_t)below(3);
    if (!head_begins_well(s->bytes))
        s->due = LASH_RULE;
    s->known = 1;
}

/* A field at a limit, one past it, or as great as its bytes allow. */
static void put_edge(uint8_t *p, const struct field *fields, size_t count)
{
    const struct field *f = &fields[below((uint32_t)count)];
    uint32_t edges[] = {f->least, f->least - 1, f->most, f->most + 1, UINT32_MAX};
    put(p + f->at, f->width, edges[below(COUNT(edges))]);
}

static void edit_tier(uint8_t *p)
{
    static const uint32_t edges[] = {2437, 2438, 2439, 2590, 2591, 2592, 2895, 2896, 2897};
    if (below(2)) {
        put_edge(p, tier_fields, COUNT(tier_fields));
    } else {
        p[0] = below(4) ? (uint8_t)(60 - p[0]) : (uint8_t)next_random();
        put(p + 2, 2, edges[below(COUNT(edges))]);
    }
}

/* Codes and measures, where the lash is hooked, or the place of the lash before it. */
static void edit_lash(uint8_t *p, int first, uint32_t tiers)
{
    switch (below(3)) {
    case 0:
        put_edge(p, lash_fields, COUNT(lash_fields));
        break;
    case 1:
        p[0] = (uint8_t)(below(4) ? below(tiers + 2) : next_random());
        p[1] = (uint8_t)below(3);
        p[2] = (uint8_t)below(3);
        break;
    default:
        if (!first)
            memcpy(p, p - LASH, 3);
    }
}

/* One change in the head, a count, a tier or a lash of a good sheet. */
static void edit(struct sheet *s)
{
    uint32_t tiers = s->bytes[HEAD], end = below(2);
    size_t count_at = HEAD + 1 + TIER * tiers;
    if (end)
        count_at += 1 + (size_t)LASH * s->bytes[count_at];
    uint32_t lashes = s->bytes[count_at], lash = lashes ? below(lashes) : 0;
    s->known = 0;
    switch (below(5)) {
    case 0:
        put_edge(s->bytes, head_fields, COUNT(head_fields));
        break;
    case 1:
        edit_rule(s);
        break;
    case 2:
        s->bytes[below(2) ? HEAD : count_at] = (uint8_t)(below(4) ? below(14) : next_random());
        break;
    case 3:
        edit_tier(s->bytes + HEAD + 1 + TIER * below(tiers));
        break;
    default:
        if (lashes)
            edit_lash(s->bytes + count_at + 1 + LASH * lash, lash == 0, tiers);
    }
}

/* The kinds take turns; cut, filled up and random sheets go through every length from 0 to 500. */
static void make_sheet(struct sheet *s, unsigned long number)
{
    static const char *const kinds[] = {"common values", "extreme values", "edited", "resized", "flipped", "random"};
    unsigned long kind = number % COUNT(kinds), turn = number / COUNT(kinds);
    s->kind = kinds[kind];
    make_good(s, kind == 1 || (kind > 1 && below(2)));
    if (kind == 2)
        edit(s);
    else if (kind == 3)
        resize(s, turn % 16 ? turn * STRIDE % EVERY_LENGTH : between(EVERY_LENGTH, AREA));
    else if (kind == 4)
        flip(s);
    else if (kind == 5)
        scramble(s, turn * STRIDE % EVERY_LENGTH);
}

static size_t choose_room(void)
{
    static const size_t rooms[] = {0, LASH_ANSWER_SIZE - 1, LASH_ANSWER_SIZE, LASH_ANSWER_SIZE + 1};
    switch (below(4)) {
    case 0:
        return rooms[below(COUNT(rooms))];
    case 1:
        return below(4) ? between(LASH_ANSWER_SIZE, AREA) : below(LASH_ANSWER_SIZE);
    default:
        return LASH_ANSWER_SIZE;
    }
}

/* Memory between unreadable pages. */

static uint8_t *guarded_sheet;  /* AREA bytes, only readable */
static uint8_t *writable_sheet; /* the same bytes, for this program */
static uint8_t *guarded_second; /* the same for a second sheet: a short sheet or a gear section */
static uint8_t *writable_second;
static uint8_t *guarded_answer; /* AREA bytes */
static uint8_t patterns[2][AREA];

static uint8_t *mapped(void *at, size_t size, int rights, int flags, int file)
{
    void *p = mmap(at, size, rights, flags, file, 0);
    if (p == MAP_FAILED) {
        perror("boundary: mmap");
        exit(2);
    }
    return p;
}

/* Bytes that can only be read, between unreadable pages, and the same bytes for this program. */
static uint8_t *between_pages(size_t size, uint8_t **guarded)
{
    size_t page = (size_t)sysconf(_SC_PAGESIZE);
    int file = memfd_create("sheet", 0);
    if (size % page || file < 0 || ftruncate(file, (off_t)size) != 0) {
        fprintf(stderr, "boundary: no memory that fits pages of %zu bytes\n", page);
        exit(2);
    }
    uint8_t *whole = mapped(NULL, size + 2 * page, PROT_NONE, MAP_PRIVATE | MAP_ANONYMOUS, -1);
    *guarded = mapped(whole + page, size, PROT_READ, MAP_SHARED | MAP_FIXED, file);
    return mapped(NULL, size, PROT_READ | PROT_WRITE, MAP_SHARED, file);
}

/* Bytes that can be written, between unreadable pages. */
static uint8_t *answer_between_pages(size_t size)
{
    size_t page = (size_t)sysconf(_SC_PAGESIZE);
    uint8_t *whole = mapped(NULL, size + 2 * page, PROT_NONE, MAP_PRIVATE | MAP_ANONYMOUS, -1);
    return mapped(whole + page, size, PROT_READ | PROT_WRITE, MAP_PRIVATE | MAP_ANONYMOUS | MAP_FIXED, -1);
}

/* Two patterns that differ in every byte. */
static void make_patterns(uint8_t *first, uint8_t *second, size_t size)
{
    for (size_t i = 0; i < size; i++) {
        first[i] = (uint8_t)(37 * i + i / 256 + 11);
        second[i] = (uint8_t)~first[i];
    }
}

static void prepare_memory(void)
{
    writable_sheet = between_pages(AREA, &guarded_sheet);
    writable_second = between_pages(AREA, &guarded_second);
    guarded_answer = answer_between_pages(AREA);
    make_patterns(patterns[0], patterns[1], AREA);
}

/* Faults. */

struct question {
    uint32_t table, acceleration, masses[MOST_TIERS_IN_GUIDES];
    size_t count; /* of masses, but for a count that is none as many as there are */
};

/* Wave height and breadth in cm, the voyage in hours. */
struct forecast {
    uint16_t wave_height, breadth;
    uint32_t hours;
};

struct condition {
    uint32_t sine, cosine, heave, angle, period, length;
    int32_t centre, x, y, z;
};

struct bay {
    uint8_t bytes[BAY_AREA];
    size_t length;
    const char *kind;
    int tried; /* and no sheet */
};

static struct sheet sheet;
static struct bay bay;
static const struct forecast *weather; /* none: the plain check */
static struct question question;
static struct condition condition;
static int asking; /* about twenties, no longer about sheets */
static int previewing;
static uint32_t moved_tier;
static uint16_t moved_mass;
static uint8_t pitch[MOST_PITCH];
static size_t pitch_length;
static int siding; /* about side walls, with a short sheet */
static uint8_t gear[MOST_GEAR];
static size_t gear_length;
static int arranging; /* about arrangements, with a gear section */
static int rolling; /* about accelerations, no longer about twenties */
static unsigned long sheet_number;
static size_t room;
static sigjmp_buf stopped;

static void print_hex(FILE *out, const uint8_t *bytes, size_t length)
{
    for (size_t i = 0; i < length; i++)
        fprintf(out, "%02x", bytes[i]);
    if (!length)
        fputc('-', out);
}

static int count_fits(void) { return question.count >= LEAST_TIERS_IN_GUIDES && question.count <= MOST_TIERS_IN_GUIDES; }

static void print_question(FILE *out)
{
    fprintf(out, "%u %u %zu", question.table, question.acceleration, question.count);
    for (size_t i = 0; count_fits() && i < question.count; i++)
        fprintf(out, " %u", question.masses[i]);
}

static void print_condition(FILE *out)
{
    const struct condition *c = &condition;
    fprintf(out, "%u %u %u %u %u %u ", c->sine, c->cosine, c->heave, c->angle, c->period, c->length);
    fprintf(out, "%d %d %d %d", c->centre, c->x, c->y, c->z);
}

__attribute__((format(printf, 1, 2), noreturn)) static void fail(const char *format, ...)
{
    va_list rest;
    va_start(rest, format);
    if (rolling)
        printf("FAULT: roll: ");
    else if (asking)
        printf("FAULT: twenties: ");
    else if (bay.tried)
        printf("FAULT: bay %lu (%s, %zu bytes, report buffer of %zu): ", sheet_number, bay.kind, bay.length, room);
    else
        printf("FAULT: sheet %lu (%s, %zu bytes, answer buffer of %zu): ", sheet_number, sheet.kind, sheet.length, room);
    if (siding)
        printf("side walls: ");
    if (arranging)
        printf("arrangements: ");
    if (previewing)
        printf("preview of tier %u, mass %u: ", moved_tier, moved_mass);
    if (!asking && weather)
        printf("by forecast %u %u %u: ", weather->wave_height, weather->breadth, weather->hours);
    vprintf(format, rest);
    if (siding) {
        printf("\n  short sheet ");
        print_hex(stdout, pitch, pitch_length);
    }
    if (arranging) {
        printf("\n  gear ");
        print_hex(stdout, gear, gear_length);
    }
    printf(rolling ? "\n  sine to z " : asking ? "\n  table, acceleration, count, masses " : bay.tried ? "\n  bay " : "\n  sheet ");
    if (rolling)
        print_condition(stdout);
    else if (asking)
        print_question(stdout);
    else if (bay.tried)
        print_hex(stdout, bay.bytes, bay.length);
    else
        print_hex(stdout, sheet.bytes, sheet.length);
    printf("\n");
    exit(1);
}

static void on_signal(int number) { siglongjmp(stopped, number); }

static void catch_signals(void)
{
    static const int numbers[] = {SIGSEGV, SIGBUS, SIGILL, SIGFPE, SIGTRAP, SIGABRT};
    struct sigaction action = {.sa_handler = on_signal};
    for (size_t i = 0; i < COUNT(numbers); i++)
        sigaction(numbers[i], &action, NULL);
}

/* What a call may give. */

static int no_forecast(void) { return weather->hours >= LEAST_HOURS_REFUSED || weather->breadth == 0; }

static int refusal_possible(unsigned number, uint64_t second, size_t length)
{
    switch (number) {
    case LASH_SHORT:
        return second == length;
    case LASH_SPARE:
        return second >= LEAST_SHEET && second <= LASH_SHEET_SIZE && second < length;
    case LASH_RULE:
        return second == RULE_AT && !head_begins_well(sheet.bytes);
    case LASH_ROUTE:
        return second == 1;
    case LASH_LOCK:
        return second == 2;
    case LASH_TIER_COUNT:
        return second == HEAD;
    case LASH_TIER:
    case LASH_SIZE:
        return second > HEAD && (second - HEAD - 1) % TIER == 0 && second + TIER <= length && second < HEAD + TIER * MOST_TIERS;
    case LASH_LASH_COUNT:
        return second > HEAD + TIER && second < length && second < LASH_SHEET_SIZE;
    case LASH_LASH:
    case LASH_PLACE:
    case LASH_ORDER:
        return second > HEAD + TIER + 1 && second + LASH <= length && second + LASH <= LASH_SHEET_SIZE;
    case LASH_ROOM:
        return second == LASH_ANSWER_SIZE && room < LASH_ANSWER_SIZE;
    case LASH_WITH_ROUTE:
        return second == 0 && weather && sheet.bytes[ROUTE_AT] != 0;
    case LASH_NO_FORECAST:
        return second == 0 && weather && no_forecast() && sheet.bytes[ROUTE_AT] == 0;
    default:
        return 0;
    }
}

/* Whether an answer has the sheet's counts, a verdict that fits its findings, and this length. */
static int answer_possible(const uint8_t *answer, size_t length)
{
    size_t tiers = sheet.bytes[HEAD], count_at = HEAD + 1 + TIER * tiers, at = 1;
    for (int end = 0; end < 2; end++) {
        size_t lashes = sheet.bytes[count_at];
        const size_t counts[] = {tiers, tiers + 1, tiers, lashes}, sizes[] = {4, 4, 4, 12};
        for (size_t i = 0; i < COUNT(counts); i++) {
            if (at >= length || answer[at] != counts[i])
                return 0;
            at += 1 + counts[i] * sizes[i];
        }
        count_at += 1 + LASH * lashes;
    }
    return at < length && answer[0] == (answer[at] > 0) && length == at + 1 + 3 * (size_t)answer[at];
}

static int same(const uint8_t *bytes, const uint8_t *pattern, size_t from, size_t to)
{
    return memcmp(bytes + from, pattern + from, to - from) == 0;
}

/* Lays the sheet and a pattern for the answer against the pages behind (0) or before (1); where the sheet is. The answer buffer begins
   at *at. */
static const uint8_t *laid(int before, size_t *at)
{
    size_t sheet_at = before ? 0 : AREA - sheet.length;
    *at = before ? 0 : AREA - room;
    memcpy(writable_sheet + sheet_at, sheet.bytes, sheet.length);
    memcpy(guarded_answer, patterns[before], AREA);
    return guarded_sheet + sheet_at;
}

/* The same of a second sheet; where it is. */
static const uint8_t *laid_second(int before, const uint8_t *bytes, size_t length)
{
    size_t at = before ? 0 : AREA - length;
    memcpy(writable_second + at, bytes, length);
    return guarded_second + at;
}

/* Holds a call's result to what is due, and the answer's memory to the pattern that was there, but for what was written at `at`: the
   length of that. */
static size_t held(uint64_t result, uint64_t due, int before, size_t at)
{
    size_t length = lash_number_of(result) == LASH_TAKEN ? lash_second_of(result) : 0;
    if (result != due)
        fail("gives %llx, %llx is due", (unsigned long long)result, (unsigned long long)due);
    if (!same(guarded_answer, patterns[before], 0, at) || !same(guarded_answer, patterns[before], at + length, AREA))
        fail("a byte outside the %zu bytes that are due was written", length);
    return length;
}

/* A line: the word, the buffer's room, the result, the sheet, the second sheet, what was written by a call against the pages before. */
static void dump_second(FILE *out, const char *word, uint64_t result, const uint8_t *second, size_t length)
{
    fprintf(out, "%s %zu %llu ", word, room, (unsigned long long)result);
    print_hex(out, sheet.bytes, sheet.length);
    fputc(' ', out);
    print_hex(out, second, length);
    fputc(' ', out);
    print_hex(out, guarded_answer, lash_number_of(result) == LASH_TAKEN ? lash_second_of(result) : 0);
    fputc('\n', out);
}

/* One call; what it gave. */
static uint64_t call(int before, size_t *at)
{
    const uint8_t *pattern = patterns[before], *lent = laid(before, at);
    uint8_t *written = guarded_answer + *at;
    uint64_t result = weather ? lash_forecast(lent, sheet.length, weather->wave_height, weather->breadth, weather->hours, written, room)
                              : lash_check(lent, sheet.length, written, room);
    unsigned number = lash_number_of(result);
    uint64_t second = lash_second_of(result);
    if (number != LASH_TAKEN) {
        if (!refusal_possible(number, second, sheet.length))
            fail("gives %u %llu, which no such sheet can give", number, (unsigned long long)second);
        if (!same(guarded_answer, pattern, 0, AREA))
            fail("refused with %u %llu, and the answer buffer was written", number, (unsigned long long)second);
        return result;
    }
    if (room < LASH_ANSWER_SIZE || second > LASH_ANSWER_SIZE)
        fail("taken with an answer of %llu bytes", (unsigned long long)second);
    if (weather && (no_forecast() || sheet.bytes[ROUTE_AT] != 0))
        fail("taken on route %u", sheet.bytes[ROUTE_AT]);
    if (!head_begins_well(sheet.bytes))
        fail("taken by rule %u, with %u in the zero byte", sheet.bytes[RULE_AT], sheet.bytes[ZERO_AT]);
    if (!answer_possible(guarded_answer + *at, second))
        fail("taken, and the answer of %llu bytes does not fit the sheet or itself", (unsigned long long)second);
    if (!same(guarded_answer, pattern, 0, *at) || !same(guarded_answer, pattern, *at + second, AREA))
        fail("taken, and a byte outside the answer of %llu bytes was written", (unsigned long long)second);
    return result;
}

/* What a sheet that is free of faults must give: by a forecast 20, then 21; then a short buffer. */
static uint64_t own_due(void)
{
    if (weather && sheet.bytes[ROUTE_AT] != 0)
        return LASH_WITH_ROUTE;
    if (weather && no_forecast())
        return LASH_NO_FORECAST;
    return room < LASH_ANSWER_SIZE ? LASH_ROOM | (uint64_t)LASH_ANSWER_SIZE << 8 : LASH_TAKEN;
}

/* Both calls on the sheet; the answer of the second stands at the start of the guarded memory. */
static uint64_t check_sheet(void)
{
    static uint8_t answer[LASH_ANSWER_SIZE];
    size_t at;
    uint64_t first = call(0, &at);
    size_t length = lash_number_of(first) == LASH_TAKEN ? lash_second_of(first) : 0;
    memcpy(answer, guarded_answer + at, length);
    uint64_t second = call(1, &at);
    if (first != second || memcmp(answer, guarded_answer + at, length) != 0)
        fail("two calls on the same sheet differ: %llx and %llx", (unsigned long long)first, (unsigned long long)second);
    uint64_t due = sheet.due == LASH_TAKEN ? own_due() : sheet.due;
    if (sheet.known && due != (lash_number_of(first) == LASH_TAKEN ? LASH_TAKEN : first))
        fail("gives %u, %u is due", lash_number_of(first), lash_number_of(due));
    return first;
}

/* A line: `forecast` with its three numbers, if it is one; answer room, number, second number, sheet, answer. */
static void dump(FILE *out, uint64_t result)
{
    int taken = lash_number_of(result) == LASH_TAKEN;
    if (weather)
        fprintf(out, "forecast %u %u %u ", weather->wave_height, weather->breadth, weather->hours);
    fprintf(out, "%zu %u %llu ", room, lash_number_of(result), (unsigned long long)lash_second_of(result));
    print_hex(out, sheet.bytes, sheet.length);
    fputc(' ', out);
    print_hex(out, guarded_answer, taken ? lash_second_of(result) : 0);
    fputc('\n', out);
}

static void run(unsigned long count, FILE *out)
{
    unsigned long tally[NUMBERS] = {0}, taken_by[MOST_RULE + 1] = {0};
    for (sheet_number = 0; sheet_number < count; sheet_number++) {
        make_sheet(&sheet, sheet_number);
        room = choose_room();
        uint64_t result = check_sheet();
        tally[lash_number_of(result)]++;
        if (lash_number_of(result) == LASH_TAKEN)
            taken_by[sheet.bytes[RULE_AT]]++;
        if (out && sheet_number < DUMPED)
            dump(out, result);
    }
    printf("%lu sheets, each checked twice: %lu taken, by rule 1: %lu, 2: %lu; refused by number", count, tally[0], taken_by[1],
           taken_by[2]);
    for (int i = 1; i < NUMBERS; i++)
        printf("%s %d: %lu", i > 1 ? "," : "", i, tally[i]);
    printf("\n");
    for (int i = 0; i < NUMBERS && count >= ENOUGH; i++)
        if (!tally[i]) {
            printf("FAULT: no sheet gave number %d\n", i);
            exit(1);
        }
    for (int rule = LEAST_RULE; rule <= MOST_RULE && count >= ENOUGH; rule++)
        if (!taken_by[rule]) {
            printf("FAULT: no sheet was taken by rule %d\n", rule);
            exit(1);
        }
}

/* Previews. */

static void make_move(void)
{
    static const uint32_t tiers[] = {0, 11, 255, 256 + 1, 65536 + 1, UINT32_MAX};
    static const uint16_t masses[] = {0, 1, MOST_MASS, MOST_MASS + 1, UINT16_MAX};
    moved_tier = below(4) ? between(1, MOST_TIERS) : tiers[below(COUNT(tiers))];
    moved_mass = (uint16_t)(below(2) ? between(1, MOST_MASS) : masses[below(COUNT(masses))]);
}

/* What is due: `checked`, the sheet's own result in a long buffer, then 17, then what the check gives for a copy of the sheet, whose
   answer it leaves in `answer`. */
static uint64_t preview_due(uint64_t checked, uint8_t *answer)
{
    static uint8_t copy[AREA], fresh[AREA];
    if (lash_number_of(checked) != LASH_TAKEN)
        return checked;
    if (moved_tier == 0 || moved_tier > sheet.bytes[HEAD])
        return LASH_NO_TIER | (uint64_t)moved_tier << 8;
    memcpy(copy, sheet.bytes, sheet.length);
    put(copy + HEAD + 1 + TIER * (moved_tier - 1) + MASS_AT, 2, moved_mass);
    uint64_t due = lash_check(copy, sheet.length, fresh, room);
    memcpy(answer, fresh, lash_number_of(due) == LASH_TAKEN ? lash_second_of(due) : 0);
    return due;
}

/* One preview against the pages behind (0) or before (1), held to what is due. */
static void preview(int before, uint64_t due, const uint8_t *answer)
{
    size_t at;
    const uint8_t *lent = laid(before, &at);
    uint64_t result = lash_preview(lent, sheet.length, moved_tier, moved_mass, guarded_answer + at, room);
    if (memcmp(guarded_answer + at, answer, held(result, due, before, at)) != 0)
        fail("the answer is not that of the copy");
}

/* In the dump a line: preview, tier, mass, answer room, result, sheet. */
static uint64_t check_preview(FILE *out)
{
    static uint8_t answer[LASH_ANSWER_SIZE], unused[LASH_ANSWER_SIZE];
    make_move();
    uint64_t due = preview_due(lash_check(sheet.bytes, sheet.length, unused, sizeof unused), answer);
    previewing = 1;
    preview(0, due, answer);
    preview(1, due, answer);
    previewing = 0;
    if (out) {
        fprintf(out, "preview %u %u %zu %llu ", moved_tier, moved_mass, room, (unsigned long long)due);
        print_hex(out, sheet.bytes, sheet.length);
        fputc('\n', out);
    }
    return due;
}

static void run_previews(unsigned long count, FILE *out)
{
    unsigned long tally[LASH_NO_TIER + 1] = {0};
    for (sheet_number = 0; sheet_number < count; sheet_number++) {
        make_sheet(&sheet, sheet_number);
        room = choose_room();
        tally[lash_number_of(check_preview(sheet_number < DUMPED ? out : NULL))]++;
    }
    printf("%lu previews, each made twice: %lu answered; refused by number 7: %lu, 13: %lu, 17: %lu\n", count, tally[LASH_TAKEN],
           tally[LASH_TIER], tally[LASH_ROOM], tally[LASH_NO_TIER]);
    for (int i = 0; i <= LASH_NO_TIER && count >= ENOUGH; i++)
        if (!tally[i] && (i <= LASH_ROOM || i == LASH_NO_TIER)) {
            printf("FAULT: no preview gave number %d\n", i);
            exit(1);
        }
}

/* Forecasts. */

static struct forecast make_forecast(void)
{
    static const uint16_t breadths[] = {0, 1, 2500, UINT16_MAX};
    static const uint32_t hours[] = {0, 71, 72, 73, UINT16_MAX + 1, UINT32_MAX};
    struct forecast made;
    made.wave_height = (uint16_t)(below(8) ? below(1000) : below(2) ? UINT16_MAX : below(UINT16_MAX));
    made.breadth = (uint16_t)(below(4) ? between(1000, 6000) : breadths[below(COUNT(breadths))]);
    made.hours = below(4) ? below(LEAST_HOURS_REFUSED) : hours[below(COUNT(hours))];
    return made;
}

/* At the greatest factor, on route 0, the answer and what is returned are the check's. */
static void compare_with_check(void)
{
    static const struct forecast heavy_weather = {UINT16_MAX, 1, 0};
    static uint8_t answer[AREA];
    size_t at;
    weather = &heavy_weather;
    uint64_t by_forecast = call(0, &at);
    memcpy(answer, guarded_answer, AREA);
    weather = NULL;
    uint64_t by_check = call(0, &at);
    if (sheet.length > ROUTE_AT && sheet.bytes[ROUTE_AT] == 0 && (by_forecast != by_check || memcmp(answer, guarded_answer, AREA) != 0))
        fail("with a factor of 1,000 gives %llx, the check %llx", (unsigned long long)by_forecast, (unsigned long long)by_check);
}

static void run_forecasts(unsigned long count, FILE *out)
{
    unsigned long tally[LASH_NO_FORECAST + 1] = {0};
    for (sheet_number = 0; sheet_number < count; sheet_number++) {
        make_sheet(&sheet, sheet_number);
        if (below(4) && sheet.length > ROUTE_AT && sheet.bytes[ROUTE_AT] <= 12)
            sheet.bytes[ROUTE_AT] = 0;
        room = choose_room();
        compare_with_check();
        struct forecast made = make_forecast();
        weather = &made;
        uint64_t result = check_sheet();
        tally[lash_number_of(result)]++;
        if (out && sheet_number < DUMPED)
            dump(out, result);
        weather = NULL;
    }
    printf("%lu forecasts, each checked twice: %lu taken; refused by number 13: %lu, 20: %lu, 21: %lu\n", count, tally[LASH_TAKEN],
           tally[LASH_ROOM], tally[LASH_WITH_ROUTE], tally[LASH_NO_FORECAST]);
    if (count >= ENOUGH / SHEETS_A_FORECAST &&
        !(tally[LASH_TAKEN] && tally[LASH_ROOM] && tally[LASH_WITH_ROUTE] && tally[LASH_NO_FORECAST])) {
        printf("FAULT: no forecast gave one of these\n");
        exit(1);
    }
}

/* Side walls. */

/* Mostly of the stack's count and length, with an A_L that is too great now and then. */
static void make_pitch(void)
{
    static const uint32_t edges[] = {0, MOST_LONGITUDINAL, MOST_LONGITUDINAL + 1, UINT16_MAX};
    uint32_t tiers = sheet.length > HEAD ? sheet.bytes[HEAD] : 1;
    pitch[0] = (uint8_t)(below(16) ? tiers : below(12));
    for (size_t i = 0; i < 255; i++)
        put(pitch + 1 + 2 * i, 2, below(30) ? below(MOST_LONGITUDINAL + 1) : edges[below(COUNT(edges))]);
    pitch_length = below(12) ? 1 + 2 * tiers : below(24);
}

static size_t choose_side_room(void)
{
    static const size_t rooms[] = {0, 1, LASH_SIDE_SIZE - 1, LASH_SIDE_SIZE, LASH_SIDE_SIZE + 1, AREA};
    return below(4) ? LASH_SIDE_SIZE : rooms[below(COUNT(rooms))];
}

/* What is due: `checked`, the sheet's own result in a long buffer; then 14, then 15, then 13; then the side answer's length. */
static uint64_t side_due(uint64_t checked)
{
    size_t tiers = sheet.bytes[HEAD];
    if (lash_number_of(checked) != LASH_TAKEN)
        return checked;
    if (pitch_length != 1 + 2 * tiers || pitch[0] != tiers)
        return LASH_PITCH;
    for (size_t i = 0; i < tiers; i++)
        if (get2(pitch + 1 + 2 * i) > MOST_LONGITUDINAL)
            return LASH_LONGITUDINAL | (uint64_t)(i + 1) << 8;
    return room < LASH_SIDE_SIZE ? LASH_ROOM | (uint64_t)LASH_SIDE_SIZE << 8 : (uint64_t)(2 + 8 * tiers) << 8;
}

/* Whether a side answer has the stack's tier count and the verdict of its own rackings, none of which rises from a tier to the next;
   and shifts that rise from level to level. */
static int side_possible(uint64_t result, const uint8_t *side)
{
    int over = 0;
    unsigned tiers = lash_tiers(result, side);
    for (unsigned tier = 1; tier <= tiers; tier++) {
        over |= lash_side_racking(result, side, tier) > LASH_SIDE_LIMIT;
        if (tier > 1 && (lash_side_racking(result, side, tier) > lash_side_racking(result, side, tier - 1) ||
                         lash_side_shift(result, side, tier) < lash_side_shift(result, side, tier - 1)))
            return 0;
    }
    return tiers == sheet.bytes[HEAD] && lash_accepted(result, side) == !over && side[0] <= 1 &&
           lash_side_racking(result, side, 0) == LASH_NONE && lash_side_shift(result, side, tiers + 1) == LASH_NONE;
}

/* One call against the pages behind (0) or before (1), held to what is due. */
static void side(int before, uint64_t due)
{
    size_t at;
    const uint8_t *lent = laid(before, &at), *second = laid_second(before, pitch, pitch_length);
    uint64_t result = lash_side(lent, sheet.length, second, pitch_length, guarded_answer + at, room);
    size_t length = held(result, due, before, at);
    if (length && !side_possible(result, guarded_answer + at))
        fail("the side answer does not fit the stack or itself");
    if (!length && (lash_accepted(result, guarded_answer + at) || lash_side_racking(result, guarded_answer + at, 1) != LASH_NONE))
        fail("is refused, and the readers give figures");
}

static uint64_t check_side(FILE *out)
{
    static uint8_t unused[LASH_ANSWER_SIZE], first[LASH_SIDE_SIZE];
    make_pitch();
    uint64_t due = side_due(lash_check(sheet.bytes, sheet.length, unused, sizeof unused));
    size_t length = lash_number_of(due) == LASH_TAKEN ? lash_second_of(due) : 0;
    siding = 1;
    side(0, due);
    memcpy(first, guarded_answer + AREA - room, length);
    side(1, due);
    if (memcmp(first, guarded_answer, length) != 0)
        fail("two calls on the same sheets differ");
    siding = 0;
    if (out)
        dump_second(out, "side", due, pitch, pitch_length);
    return due;
}

static void run_sides(unsigned long count, FILE *out)
{
    unsigned long tally[LASH_LONGITUDINAL + 1] = {0};
    for (sheet_number = 0; sheet_number < count; sheet_number++) {
        make_sheet(&sheet, sheet_number);
        room = choose_side_room();
        tally[lash_number_of(check_side(sheet_number < DUMPED ? out : NULL))]++;
    }
    printf("%lu pairs of sheets for side walls, each asked twice: %lu answered; refused by number 13: %lu, 14: %lu, 15: %lu\n", count,
           tally[LASH_TAKEN], tally[LASH_ROOM], tally[LASH_PITCH], tally[LASH_LONGITUDINAL]);
    for (int i = 0; i <= LASH_LONGITUDINAL && count >= ENOUGH; i++)
        if (!tally[i]) {
            printf("FAULT: no pair of sheets gave number %d\n", i);
            exit(1);
        }
}

#include "boundary_bay.h"
#include "boundary_gear.h"

/* Twenties. */

static void make_question(void)
{
    static const size_t counts[] = {0, 1, 2, 12, 13, 256 + 3, UINT32_MAX, (size_t)UINT32_MAX + 1 + 3, SIZE_MAX / 4, SIZE_MAX};
    static const uint32_t accelerations[] = {0, 349, 350, 650, 651, UINT32_MAX};
    static const uint32_t masses[] = {0, 1, MOST_MASS, MOST_MASS + 1, 1 << 24, UINT32_MAX};
    question.table = below(8) ? below(2) : below(2) ? 2 : UINT32_MAX;
    question.acceleration = below(4) ? between(350, 650) : accelerations[below(COUNT(accelerations))];
    question.count = below(4) ? between(LEAST_TIERS_IN_GUIDES, MOST_TIERS_IN_GUIDES) : counts[below(COUNT(counts))];
    uint32_t most = below(2) ? MOST_MASS : 15000;
    for (size_t i = 0; i < MOST_TIERS_IN_GUIDES; i++)
        question.masses[i] = below(60) ? between(1, most) : masses[below(COUNT(masses))];
}

/* The number that is due, with the total where it is 0; what is permitted is held to the fractions by who reads the dump. */
static unsigned question_due(uint64_t *total)
{
    if (question.table > 1 || question.acceleration < 350 || question.acceleration > 650 || !count_fits())
        return LASH_GUIDES;
    *total = 0;
    for (size_t i = 0; i < question.count; i++) {
        if (question.masses[i] == 0 || question.masses[i] > MOST_MASS)
            return LASH_BOX;
        *total += i ? question.masses[i] : 0;
    }
    return LASH_TAKEN;
}

/* One call, with the masses against the pages behind (0) or before (1); where none is to be read they begin on such a page. */
static uint64_t ask(int before, int readable)
{
    size_t size = 4 * question.count, at = before ? 0 : AREA - size;
    const uint8_t *page = before ? guarded_sheet - 4 : guarded_sheet + AREA;
    if (readable)
        memcpy(writable_sheet + at, question.masses, size);
    const void *masses = readable ? guarded_sheet + at : page;
    return lash_twenties(question.table, question.acceleration, masses, question.count);
}

static uint64_t check_question(void)
{
    static uint64_t total;
    unsigned number = question_due(&total);
    uint64_t first = ask(0, number != LASH_GUIDES), second = ask(1, number != LASH_GUIDES);
    if (first != second)
        fail("two calls with the same masses differ: %llx and %llx", (unsigned long long)first, (unsigned long long)second);
    if (lash_number_of(first) != number || (number != LASH_TAKEN && first != number))
        fail("gives %llx, %u is due", (unsigned long long)first, number);
    int64_t most = lash_twenties_permitted(first);
    if (number == LASH_TAKEN && ((first & 0xfe00) || lash_twenties_total(first) != (int64_t)total || most <= 0 ||
                                 lash_twenties_yes(first) != ((int64_t)total <= most)))
        fail("gives %llx, a total of %llu is due", (unsigned long long)first, (unsigned long long)total);
    if (number != LASH_TAKEN && (lash_twenties_yes(first) || lash_twenties_total(first) != LASH_NONE || most != 0))
        fail("is refused, and the readers give a verdict");
    return first;
}

/* In the dump a line: twenties, table, acceleration, count, masses, the result. */
static void run_twenties(unsigned long count, FILE *out)
{
    unsigned long tally[LASH_BOX + 1] = {0}, permitted = 0;
    asking = 1;
    for (unsigned long i = 0; i < count; i++) {
        make_question();
        uint64_t result = check_question();
        tally[lash_number_of(result)]++;
        permitted += (unsigned long)lash_twenties_yes(result);
        if (out && i < DUMPED) {
            fprintf(out, "twenties ");
            print_question(out);
            fprintf(out, " %llu\n", (unsigned long long)result);
        }
    }
    printf("%lu questions on twenties, each asked twice: %lu yes, %lu no; refused by number 22: %lu, 23: %lu\n", count, permitted,
           tally[LASH_TAKEN] - permitted, tally[LASH_GUIDES], tally[LASH_BOX]);
    if (count >= ENOUGH / SHEETS_A_QUESTION &&
        !(permitted && tally[LASH_TAKEN] > permitted && tally[LASH_GUIDES] && tally[LASH_BOX])) {
        printf("FAULT: no question on twenties gave one of these\n");
        exit(1);
    }
}

/* Accelerations from roll. */

/* Mostly within a range, else at its ends, past them, or as great as 32 bits allow. */
static uint32_t about(uint32_t least, uint32_t most)
{
    uint32_t edges[] = {least, least + 1, most - 1, most, most + 1, least - 1, 0, 1, INT32_MAX, 1u + INT32_MAX, UINT32_MAX};
    return below(12) ? between(least, most) : edges[below(COUNT(edges))];
}

static int32_t place(int32_t farthest)
{
    uint32_t size = about(0, (uint32_t)farthest);
    return below(2) ? (int32_t)size : (int32_t)(0 - size);
}

/* Sine and cosine of some angles, as tables print them. */
static void make_condition(void)
{
    static const uint32_t units[][2] = {{0, 10000}, {1736, 9848}, {2588, 9659}, {3420, 9397},
                                        {4226, 9063}, {5000, 8660}, {7071, 7071}, {10000, 0}};
    const uint32_t *unit = units[below(COUNT(units))];
    condition.sine = below(16) ? unit[0] : about(0, 10000);
    condition.cosine = below(16) ? unit[1] : about(0, 10000);
    condition.heave = about(0, below(2) ? 3000 : 10000);
    condition.angle = about(0, below(2) ? 3000 : 9000);
    condition.period = below(2) ? about(600, 4000) : about(1, 10000);
    condition.length = about(1, 500000);
    condition.centre = place(below(2) ? 20000 : 500000);
    condition.x = below(8) ? (int32_t)below(condition.length < 500000 ? condition.length + 1 : 500000) : place(500000);
    condition.y = place(below(2) ? 30000 : 500000);
    condition.z = place(below(2) ? 60000 : 500000);
}

/* Twice the same; a refusal that there is; or accelerations within the limits of a tier, with no bit outside them. */
static uint64_t check_condition(void)
{
    const struct condition *c = &condition;
    uint64_t both[2];
    for (int i = 0; i < 2; i++)
        both[i] = lash_roll(c->sine, c->cosine, c->heave, c->angle, c->period, c->length, c->centre, c->x, c->y, c->z);
    uint64_t result = both[0], second = lash_second_of(result);
    int64_t a_t = lash_roll_a_t(result), a_vmax = lash_roll_a_vmax(result), a_vmin = lash_roll_a_vmin(result);
    if (result != both[1])
        fail("two calls with the same numbers differ: %llx and %llx", (unsigned long long)result, (unsigned long long)both[1]);
    switch (lash_number_of(result)) {
    case LASH_TAKEN:
        if (result >> 56 || a_t > 1500 || a_vmax > 3000 || a_vmin > 1000 || a_vmin > a_vmax)
            fail("gives %llx, which no tier can have", (unsigned long long)result);
        return result;
    case LASH_CONDITION:
    case LASH_ACCELERATION:
        if (lash_number_of(result) == LASH_CONDITION ? second != 0 : second < 1 || second > 3)
            fail("is refused with a second number of %llu", (unsigned long long)second);
        if (a_t != LASH_NONE || a_vmax != LASH_NONE || a_vmin != LASH_NONE)
            fail("is refused, and the readers give accelerations");
        return result;
    default:
        fail("gives %llx", (unsigned long long)result);
    }
}

/* In the dump a line: roll, the ten numbers, the result. */
static void run_roll(unsigned long count, FILE *out)
{
    unsigned long given = 0, refused = 0, outside[4] = {0};
    rolling = 1;
    for (unsigned long i = 0; i < count; i++) {
        make_condition();
        uint64_t result = check_condition();
        given += lash_number_of(result) == LASH_TAKEN;
        refused += lash_number_of(result) == LASH_CONDITION;
        outside[lash_number_of(result) == LASH_ACCELERATION ? lash_second_of(result) : 0]++;
        if (out && i < DUMPED) {
            fprintf(out, "roll ");
            print_condition(out);
            fprintf(out, " %llu\n", (unsigned long long)result);
        }
    }
    printf("%lu conditions of roll, each asked twice: %lu given; refused by number 18: %lu, 19 with 1: %lu, 2: %lu, 3: %lu\n", count,
           given, refused, outside[1], outside[2], outside[3]);
    if (count >= ENOUGH / SHEETS_A_QUESTION && !(given && refused && outside[1] && outside[2] && outside[3])) {
        printf("FAULT: no condition gave one of these\n");
        exit(1);
    }
}

int main(int argc, char **argv)
{
    static unsigned long count = 50000;
    static const char *path;
    state = 1;
    for (int i = 1; i < argc; i += 2) {
        char *rest = "";
        if (i + 1 < argc && strcmp(argv[i], "--count") == 0)
            count = strtoul(argv[i + 1], &rest, 10);
        else if (i + 1 < argc && strcmp(argv[i], "--seed") == 0)
            state = strtoul(argv[i + 1], &rest, 10);
        else if (i + 1 < argc && strcmp(argv[i], "--dump") == 0)
            path = argv[i + 1];
        else
            rest = "?";
        if (*rest) {
            fprintf(stderr, "usage: boundary [--count N] [--seed N] [--dump FILE]\n");
            return 2;
        }
    }
    FILE *out = path ? fopen(path, "w") : NULL;
    if (path && !out) {
        perror(path);
        return 2;
    }
    prepare_memory();
    catch_signals();
    int number = sigsetjmp(stopped, 1);
    if (number)
        fail("ended by signal %d (%s)%s", number, strsignal(number), number == SIGSEGV ? ": memory that it was not lent" : "");
    run(count, out);
    run_previews(count, out);
    run_forecasts(count / SHEETS_A_FORECAST, out);
    run_sides(count / SHEETS_A_SIDE, out);
    run_bays(count / SHEETS_A_BAY, out);
    run_gears(count / SHEETS_A_GEAR, out);
    run_twenties(count / SHEETS_A_QUESTION, out);
    run_roll(count / SHEETS_A_QUESTION, out);
    if (out && fclose(out) != 0) {
        perror(path);
        return 2;
    }
    return 0;
}
