/* The lashing check of a container stack: bytes of a stack sheet in, bytes of an answer sheet out; docs/SHEET.md has the layout
   of both, byte by byte. lash_preview answers for the sheet with another mass in one tier, lash_forecast for a short voyage by its
   forecast, lash_bay for the stacks of a bay side by side, lash_arrangements for every choice of the lashes aboard. lash_side answers for
   the side walls under pitching, with a side answer of its own. And lash_twenties, for 20-ft boxes in 40-ft cell guides, and lash_roll,
   for a box's accelerations from the ship's roll: numbers in, one number out. All want the floating-point environment that a C program
   starts with: no traps, rounding to the nearest.

   python3 -m lashlib.build                                               proves the check and writes target/staticlib/liblash.a
   cc -Iinclude yours.c target/staticlib/liblash.a -o yours               a program over it, on x86-64 Linux
   cc -shared -Wl,--whole-archive target/staticlib/liblash.a -Wl,--no-whole-archive -o liblash.so          a shared library of it */
#ifndef LASH_CHECK_H
#define LASH_CHECK_H

#include <stddef.h>
#include <stdint.h>

#ifdef __cplusplus
extern "C" {
#endif

/* The version of the header and of the library built beside it; the text is LASH_VERSION, as "0.15.6". */
#define LASH_VERSION_MAJOR 0
#define LASH_VERSION_MINOR 15
#define LASH_VERSION_PATCH 6
#define LASH_TEXT_(number) #number
#define LASH_TEXT(number) LASH_TEXT_(number)
#define LASH_VERSION LASH_TEXT(LASH_VERSION_MAJOR) "." LASH_TEXT(LASH_VERSION_MINOR) "." LASH_TEXT(LASH_VERSION_PATCH)

/* The answer buffer must hold this many bytes, whatever the sheet; a shorter one is refused with LASH_ROOM. No answer is longer. */
#define LASH_ANSWER_SIZE 834

/* No sheet that is taken is longer. */
#define LASH_SHEET_SIZE 451

/* The first number returned: 0, or why the sheet is turned back. The second number follows each. */
enum lash_number {
    LASH_TAKEN = 0,       /* the answer's length */
    LASH_SHORT = 1,       /* the sheet's length: too few bytes remain for the head, count or entry due next */
    LASH_SPARE = 2,       /* offset of the first spare byte: bytes follow the last entry */
    LASH_RULE = 3,        /* 0: rule number not 1 or 2, or the zero byte not zero */
    LASH_ROUTE = 4,       /* 1: route above 12 */
    LASH_LOCK = 5,        /* 2: lock material above 2, or its breaking load outside the limits */
    LASH_TIER_COUNT = 6,  /* 8: tier count 0 or above 10 */
    LASH_TIER = 7,        /* offset of the tier: a tier field outside its codes or limits; wind codes are 0 to 3 */
    LASH_SIZE = 8,        /* offset of the tier: size differs from tier 1 */
    LASH_LASH_COUNT = 9,  /* offset of the count: lash count above 8 */
    LASH_LASH = 10,       /* offset of the lash: hook, kind, material or a measure outside codes or limits */
    LASH_PLACE = 11,      /* offset of the lash: tier 0 or above the tier count, or bottom corner of tier 1 */
    LASH_ORDER = 12,      /* offset of the lash: not later than the lash before it at the same end */
    LASH_ROOM = 13        /* 834: the answer buffer is under 834 bytes */
};

enum lash_end { LASH_DOOR = 0, LASH_CLOSED = 1 };

/* Kinds of finding, and what the index of each is. Safe working loads are rounded down to whole kilonewtons. Corner and lock tension
   are one pull against two limits: over both, only the lower limit is named, and the corner if they are equal. */
enum lash_finding {
    LASH_OVER_RACKING = 1,     /* tier, from 1 */
    LASH_OVER_COMPRESSION = 2, /* level: 0 is the deck, i the top of tier i */
    LASH_OVER_CORNER = 3,      /* level: tension over what a corner may bear */
    LASH_OVER_LOCK = 4,        /* level: tension over the lock's safe working load */
    LASH_OVER_TENSION = 5,     /* lash, from 0 in the sheet's order: tension over its safe working load */
    LASH_OVER_VERTICAL = 6,    /* lash: vertical part */
    LASH_OVER_ATHWART = 7      /* lash: athwart part */
};

/* Checks a sheet. The first number is in the low 8 bits of what is returned, the second above them. The caller tests nothing first:
   no bytes, of any length, make the call read or write outside what it was lent, or run on.
   Taken: the answer stands at the start of the buffer and the bytes behind it are as they were. Refused: the buffer is as it was.
   So a buffer that is used again holds the last stack's verdict after a refusal: ask lash_accepted, never the buffer alone.
   The sheet is only read, and the two buffers must not overlap. Nothing is read or written through a pointer whose length is 0, but
   what is proved holds for pointers that are not null; for an empty sheet hand over the address of any byte. */
uint64_t lash_check(const uint8_t *sheet, size_t sheet_len, uint8_t *answer, size_t answer_len);

static inline unsigned lash_number_of(uint64_t result) { return (unsigned)(result & 255); }
static inline uint64_t lash_second_of(uint64_t result) { return result >> 8; }

/* Readers of an answer. `result` is what lash_check, lash_preview or lash_forecast returned for it. They read no byte behind the
   answer, and none at all after a refusal. Forces are in N. */

/* A force that the answer does not have: after a refusal, or at an end, tier, level or lash that there is not. It is above every
   limit, so that such a slip shows. */
#define LASH_NONE INT64_MAX

struct lash_forces {
    int64_t tension, athwart, vertical;
};

struct lash_found {
    unsigned end, kind, index; /* kind 0: there is no such finding */
};

/* For the readers below: a byte of the answer, 0 behind its end. */
static inline unsigned lash_byte(uint64_t result, const uint8_t *answer, size_t at)
{
    return lash_number_of(result) == LASH_TAKEN && at < lash_second_of(result) ? answer[at] : 0;
}

/* For the readers below: where the count of a list stands. An end has four lists: rackings, compressions, tensions, lashes. */
static inline size_t lash_list(uint64_t result, const uint8_t *answer, unsigned end, unsigned list)
{
    size_t at = 1;
    for (unsigned i = 0; i < 4 * end + list; i++)
        at += 1 + (size_t)lash_byte(result, answer, at) * (i % 4 == 3 ? 12 : 4);
    return at;
}

/* For the readers below: the force of a list at an index from 0, and of a lash the part. */
static inline int64_t lash_force(uint64_t result, const uint8_t *answer, unsigned end, unsigned list, unsigned index, unsigned part)
{
    size_t at = end <= LASH_CLOSED ? lash_list(result, answer, end, list) : 0;
    uint32_t force = 0;
    if (at == 0 || index >= lash_byte(result, answer, at))
        return LASH_NONE;
    at += 1 + (list == 3 ? 12 * (size_t)index + 4 * part : 4 * (size_t)index);
    if (at + 4 > lash_second_of(result))
        return LASH_NONE;
    for (unsigned i = 4; i > 0; i--)
        force = force << 8 | lash_byte(result, answer, at + i - 1);
    return list == 0 && force >> 31 ? (int64_t)force - (INT64_C(1) << 32) : (int64_t)force;
}

/* Whether the stack was checked and no limit is exceeded. */
static inline int lash_accepted(uint64_t result, const uint8_t *answer)
{
    return lash_number_of(result) == LASH_TAKEN && lash_second_of(result) > 0 && answer[0] == 0;
}

static inline unsigned lash_tiers(uint64_t result, const uint8_t *answer) { return lash_byte(result, answer, 1); }

static inline unsigned lash_lashes(uint64_t result, const uint8_t *answer, unsigned end)
{
    return end <= LASH_CLOSED ? lash_byte(result, answer, lash_list(result, answer, end, 3)) : 0;
}

/* Of a tier, from 1; above 0 to leeward. */
static inline int64_t lash_racking(uint64_t result, const uint8_t *answer, unsigned end, unsigned tier)
{
    return lash_force(result, answer, end, 0, tier - 1, 0);
}

/* At a level, 0 to the tier count. */
static inline int64_t lash_compression(uint64_t result, const uint8_t *answer, unsigned end, unsigned level)
{
    return lash_force(result, answer, end, 1, level, 0);
}

/* Of the posts at a level, 0 to the tier count - 1. */
static inline int64_t lash_tension(uint64_t result, const uint8_t *answer, unsigned end, unsigned level)
{
    return lash_force(result, answer, end, 2, level, 0);
}

/* Of a lash, from 0 in the sheet's order. */
static inline struct lash_forces lash_forces_of(uint64_t result, const uint8_t *answer, unsigned end, unsigned lash)
{
    struct lash_forces forces;
    forces.tension = lash_force(result, answer, end, 3, lash, 0);
    forces.athwart = lash_force(result, answer, end, 3, lash, 1);
    forces.vertical = lash_force(result, answer, end, 3, lash, 2);
    return forces;
}

static inline unsigned lash_findings(uint64_t result, const uint8_t *answer)
{
    return lash_byte(result, answer, lash_list(result, answer, 2, 0));
}

/* A finding, from 0. */
static inline struct lash_found lash_finding_of(uint64_t result, const uint8_t *answer, unsigned index)
{
    struct lash_found found = {0, 0, 0};
    size_t at = lash_list(result, answer, 2, 0) + 1 + 3 * (size_t)index;
    if (index < lash_findings(result, answer) && at + 3 <= lash_second_of(result)) {
        found.end = lash_byte(result, answer, at);
        found.kind = lash_byte(result, answer, at + 1);
        found.index = lash_byte(result, answer, at + 2);
    }
    return found;
}

/* The force that a finding names. */
static inline int64_t lash_found_force(uint64_t result, const uint8_t *answer, struct lash_found found)
{
    switch (found.kind) {
    case LASH_OVER_RACKING: return lash_racking(result, answer, found.end, found.index);
    case LASH_OVER_COMPRESSION: return lash_compression(result, answer, found.end, found.index);
    case LASH_OVER_CORNER:
    case LASH_OVER_LOCK: return lash_tension(result, answer, found.end, found.index);
    case LASH_OVER_TENSION: return lash_forces_of(result, answer, found.end, found.index).tension;
    case LASH_OVER_VERTICAL: return lash_forces_of(result, answer, found.end, found.index).vertical;
    case LASH_OVER_ATHWART: return lash_forces_of(result, answer, found.end, found.index).athwart;
    default: return LASH_NONE;
    }
}

/* Preview of a move: what lash_check would return and write for a copy of the sheet with `mass`, in kg, as the mass of `tier`, counted
   from 1 at the bottom. The sheet itself is only read, and no copy is made. A sheet with a fault is refused for it first, even where the
   new mass would mend it; then a tier that the stack does not have, with LASH_NO_TIER and the tier as given; only then is the new mass
   looked at: one outside 1 to 30,480 is refused with LASH_TIER and the offset of its tier. LASH_ROOM comes last. All else is as with
   lash_check: the two numbers, the buffer, what the caller need not test; the readers above read the answer. */
uint64_t lash_preview(const uint8_t *sheet, size_t sheet_len, uint32_t tier, uint16_t mass, uint8_t *answer, size_t answer_len);

enum lash_preview_number {
    LASH_NO_TIER = 17 /* the tier: 0, or above the tier count */
};

/* Short voyages by forecast (CR 5.2.4(d)): the check of a sheet of route 0 with a factor by the weather in place of the route factor.
   Wave height H and breadth B are in centimetres, the voyage in hours. The factor in thousandths is the least whole t with t - 400 at
   least 1,000 x H / (20 x the root of B), kept within 600 and 1,000; at 1,000 the call returns and writes what lash_check does. What
   is returned and written, and what holds of the buffers, is as with lash_check, and the readers above read it; the sheet's own
   refusals come first, then the two below, then LASH_ROOM. The caller tests nothing first. */
uint64_t lash_forecast(const uint8_t *sheet, size_t sheet_len, uint16_t wave_height, uint16_t breadth, uint32_t hours, uint8_t *answer,
                       size_t answer_len);

enum lash_forecast_number {
    LASH_WITH_ROUTE = 20,  /* 0: a route other than 0 */
    LASH_NO_FORECAST = 21  /* 0: a voyage of 72 hours or more, or a breadth of 0 */
};

/* Side walls under pitching (CR 5.2.7(b)): racking of each tier's side wall, per wall, and how far each level shifts lengthwise. `pitch`
   is a second short sheet: the tier count, then for each tier, lowest first, its A_L in thousandths of g, 2 bytes, the least first. No
   lashing, wind or route enters; the share that a tier's own top bears is the rule number's. Racking is the least whole newton not
   below the exact one, the shift the least whole thousandth of a millimetre: there is no margin. The first number is in the low 8 bits
   of what is returned, the second above them. With 0 the second is the side answer's length, and the side buffer begins with it: a byte
   of verdict, 0 where no racking exceeds LASH_SIDE_LIMIT and else 1; the tier count; then racking and shift of each tier, 4 bytes each.
   The stack sheet's own refusals come first, then the two below, then LASH_ROOM with 82 for a side buffer under that; a refusal leaves
   the buffer as it was, bytes behind the side answer stay, and the caller tests nothing first. The three buffers do not overlap; what
   is proved holds for pointers that are not null. */
uint64_t lash_side(const uint8_t *sheet, size_t sheet_len, const uint8_t *pitch, size_t pitch_len, uint8_t *side, size_t side_len);

enum lash_side_number {
    LASH_PITCH = 14,        /* 0: a short sheet of another length or count than the stack has tiers */
    LASH_LONGITUDINAL = 15  /* the tier: from 1, the first whose A_L is above 1,500 */
};

/* The side buffer must hold this many bytes, whatever the sheets; no side answer is longer. */
#define LASH_SIDE_SIZE 82

/* N a side wall may bear (CR Table 2-3). */
#define LASH_SIDE_LIMIT 125000

/* Readers of a side answer. `result` is what lash_side returned for it; lash_accepted and lash_tiers read it too. Of a tier, from 1:
   racking in N, and the shift of the level over it in thousandths of a millimetre; LASH_NONE after a refusal or where there is no such
   tier. They read no byte behind the side answer. */
static inline int64_t lash_side_figure(uint64_t result, const uint8_t *side, unsigned tier, unsigned part)
{
    size_t at = 2 + 8 * ((size_t)tier - 1) + 4 * (size_t)part;
    uint32_t figure = 0;
    if (tier == 0 || tier > lash_tiers(result, side) || at + 4 > lash_second_of(result))
        return LASH_NONE;
    for (unsigned i = 4; i > 0; i--)
        figure = figure << 8 | lash_byte(result, side, at + i - 1);
    return (int64_t)figure;
}

static inline int64_t lash_side_racking(uint64_t result, const uint8_t *side, unsigned tier)
{
    return lash_side_figure(result, side, tier, 0);
}

static inline int64_t lash_side_shift(uint64_t result, const uint8_t *side, unsigned tier)
{
    return lash_side_figure(result, side, tier, 1);
}

/* The whole bay in one report: 1 to 24 rows of stacks from port to starboard, on decks or hatches of one height. The bay's bytes are a
   count of rows, then each row's stack sheet after its length in 2 bytes, 0 for an empty row; docs/SHEET.md has the bytes of the report.
   The wind part of each tier's byte, its bit 0, is worked out afresh and not read: a box is exposed exactly if on either side more than
   one third of its height shows above the nearest loaded row, or three or more empty rows lie between, or no loaded row is beyond, or it
   is a 40-ft box and that row one of 20-ft boxes (CR 1.3.1(40)). A row's answer is what lash_check writes for its sheet with these bits
   put in.
   The first number is in the low 8 bits of what is returned. With 0, bits 8 to 31 are the report's length, and all others 0; the bytes
   behind the report are as they were. Refused: bits 8 to 31 are the second number and bits 32 to 39 the row, counted from 1, or 0 where
   none is named; the report buffer is as it was. LASH_BAY comes first, then the first row with a refusal of its own, by the numbers of
   lash_check and as its bytes stand, then LASH_ROOM with 20,073. All else is as with lash_check: what the caller need not test, buffers
   that do not overlap, pointers that are not null. */
uint64_t lash_bay(const uint8_t *bay, size_t bay_len, uint8_t *report, size_t report_len);

enum lash_bay_number {
    LASH_BAY = 16 /* 0: a count of rows outside 1 to 24, or lengths that do not end with the bay's bytes */
};

/* The report buffer must hold this many bytes, whatever the bay. No report is longer. */
#define LASH_REPORT_SIZE 20073

/* No bay has more rows, and none that is taken is longer. */
#define LASH_MOST_ROWS 24
#define LASH_BAY_SIZE 10873

/* The second number of lash_bay's result, and the row of a refusal. */
static inline uint64_t lash_bay_second_of(uint64_t result) { return result >> 8 & 0xffffff; }
static inline unsigned lash_bay_row_of(uint64_t result) { return (unsigned)(result >> 32 & 255); }

/* Readers of a report. `result` is what lash_bay returned for it. They read no byte behind the report, and none after a refusal. */

/* For the readers below: a number of the report in so many bytes; LASH_NONE if it is not there. */
static inline int64_t lash_bay_number_at(uint64_t result, const uint8_t *report, size_t at, unsigned size)
{
    int64_t number = 0;
    if (lash_number_of(result) != LASH_TAKEN || at + size > lash_bay_second_of(result))
        return LASH_NONE;
    for (unsigned i = size; i > 0; i--)
        number = number << 8 | report[at + i - 1];
    return number;
}

/* How many loaded rows are accepted; 0 after a refusal. Of all loaded rows, accepted or not: the mass in kg, and the greatest racking in
   size in N, 0 if there is none. */
static inline unsigned lash_bay_accepted(uint64_t result, const uint8_t *report)
{
    int64_t rows = lash_bay_number_at(result, report, 0, 1);
    return rows == LASH_NONE ? 0 : (unsigned)rows;
}

static inline int64_t lash_bay_mass(uint64_t result, const uint8_t *report) { return lash_bay_number_at(result, report, 1, 4); }
static inline int64_t lash_bay_racking(uint64_t result, const uint8_t *report) { return lash_bay_number_at(result, report, 5, 4); }

/* A row's answer, and the result to hand with it to the readers of lash_check's answers. */
struct lash_row {
    uint64_t result;
    const uint8_t *answer;
};

/* The answer of a row, from 1. Of an empty row, a row that there is not and after a refusal the result is 0, an answer of no bytes, of
   which those readers give nothing: such a row is not accepted and has no forces. */
static inline struct lash_row lash_bay_row(uint64_t result, const uint8_t *report, unsigned row)
{
    struct lash_row found = {0, report};
    size_t at = 9;
    int64_t length = 0;
    for (unsigned i = 0; i < row && i < LASH_MOST_ROWS; i++) {
        at += (size_t)length;
        length = lash_bay_number_at(result, report, at, 2);
        at += 2;
        if (length == LASH_NONE || at + (size_t)length > lash_bay_second_of(result))
            return found;
    }
    if (row >= 1 && row <= LASH_MOST_ROWS && length > 0) {
        found.result = (uint64_t)length << 8;
        found.answer = report + at;
    }
    return found;
}

/* Every arrangement of the gear aboard: which choices of up to 8 lashes the check accepts when they are used alike at both ends of a
   stack. `sheet` is a stack sheet without lashes; `gear` is a gear section: a count, then that many lashes of 20 bytes, laid out and in
   order as at an end of a stack sheet. The list is a count in 2 bytes, the least first, then a byte a choice, whose bit k, counted from 0
   at the lowest, is set where lash k of the gear is used. Listed is each choice, once, for which lash_check writes verdict 0 when the
   sheet has its lashes at both ends; the empty choice counts. Fewer lashes come first; of two choices of as many lashes, at the first
   lash where they differ, the one that uses it.
   The first number is in the low 8 bits of what is returned, the second above them. With 0 the second is the list's length, 2 and a byte
   a choice. The sheet's own refusals come first, then LASH_LASHED, then those of the gear section in the order of reading: LASH_SHORT
   with the section's length, LASH_LASH_COUNT, LASH_LASH, LASH_PLACE, LASH_ORDER and LASH_SPARE with offsets in that section; last
   LASH_ROOM with 258. A refusal leaves the buffer as it was, bytes behind the list stay, and the caller tests nothing first. The three
   buffers do not overlap; what is proved holds for pointers that are not null. */
uint64_t lash_arrangements(const uint8_t *sheet, size_t sheet_len, const uint8_t *gear, size_t gear_len, uint8_t *list, size_t list_len);

enum lash_arrangements_number {
    LASH_LASHED = 24 /* 0: the stack sheet holds a lash, at either end */
};

/* The list buffer must hold this many bytes, whatever the gear; no list is longer. */
#define LASH_LIST_SIZE 258

/* No gear section that is taken is longer. */
#define LASH_GEAR_SIZE 161

/* Readers of a list. `result` is what lash_arrangements returned for it. They read no byte behind the list, and none after a refusal. */

/* How many choices are accepted; 0 after a refusal. */
static inline unsigned lash_choices(uint64_t result, const uint8_t *list)
{
    return lash_byte(result, list, 0) | lash_byte(result, list, 1) << 8;
}

/* An accepted choice, from 0 in the list's order; LASH_NONE where there is no such choice. */
static inline int64_t lash_choice(uint64_t result, const uint8_t *list, unsigned index)
{
    size_t at = 2 + (size_t)index;
    return index < lash_choices(result, list) && at < lash_second_of(result) ? (int64_t)lash_byte(result, list, at) : LASH_NONE;
}

/* Whether an accepted choice, from 0, uses a lash of the gear, from 0. */
static inline int lash_choice_uses(uint64_t result, const uint8_t *list, unsigned index, unsigned lash)
{
    int64_t choice = lash_choice(result, list, index);
    return choice != LASH_NONE && lash < 8 && (choice >> lash & 1);
}

/* Twenties in forty-foot guides (CR 5.4.6(b)(ii)): whether all tiers but the lowest together weigh no more than CR Table 5-2 (table 0,
   without a 40-ft box on top) or 5-3 (table 1, with one) permits. The acceleration is in thousandths of g, the masses those of the
   20-ft boxes alone in kg, lowest first; `count` is how many there are. The first number is in the low 8 bits of what is returned:
   0, or one of those below, with all other bits 0. With 0, bit 8 is set for yes, bits 16 to 39 are the total of all tiers but the
   lowest in kg, bits 40 to 63 the permitted mass in kg, and bits 9 to 15 are 0. The caller tests none of these numbers first. What is
   proved holds for `count` masses that are lent, by a pointer that is not null; they are only read. That none is read with LASH_GUIDES
   is the order of the code's tests, which is tested and no part of what is proved. */
uint64_t lash_twenties(uint32_t table, uint32_t acceleration, const uint32_t *masses, size_t count);

enum lash_twenties_number {
    LASH_GUIDES = 22, /* 0: table above 1, acceleration outside 350 to 650, or count outside 3 to 11 */
    LASH_BOX = 23     /* 0: a box over 30,480 kg or of mass 0 */
};

/* Readers of what lash_twenties returned. After a refusal: no, LASH_NONE, and nothing permitted. */
static inline int lash_twenties_yes(uint64_t result) { return lash_number_of(result) == LASH_TAKEN && (result >> 8 & 1); }

static inline int64_t lash_twenties_total(uint64_t result)
{
    return lash_number_of(result) == LASH_TAKEN ? (int64_t)(result >> 16 & 0xffffff) : LASH_NONE;
}

static inline int64_t lash_twenties_permitted(uint64_t result)
{
    return lash_number_of(result) == LASH_TAKEN ? (int64_t)(result >> 40) : 0;
}

/* Accelerations from roll (CR 5.2.4(a), Condition A): what a tier's A_T, A_Vmax and A_Vmin are for one box. Sine and cosine of the roll
   angle and the heave factor a0 are in ten-thousandths, the angle in hundredths of a degree, the period in hundredths of a second;
   lengths in mm: the ship's, the height of the roll centre, and the box's centre of gravity: x forward of the aft perpendicular, y from
   the centreline, z above the baseline. The first number is in the low 8 bits of what is returned: 0, or one of those below, with the
   second number above it. With 0, in thousandths of g, bits 8 to 23 are A_T and bits 24 to 39 A_Vmax, each rounded up, bits 40 to 55
   A_Vmin, rounded down and then cut at 1,000, and bits 56 to 63 are 0; a tier is refused for none of them. In range are a period up to
   100 s and not 0, an angle up to 90 degrees, a0 up to 1, lengths up to 500 m either way, the ship's not 0, and a sum of the squares of
   sine and cosine within 15,000 of 100,000,000. The caller tests nothing first. */
uint64_t lash_roll(uint32_t sine, uint32_t cosine, uint32_t heave, uint32_t angle, uint32_t period, uint32_t length, int32_t centre,
                   int32_t x, int32_t y, int32_t z);

enum lash_roll_number {
    LASH_CONDITION = 18,   /* 0: a number out of its range, x off the ship, or sine and cosine of no angle */
    LASH_ACCELERATION = 19 /* 1, 2 or 3: the first of A_T, A_Vmax and A_Vmin that is outside a sheet's limits */
};

/* Readers of what lash_roll returned. After a refusal: LASH_NONE. */
static inline int64_t lash_roll_part(uint64_t result, unsigned bit)
{
    return lash_number_of(result) == LASH_TAKEN ? (int64_t)(result >> bit & 0xffff) : LASH_NONE;
}

static inline int64_t lash_roll_a_t(uint64_t result) { return lash_roll_part(result, 8); }
static inline int64_t lash_roll_a_vmax(uint64_t result) { return lash_roll_part(result, 24); }
static inline int64_t lash_roll_a_vmin(uint64_t result) { return lash_roll_part(result, 40); }

#ifdef __cplusplus
}
#endif

#endif
