/* The part of boundary.c that tries lash_bay: bays of good and damaged sheets, cut, filled up, flipped and random ones, with long and
   short report buffers. Both lie between unreadable pages, as sheets and answers do. Each report is held, byte by byte, to the check of
   each row's copy with the wind bits put in. Of a full bay the memory that a call takes beside what it is lent is measured. */

enum { BAY_ROW = 2, TOTALS = 9, FAR_ROWS = 3, WIND_AT = 1, HEIGHT_AT = 2, REPORT_AREA = 24576, BAYS_DUMPED = 300 };

static uint8_t *guarded_bay;    /* BAY_AREA bytes, only readable */
static uint8_t *writable_bay;   /* the same bytes, for this program */
static uint8_t *guarded_report; /* REPORT_AREA bytes */
static uint8_t report_patterns[2][REPORT_AREA];

static void prepare_bays(void)
{
    writable_bay = between_pages(BAY_AREA, &guarded_bay);
    guarded_report = answer_between_pages(REPORT_AREA);
    make_patterns(report_patterns[0], report_patterns[1], REPORT_AREA);
}

/* Bays. */

static void add_row(size_t length)
{
    if (bay.length + BAY_ROW + length > BAY_AREA)
        length = 0;
    put(bay.bytes + bay.length, BAY_ROW, (uint32_t)length);
    memcpy(bay.bytes + bay.length + BAY_ROW, sheet.bytes, length);
    bay.length += BAY_ROW + length;
}

enum damage { NONE, ANY_ROWS, ONE_ROW };

/* Rows that are good or empty; in some bays any of them damaged, as sheets are, in some one of them with one field edited. */
static void make_rows(uint32_t rows, unsigned long number, enum damage damage)
{
    uint32_t edited = damage == ONE_ROW ? below(rows) : rows;
    bay.bytes[0] = (uint8_t)rows;
    bay.length = 1;
    for (uint32_t i = 0; i < rows; i++) {
        if (damage == ANY_ROWS && below(rows) == 0)
            make_sheet(&sheet, number + i);
        else
            make_good(&sheet, below(4) == 0);
        if (i == edited)
            edit(&sheet);
        add_row(i == edited || below(3) ? sheet.length : 0);
    }
}

static void resize_bay(size_t length)
{
    for (size_t i = bay.length; i < length; i++)
        bay.bytes[i] = (uint8_t)next_random();
    bay.length = length;
}

/* The kinds take turns; cut and random bays go through every length from 0 to 500. */
static void make_bay(unsigned long number)
{
    static const char *const kinds[] = {"good rows", "damaged rows", "an edited row", "resized", "flipped", "random"};
    static const enum damage damages[COUNT(kinds)] = {NONE, ANY_ROWS, ONE_ROW, NONE, NONE, NONE};
    unsigned long kind = number % COUNT(kinds), turn = number / COUNT(kinds);
    bay.kind = kinds[kind];
    make_rows(kind == 3 ? between(1, 3) : between(1, LASH_MOST_ROWS), number, damages[kind]);
    if (kind == 3)
        resize_bay(below(2) ? turn * STRIDE % EVERY_LENGTH : bay.length + below(3) - 1);
    else if (kind == 4)
        for (uint32_t i = between(1, 3); i; i--)
            bay.bytes[below(4) ? below((uint32_t)bay.length) : 0] = (uint8_t)(below(2) ? below(27) : next_random());
    else if (kind == 5) {
        bay.length = below(2) ? 0 : bay.length < EVERY_LENGTH ? bay.length : 0;
        resize_bay(turn * STRIDE % EVERY_LENGTH);
    }
}

static size_t report_room(void)
{
    static const size_t rooms[] = {0, 1, TOTALS, LASH_ANSWER_SIZE, LASH_REPORT_SIZE - 1, LASH_REPORT_SIZE + 1, REPORT_AREA};
    return below(5) ? LASH_REPORT_SIZE : below(3) ? rooms[below(COUNT(rooms))] : below(LASH_REPORT_SIZE);
}

/* What is due. */

/* Where each row's sheet begins, its length, and the height of its boxes together. */
struct row {
    const uint8_t *sheet;
    size_t length;
    uint32_t height;
};

static uint32_t height_of(const uint8_t *s, uint32_t tiers)
{
    uint32_t height = 0;
    for (uint32_t tier = 0; tier < tiers; tier++)
        height += get2(s + HEAD + 1 + TIER * tier + HEIGHT_AT);
    return height;
}

/* Whether the bay's bytes are rows and nothing more. */
static int rows_fit(struct row *rows)
{
    size_t at = 1;
    if (bay.length == 0 || bay.bytes[0] == 0 || bay.bytes[0] > LASH_MOST_ROWS)
        return 0;
    for (uint32_t i = 0; i < bay.bytes[0]; i++) {
        if (at + BAY_ROW > bay.length || at + BAY_ROW + get2(bay.bytes + at) > bay.length)
            return 0;
        rows[i].length = get2(bay.bytes + at);
        rows[i].sheet = bay.bytes + at + BAY_ROW;
        at += BAY_ROW + rows[i].length;
    }
    return at == bay.length;
}

/* Whether the wind reaches a box whose top is at this height, on the side to which the step leads. */
static int open_to(const struct row *rows, int index, int step, const uint8_t *box, uint32_t top)
{
    for (int i = index + step; i >= 0 && i < bay.bytes[0] && abs(i - index) <= FAR_ROWS; i += step)
        if (rows[i].length)
            return box[0] > rows[i].sheet[HEAD + 1] || 3 * top > get2(box + HEIGHT_AT) + 3 * rows[i].height;
    return 1;
}

/* The check's result for a row with the wind bits put in; its answer. */
static uint64_t blown(const struct row *rows, int index, uint8_t *answer)
{
    static uint8_t copy[LASH_SHEET_SIZE];
    memcpy(copy, rows[index].sheet, rows[index].length);
    for (uint32_t tier = 1; tier <= copy[HEAD]; tier++) {
        uint8_t *box = copy + HEAD + 1 + TIER * (tier - 1);
        uint32_t top = height_of(copy, tier);
        int open = open_to(rows, index, -1, box, top) || open_to(rows, index, 1, box, top);
        box[WIND_AT] = (uint8_t)((box[WIND_AT] & 2) | open);
    }
    return lash_check(copy, rows[index].length, answer, LASH_ANSWER_SIZE);
}

static uint32_t greatest_racking(uint64_t result, const uint8_t *answer)
{
    int64_t most = 0;
    for (unsigned end = LASH_DOOR; end <= LASH_CLOSED; end++)
        for (unsigned tier = 1; tier <= lash_tiers(result, answer); tier++) {
            int64_t force = lash_racking(result, answer, end, tier);
            most = llabs(force) > most ? llabs(force) : most;
        }
    return (uint32_t)most;
}

/* The report of rows that are free of faults; its length. */
static size_t report_due(const struct row *rows, uint8_t *report)
{
    uint32_t accepted = 0, mass = 0, racking = 0;
    size_t at = TOTALS;
    for (int i = 0; i < bay.bytes[0]; i++) {
        uint64_t result = rows[i].length ? blown(rows, i, report + at + BAY_ROW) : 0;
        uint8_t *answer = report + at + BAY_ROW;
        uint32_t most = greatest_racking(result, answer);
        put(report + at, BAY_ROW, (uint32_t)lash_second_of(result));
        at += BAY_ROW + lash_second_of(result);
        accepted += (uint32_t)lash_accepted(result, answer);
        racking = most > racking ? most : racking;
        for (uint32_t tier = 0; rows[i].length && tier < rows[i].sheet[HEAD]; tier++)
            mass += get2(rows[i].sheet + HEAD + 1 + TIER * tier + MASS_AT);
    }
    put(report, 1, accepted);
    put(report + 1, 4, mass);
    put(report + 5, 4, racking);
    return at;
}

/* What the call must return; the report that it must write. */
static uint64_t bay_due(uint8_t *report)
{
    static struct row rows[LASH_MOST_ROWS];
    static uint8_t unused[LASH_ANSWER_SIZE];
    if (!rows_fit(rows))
        return LASH_BAY;
    for (uint32_t i = 0; i < bay.bytes[0]; i++) {
        uint64_t own = rows[i].length ? lash_check(rows[i].sheet, rows[i].length, unused, sizeof unused) : LASH_TAKEN;
        if (lash_number_of(own) != LASH_TAKEN)
            return own | (uint64_t)(i + 1) << 32;
        rows[i].height = rows[i].length ? height_of(rows[i].sheet, rows[i].sheet[HEAD]) : 0;
    }
    if (room < LASH_REPORT_SIZE)
        return LASH_ROOM | (uint64_t)LASH_REPORT_SIZE << 8;
    return (uint64_t)report_due(rows, report) << 8;
}

/* The calls. */

/* Whether the readers give the totals and rows that stand in the bytes, and nothing where there are none. */
static int readers_fit(uint64_t result, const uint8_t *report)
{
    size_t at = TOTALS;
    int taken = lash_number_of(result) == LASH_TAKEN, fit = 1;
    unsigned accepted = 0;
    for (unsigned row = 1; taken && row <= bay.bytes[0]; row++) {
        struct lash_row found = lash_bay_row(result, report, row);
        size_t length = get2(report + at);
        at += BAY_ROW + length;
        fit &= lash_second_of(found.result) == length && (length == 0 || found.answer == report + at - length);
        accepted += (unsigned)lash_accepted(found.result, found.answer);
    }
    fit &= lash_bay_row(result, report, 0).result == 0 && lash_bay_row(result, report, UINT32_MAX).result == 0;
    fit &= lash_bay_row(result, report, taken ? bay.bytes[0] + 1u : 1).result == 0;
    if (!taken)
        return fit && lash_bay_accepted(result, report) == 0 && lash_bay_mass(result, report) == LASH_NONE &&
               lash_bay_racking(result, report) == LASH_NONE;
    return fit && at == lash_bay_second_of(result) && lash_bay_accepted(result, report) == accepted;
}

/* One call against the pages behind (0) or before (1), held to what is due. */
static void call_bay(int before, uint64_t due, const uint8_t *report)
{
    size_t bay_at = before ? 0 : BAY_AREA - bay.length, at = before ? 0 : REPORT_AREA - room;
    const uint8_t *pattern = report_patterns[before];
    memcpy(writable_bay + bay_at, bay.bytes, bay.length);
    memcpy(guarded_report, pattern, REPORT_AREA);
    uint64_t result = lash_bay(guarded_bay + bay_at, bay.length, guarded_report + at, room);
    size_t length = lash_number_of(result) == LASH_TAKEN ? lash_bay_second_of(result) : 0;
    if (result != due)
        fail("gives %llx, %llx is due", (unsigned long long)result, (unsigned long long)due);
    if (memcmp(guarded_report + at, report, length) != 0)
        fail("the report is not that of the rows with their wind");
    if (!same(guarded_report, pattern, 0, at) || !same(guarded_report, pattern, at + length, REPORT_AREA))
        fail("a byte outside the report of %zu bytes was written", length);
    if (!readers_fit(result, guarded_report + at))
        fail("the readers do not give what stands in the report");
}

/* In the dump a line: bay, report room, result, bay, report. */
static uint64_t check_bay(FILE *out)
{
    static uint8_t report[REPORT_AREA];
    uint64_t due = bay_due(report);
    call_bay(0, due, report);
    call_bay(1, due, report);
    if (out) {
        fprintf(out, "bay %zu %llu ", room, (unsigned long long)due);
        print_hex(out, bay.bytes, bay.length);
        fputc(' ', out);
        print_hex(out, report, lash_number_of(due) == LASH_TAKEN ? lash_bay_second_of(due) : 0);
        fputc('\n', out);
    }
    return due;
}

/* The memory that a call takes beside what it is lent is stack alone, since the library allocates nothing: how much of one laid out with a
   pattern a call on the bay, or on the check of a sheet, has written. */

enum { STACK_AREA = 262144, UNTOUCHED = 0xa5, MOST_STACK = 16384 };

static ucontext_t here, there;
static uint8_t full_report[LASH_REPORT_SIZE];

static void on_bay(void) { lash_bay(bay.bytes, bay.length, full_report, sizeof full_report); }
static void on_sheet(void) { lash_check(sheet.bytes, sheet.length, full_report, sizeof full_report); }

static size_t stack_of(void (*call)(void))
{
    static uint8_t stack[STACK_AREA];
    size_t left = 0;
    memset(stack, UNTOUCHED, sizeof stack);
    getcontext(&there);
    there.uc_stack.ss_sp = stack;
    there.uc_stack.ss_size = sizeof stack;
    there.uc_link = &here;
    makecontext(&there, call, 0);
    swapcontext(&here, &there);
    while (left < sizeof stack && stack[left] == UNTOUCHED)
        left++;
    return sizeof stack - left;
}

static void measure_stack(void)
{
    make_rows(LASH_MOST_ROWS, 0, NONE);
    size_t of_check = stack_of(on_sheet), of_bay = stack_of(on_bay);
    printf("a bay of 24 rows takes %zu bytes of stack, a check %zu\n", of_bay, of_check);
    if (of_bay > MOST_STACK)
        fail("takes %zu bytes of stack, %d are allowed", of_bay, MOST_STACK);
}

static void run_bays(unsigned long count, FILE *out)
{
    unsigned long tally[LASH_BAY + 1] = {0}, rows[LASH_MOST_ROWS + 1] = {0};
    prepare_bays();
    bay.tried = 1;
    for (sheet_number = 0; sheet_number < count; sheet_number++) {
        make_bay(sheet_number);
        room = report_room();
        uint64_t due = check_bay(sheet_number < BAYS_DUMPED ? out : NULL);
        tally[lash_number_of(due)]++;
        rows[lash_bay_row_of(due)]++;
    }
    measure_stack();
    bay.tried = 0;
    printf("%lu bays, each asked twice: %lu taken; refused by number 16: %lu, by a row: %lu, 13: %lu\n", count, tally[LASH_TAKEN],
           tally[LASH_BAY], count - rows[0], tally[LASH_ROOM]);
    for (int i = 0; i <= LASH_BAY && count >= ENOUGH / 4; i++)
        if (!tally[i] && (i <= LASH_ROOM || i == LASH_BAY)) {
            printf("FAULT: no bay gave number %d\n", i);
            exit(1);
        }
}
