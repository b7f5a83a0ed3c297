/* The part of boundary.c that tries lash_arrangements: good and damaged sheets, mostly without lashes, each with a gear section that is
   good, edited, cut, filled up or flipped, and list buffers of several lengths. All three lie between unreadable pages. Each list is held,
   byte by byte, to the check of the sheet with each choice at both ends, and each refusal of the gear to the check of a sheet with its
   lashes at the door end. */

enum { LIST_COUNT = 2, GEARS_DUMPED = 300 };

static struct sheet lashes; /* for making a gear section: an end of a sheet */

/* Mostly for the stack's tiers, by which places of lashes are drawn. */
static void make_gear(void)
{
    static const uint32_t counts[] = {0, 1, 7, 8, 9, 10, 128, 255};
    uint32_t tiers = sheet.length > HEAD && sheet.bytes[HEAD] - 1u < MOST_TIERS ? sheet.bytes[HEAD] : 3;
    bare = 0;
    lashes.length = 0;
    add_end(&lashes, below(12) ? tiers : MOST_TIERS, below(2) == 0);
    uint32_t count = lashes.bytes[0], lash = count ? below(count) : 0;
    switch (below(10)) {
    case 0:
        if (count)
            edit_lash(lashes.bytes + 1 + LASH * lash, lash == 0, tiers);
        break;
    case 1:
        lashes.bytes[0] = (uint8_t)(below(2) ? counts[below(COUNT(counts))] : below(10));
        break;
    case 2:
        fill(&lashes, lashes.length, below(2) ? below(EVERY_LENGTH) : lashes.length + below(3) - (lashes.length > 1));
        break;
    case 3:
        lashes.bytes[below((uint32_t)lashes.length)] = (uint8_t)next_random();
    }
    gear_length = lashes.length;
    memcpy(gear, lashes.bytes, gear_length);
}

/* Half of the sheets are good; most have no lashes. */
static void make_sheet_for_gear(unsigned long number)
{
    bare = below(8) != 0;
    if (below(2)) {
        sheet.kind = "without a fault";
        make_good(&sheet, below(4) == 0);
    } else {
        make_sheet(&sheet, number);
    }
}

static size_t choose_list_room(void)
{
    static const size_t rooms[] = {0, 1, LIST_COUNT, LASH_LIST_SIZE - 1, LASH_LIST_SIZE, LASH_LIST_SIZE + 1, AREA};
    return below(5) ? LASH_LIST_SIZE : rooms[below(COUNT(rooms))];
}

/* What is due. */

static uint8_t copy[LASH_SHEET_SIZE], unused[LASH_ANSWER_SIZE];

/* Puts an end behind the first `at` bytes of the copy: the lashes of the gear whose bits are set. Where it ends. */
static size_t put_end(size_t at, unsigned choice)
{
    size_t count_at = at++;
    copy[count_at] = 0;
    for (unsigned lash = 0; lash < MOST_LASHES; lash++)
        if (choice >> lash & 1) {
            memcpy(copy + at, gear + 1 + LASH * lash, LASH);
            copy[count_at]++;
            at += LASH;
        }
    return at;
}

/* The check of the sheet, which is free of lashes, with these of the gear at its ends; the verdict is in `unused`. */
static uint64_t check_with(unsigned door, unsigned closed)
{
    size_t at = sheet.length - 2;
    memcpy(copy, sheet.bytes, at);
    at = put_end(at, door);
    at = put_end(at, closed);
    return lash_check(copy, at, unused, sizeof unused);
}

/* Of the gear section for a sheet without faults or lashes; each lash is judged as the last one at the door end of a copy. */
static uint64_t gear_refusal(void)
{
    size_t end = 1 + LASH * (size_t)(gear_length ? gear[0] : 0);
    if (gear_length == 0)
        return LASH_SHORT;
    if (gear[0] > MOST_LASHES)
        return LASH_LASH_COUNT;
    for (unsigned lash = 0; lash < gear[0]; lash++) {
        if (gear_length < 1 + LASH * (lash + 1))
            return LASH_SHORT | (uint64_t)gear_length << 8;
        uint64_t own = check_with((2u << lash) - 1, 0);
        if (lash_number_of(own) != LASH_TAKEN)
            return lash_number_of(own) | (lash_second_of(own) - (sheet.length - 2)) << 8;
    }
    return gear_length > end ? LASH_SPARE | (uint64_t)end << 8 : LASH_TAKEN;
}

/* Choices of one size come as numbers whose highest bit is lash 0, the greatest first. The list's length. */
static size_t list_due(uint8_t *list)
{
    unsigned count = gear[0], accepted = 0;
    for (unsigned size = 0; size <= count; size++)
        for (unsigned mirror = 1u << count; mirror-- > 0;) {
            unsigned choice = 0, used = 0;
            for (unsigned lash = 0; lash < count; lash++) {
                unsigned bit = mirror >> (count - 1 - lash) & 1;
                choice |= bit << lash;
                used += bit;
            }
            if (used == size && lash_accepted(check_with(choice, choice), unused))
                list[LIST_COUNT + accepted++] = (uint8_t)choice;
        }
    put(list, LIST_COUNT, accepted);
    return LIST_COUNT + accepted;
}

/* What the call must return; the list that it must write. */
static uint64_t arrangements_due(uint8_t *list)
{
    uint64_t own = lash_check(sheet.bytes, sheet.length, unused, sizeof unused);
    if (lash_number_of(own) != LASH_TAKEN)
        return own;
    if (lash_lashes(own, unused, LASH_DOOR) || lash_lashes(own, unused, LASH_CLOSED))
        return LASH_LASHED;
    own = gear_refusal();
    if (lash_number_of(own) != LASH_TAKEN)
        return own;
    return room < LASH_LIST_SIZE ? LASH_ROOM | (uint64_t)LASH_LIST_SIZE << 8 : (uint64_t)list_due(list) << 8;
}

/* The calls. */

/* Whether the readers give the choices that stand in the bytes, and nothing where there are none. */
static int list_readers_fit(uint64_t result, const uint8_t *list)
{
    int taken = lash_number_of(result) == LASH_TAKEN, fit = 1;
    unsigned count = lash_choices(result, list);
    for (unsigned i = 0; i < count; i++) {
        fit &= lash_choice(result, list, i) == list[LIST_COUNT + i];
        for (unsigned lash = 0; lash <= MOST_LASHES; lash++)
            fit &= lash_choice_uses(result, list, i, lash) == (list[LIST_COUNT + i] >> lash & 1);
    }
    fit &= lash_choice(result, list, count) == LASH_NONE && lash_choice(result, list, UINT32_MAX) == LASH_NONE;
    return fit && count == (taken ? lash_second_of(result) - LIST_COUNT : 0) && !lash_choice_uses(result, list, count, 0);
}

/* One call against the pages behind (0) or before (1), held to what is due. */
static void arrange(int before, uint64_t due, const uint8_t *list)
{
    size_t at;
    const uint8_t *lent = laid(before, &at), *second = laid_second(before, gear, gear_length);
    uint64_t result = lash_arrangements(lent, sheet.length, second, gear_length, guarded_answer + at, room);
    if (memcmp(guarded_answer + at, list, held(result, due, before, at)) != 0)
        fail("the list is not that of the check choice by choice");
    if (!list_readers_fit(result, guarded_answer + at))
        fail("the readers do not give what stands in the list");
}

static uint64_t check_arrangements(FILE *out)
{
    static uint8_t list[LASH_LIST_SIZE];
    uint64_t due = arrangements_due(list);
    arrange(0, due, list);
    arrange(1, due, list);
    if (out)
        dump_second(out, "arrangements", due, gear, gear_length);
    return due;
}

static void on_gear(void) { lash_arrangements(sheet.bytes, sheet.length, gear, gear_length, full_report, LASH_LIST_SIZE); }

/* Of a stack of ten tiers with eight lashes aboard. */
static void measure_list_stack(void)
{
    do {
        bare = 1;
        make_good(&sheet, 0);
        make_gear();
    } while (sheet.bytes[HEAD] < MOST_TIERS || lash_number_of(gear_refusal()) != LASH_TAKEN || gear[0] < MOST_LASHES);
    size_t taken = stack_of(on_gear);
    printf("a list of 256 choices takes %zu bytes of stack\n", taken);
    if (taken > MOST_STACK)
        fail("takes %zu bytes of stack, %d are allowed", taken, MOST_STACK);
}

static void run_gears(unsigned long count, FILE *out)
{
    unsigned long tally[LASH_LASHED + 1] = {0}, of_gear[LASH_ROOM] = {0}, listed = 0, choices = 0;
    arranging = 1;
    for (sheet_number = 0; sheet_number < count; sheet_number++) {
        make_sheet_for_gear(sheet_number);
        make_gear();
        room = choose_list_room();
        uint64_t due = check_arrangements(sheet_number < GEARS_DUMPED ? out : NULL);
        unsigned number = lash_number_of(due);
        tally[number]++;
        if (number == LASH_TAKEN) {
            listed += lash_second_of(due) - LIST_COUNT;
            choices += 1ul << gear[0];
        }
        if (number != LASH_TAKEN && number < LASH_ROOM)
            of_gear[number] += lash_number_of(lash_check(sheet.bytes, sheet.length, unused, sizeof unused)) == LASH_TAKEN;
    }
    measure_list_stack();
    arranging = bare = 0;
    printf("%lu sheets with gear, each asked twice: %lu taken, with %lu of %lu choices listed; refused by number 24: %lu, 13: %lu\n", count,
           tally[LASH_TAKEN], listed, choices, tally[LASH_LASHED], tally[LASH_ROOM]);
    printf("  refused for the gear by number 1: %lu, 2: %lu, 9: %lu, 10: %lu, 11: %lu, 12: %lu\n", of_gear[LASH_SHORT], of_gear[LASH_SPARE],
           of_gear[LASH_LASH_COUNT], of_gear[LASH_LASH], of_gear[LASH_PLACE], of_gear[LASH_ORDER]);
    for (int i = 0; i <= LASH_LASHED && count >= ENOUGH; i++) {
        int by_gear = i == LASH_SHORT || i == LASH_SPARE || (i >= LASH_LASH_COUNT && i < LASH_ROOM);
        if (((i <= LASH_ROOM || i == LASH_LASHED) && !tally[i]) || (by_gear && !of_gear[i])) {
            printf("FAULT: no sheet with gear gave number %d\n", i);
            exit(1);
        }
    }
    if (count >= ENOUGH && (listed == 0 || listed == choices)) {
        printf("FAULT: no choice was listed, or every one\n");
        exit(1);
    }
}
