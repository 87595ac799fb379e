/* Calls the functions on lists of shifts from C, to build one, fetch from it and extend it, with good input and with bad input of
 * every kind, and ends in 'N passed, M failed'. What is expected of a list is written by hand: of an entry its first and last record,
 * kind, route, end, request time and age. */
#include "host.h"

/* ---- what is expected */
struct answered { unsigned number, rule; size_t index; uint64_t excess; };

static const struct answered good = {0, 0, 0, 0}, full = {15, 0, 0, 0};

/* The list that is given, and the one that should come out. */
struct bytes { uint8_t at[MUNASIREL_LONGEST_LIST]; size_t length; };
static struct bytes given, wanted;

static void put_number(struct bytes *to, size_t number, unsigned size)
{
    for (; size > 0; size--, number >>= 8)
        to->at[to->length++] = (uint8_t)number;
}

static void lay(struct bytes *to, const munasirel_shift *shifts, size_t count)
{
    to->length = 0;
    put_number(to, count, 4);
    put_number(to, 8, 4);
    for (size_t i = 0; i < count; i++) {
        const munasirel_shift *s = &shifts[i];
        put_number(to, s->first, 2), put_number(to, s->last, 2);
        put_number(to, s->kind, 1), put_number(to, s->route, 1), put_number(to, s->end, 1), put_number(to, 0, 1);
        put_number(to, s->request_time, 4), put_number(to, s->age, 4);
    }
}

#define SHIFTS(...) (const munasirel_shift[]){__VA_ARGS__}, sizeof((const munasirel_shift[]){__VA_ARGS__}) / sizeof(munasirel_shift)
#define NO_SHIFTS NULL, 0

static void answers(const char *function, const char *name, const munasirel_listed *got, struct answered want)
{
    check(function, name, "number", got->number == want.number);
    check(function, name, "rule", got->rule == want.rule);
    check(function, name, "index", got->index == want.index);
    check(function, name, "excess", got->excess == want.excess);
    check(function, name, "length", got->length == (want.number == 0 ? wanted.length : 0));
}

static munasirel_listed odd(void)
{
    munasirel_listed listed;
    memset(&listed, 77, sizeof listed);
    return listed;
}

/* ---- munasirel_list, on the file made, with so much room */
static void lists_in(const char *name, size_t room, struct answered want)
{
    static uint8_t bytes[MUNASIREL_LONGEST_LIST];
    munasirel_listed before_it = odd();
    size_t length = want.number == 0 ? wanted.length : 0;
    memset(bytes, 'x', room);
    fresh();
    uint8_t *file = lend(made, made_length);
    uint8_t *out = lend(bytes, room);
    munasirel_listed *got = lend(&before_it, sizeof before_it);
    *got = munasirel_list(file, made_length, out, room);
    answers("list", name, got, want);
    check("list", name, "list", memcmp(out, wanted.at, length) == 0);
    check("list", name, "bytes", guarded() && kept(file, 0) && kept(out, length));
}

/* An accepted file: room for the list, more of it, a byte less, and less than a header. */
static void lists(const char *name, const munasirel_shift *shifts, size_t count)
{
    lay(&wanted, shifts, count);
    lists_in(name, wanted.length, good);
    lists_in(name, wanted.length + 20, good);
    lists_in(name, wanted.length - 1, full);
    lists_in(name, 7, full);
    lists_in(name, 0, full);
}

/* A refused file, whatever the room. */
static void lists_not(const char *name, unsigned number, unsigned rule, size_t index, uint64_t excess)
{
    static const size_t rooms[] = {0, 7, 8, 24, 1000};
    for (size_t i = 0; i < sizeof rooms / sizeof *rooms; i++)
        lists_in(name, rooms[i], (struct answered){number, rule, index, excess});
}

static void listing(void)
{
    make(K1), lists("K1", SHIFTS({0, 10, 1, 0, 1, 0, 410}));
    make_with(old_default, K1), lists("K1 with its table", SHIFTS({0, 10, 1, 0, 1, 0, 410}));
    make_with(new_default, BUS_OF_10_MS), lists("10 ms on the bus, the new default", SHIFTS({0, 11, 1, 0, 1, 0, 430}));
    make(""), lists("K2", NO_SHIFTS);
    make("t9 t65535"), lists("ticks at rest", NO_SHIFTS);

    /* Open to the last record, also where that is the request. */
    make("1"), lists("a request", SHIFTS({0, 0, 1, 0, 0, 0, 0}));
    make("t7 1 t5"), lists("a request and a tick", SHIFTS({1, 2, 1, 0, 0, 7, 5}));
    make("1 4 7 t151"), lists("an engine that waits", SHIFTS({0, 3, 1, 0, 0, 0, 151}));
    make("1 4 7 t151 9"), lists("K6, the clutch asked for", SHIFTS({0, 4, 1, 1, 0, 0, 151}));

    /* Done or in error at the record that enters 22 or 23; what comes behind it belongs to no shift. */
    make(IN_GEAR), lists("done and finished", SHIFTS({0, 6, 1, 0, 1, 0, 0}));
    make("1 4 5 8 4 5 8"), lists("done at the last record", SHIFTS({0, 6, 1, 0, 1, 0, 0}));
    make("1 4 5 8 4 5 8 t9"), lists("a tick in done", SHIFTS({0, 6, 1, 0, 1, 0, 0}));
    make("1 4 5 8 4 5 8 t9 11 t1 3 t2"), lists("and a second shift", SHIFTS({0, 6, 1, 0, 1, 0, 0}, {10, 11, 3, 0, 0, 10, 2}));
    make(WOULD_NOT_CLOSE), lists("in error at the last record", SHIFTS({0, 13, 1, 1, 2, 0, 151}));
    make(WOULD_NOT_CLOSE " t9"), lists("a tick in error", SHIFTS({0, 13, 1, 1, 2, 0, 151}));
    make(WOULD_NOT_CLOSE " t9 13 3"), lists("a reset, then to neutral", SHIFTS({0, 13, 1, 1, 2, 0, 151}, {16, 16, 3, 0, 0, 160, 0}));

    /* Every kind by every route. */
    make("1 4 7 t151 9 4 5 8 4 5 8 4 5 8 11"), lists("from neutral by the clutch", SHIFTS({0, 13, 1, 1, 1, 0, 151}));
    make(IN_GEAR " 2 4 5 8 4 5 8 4 5 8 4 5 8 11"), lists("gear to gear", SHIFTS({0, 6, 1, 0, 1, 0, 0}, {8, 20, 2, 0, 1, 0, 0}));
    make(IN_GEAR " t3 2 4 7 t251 9 4 5 8 4 5 8 4 5 8 4 5 8 11");
    lists("gear to gear by the clutch", SHIFTS({0, 6, 1, 0, 1, 0, 0}, {9, 25, 2, 1, 1, 3, 251}));
    make(IN_GEAR " 2 4 5 8 4 5 8 4 7 t151 9 4 6 10");
    lists("gear to gear by the clutch later, in error", SHIFTS({0, 6, 1, 0, 1, 0, 0}, {8, 21, 2, 1, 2, 0, 151}));
    make(IN_GEAR " 3 4 5 8 4 5 8 11 1");
    lists("to neutral, and from it", SHIFTS({0, 6, 1, 0, 1, 0, 0}, {8, 14, 3, 0, 1, 0, 0}, {16, 16, 1, 0, 0, 0, 0}));
    make(IN_GEAR " 3 4 7 t251 9 4 5 8 4 5 8 4 6 10 13 1");
    lists("to neutral by the clutch, in error", SHIFTS({0, 6, 1, 0, 1, 0, 0}, {8, 21, 3, 1, 2, 0, 251}, {23, 23, 1, 0, 0, 251, 0}));

    /* With delays of the clutch. */
    make_with(house, DELAYED), lists("the house's delays", SHIFTS({0, 18, 1, 1, 1, 0, 201}));
    make_with_22(old_default, WOULD_NOT_CLOSE), lists("22 entries without delays", SHIFTS({0, 13, 1, 1, 2, 0, 151}));
    ticks(MUNASIREL_MOST_RECORDS_22, 65535), make_list(&house), lists("the longest file of 22 entries", NO_SHIFTS);

    /* The widths of the numbers. */
    ticks(MUNASIREL_MOST_RECORDS, 65535), codes[16000] = 1, amounts[16000] = 0;
    steps = 16001, make_list(NULL), lists("late in the longest file", SHIFTS({16000, 16000, 1, 0, 0, 1048560000, 0}));
    ticks(MUNASIREL_MOST_RECORDS, 65535), make_list(&old_default), lists("the longest file of ticks", NO_SHIFTS);

    /* The file's own numbers come before the list's. */
    made_length = 0, lists_not("1, nothing", 1, 0, 0, 0);
    make(K1), made_length = 11, lists_not("1", 1, 0, 0, 0);
    make(K1), made[0] = 13, lists_not("2", 2, 0, 0, 0);
    ticks(MUNASIREL_MOST_RECORDS + 1, 1), make_list(NULL), lists_not("2, 16,373 records", 2, 0, 0, 0);
    ticks(MUNASIREL_MOST_RECORDS_22 + 1, 1), make_list(&house), lists_not("2, 16,371 records and 22 entries", 2, 0, 0, 0);
    make(K1), made_length--, lists_not("3", 3, 0, 0, 0);
    make_with(with(17, 1404), K1), lists_not("4, rule 14", 4, 14, 0, 0);
    make_with(house_with(21, 20), K1), lists_not("4, rule 16", 4, 16, 0, 0);
    make_with(with(0, 0), "14"), lists_not("4, rule 1, before 5", 4, 1, 0, 0);
    make(IN_GEAR " 14"), lists_not("5 behind a shift", 5, 0, 8, 0);
    make(IN_GEAR " t0"), lists_not("6 behind a shift", 6, 0, 8, 0);
    make(K11), lists_not("7, K11", 7, 0, 19, 0);
    make("2"), lists_not("8", 8, 0, 0, 0);
    make(IN_GEAR " 3 4 7 t1 9"), lists_not("9 in a shift", 9, 0, 12, 250);
    make_with(house, TO_OPEN " t19 5"), lists_not("9, opened too early", 9, 0, 9, 1);
    make_with(house, TO_CLOSE " t20 6"), lists_not("9, failed to close too early", 9, 0, 17, 40);
    make("1 4 7 t200"), lists_not("11 in a shift", 11, 0, 3, 45);
    make("1 t5 t65535"), lists_not("12 in a shift", 12, 0, 2, 65535);
    make(BUS_OF_10_MS), lists_not("12, 10 ms on the bus, no table", 12, 0, 1, 5);
}

/* The most shifts of a file, of eight records each and one of four. */
static void listing_most(void)
{
    static const uint8_t both[] = {1, 4, 5, 8, 4, 5, 8, 11, 3, 4, 5, 8, 4, 5, 8, 11};
    static munasirel_shift shifts[MUNASIREL_MOST_RECORDS / 8 + 1];
    size_t count = sizeof shifts / sizeof *shifts;
    for (steps = 0; steps < MUNASIREL_MOST_RECORDS; steps++)
        codes[steps] = both[steps % sizeof both], amounts[steps] = 0;
    for (size_t i = 0; i < count; i++)
        shifts[i] = (munasirel_shift){(uint16_t)(8 * i), (uint16_t)(8 * i + 6), i % 2 == 0 ? 1 : 3, 0, 1, 0, 0};
    shifts[count - 1].last = MUNASIREL_MOST_RECORDS - 1;
    shifts[count - 1].end = 0;
    make_list(&old_default), lists("the most shifts", shifts, count);
    check("list", "the most shifts", "count", count == 2047 && wanted.length == 32760);
}

/* ---- munasirel_fetch, from the first so many bytes given */
static void fetches_from(const char *name, size_t length, size_t number, unsigned want, munasirel_shift shift)
{
    munasirel_fetched before_it;
    memset(&before_it, 77, sizeof before_it);
    fresh();
    uint8_t *from = lend(given.at, length);
    munasirel_fetched *got = lend(&before_it, sizeof before_it);
    *got = munasirel_fetch(from, length, number);
    check("fetch", name, "number", got->number == want);
    check("fetch", name, "records", got->shift.first == shift.first && got->shift.last == shift.last);
    check("fetch", name, "kind", got->shift.kind == shift.kind);
    check("fetch", name, "route", got->shift.route == shift.route);
    check("fetch", name, "end", got->shift.end == shift.end);
    check("fetch", name, "times", got->shift.request_time == shift.request_time && got->shift.age == shift.age);
    check("fetch", name, "bytes", guarded() && kept(from, 0));
}

static void fetches_not(const char *name, size_t length, size_t number, unsigned want)
{
    fetches_from(name, length, number, want, (munasirel_shift){0, 0, 0, 0, 0, 0, 0});
}

/* With another number in the list's header, at 0 its count and at 4 its offset. */
static void fetches_not_with(const char *name, size_t at, uint32_t field, size_t length, size_t number, unsigned want)
{
    struct bytes was = given;
    given.length = at;
    put_number(&given, field, 4);
    fetches_not(name, length, number, want);
    given = was;
}

static void fetching(void)
{
    const munasirel_shift three[] = {{0, 6, 1, 0, 1, 0, 0}, {8, 21, 3, 1, 2, 0, 251}, {23, 65535, 2, 0, 0, 251, 4294967295}};
    static const size_t past[] = {3, 4, 16, 255, 1 << 16, 1 << 28, (size_t)1 << 32, (size_t)1 << 60, SIZE_MAX - 1, SIZE_MAX};
    lay(&given, three, 3);
    for (size_t i = 0; i < 3; i++)
        fetches_from("each of three", 56, i, 0, three[i]);
    for (size_t i = 0; i < sizeof past / sizeof *past; i++)
        fetches_not("14, past three", 56, past[i], 14);

    /* A foreign list: what stands there is handed back, but for the eighth byte. */
    for (size_t i = 0; i < 16; i++)
        given.at[8 + i] = (uint8_t)(i + 1), given.at[24 + i] = (uint8_t)(255 - i);
    fetches_from("every byte of an entry", 56, 0, 0, (munasirel_shift){513, 1027, 5, 6, 7, 202050057, 269422093});
    fetches_from("and of the next", 56, 1, 0, (munasirel_shift){65279, 64765, 251, 250, 249, 4109760247, 4042388211});
    lay(&given, SHIFTS({7, 3, 0, 7, 255, 9, 8})), given.at[15] = 9;
    fetches_from("no kind, route or end, a non-zero byte", 24, 0, 0, (munasirel_shift){7, 3, 0, 7, 255, 9, 8});

    lay(&given, three, 3);
    for (size_t length = 0; length < 8; length++)
        fetches_not("1", length, 0, 1);
    fetches_not_with("1 before 2", 4, 9, 7, 0, 1);
    fetches_not_with("2, offset 0", 4, 0, 56, 0, 2);
    fetches_not_with("2, offset 9", 4, 9, 56, 0, 2);
    fetches_not_with("2, offset 264", 4, 264, 56, 0, 2);
    fetches_not_with("2, offset above 16 bits", 4, 65544, 56, 0, 2);
    fetches_not_with("2, offset above 24 bits", 4, 16777224, 56, 0, 2);
    fetches_not_with("2 before 3", 4, 7, 55, 0, 2);
    fetches_not("3, a byte too few", 55, 0, 3);
    given.at[56] = 0, fetches_not("3, a byte too many", 57, 0, 3);
    fetches_not("3, an entry too few", 40, 0, 3);
    fetches_not("3, the header alone", 8, 0, 3);
    fetches_not_with("3, no shifts in the header", 0, 0, 56, 0, 3);
    fetches_not_with("3, a count above 8 bits", 0, 259, 56, 0, 3);
    fetches_not_with("3, a count above 24 bits", 0, 16777219, 56, 0, 3);
    fetches_not_with("3, a length that would wrap at 32 bits", 0, 268435456, 8, 0, 3);
    fetches_not_with("3, one that would wrap to this list", 0, 268435459, 56, 0, 3);
    fetches_not_with("3, the largest count", 0, 4294967295, 56, 0, 3);
    fetches_not_with("3 before 14", 0, 2, 56, 3, 3);
    lay(&given, NO_SHIFTS), fetches_not("14, an empty list", 8, 0, 14);
    fetches_not("14, an empty list and the largest number", 8, SIZE_MAX, 14);
}

/* ---- munasirel_extend, of the list given by the block made */
struct extension { size_t room, held; munasirel_state state; uint32_t count; munasirel_limits table; };

static void extends(const char *name, struct extension e, struct answered want)
{
    static uint8_t bytes[MUNASIREL_LONGEST_LIST];
    munasirel_listed before_it = odd();
    size_t length = want.number == 0 ? wanted.length : 0;
    memset(bytes, 'x', e.room);
    memcpy(bytes, given.at, given.length < e.room ? given.length : e.room);
    fresh();
    uint8_t *out = lend(bytes, e.room);
    uint8_t *records = lend(made, made_length);
    munasirel_listed *got = lend(&before_it, sizeof before_it);
    *got = munasirel_extend(out, e.room, e.held, e.state, e.count, e.table, records, made_length);
    answers("extend", name, got, want);
    check("extend", name, "list", memcmp(out, wanted.at, length) == 0);
    check("extend", name, "bytes", guarded() && kept(records, 0) && kept(out, length));
}

/* From the list given, with the state and the count at its file's end: with just the room, with more and with a byte less. */
static void extends_to(const char *name, munasirel_state state, uint32_t count)
{
    struct extension e = {wanted.length, given.length, state, count, old_default};
    extends(name, e, good);
    e.room += 20, extends(name, e, good);
    e.room = wanted.length - 1, extends(name, e, full);
}

/* Refused, in this and in other rooms that hold the list. */
static void extends_not(const char *name, munasirel_state state, uint32_t count, struct answered want)
{
    struct extension e = {given.length, given.length, state, count, old_default};
    extends(name, e, want);
    e.room += 100, extends(name, e, want);
}

/* In the midst of a shift whose request was record 12, at 500 ms; 16 records were there. */
#define IN_SHIFT S(520, 0, 1, 500, 1, 520, 500, 0)

static void give_open(void)
{
    lay(&given, SHIFTS({0, 10, 1, 0, 1, 0, 410}, {12, 15, 1, 0, 0, 500, 20}));
}

/* All that can be wrong at once, set right in the order in which it is found. */
static void extending_in_order(void)
{
    struct extension e = {39, 40, IN_SHIFT, 16371, with(17, 1404)};
    e.state.request_time = 499;
    give_open();
    given.at[0] = 7, given.at[4] = 9;
    make_block("4 14");
    extends("15 for held, first", e, full);
    e.held = SIZE_MAX, extends("15 for the largest held", e, full);
    for (e.room = 40, e.held = 0; e.held < 8; e.held++)
        extends("1, then", e, (struct answered){1, 0, 0, 0});
    e.held = 40, extends("2 for the offset, then", e, (struct answered){2, 0, 0, 0});
    given.at[4] = 8, extends("3, then", e, (struct answered){3, 0, 0, 0});
    given.at[0] = 2, extends("2 for the records, then", e, (struct answered){2, 0, 0, 0});
    e.count = 1, extends("2 for the shifts, then", e, (struct answered){2, 0, 0, 0});
    e.count = 16, extends("4, then", e, (struct answered){4, 14, 0, 0});
    e.table = old_default, extends("14, then", e, (struct answered){14, 0, 0, 0});
    e.state = IN_SHIFT, extends("5, then", e, (struct answered){5, 0, 17, 0});
    make_block("4 t100 5 8 4 5 8 11 3 t2"), extends("15 for the longer list, last", e, full);
    e.room = 55, extends("15, a byte too few", e, full);
    lay(&wanted, SHIFTS({0, 10, 1, 0, 1, 0, 410}, {12, 22, 1, 0, 1, 500, 120}, {24, 25, 3, 0, 0, 620, 2}));
    e.room = 56, extends("and nothing", e, good);
}

/* The list's own numbers, with everything else right. */
static void extending_odd_lists(void)
{
    const munasirel_state rest = S(500, 1, 0, 410, 0, 410, 0, 0);
    struct extension e = {1000, 24, rest, 12, old_default};
    lay(&given, SHIFTS({0, 10, 1, 0, 1, 0, 410}));
    make_block("t1");
    wanted = given, extends("as it should be", e, good);
    e.held = 7, extends("1", e, (struct answered){1, 0, 0, 0});
    e.held = 8, extends("3, the header alone", e, (struct answered){3, 0, 0, 0});
    e.held = 23, extends("3, a byte too few", e, (struct answered){3, 0, 0, 0});
    e.held = 25, extends("3, a byte too many", e, (struct answered){3, 0, 0, 0});
    e.held = 1001, extends("15, a byte more than there are", e, full);
    e.held = 24;
    for (size_t i = 4; i < 8; i++) {
        uint8_t was = given.at[i];
        given.at[i] = (uint8_t)(was + 1), extends("2, every byte of the offset", e, (struct answered){2, 0, 0, 0});
        given.at[i] = was;
    }
    for (size_t i = 0; i < 4; i++) {
        uint8_t was = given.at[i];
        given.at[i] = (uint8_t)(was + 16), extends("3, every byte of the count", e, (struct answered){3, 0, 0, 0});
        given.at[i] = was;
    }
    lay(&given, NO_SHIFTS), given.at[3] = 16, e.held = 8;
    extends("3, a length that would wrap", e, (struct answered){3, 0, 0, 0});
    lay(&given, SHIFTS({0, 0, 1, 0, 1, 0, 0}, {1, 1, 1, 0, 2, 0, 0})), e.held = 40, wanted = given;
    e.count = 1, extends("2, two shifts in one record", e, (struct answered){2, 0, 0, 0});
    e.count = 2, extends("two shifts in two records", e, good);
}

/* Where there would be too many records. */
static void extending_to_the_most(void)
{
    const munasirel_state rest = S(500, 0, 0, 410, 0, 410, 0, 0);
    const struct answered many = {2, 0, 0, 0};
    static munasirel_shift shifts[MUNASIREL_MOST_RECORDS];
    lay(&given, NO_SHIFTS), wanted = given;
    made_length = 0;
    extends_to("16,372 records and none", rest, 16372);
    extends_not("16,373 records and none", rest, 16373, many);
    extends_not("the largest count", rest, 4294967295, many);
    make_block("t1"), extends_to("16,371 records and one", rest, 16371);
    extends_not("16,372 records and one", rest, 16372, many);
    extends_not("the largest count and one", rest, 4294967295, many);
    made[4] = 14, made_length = 7, extends_to("bytes left over are none", rest, 16371);
    make_block("t1 t1"), extends_not("16,371 records and two", rest, 16371, many);
    make_block("t1 1"), lay(&wanted, SHIFTS({16371, 16371, 1, 0, 0, 501, 0})), extends_to("a request at the last", rest, 16370);
    ticks(MUNASIREL_MOST_RECORDS, 1), cut(0, steps), wanted = given;
    extends_to("16,372 records at once", rest, 0);
    extends_not("and one that was there", rest, 1, many);
    for (size_t i = 0; i < MUNASIREL_MOST_RECORDS; i++)
        shifts[i] = (munasirel_shift){(uint16_t)i, (uint16_t)i, 1, 0, 1, 0, 0};
    made_length = 0, lay(&given, shifts, MUNASIREL_MOST_RECORDS), wanted = given;
    extends("the longest list", (struct extension){MUNASIREL_LONGEST_LIST, MUNASIREL_LONGEST_LIST, rest, 16372, old_default}, good);
    struct extension delayed = {MUNASIREL_LONGEST_LIST, MUNASIREL_LONGEST_LIST, rest, 16372, house};
    extends("the longest list, with delays", delayed, many);
}

/* The same under a table that has a delay, admitted or not: it would be written as twenty-two entries. */
static void extending_to_the_most_of_22(void)
{
    const struct answered many = {2, 0, 0, 0};
    struct extension e = {8, 8, S(500, 0, 0, 410, 0, 410, 0, 0), 16370, house};
    lay(&given, NO_SHIFTS), wanted = given;
    made_length = 0, extends("16,370 records and none", e, good);
    made_length = 3, extends("16,370 records and bytes left over", e, good);
    for (e.count = 16371; e.count < 16373; e.count++)
        made_length = 0, extends("16,371 or 16,372 records and none", e, many);
    make_block("t1"), e.count = 16369, extends("16,369 records and one", e, good);
    e.count = 16370, extends("16,370 records and one", e, many);
    e.table = old_default, extends("16,370 records and one, no delays", e, good);
    for (unsigned i = 18; i < 22; i++) {
        e.table = with(i, 1), e.count = 16369, extends("4, one delay alone", e, (struct answered){4, 16, 0, 0});
        e.count = 16370, extends("2 before 4, one delay alone", e, many);
        e.table = house_with(i, 0), extends("2 before 4, one delay of 0", e, many);
    }
    e.table = house_with(17, 1404), extends("2 before 4, rule 14", e, many);
    e.table = with(17, 1404), extends("4 without delays", e, (struct answered){4, 14, 0, 0});
    ticks(MUNASIREL_MOST_RECORDS_22 + 1, 1), cut(0, steps), e.count = 0, e.table = house, extends("16,371 records at once", e, many);
    cut(0, steps - 1), extends("16,370 records at once", e, good);
    e.count = 4294967295, extends("the largest count", e, many);
}

/* The table is tested with or without a record, and the records are judged under it. */
static void extending_under_tables(void)
{
    const munasirel_state rest = {0};
    struct extension e = {100, 8, rest, 0, with(17, 1404)};
    lay(&given, NO_SHIFTS);
    for (made_length = 0; made_length < 4; made_length++)
        extends("4 without a record", e, (struct answered){4, 14, 0, 0});
    make_block("14"), extends("4 before 5", e, (struct answered){4, 14, 0, 0});
    e.table = with(3, 0), extends("4, rule 1", e, (struct answered){4, 1, 0, 0});
    e.table = with(9, 65535), extends("4, rule 12", e, (struct answered){4, 12, 0, 0});
    e.table = house_with(18, 60), extends("4, rule 16", e, (struct answered){4, 16, 0, 0});
    make_block("1 t6"), e.table = old_default, extends("12 under the old default", e, (struct answered){12, 0, 1, 1});
    e.table = with(0, 4), extends("12 under a tighter table", e, (struct answered){12, 0, 1, 2});
    e.table = with(0, 6), lay(&wanted, SHIFTS({0, 1, 1, 0, 0, 0, 6})), extends("accepted under a looser one", e, good);
    e.table = new_default, extends("accepted under the new default", e, good);
    make_block(BUS_OF_10_MS), lay(&wanted, SHIFTS({0, 11, 1, 0, 1, 0, 430})), extends("10 ms on the bus", e, good);
    e.table = old_default, extends("12, 10 ms on the bus", e, (struct answered){12, 0, 1, 5});
    make_block(TO_OPEN " t20 6"), e.table = house, extends("9 with delays", e, (struct answered){9, 0, 9, 40});
    e.table = old_default, lay(&wanted, SHIFTS({0, 9, 1, 1, 0, 0, 176})), extends("accepted without", e, good);
}

/* Whether state and list fit, without a record. */
static void fits(const char *name, munasirel_state state, uint32_t count, int want)
{
    struct extension e = {given.length, given.length, state, count, old_default};
    made_length = 0;
    wanted = given;
    extends(name, e, want ? good : (struct answered){14, 0, 0, 0});
}

static void fitting(void)
{
    munasirel_state state = IN_SHIFT;
    give_open(), fits("the open shift", state, 16, 1);
    fits("14, a record later", state, 17, 0);
    fits("14, a record earlier", state, 15, 0);
    fits("14, far later", state, 16 + 256, 0);
    for (unsigned end = 1; end < 256; end += end == 2 ? 251 : 1)
        give_open(), given.at[30] = (uint8_t)end, fits("14, its end", state, 16, 0);
    for (size_t i = 26; i < 28; i++)
        give_open(), given.at[i] ^= 1, fits("14, its last record", state, 16, 0);
    for (size_t i = 32; i < 40; i++)
        give_open(), given.at[i] ^= 1, fits("14, its request time or its age", state, 16, 0);
    give_open(), state.clock++, fits("14, the state's clock", state, 16, 0);
    state = IN_SHIFT, state.request_time++, fits("14, the state's request time", state, 16, 0);
    state.request_time += 65535, fits("14, far off", state, 16, 0);

    /* What does not matter: the entries before, the first record, kind and route, the state's other fields. */
    state = S(520, 255, 13, 1, 255, 2, 500, 255);
    for (size_t i = 8; i < 40; i++)
        if (i < 26 || i == 28 || i == 29)
            give_open(), given.at[i] ^= 255, fits("what does not matter", state, 16, 1);

    /* A request time ahead of the clock makes the age 0. */
    state = S(10, 0, 1, 500, 1, 500, 500, 0);
    lay(&given, SHIFTS({12, 15, 1, 0, 0, 500, 0})), fits("an age of 0", state, 16, 1);
    lay(&given, SHIFTS({12, 15, 1, 0, 0, 500, 490})), fits("14, an age the other way round", state, 16, 0);
    lay(&given, SHIFTS({12, 15, 1, 0, 0, 500, 4294966806})), fits("14, an age that wraps", state, 16, 0);
    state = S(4294967295, 0, 21, 0, 1, 0, 0, 0);
    lay(&given, SHIFTS({0, 0, 3, 0, 0, 0, 4294967295})), fits("the largest age", state, 1, 1);

    /* Every phase, with the last entry open, closed, and with no entry. */
    for (unsigned phase = 0; phase < 256; phase++) {
        int inside = phase >= 1 && phase <= 21;
        state = IN_SHIFT, state.phase = (uint8_t)phase;
        give_open(), fits("an open entry in every phase", state, 16, inside);
        lay(&given, SHIFTS({12, 15, 1, 0, 1, 500, 20})), fits("a done one in every phase", state, 16, !inside);
        lay(&given, SHIFTS({12, 15, 1, 0, 2, 500, 20})), fits("one in error in every phase", state, 16, !inside);
        lay(&given, NO_SHIFTS), fits("no entry in every phase", state, 16, !inside);
    }

    /* Outside a shift the last record counts alone. */
    state = S(7, 0, 22, 0, 0, 0, 9, 0);
    lay(&given, SHIFTS({12, 15, 1, 0, 1, 500, 20}));
    fits("the last record just behind", state, 16, 1);
    fits("the last record long ago", state, 16372, 1);
    fits("14, the last record at the count", state, 15, 0);
    fits("14, the last record past the count", state, 14, 0);
    lay(&given, SHIFTS({12, 65535, 1, 0, 1, 500, 20})), fits("14, the largest last record", state, 16372, 0);
    lay(&given, SHIFTS({12, 0, 0, 9, 255, 500, 20})), fits("a foreign entry that is closed", state, 1, 1);
}

/* What the judge refuses of the records: its number, its excess, and the index in the longer file. */
static void extending_by_refused(void)
{
    const munasirel_state rest = S(7, 0, 0, 0, 0, 0, 0, 0), none = S(1, 2, 24, 3, 6, 4, 5, 255);
    munasirel_state broken;
    lay(&given, NO_SHIFTS);
    make_block("t7 14"), extends_not("5", rest, 40, (struct answered){5, 0, 41, 0});
    make_block("t7 t0 14"), extends_not("6", rest, 40, (struct answered){6, 0, 41, 0});
    make_block("1 4 t9 1"), made[5] = 1, extends_not("6, a middle byte", rest, 40, (struct answered){6, 0, 41, 0});
    make_block("1 1 14"), extends_not("7 before a later 5", rest, 0, (struct answered){7, 0, 1, 0});
    make_block("2"), extends_not("8", rest, 16371, (struct answered){8, 0, 16371, 0});
    make_block(IN_GEAR " 3 4 7 t9 9"), extends_not("9 in the second shift", rest, 100, (struct answered){9, 0, 112, 242});
    make_block("1 4 7 t200"), extends_not("11", rest, 40, (struct answered){11, 0, 43, 45});
    make_block("1 t5 t65535"), extends_not("12", rest, 40, (struct answered){12, 0, 42, 65535});
    make_block("t1"), extends_not("13", S(4294967295, 1, 23, 0, 0, 0, 0, 0), 1, (struct answered){13, 0, 1, 1});
    make_block(IN_GEAR " t65535"), extends_not("13 behind a shift", S(4294967290, 0, 0, 0, 0, 0, 0, 0), 1,
                                               (struct answered){13, 0, 9, 65530});

    /* In the shift that goes on; a refused record leaves its entry as it was. */
    give_open();
    make_block("4 t100 5 8 4 t400"), extends_not("12 in the open shift", IN_SHIFT, 16, (struct answered){12, 0, 21, 100});
    make_block("4 7 9"), extends_not("9 in the open shift", IN_SHIFT, 16, (struct answered){9, 0, 18, 131});
    make_block("3"), extends_not("7, a request in the open shift", IN_SHIFT, 16, (struct answered){7, 0, 16, 0});
    lay(&given, SHIFTS({0, 0, 2, 0, 0, 300, 600}));
    make_block("8"), extends_not("10", S(900, 0, 10, 300, 3, 899, 300, 0), 1, (struct answered){10, 0, 1, 450});
    lay(&given, SHIFTS({0, 0, 1, 0, 0, 0, 0}));
    make_block("9"), extends_not("9 by more than 32 bits", S(0, 0, 1, 4294967295, 5, 0, 0, 0), 1,
                                 (struct answered){9, 0, 1, 4294967446});

    /* A state that is none refuses the first record, and fits by its phase. */
    lay(&given, NO_SHIFTS);
    make_block("1"), extends_not("7, no state", none, 40, (struct answered){7, 0, 40, 0});
    make_block("14"), extends_not("5, no state", none, 40, (struct answered){5, 0, 40, 0});
    make_block("t0"), extends_not("6, no state", none, 40, (struct answered){6, 0, 40, 0});
    give_open(), broken = IN_SHIFT, broken.gear_box = 2;
    make_block("4"), extends_not("7, box 2 in the open shift", broken, 16, (struct answered){7, 0, 16, 0});
    for (made_length = 0; made_length < 4; made_length++)
        wanted = given, extends_to("no state and no record", broken, 16);
}

/* What goes on, what is new and what stays. */
static void extending_good(void)
{
    const munasirel_state start = {0}, done = S(410, 1, 22, 410, 0, 410, 0, 0);
    lay(&given, NO_SHIFTS);
    make_block(K1), lay(&wanted, SHIFTS({0, 10, 1, 0, 1, 0, 410})), extends_to("K1 at once", start, 0);
    lay(&given, SHIFTS({0, 10, 1, 0, 1, 0, 410}));
    make_block("t3 11 t4 3"), lay(&wanted, SHIFTS({0, 10, 1, 0, 1, 0, 410}, {14, 14, 3, 0, 0, 417, 0}));
    extends_to("behind a shift that is done", done, 11);
    make_block("t3"), wanted = given, extends_to("a tick in done", done, 11);

    give_open(), wanted = given;
    for (made_length = 0; made_length < 4; made_length++)
        extends_to("no record in an open shift", IN_SHIFT, 16);
    make_block("t5"), lay(&wanted, SHIFTS({0, 10, 1, 0, 1, 0, 410}, {12, 16, 1, 0, 0, 500, 25}));
    extends_to("a tick in an open shift", IN_SHIFT, 16);
    made[4] = 14, made[5] = 1, made[6] = 1, made_length = 7, extends_to("and bytes left over", IN_SHIFT, 16);
    make_block("4 7 t131 9 t5"), lay(&wanted, SHIFTS({0, 10, 1, 0, 1, 0, 410}, {12, 20, 1, 1, 0, 500, 156}));
    extends_to("the clutch asked for", IN_SHIFT, 16);
    make_block("4 7 t131 9 4 6 10 t9 13"), lay(&wanted, SHIFTS({0, 10, 1, 0, 1, 0, 410}, {12, 22, 1, 1, 2, 500, 151}));
    extends_to("into an error, and a reset", IN_SHIFT, 16);
    make_block("4 5 8 4 5 8 t9 11 2");
    lay(&wanted, SHIFTS({0, 10, 1, 0, 1, 0, 410}, {12, 21, 1, 0, 1, 500, 20}, {24, 24, 2, 0, 0, 529, 0}));
    extends_to("done, and a new one", IN_SHIFT, 16);

    /* A foreign entry goes on as it stands, but its eighth byte becomes 0; others keep all of theirs. */
    lay(&given, SHIFTS({9, 9, 0, 7, 9, 9, 9}, {4660, 15, 0, 7, 0, 500, 20})), given.at[15] = 9;
    wanted = given, made_length = 0, given.at[31] = 9, extends_to("a foreign entry, no record", IN_SHIFT, 16);
    make_block("t5"), wanted.at[26] = 16, wanted.at[36] = 25, extends_to("a foreign entry and a tick", IN_SHIFT, 16);
    make_block("4 7 t131 9"), wanted.at[26] = 19, wanted.at[29] = 1, wanted.at[36] = 151;
    extends_to("a foreign entry by the clutch", IN_SHIFT, 16);

    /* A request time ahead of the clock: the age is 0 until the clock has passed it. */
    lay(&given, SHIFTS({12, 15, 1, 0, 0, 500, 0}));
    make_block("t5"), lay(&wanted, SHIFTS({12, 16, 1, 0, 0, 500, 0}));
    extends_to("an age of 0", S(490, 0, 1, 490, 1, 490, 500, 0), 16);
    lay(&wanted, SHIFTS({12, 16, 1, 0, 0, 500, 3})), extends_to("an age of 3", S(498, 0, 1, 498, 1, 498, 500, 0), 16);
    lay(&given, SHIFTS({0, 0, 1, 0, 0, 1, 4294967289}));
    make_block("t5"), lay(&wanted, SHIFTS({0, 1, 1, 0, 0, 1, 4294967294}));
    extends_to("up to the clock's end", S(4294967290, 0, 1, 4294967290, 1, 4294967290, 1, 0), 1);
}

/* The list of the file of the first so many steps. */
static void give_list_of(size_t count, const munasirel_limits *table)
{
    size_t all = steps;
    steps = count, make_list(table), steps = all;
    given.length = munasirel_list(made, made_length, given.at, sizeof given.at).length;
}

/* Cut anywhere, extended by the rest, and in blocks from the empty list on: the same as the list of the whole, which is looked at by
 * fetching from it too. */
static void cuts(const char *name, munasirel_limits table, const char *text)
{
    list(text);
    give_list_of(steps, &table), wanted = given;
    check("extend", name, "list of the whole", wanted.length > 0);
    for (size_t i = 0; 24 + 16 * i <= wanted.length; i++) {
        munasirel_shift shift;
        memcpy(&shift, wanted.at + 8 + 16 * i, sizeof shift); /* an entry has the struct's own layout, low byte first */
        fetches_from(name, wanted.length, i, 0, shift);
    }
    fetches_not(name, wanted.length, (wanted.length - 8) / 16, 14);
    for (size_t at = 0; at <= steps; at++) {
        give_list_of(at, &table);
        struct extension e = {wanted.length, given.length, munasirel_verdict(made, made_length).state, (uint32_t)at, table};
        cut(at, steps - at);
        extends(name, e, good);
        if (given.length < wanted.length)
            e.room--, extends(name, e, full);
    }
    struct bytes all = wanted;
    for (size_t size = 1; size < 9; size += 2) {
        give_list_of(0, &table);
        struct extension e = {0, given.length, {0}, 0, table};
        for (size_t at = 0; at < steps; at += size) {
            struct bytes was = given;
            size_t count = size < steps - at ? size : steps - at, accepted;
            uint64_t excess;
            give_list_of(at + count, &table), wanted = given, given = was;
            e.room = wanted.length, e.held = was.length, e.count = (uint32_t)at;
            cut(at, count);
            extends(name, e, good);
            munasirel_advance_block(&e.state, table, made, made_length, &accepted, &excess);
            given = wanted;
        }
        check("extend", name, "list by blocks", given.length == all.length && memcmp(given.at, all.at, all.length) == 0);
    }
}

static void extending_at_every_cut(void)
{
    cuts("no record", old_default, "");
    cuts("ticks", old_default, "t1 t2 t3");
    cuts("K1", old_default, K1);
    cuts("K1 under another table", with(17, 1405), K1);
    cuts("K6", old_default, "1 4 7 t151 9");
    cuts("K11 without its last", old_default, "1 t5 4 t100 5 t5 8 4 t300 5 8 11 3 4 5 8 4 6 10");
    cuts("a looser table", with(0, 6), "1 t6 4 5 t6 8 t6");
    cuts("10 ms on the bus", new_default, BUS_OF_10_MS);
    cuts("the house's delays", house, DELAYED " 2 4 7 t251 9 4 t60 6 10 t1 13 3");
    cuts("delays that differ", apart, TO_OPEN " t21 5 8 4 5 8 4 t84 6 10");
    cuts("a reset", old_default, WOULD_NOT_CLOSE " t9 13 t2 3 t5 4 5 8 4 6 10 13 2 t4 t1");
    cuts("gear to gear", old_default,
         "t8 " IN_GEAR " t1 2 4 7 t251 9 4 t150 5 8 4 5 8 4 5 8 4 5 8 t2 11 2 4 5 8 4 5 8 4 7 t151 9 4 5 8 4 5 8 4 5 8 t3 t4 11 t5 "
         "3 4 5 8 4 5 8 11 t6 1");
}

int main(void)
{
    listing();
    listing_most();
    fetching();
    extending_in_order();
    extending_odd_lists();
    extending_to_the_most();
    extending_to_the_most_of_22();
    extending_under_tables();
    fitting();
    extending_by_refused();
    extending_good();
    extending_at_every_cut();
    return finish();
}
