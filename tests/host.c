/* Calls every function on files, tables and steps from C, with good input and with bad input of every kind, and ends in
 * 'N passed, M failed'. */
#include "host.h"

/* ---- munasirel_judge, on the file made */
static void judges(const char *name, unsigned want)
{
    fresh();
    uint8_t *file = lend(made, made_length);
    check("judge", name, "number", munasirel_judge(file, made_length) == want);
    check("judge", name, "number of the verdict", munasirel_verdict(file, made_length).number == want);
    check("judge", name, "bytes", guarded() && kept(file, 0));
}

/* The same with one byte of the file changed. */
static void judges_byte(const char *name, size_t at, unsigned byte, unsigned want)
{
    uint8_t was = made[at];
    made[at] = (uint8_t)byte;
    judges(name, want);
    made[at] = was;
}

/* 10 and 13 never come up in a file: rules 2 and 3 of the table forbid a late take, and 16,372 ticks do not fill the clock. */
static void judging(void)
{
    make(K1), judges("K1", 0);
    make_with(old_default, K1), judges("K1 with its table", 0);
    make(""), judges("K2", 0);
    make("1 t5"), judges("K3 with 5", 0);
    make("1 t6"), judges("K3", 12);
    make("1 t5 4 t101"), judges("K4", 12);
    make("1 4 7 t150 9"), judges("K5", 9);
    make("1 4 7 t151 9"), judges("K6", 0);
    make("1 4 7 t155"), judges("K7 with 155", 0);
    make("1 4 7 t156"), judges("K7", 11);
    make("2"), judges("K8", 8);
    make("3"), judges("to neutral, in neutral", 8);
    make("1 1"), judges("K9", 7);
    make("1 4 6"), judges("K10", 7);
    make(K11), judges("K11", 7);
    make_with(with(17, 1404), K1), judges("K12", 4);
    make_with(with(17, 1405), K1), judges("K12 with 1,405", 0);
    make_with(with(0, 0), K1), judges("a limit of 0", 4);
    make_with(with(0, 6), "1 t6"), judges("K3 under a looser table", 0);
    make_with(with(0, 4), "1 t5"), judges("5 under a tighter table", 12);
    make_with(house, DELAYED), judges("the house's delays", 0);
    make_with(house, TO_OPEN " t19 5"), judges("9, opened too early", 9);
    make_with(house, TO_OPEN " t59 6"), judges("9, failed to open too early", 9);
    make_with(house, TO_CLOSE " t19 5"), judges("9, closed too early", 9);
    make_with(house, TO_CLOSE " t59 6"), judges("9, failed to close too early", 9);
    make_with(old_default, TO_CLOSE " t19 5"), judges("the same without delays", 0);
    make_with_22(old_default, WOULD_NOT_CLOSE), judges("22 entries without delays", 0);
    make_with_22(house, WOULD_NOT_CLOSE), judges("22 entries with delays", 9);
    make_with(house_with(19, 20), K1), judges("rule 16", 4);
    make_with(house_with(19, 20), K1), made_length--, judges("3 before rule 16", 3);
    made_length = 0, judges("nothing", 1);
    make(""), made_length = 11, judges("11 bytes", 1);

    make(K1);
    judges_byte("table offset 13", 0, 13, 2);
    judges_byte("table offset 268", 1, 1, 2);
    judges_byte("17 entries", 2, 17, 2);
    judges_byte("256 entries", 3, 1, 2);
    judges_byte("18 entries, record offset 12", 2, 18, 2);
    judges_byte("22 entries, record offset 12", 2, 22, 2);
    judges_byte("record offset 48, no entries", 4, 48, 2);
    judges_byte("record offset 56, no entries", 4, 56, 2);
    judges_byte("record offset above 16 bits", 6, 1, 2);
    judges_byte("16,396 records in the header", 9, 64, 2);
    judges_byte("a count above 16 bits", 10, 1, 2);
    judges_byte("a count above 24 bits", 11, 255, 2);
    judges_byte("one record too few", 8, 13, 3);
    judges_byte("one record too many", 8, 11, 3);
    judges_byte("code 0", 12, 0, 5);
    judges_byte("code 14", 12, 14, 5);
    judges_byte("code 255", 12, 255, 5);
    judges_byte("a middle byte", 13, 1, 6);
    judges_byte("an amount for a request, low", 14, 1, 6);
    judges_byte("an amount for a request, high", 15, 1, 6);
    judges_byte("a tick of 0", 18, 0, 6);
    judges_byte("an amount for the last step", made_length - 1, 128, 6);
    made[13] = 1, judges_byte("code 14 and a middle byte", 12, 14, 5);
    for (unsigned k = 17; k < 24; k++) {
        list(K1), made_length = 0, make_entries(k > 22 ? 22 : k, &house);
        made[2] = (uint8_t)k, made[4] = (uint8_t)(12 + 2 * k), made_length += k > 22 ? 2 : 0;
        judges("so many entries", k == 18 || k == 22 ? 0 : 2);
    }
    make_with(house, K1), judges_byte("22 entries, record offset 48", 4, 48, 2);
    make_with(old_default, K1), judges_byte("18 entries, record offset 56", 4, 56, 2);
    make(K1), made_length--, judges("a byte too few", 3);
    make(K1), made[made_length++] = 0, judges("a byte too many", 3);
    make_with(with(0, 0), K1), made_length--, judges("3 before 4", 3);
    make_with(with(0, 0), "14"), judges("4 before 5", 4);
    make("t1 14 1 1"), judges("the first wrong record decides", 5);
    make("1 1 14"), judges("and no later one", 7);
    make(WOULD_NOT_CLOSE), judges("a clutch that would not close", 0);
    make(WOULD_NOT_CLOSE " 13 3"), judges("a reset, then to neutral", 0);
    make(WOULD_NOT_CLOSE " 13 1"), judges("a reset, then from neutral", 8);
    make(WOULD_NOT_CLOSE " 13 13"), judges("a second reset", 7);
    make(WOULD_NOT_CLOSE " 11"), judges("finish after an error", 7);
    make("13"), judges("a reset at rest", 7);
    make("1 4 5 8 4 5 8 13"), judges("a reset in 22", 7);
    make(WOULD_NOT_CLOSE " 13"), judges_byte("a reset with an amount", made_length - 2, 1, 6);
    judges_byte("a reset with a middle byte", made_length - 3, 1, 6);

    ticks(MUNASIREL_MOST_RECORDS, 65535), make_list(&old_default), judges("the longest file", 0);
    made[made_length++] = 0, judges("the longest file and a byte", 3);
    ticks(MUNASIREL_MOST_RECORDS, 65535), make_list(NULL), judges("the longest file without a table", 0);
    ticks(MUNASIREL_MOST_RECORDS + 1, 1), make_list(NULL), judges("16,373 records", 2);
    ticks(MUNASIREL_MOST_RECORDS_22, 65535), make_list(&house), judges("the longest file of 22 entries", 0);
    made[made_length++] = 0, judges("the longest file of 22 entries and a byte", 3);
    ticks(MUNASIREL_MOST_RECORDS_22, 65535), make_entries(22, &old_default), judges("the longest one without delays", 0);
    for (steps = MUNASIREL_MOST_RECORDS_22 + 1; steps <= MUNASIREL_MOST_RECORDS; steps++) {
        make_list(&house), judges("too many records with 22 entries", 2);
        make_entries(22, &old_default), judges("too many with 22 entries and no delays", 2);
        make_list(&old_default), judges("as many with 18 entries", 0);
    }
    memset(made, 0, sizeof made), made_length = 65537, judges("65,537 zero bytes", 2);
}

/* ---- munasirel_verdict, on the file made */
static void gives(const char *name, unsigned number, unsigned rule, size_t accepted, uint64_t excess, munasirel_state state)
{
    munasirel_judged odd;
    memset(&odd, 77, sizeof odd);
    fresh();
    uint8_t *file = lend(made, made_length);
    munasirel_judged *got = lend(&odd, sizeof odd);
    *got = munasirel_verdict(file, made_length);
    check("verdict", name, "number", got->number == number);
    check("verdict", name, "rule", got->rule == rule);
    check("verdict", name, "count", got->accepted == accepted);
    check("verdict", name, "excess", got->excess == excess);
    check("verdict", name, "state", same_state(&got->state, &state));
    check("verdict", name, "bytes", guarded() && kept(file, 0));
}

static void giving(void)
{
    const munasirel_state start = S(0), shifted = S(410, 1, 0, 410, 0, 410, 0, 0), requested = S(0, 0, 1, 0, 1, 0, 0, 0);
    const munasirel_state ticked = S(7, 0, 0, 0, 0, 0, 0, 0);
    make(K1), gives("K1", 0, 0, 12, 0, shifted);
    make_with(old_default, K1), gives("K1 with its table", 0, 0, 12, 0, shifted);
    make(""), gives("K2", 0, 0, 0, 0, start);
    make("1 t5"), gives("K3 with 5", 0, 0, 2, 0, S(5, 0, 1, 0, 1, 0, 0, 0));
    make("1 t6"), gives("K3", 12, 0, 1, 1, requested);
    make("1 t5 4 t101"), gives("K4", 12, 0, 3, 1, S(5, 0, 1, 0, 2, 5, 0, 0));
    make("1 4 7 t150 9"), gives("K5", 9, 0, 4, 1, S(150, 0, 1, 0, 5, 0, 0, 0));
    make("1 4 7 t151 9"), gives("K6", 0, 0, 5, 0, S(151, 0, 2, 151, 1, 151, 0, 0));
    make("1 4 7 t155"), gives("K7 with 155", 0, 0, 4, 0, S(155, 0, 1, 0, 5, 0, 0, 0));
    make("1 4 7 t156"), gives("K7", 11, 0, 3, 1, S(0, 0, 1, 0, 5, 0, 0, 0));
    make("2"), gives("K8", 8, 0, 0, 0, start);
    make("1 1"), gives("K9", 7, 0, 1, 0, requested);
    make("1 4 6"), gives("K10", 7, 0, 2, 0, S(0, 0, 1, 0, 2, 0, 0, 0));
    make(K11), gives("K11", 7, 0, 19, 0, S(410, 1, 23, 410, 0, 410, 410, 19));
    make_with(with(17, 1404), K1), gives("K12", 4, 14, 0, 0, start);
    make_with(with(17, 1405), K1), gives("K12 with 1,405", 0, 0, 12, 0, shifted);
    make(BUS_OF_10_MS), gives("10 ms on the bus, no table", 12, 0, 1, 5, requested);
    make_with(old_default, BUS_OF_10_MS), gives("10 ms on the bus, the old default", 12, 0, 1, 5, requested);
    make_with(new_default, BUS_OF_10_MS), gives("10 ms on the bus, the new default", 0, 0, 13, 0, S(430, 1, 0, 430, 0, 430, 0, 0));
    make_with(new_default, "1 t11"), gives("11 ms on the bus, the new default", 12, 0, 1, 1, requested);
    make(WOULD_NOT_CLOSE " t9 13 3"), gives("a reset", 0, 0, 17, 0, S(160, 1, 17, 160, 1, 160, 160, 0));

    /* What is unread gives the start. */
    made_length = 0, gives("nothing", 1, 0, 0, 0, start);
    make(K1), made_length = 11, gives("11 bytes", 1, 0, 0, 0, start);
    make(K1), made[0] = 13, gives("a bad header", 2, 0, 0, 0, start);
    ticks(MUNASIREL_MOST_RECORDS + 1, 1), make_list(NULL), gives("16,373 records", 2, 0, 0, 0, start);
    make(K1), made_length--, gives("a wrong length", 3, 0, 0, 0, start);
    make_with(with(0, 0), K1), made_length--, gives("3 before 4", 3, 0, 0, 0, start);
    make_with(with(0, 0), "1 t6"), gives("a limit of 0", 4, 1, 0, 0, start);
    make_with(with(9, 65535), "t7 1 t6"), gives("rule 12", 4, 12, 0, 0, start);
    make_with(house_with(20, 0), K1), gives("rule 16", 4, 16, 0, 0, start);
    ticks(MUNASIREL_MOST_RECORDS_22 + 1, 1), make_list(&house), gives("16,371 records and 22 entries", 2, 0, 0, 0, start);

    /* What is refused with 5 to 8 is over by nothing. */
    make("t7 14 1 1"), gives("5", 5, 0, 1, 0, ticked);
    make("t7 t0"), gives("6, a tick of 0", 6, 0, 1, 0, ticked);
    make("t7 1 4 t300"), made[21] = 1, gives("6, a middle byte", 6, 0, 2, 0, S(7, 0, 1, 7, 1, 7, 7, 0));
    make("t7 3"), gives("8, to neutral", 8, 0, 1, 0, ticked);
    make("1 4 7 t150 8"), gives("7 where another step would be too early", 7, 0, 4, 0, S(150, 0, 1, 0, 5, 0, 0, 0));

    /* 9: phase time + DE - clock. */
    make("1 4 7 9"), gives("9 by all of the DE", 9, 0, 3, 151, S(0, 0, 1, 0, 5, 0, 0, 0));
    make("t9 1 t1 4 7 t2 9"), gives("9, from the phase's beginning", 9, 0, 6, 148, S(12, 0, 1, 9, 5, 10, 9, 0));
    make(IN_GEAR " 2 4 7 t1 9"), gives("9, zero torque, gear to gear", 9, 0, 12, 250, S(1, 1, 6, 0, 5, 0, 0, 0));
    make(IN_GEAR " 3 4 7 t1 9"), gives("9, zero torque, to neutral", 9, 0, 12, 250, S(1, 1, 17, 0, 5, 0, 0, 0));
    make(IN_GEAR " 2 4 5 t5 8 4 t9 5 8 4 7 t1 9"), gives("9, sync in phase 10", 9, 0, 20, 150, S(15, 0, 10, 14, 5, 14, 0, 0));
    make_with(with(11, 155), "1 4 7 t150 9"), gives("9 under another table", 9, 0, 4, 5, S(150, 0, 1, 0, 5, 0, 0, 0));

    /* 9 of a clutch that reports too early: stage time + delay - clock. */
    make_with(house, TO_OPEN " 5"), gives("9 by all of the open delay", 9, 0, 8, 20, S(156, 0, 2, 151, 2, 156, 0, 0));
    make_with(house, TO_OPEN " t19 5"), gives("9, opened too early", 9, 0, 9, 1, S(175, 0, 2, 151, 2, 156, 0, 0));
    make_with(house, TO_OPEN " t20 6"), gives("9, failed at the plain delay", 9, 0, 9, 40, S(176, 0, 2, 151, 2, 156, 0, 0));
    make_with(house, TO_OPEN " t59 6"), gives("9, failed to open too early", 9, 0, 9, 1, S(215, 0, 2, 151, 2, 156, 0, 0));
    make_with(house, TO_OPEN " t60 6"), gives("failed to open in time", 0, 0, 10, 0, S(216, 0, 2, 151, 4, 216, 0, 0));
    make_with(house, TO_CLOSE " 5"), gives("9 by all of the close delay", 9, 0, 16, 20, S(181, 1, 5, 176, 2, 181, 0, 0));
    make_with(house, TO_CLOSE " t19 5"), gives("9, closed too early", 9, 0, 17, 1, S(200, 1, 5, 176, 2, 181, 0, 0));
    make_with(house, TO_CLOSE " t59 6"), gives("9, failed to close too early", 9, 0, 17, 1, S(240, 1, 5, 176, 2, 181, 0, 0));
    make_with(house, TO_CLOSE " t60 6 10"), gives("failed to close in time", 0, 0, 19, 0, S(241, 1, 23, 241, 0, 241, 0, 5));
    make_with(house, DELAYED), gives("the house's delays", 0, 0, 20, 0, S(201, 1, 0, 201, 0, 201, 0, 0));
    make_with(house, BUS_OF_10_MS), gives("10 ms on the bus, the house's table", 0, 0, 13, 0, S(430, 1, 0, 430, 0, 430, 0, 0));
    make_with(apart, TO_OPEN " t20 5"), gives("9, another open delay", 9, 0, 9, 1, S(176, 0, 2, 151, 2, 156, 0, 0));
    make_with_22(old_default, WOULD_NOT_CLOSE), gives("22 entries without delays", 0, 0, 14, 0, S(151, 1, 23, 151, 0, 151, 0, 5));

    /* 11: new clock - (phase time + phase limit). */
    make("t9 1 t5 4 7 t200"), gives("11 by more", 11, 0, 5, 50, S(14, 0, 1, 9, 5, 14, 9, 0));
    make(IN_GEAR " 2 4 7 t65535"), gives("11, zero torque", 11, 0, 11, 65280, S(0, 1, 6, 0, 5, 0, 0, 0));
    make("1 4 7 t151 9 4 6 t250"), gives("11, open has failed", 11, 0, 7, 50, S(151, 0, 2, 151, 4, 151, 0, 0));
    make("1 4 7 t155 t1"), gives("11, a second tick", 11, 0, 4, 1, S(155, 0, 1, 0, 5, 0, 0, 0));

    /* 12: new clock - (stage time + channel or device limit), whether or not the tick passes the phase limit. */
    make("t9 1 t3 t9"), gives("12, sent", 12, 0, 3, 7, S(12, 0, 1, 9, 1, 9, 9, 0));
    make("1 4 t3 5 t8"), gives("12, good", 12, 0, 4, 3, S(3, 0, 1, 0, 3, 3, 0, 0));
    make("1 4 5 8 4 t310"), gives("12, working at set", 12, 0, 5, 10, S(0, 0, 3, 0, 2, 0, 0, 0));
    make("1 4 5 8 4 t400"), gives("12, past the phase limit too", 12, 0, 5, 100, S(0, 0, 3, 0, 2, 0, 0, 0));
    make("1 t5 4 t65535"), gives("12, working, far past both", 12, 0, 3, 65435, S(5, 0, 1, 0, 2, 5, 0, 0));
    make("1 t5 t65535"), gives("12 by the most of a file", 12, 0, 2, 65535, S(5, 0, 1, 0, 1, 0, 0, 0));
    make_with(with(0, 6), "1 t8"), gives("12 under a looser table", 12, 0, 1, 2, requested);
    make_with(with(0, 4), "1 t8"), gives("12 under a tighter table", 12, 0, 1, 4, requested);

    ticks(MUNASIREL_MOST_RECORDS, 65535), make_list(&old_default);
    gives("the longest file", 0, 0, 16372, 0, S(1072939020, 0, 0, 0, 0, 0, 0, 0));
    codes[steps - 2] = 1, amounts[steps - 2] = 0, make_list(&old_default);
    gives("its last tick over", 12, 0, 16371, 65530, S(1072807950, 0, 1, 1072807950, 1, 1072807950, 1072807950, 0));
}

/* ---- munasirel_admit */
static void admits(const char *name, munasirel_limits table, unsigned want)
{
    check("admit", name, "rule", munasirel_admit(table) == want);
}

static void admitting(void)
{
    static const struct { const char *name; unsigned entry, limit, rule; } one[] = {
        {"2, just kept", 7, 110, 0},      {"2", 7, 109, 2},
        {"3, just kept", 8, 210, 0},      {"3", 8, 209, 3},
        {"4, just kept", 13, 161, 0},     {"4", 13, 160, 4},
        {"5, just kept", 16, 161, 0},     {"5", 16, 160, 5},
        {"6, just kept", 14, 311, 0},     {"6", 14, 310, 6},
        {"7, just kept", 15, 211, 0},     {"7", 15, 210, 7},
        {"8", 11, 150, 8},                {"9", 12, 250, 9},
        {"10, just kept", 11, 155, 0},    {"10", 11, 156, 10},
        {"11, just kept", 12, 255, 0},    {"11", 12, 256, 11},
        {"12", 17, 904, 12},              {"14, not 12 or 13", 17, 905, 14},
        {"14", 17, 1404, 14},             {"14, just kept", 17, 1405, 0},
        {"2, twice 32,768", 0, 32768, 2}, {"12, a sum above 16 bits", 9, 65535, 12},
        {"5, a sum above 16 bits", 4, 65530, 5},
    };
    admits("the old default", old_default, 0);
    admits("the new default", new_default, 0);
    for (unsigned i = 0; i < 18; i++)
        admits("1, an entry of 0", with(i, 0), 1);
    for (size_t i = 0; i < sizeof one / sizeof *one; i++)
        admits(one[i].name, with(one[i].entry, one[i].limit), one[i].rule);
    munasirel_limits table = with(10, 256);
    table.change_dl = 905, admits("13", table, 13);
    table.zero_dl = 1000, table.change_dl = 1999, admits("15", table, 15);
    table.change_dl = 2000, admits("15, just kept", table, 0);
    admits("the house's", house, 0);
    admits("delays that differ", apart, 0);
    for (unsigned i = 0; i < 18; i++)
        admits("1, an entry of 0 with delays", house_with(i, 0), 1);
    for (unsigned i = 18; i < 22; i++) {
        admits("16, a delay of 0", house_with(i, 0), 16);
        admits("16, a single delay", with(i, 1), 16);
        admits("16, the largest delay", house_with(i, 65535), 16);
    }
    static const struct { const char *name; unsigned entry, limit, rule; } of_house[] = {
        {"16, plain 1, open", 18, 1, 0},                  {"16, plain 1, close", 20, 1, 0},
        {"16, plain just below error, open", 18, 59, 0},  {"16, plain at error, open", 18, 60, 16},
        {"16, plain just below error, close", 20, 59, 0}, {"16, plain at error, close", 20, 60, 16},
        {"16, error just above plain, open", 19, 21, 0},  {"16, error at plain, open", 19, 20, 16},
        {"16, error just above plain, close", 21, 21, 0}, {"16, error at plain, close", 21, 20, 16},
        {"16, error at device limit, open", 19, 150, 0},  {"16, error past device limit, open", 19, 151, 16},
        {"16, error at device limit, close", 21, 150, 0}, {"16, error past device limit, close", 21, 151, 16},
        {"16, device limit at error, open", 3, 60, 0},    {"16, device limit below error, open", 3, 59, 16},
        {"16, device limit at error, close", 4, 60, 0},   {"16, device limit below error, close", 4, 59, 16},
        {"14 with delays", 17, 1404, 14},
    };
    for (size_t i = 0; i < sizeof of_house / sizeof *of_house; i++)
        admits(of_house[i].name, house_with(of_house[i].entry, of_house[i].limit), of_house[i].rule);
    table = house, table.clutch_open_de = table.error_clutch_open_de = 0, admits("16, delays to close alone", table, 16);
    table = house, table.clutch_close_de = table.error_clutch_close_de = 0, admits("16, delays to open alone", table, 16);
    table = house_with(18, 60), table.change_dl = 904, admits("12 before 16", table, 12);
    memset(&table, 255, sizeof table), admits("all 65,535", table, 2);
    memset(&table, 0, sizeof table), admits("all 0", table, 1);
}

/* ---- munasirel_tighter */
static void tightens(const char *name, munasirel_limits old_table, munasirel_limits new_table, unsigned want)
{
    check("tighter", name, "entry", munasirel_tighter(old_table, new_table) == want);
}

/* The entry's number where it is tighter by so much more or less, 22 where it is not: < is an entry that is tighter where it is
 * smaller, > one that is where it is larger. */
static unsigned tighter_by(unsigned entry, int change)
{
    static const char kinds[] = "<<<<<<<<<<<>><<<<.>>>>";
    return kinds[entry] == (change < 0 ? '<' : '>') ? entry : 22;
}

static munasirel_limits moved(munasirel_limits table, unsigned entry, int change)
{
    uint16_t entries[22];
    memcpy(entries, &table, sizeof entries);
    return changed(table, entry, (unsigned)(entries[entry] + change));
}

static void tightening(void)
{
    munasirel_limits least, most, table;
    memset(&least, 0, sizeof least);
    memset(&most, 255, sizeof most);
    tightens("the old default, twice", old_default, old_default, 22);
    tightens("the new default, twice", new_default, new_default, 22);
    tightens("the house's, twice", house, house, 22);
    tightens("all 0, twice", least, least, 22);
    tightens("all 65,535, twice", most, most, 22);
    tightens("from the old default to the new one", old_default, new_default, 22);
    tightens("from the new default to the old one", new_default, old_default, 0);
    tightens("from the new default to the house's", new_default, house, 18);
    tightens("from the house's to the new default", house, new_default, 22);
    tightens("from the old default to the house's", old_default, house, 18);
    tightens("from the house's to the old default", house, old_default, 0);
    tightens("delays that differ", house, apart, 0);
    tightens("from all 0 to all 65,535", least, most, 11);
    tightens("from all 65,535 to all 0", most, least, 0);
    for (unsigned i = 0; i < 22; i++) {
        tightens("one less", apart, moved(apart, i, -1), tighter_by(i, -1));
        tightens("one more", apart, moved(apart, i, 1), tighter_by(i, 1));
        tightens("one less, the other way", moved(apart, i, -1), apart, tighter_by(i, 1));
        tightens("one more, the other way", moved(apart, i, 1), apart, tighter_by(i, -1));
        tightens("from 0 to 65,535", least, changed(least, i, 65535), tighter_by(i, 1));
        tightens("from 65,535 to 0", most, changed(most, i, 0), tighter_by(i, -1));
        tightens("from 255 to 256", changed(least, i, 255), changed(least, i, 256), tighter_by(i, 1));
        tightens("from 256 to 255", changed(least, i, 256), changed(least, i, 255), tighter_by(i, -1));
    }
    /* two entries at once, each one less or one more: the first of them that is tighter */
    for (unsigned i = 0; i < 22; i++)
        for (unsigned j = i + 1; j < 22; j++)
            for (int ways = 0; ways < 4; ways++) {
                int of_i = ways & 1 ? 1 : -1, of_j = ways & 2 ? 1 : -1;
                unsigned want = tighter_by(i, of_i) < 22 ? i : tighter_by(j, of_j);
                tightens("two at once", apart, moved(moved(apart, i, of_i), j, of_j), want);
            }
    /* from an entry on all are tighter, and all before it looser */
    for (unsigned from = 0; from <= 22; from++) {
        table = apart;
        for (unsigned i = 0; i < 22; i++)
            table = moved(table, i, (tighter_by(i, -1) < 22) == (i >= from) ? -1 : 1);
        tightens("from an entry on", apart, table, from == 17 ? 18 : from);
    }
}

/* ---- the tables that have a name: munasirel_old_default, munasirel_new_default and munasirel_house */
static munasirel_limits is_named(const char *name, munasirel_limits (*table)(void), munasirel_limits want)
{
    munasirel_limits odd;
    memset(&odd, 77, sizeof odd);
    fresh();
    munasirel_limits *got = lend(&odd, sizeof odd);
    *got = table();
    check("table by name", name, "table", memcmp(got, &want, sizeof want) == 0);
    check("table by name", name, "rule", munasirel_admit(*got) == 0);
    check("table by name", name, "bytes", guarded());
    return *got;
}

/* Two tables differ in these entries and in no other. */
static void differ(const char *name, munasirel_limits a, munasirel_limits b, unsigned from, unsigned to)
{
    uint16_t of_a[22], of_b[22];
    memcpy(of_a, &a, sizeof of_a);
    memcpy(of_b, &b, sizeof of_b);
    for (unsigned i = 0; i < 22; i++)
        check("table by name", name, "entry", (of_a[i] != of_b[i]) == (i >= from && i <= to));
}

static void naming(void)
{
    munasirel_limits old_one = is_named("the old default", munasirel_old_default, old_default);
    munasirel_limits new_one = is_named("the new default", munasirel_new_default, new_default);
    munasirel_limits in_house = is_named("the house's", munasirel_house, house);
    check("table by name", "both defaults", "channel times", old_one.channel_dl == 5 && new_one.channel_dl == 10);
    differ("both defaults", old_one, new_one, 0, 0);
    differ("the new default and the house's", new_one, in_house, 18, 21);
}

/* ---- munasirel_table, on the file made */
static void tables(const char *name, munasirel_limits want)
{
    fresh();
    uint8_t *file = lend(made, made_length);
    munasirel_limits got = munasirel_table(file, made_length);
    check("table", name, "table", memcmp(&got, &want, sizeof got) == 0);
    check("table", name, "bytes", guarded() && kept(file, 0));
}

static void tabling(void)
{
    munasirel_limits odd = {1, 2, 3, 4, 5, 6, 7, 8, 9, 10, 11, 12, 13, 14, 15, 16, 17, 65534, 0, 0, 0, 0}, all = odd;
    all.clutch_open_de = 18, all.error_clutch_open_de = 65535, all.clutch_close_de = 256, all.error_clutch_close_de = 21;
    make(K1), tables("no entries", old_default);
    make_with(with(17, 4660), K1), tables("eighteen entries", with(17, 4660));
    make_with(odd, ""), tables("a table that is not admitted", odd);
    make_with(odd, ""), made[0] = 13, tables("a bad header", odd);
    make_with(odd, K1), made_length--, tables("a wrong length", odd);
    make_with(odd, ""), made_length--, tables("47 bytes", old_default);
    make_with(odd, K1), made[2] = 17, tables("seventeen entries", old_default);
    make_with(all, K1), tables("twenty-two entries", all);
    make_with(all, ""), tables("twenty-two entries and no record", all);
    make_with(all, ""), made_length--, tables("55 bytes", old_default);
    make_with(all, K1), made[2] = 18, tables("eighteen of twenty-two", odd);
    make_with(all, ""), made_length = 48, tables("48 bytes and 22 entries", old_default);
    make_with(all, K1), made[3] = 1, tables("278 entries", old_default);
    for (made[3] = 0, made[2] = 19; made[2] < 22; made[2]++)
        tables("nineteen to twenty-one entries", old_default);
    make_with_22(old_default, K1), tables("twenty-two entries without delays", old_default);
    make_with(new_default, K1), tables("the new default", new_default);
    make_with(house, K1), tables("the house's table", house);
    made_length = 11, tables("11 bytes", old_default);
    made_length = 3, tables("3 bytes", old_default);
    made_length = 0, tables("nothing", old_default);
}

/* ---- munasirel_line, on the file made, with so much room less or more than the line needs */
static void lines_in(const char *name, const char *want, size_t room)
{
    uint8_t bytes[128];
    size_t length = 77, wanted = strlen(want), fits = wanted <= room;
    fresh();
    memset(bytes, 'x', sizeof bytes);
    uint8_t *file = lend(made, made_length);
    uint8_t *out = lend(bytes, room);
    size_t *line_length = lend(&length, sizeof length);
    uint8_t number = munasirel_line(file, made_length, out, room, line_length);
    check("line", name, "number", number == (fits ? 0 : 15));
    check("line", name, "length", *line_length == (fits ? wanted : 0));
    check("line", name, "line", !fits || memcmp(out, want, wanted) == 0);
    check("line", name, "bytes", guarded() && kept(file, 0) && kept(out, fits ? wanted : 0));
}

static void lines(const char *name, const char *want)
{
    lines_in(name, want, strlen(want));
    lines_in(name, want, strlen(want) + 20);
    lines_in(name, want, strlen(want) - 1);
    lines_in(name, want, 0);
}

static void lining(void)
{
    make(K1), lines("K1", "accepted 12 0 410 0 1 0\n");
    make(""), lines("K2", "accepted 0 0 0 0 0 0\n");
    make("1 t5 4 t101"), lines("K4", "refused 3 12 5 1 0 1\n");
    make("1 4 7 t150 9"), lines("K5", "refused 4 9 150 1 0 1\n");
    make("1 4 7 t151 9"), lines("K6", "accepted 5 0 151 2 0 0\n");
    make("1 4 7 t156"), lines("K7", "refused 3 11 0 1 0 1\n");
    make("1 t5 t65535"), lines("12 by the most of a file", "refused 2 12 5 1 0 65535\n");
    make(K11), lines("K11", "refused 19 7 410 23 1 0\n");
    made_length = 0, lines("nothing", "unread 0 1 0 0 0 0\n");
    make(K1), made[0] = 13, lines("a bad header", "unread 0 2 0 0 0 0\n");
    make(K1), made_length--, lines("a wrong length", "unread 0 3 0 0 0 0\n");
    make_with(with(17, 1404), K1), lines("K12", "unread 0 4 0 0 0 0\n");
    make("t7 14"), lines("code 14", "refused 1 5 7 0 0 0\n");
    make(WOULD_NOT_CLOSE), lines("a clutch that would not close", "accepted 14 0 151 23 1 0\n");
    make(WOULD_NOT_CLOSE " t9 13"), lines("and a reset", "accepted 16 0 160 0 1 0\n");
    make("13"), lines("a reset at rest", "refused 0 7 0 0 0 0\n");
    make("t0"), lines("a tick of 0", "refused 0 6 0 0 0 0\n");
    make(BUS_OF_10_MS), lines("10 ms on the bus, no table", "refused 1 12 0 1 0 5\n");
    make_with(new_default, BUS_OF_10_MS), lines("10 ms on the bus, the new default", "accepted 13 0 430 0 1 0\n");
    make_with(house, DELAYED), lines("the house's delays", "accepted 20 0 201 0 1 0\n");
    make_with(house, TO_OPEN " t19 5"), lines("opened too early", "refused 9 9 175 2 0 1\n");
    make_with(house, TO_CLOSE " t20 6"), lines("failed to close too early", "refused 17 9 201 5 1 40\n");
    make_with(house_with(19, 20), K1), lines("rule 16", "unread 0 4 0 0 0 0\n");
    ticks(MUNASIREL_MOST_RECORDS, 65535), make_list(NULL), lines("the longest file", "accepted 16372 0 1072939020 0 0 0\n");
}

/* ---- munasirel_join: the buffer has 'abcdefgh' and then '.', of which some are held */
static void joins(const char *name, size_t room, size_t held_before, size_t offset, const char *text, unsigned want,
                  size_t held_after)
{
    uint8_t expected[16];
    fresh();
    uint8_t *buffer = lend("abcdefgh........", room);
    size_t *held = lend(&held_before, sizeof held_before);
    uint8_t *part = lend(text, strlen(text));
    memcpy(expected, "abcdefgh........", sizeof expected);
    for (size_t i = 0; want == 0 && i < strlen(text); i++)
        if (offset + i >= held_before)
            expected[offset + i] = (uint8_t)text[i];
    check("join", name, "number", munasirel_join(buffer, room, held, offset, part, strlen(text)) == want);
    check("join", name, "count", *held == held_after);
    check("join", name, "buffer", memcmp(buffer, expected, room) == 0);
    check("join", name, "bytes", guarded() && kept(part, 0));
}

static void joining(void)
{
    joins("the first part", 16, 0, 0, "xyz", 0, 3);
    joins("behind what is held", 16, 8, 8, "ijk", 0, 11);
    joins("up to the end of the buffer", 16, 8, 8, "ijklmnop", 0, 16);
    joins("with an overlap", 16, 8, 5, "fghij", 0, 10);
    joins("with an overlap of all", 16, 8, 0, "abcdefghi", 0, 9);
    joins("a repeated part", 16, 8, 0, "abcdefgh", 0, 8);
    joins("a part wholly inside", 16, 8, 2, "cd", 0, 8);
    joins("bytes beyond held don't matter", 16, 3, 3, "xyz", 0, 6);
    joins("an empty part at 0", 16, 0, 0, "", 0, 0);
    joins("an empty part at held", 16, 8, 8, "", 0, 8);
    joins("an empty part inside", 16, 8, 3, "", 0, 8);
    joins("an empty part, the buffer full", 8, 8, 8, "", 0, 8);
    joins("nothing into nothing", 0, 0, 0, "", 0, 0);
    joins("14", 16, 8, 9, "j", 14, 8);
    joins("14 of an empty part", 16, 8, 9, "", 14, 8);
    joins("14 at the largest offset", 16, 8, SIZE_MAX, "j", 14, 8);
    joins("14 before 15", 16, 8, 15, "pqr", 14, 8);
    joins("15, a byte too many", 8, 8, 8, "i", 15, 8);
    joins("15, with an overlap", 8, 8, 6, "ghi", 15, 8);
    joins("15 before 16", 8, 8, 6, "xyz", 15, 8);
    joins("15 for held", 8, 9, 0, "abc", 15, 9);
    joins("15 for held, an empty part", 8, 9, 9, "", 15, 9);
    joins("15 for held before 14", 8, 9, 10, "x", 15, 9);
    joins("15 for the largest held", 8, SIZE_MAX, 0, "x", 15, SIZE_MAX);
    joins("16 at the first byte", 16, 8, 5, "xghij", 16, 8);
    joins("16 at the last byte of the overlap", 16, 8, 5, "fgxij", 16, 8);
    joins("16 wholly inside", 16, 8, 2, "cx", 16, 8);
    joins("16, a part at the wrong offset", 16, 8, 7, "ijk", 16, 8);

    for (size_t size = 1; size < 60; size += 7) {
        uint8_t empty[64];
        size_t zero = 0, refused = 0;
        make(K1);
        fresh();
        memset(empty, 0, sizeof empty);
        uint8_t *buffer = lend(empty, 60);
        size_t *held = lend(&zero, sizeof zero);
        uint8_t *file = lend(made, 60);
        for (size_t at = 0; at < 60; at += size)
            refused += munasirel_join(buffer, 60, held, at, file + at, at + size < 60 ? size : 60 - at);
        check("join", "a file in parts", "file", refused == 0 && *held == 60 && memcmp(buffer, made, 60) == 0);
        check("join", "a file in parts", "bytes", guarded() && kept(file, 0));
    }
}

/* ---- munasirel_write, of the list, with so many codes and amounts of it; room counts from the file's length. At the wish for no
 * table the file has the new default, whatever table is handed over */
struct written { unsigned number; size_t index; unsigned rule; };

static void writes(const char *name, const munasirel_limits *table, unsigned with_table, size_t code_count, size_t amount_count,
                   int room, struct written want)
{
    static uint8_t bytes[MUNASIREL_LONGEST_FILE + 64];
    size_t odd = 77, size, out_length;
    make_list(with_table ? table : &new_default);
    size = want.number == 0 ? made_length : 0;
    out_length = made_length < sizeof bytes - 32 ? (size_t)((long)made_length + room) : 0;
    memset(bytes, 'x', sizeof bytes);
    fresh();
    uint8_t *in = lend(codes, code_count);
    uint32_t *of = lend(amounts, 4 * amount_count);
    uint8_t *out = lend(bytes, out_length);
    size_t *length = lend(&odd, sizeof odd);
    size_t *index = lend(&odd, sizeof odd);
    uint8_t *rule = lend(&odd, 1);
    uint8_t number =
        munasirel_write(*table, (uint8_t)with_table, in, code_count, of, amount_count, out, out_length, length, index, rule);
    check("write", name, "number", number == want.number);
    check("write", name, "length", *length == size);
    check("write", name, "index", *index == want.index);
    check("write", name, "rule", *rule == want.rule);
    check("write", name, "file", memcmp(out, made, size) == 0);
    check("write", name, "bytes", guarded() && kept(in, 0) && kept(of, 0) && kept(out, size));
}

/* All of the list. */
static void writes_all(const char *name, const munasirel_limits *table, unsigned with_table, int room, struct written want)
{
    writes(name, table, with_table, steps, steps, room, want);
}

static void writing(void)
{
    const struct written good = {0, 0, 0}, full = {15, 0, 0}, unequal = {3, 0, 0}, many = {2, 0, 0};
    const munasirel_limits bad = with(17, 1404), worse = with(0, 0), bad_delays = house_with(19, 20);
    list(K1);
    writes_all("K1 with a table", &old_default, 1, 0, good);
    writes_all("K1 with a table, more room", &old_default, 255, 9, good);
    writes_all("K1 with the new default", &new_default, 1, 0, good);
    writes_all("15 with a table", &old_default, 1, -1, full);
    writes_all("15, no room at all", &old_default, 1, -96, full);
    writes_all("4", &bad, 1, 0, (struct written){4, 0, 14});
    writes_all("4 before 15", &worse, 1, -90, (struct written){4, 0, 1});
    writes("3, fewer amounts", &old_default, 1, steps, steps - 1, 0, unequal);
    writes("3, fewer codes", &old_default, 0, steps - 1, steps, 0, unequal);
    writes("3, no amounts", &old_default, 0, steps, 0, 0, unequal);
    writes("3 before 4 and 15", &bad, 1, 0, steps, -90, unequal);
    list("14"), writes("3 before 5", &old_default, 0, 1, 0, 0, unequal);
    list(""), writes_all("no steps", &old_default, 1, 0, good);
    list(""), writes_all("no steps, 47 bytes", &old_default, 1, -1, full);
    list("1 14 4"), writes_all("5", &old_default, 1, 0, (struct written){5, 1, 0});
    list("0"), writes_all("5, code 0", &old_default, 0, 0, (struct written){5, 0, 0});
    list("1 4 255"), writes_all("5 before 15", &old_default, 0, -5, (struct written){5, 2, 0});
    list("14"), writes_all("4 before 5", &bad, 1, 0, (struct written){4, 0, 14});
    list("t65535"), writes_all("the largest tick", &old_default, 0, 0, good);
    list("1 t65536"), writes_all("6, a tick too large", &old_default, 0, 0, (struct written){6, 1, 0});
    list("t4294967295"), writes_all("6, the largest amount", &old_default, 0, 0, (struct written){6, 0, 0});
    list("4 5 t0 14"), writes_all("6, a tick of 0, before a later 5", &old_default, 1, 0, (struct written){6, 2, 0});
    list("4 5 14 t0"), writes_all("5 before a later 6", &old_default, 1, -1, (struct written){5, 2, 0});
    list("1 2 3 11"), amounts[3] = 1, writes_all("6, an amount for a finish", &old_default, 0, 0, (struct written){6, 3, 0});
    list("14"), amounts[0] = 1, writes_all("5 before 6 in one record", &old_default, 0, 0, (struct written){5, 0, 0});
    list("1 13"), amounts[1] = 1, writes_all("6, an amount for a reset", &old_default, 0, 0, (struct written){6, 1, 0});
    list(WOULD_NOT_CLOSE " t9 13 3"), writes_all("a reset", &old_default, 1, 0, good);
    list("2 1 1 10 13"), writes_all("steps that the judge refuses", &old_default, 1, 0, good);

    /* A table with a delay is written as twenty-two entries, any other as eighteen. */
    list(K1);
    writes_all("the house's table", &house, 1, 0, good);
    writes_all("the house's table, more room", &house, 1, 9, good);
    writes_all("the house's table, 15", &house, 1, -1, full);
    writes_all("the house's table, room for eighteen entries", &house, 1, -8, full);
    writes_all("rule 16", &bad_delays, 1, 0, (struct written){4, 0, 16});
    make_with_22(old_default, K1);
    munasirel_limits read = munasirel_table(made, made_length);
    writes_all("22 entries without delays, written back", &read, 1, 0, good);
    check("write", "22 entries without delays, written back", "entries", made[2] == 18 && made[4] == 48);
    list(K1), make_list(&house), check("write", "the house's table", "entries", made[2] == 22 && made[4] == 56);

    ticks(MUNASIREL_MOST_RECORDS, 65535);
    writes_all("the longest file", &old_default, 1, 0, good);
    writes_all("the longest file, 15", &old_default, 1, -1, full);
    steps++, codes[steps - 1] = 12, amounts[steps - 1] = 1;
    writes_all("2", &old_default, 0, 0, many);
    writes_all("2 before 4", &bad, 1, 0, many);
    writes("3 before 2", &old_default, 0, steps, steps - 1, 0, unequal);
    codes[0] = 14, writes_all("2 before 5", &old_default, 0, -9, many);

    /* The most records go by how the table would be written, admitted or not. */
    const munasirel_limits bad_in_22 = house_with(17, 1404);
    ticks(MUNASIREL_MOST_RECORDS_22, 65535);
    writes_all("the longest file of 22 entries", &house, 1, 0, good);
    writes_all("the longest file of 22 entries, 15", &house, 1, -1, full);
    writes_all("4, rule 16, as many records as fit", &bad_delays, 1, 0, (struct written){4, 0, 16});
    writes_all("4, rule 14, as many records as fit", &bad_in_22, 1, 0, (struct written){4, 0, 14});
    while (steps < MUNASIREL_MOST_RECORDS) {
        for (unsigned i = 18; i < 22; i++) {
            munasirel_limits table = with(i, 1);
            writes_all("one delay alone", &table, 1, 0, steps > MUNASIREL_MOST_RECORDS_22 ? many : (struct written){4, 0, 16});
        }
        codes[steps] = 12, amounts[steps] = 1, steps++;
        writes_all("2, the house's table", &house, 1, 0, many);
        writes_all("2 before 4, rule 16", &bad_delays, 1, 0, many);
        writes_all("2 before 4, rule 14", &bad_in_22, 1, 0, many);
        writes_all("the house's table with the wish for none, as many", &house, 0, 0, good);
        writes_all("4 without delays, as many", &bad, 1, 0, (struct written){4, 0, 14});
        writes("3 before 2, the house's table", &house, 1, steps, steps - 1, 0, unequal);
    }
}

/* What is written of the list, with this table handed over, takes the place of the file made. */
static void write_made(munasirel_limits table, uint8_t with_table)
{
    size_t index;
    uint8_t rule;
    munasirel_write(table, with_table, codes, steps, amounts, steps, made, sizeof made, &made_length, &index, &rule);
}

/* The list with the wish for no table: in just the room, in more, in a byte less, in the 36 bytes less that a file without a table
 * takes, around that, in no more than a header, and in next to no room and none. */
static void wishing_for_none(const char *name, const munasirel_limits *table)
{
    const struct written good = {0, 0, 0}, full = {15, 0, 0};
    const int all = 48 + 4 * (int)steps;
    writes_all(name, table, 0, 0, good);
    check("write", name, "bytes by the file maker", made_length == (size_t)all);
    writes_all(name, table, 0, 1, good);
    writes_all(name, table, 0, 20, good);
    writes_all(name, table, 0, -1, full);
    writes_all(name, table, 0, -35, full);
    writes_all(name, table, 0, -36, full);
    writes_all(name, table, 0, -37, full);
    writes_all(name, table, 0, 12 - all, full);
    writes_all(name, table, 0, 1 - all, full);
    writes_all(name, table, 0, -all, full);
}

static void writing_none(void)
{
    /* The table handed over is not looked at, whether it is admitted, and by how many entries it would be written. */
    const struct { const char *name; munasirel_limits table; } handed[] = {
        {"none, the old default handed over", old_default}, {"none, the new default handed over", new_default},
        {"none, rule 14", with(17, 1404)},                  {"none, rule 1", with(0, 0)},
        {"none, the house's table", house},                 {"none, rule 16", house_with(19, 20)},
        {"none, one delay alone", with(18, 1)},             {"none, rule 1 and delays", house_with(0, 0)},
    };
    for (size_t i = 0; i < sizeof handed / sizeof *handed; i++) {
        list(K1), wishing_for_none(handed[i].name, &handed[i].table);
        list(""), wishing_for_none(handed[i].name, &handed[i].table);
        list(BUS_OF_10_MS), wishing_for_none(handed[i].name, &handed[i].table);
    }
    ticks(MUNASIREL_MOST_RECORDS, 65535), wishing_for_none("none, the longest file", &old_default);
    check("write", "none, the longest file", "length", made_length == MUNASIREL_LONGEST_FILE);

    /* Byte by byte, beside the file of the same steps without a table, which the library writes no more. */
    static const uint8_t two[] = {12,  0, 18,  0, 48,  0, 0,   0, 2,   0, 0,   0, 10,  0, 100, 0, 200, 0, 150, 0, 150, 0,
                                  44,  1, 200, 0, 150, 0, 250, 0, 155, 0, 255, 0, 151, 0, 251, 0, 200, 0, 94,  1, 250, 0,
                                  200, 0, 220, 5, 1,   0, 0,   0, 12,  0, 44,  1};
    static const uint8_t without[] = {12, 0, 0, 0, 12, 0, 0, 0, 2, 0, 0, 0, 1, 0, 0, 0, 12, 0, 44, 1};
    list("1 t300"), writes_all("none, two steps", &house, 0, 0, (struct written){0, 0, 0});
    check("write", "none, two steps", "bytes of the file maker", made_length == sizeof two && memcmp(made, two, sizeof two) == 0);
    memset(made, 0, sizeof two), write_made(with(0, 0), 0);
    check("write", "none, two steps", "bytes", made_length == sizeof two && memcmp(made, two, sizeof two) == 0);
    make_list(NULL);
    check("write", "no table", "bytes of the file maker",
          made_length == sizeof without && memcmp(made, without, sizeof without) == 0);

    /* Read back and judged. */
    const munasirel_state driven = S(430, 1, 0, 430, 0, 430, 0, 0), requested = S(0, 0, 1, 0, 1, 0, 0, 0);
    list(BUS_OF_10_MS), write_made(with(17, 1404), 0);
    tables("written with the wish for none", new_default);
    judges("written with the wish for none", 0);
    gives("written with the wish for none", 0, 0, 13, 0, driven);
    lines("written with the wish for none", "accepted 13 0 430 0 1 0\n");
    write_made(munasirel_old_default(), 1);
    tables("written with the old default", old_default);
    gives("written with the old default", 12, 0, 1, 5, requested);
    write_made(munasirel_new_default(), 1), gives("written with the new default", 0, 0, 13, 0, driven);
    make(BUS_OF_10_MS);
    tables("a file without a table", old_default);
    judges("a file without a table", 12);
    gives("a file without a table", 12, 0, 1, 5, requested);
    list("1 t11"), write_made(old_default, 0), gives("12, written with the wish for none", 12, 0, 1, 1, requested);

    /* What is accepted without a table is accepted with the new default, and ends alike. */
    const char *const runs[] = {
        K1, "", "1 t5", "1 4 7 t151 9", "1 4 7 t155", DELAYED, IN_GEAR " 3 4 7 t251 9", WOULD_NOT_CLOSE " t9 13 3",
    };
    for (size_t i = 0; i < sizeof runs / sizeof *runs; i++) {
        make(runs[i]);
        munasirel_judged before_it = munasirel_verdict(made, made_length);
        check("write", runs[i], "verdict without a table", before_it.number == 0 && before_it.accepted == steps);
        write_made(old_default, 0), gives(runs[i], 0, 0, steps, 0, before_it.state);
    }
}

/* ---- munasirel_advance and munasirel_advance_block */
/* Advances by the block made. */
static void blocks_over(const char *name, munasirel_limits table, munasirel_state from, unsigned want, size_t want_accepted,
                        uint64_t want_excess, munasirel_state to)
{
    size_t odd = SIZE_MAX - 77;
    uint64_t odd_excess = UINT64_MAX - 77;
    fresh();
    munasirel_state *state = lend(&from, sizeof from);
    uint8_t *records = lend(made, made_length);
    size_t *accepted = lend(&odd, sizeof odd);
    uint64_t *excess = lend(&odd_excess, sizeof odd_excess);
    check("block", name, "number", munasirel_advance_block(state, table, records, made_length, accepted, excess) == want);
    check("block", name, "count", *accepted == want_accepted);
    check("block", name, "excess", *excess == want_excess);
    check("block", name, "state", same_state(state, &to));
    check("block", name, "bytes", guarded() && kept(records, 0));
}

static void blocks(const char *name, munasirel_limits table, munasirel_state from, unsigned want, size_t want_accepted,
                   munasirel_state to)
{
    blocks_over(name, table, from, want, want_accepted, 0, to);
}

/* A single record, by itself, as a block, and in a block before a record of code 0 and one byte. */
static void advances(const char *name, munasirel_limits table, munasirel_state from, unsigned code, unsigned middle,
                     unsigned amount, unsigned want, uint64_t want_excess, munasirel_state to)
{
    uint64_t odd = UINT64_MAX - 77;
    fresh();
    munasirel_state *state = lend(&from, sizeof from);
    uint64_t *excess = lend(&odd, sizeof odd);
    uint8_t number =
        munasirel_advance(state, table, (uint8_t)code, (uint8_t)middle, (uint8_t)(amount % 256), (uint8_t)(amount / 256), excess);
    check("advance", name, "number", number == want);
    check("advance", name, "excess", *excess == want_excess);
    check("advance", name, "state", same_state(state, &to));
    check("advance", name, "bytes", guarded());
    made_length = 0, put(code, 1), put(middle, 1), put(amount, 2);
    blocks_over(name, table, from, want, want == 0, want_excess, to);
    put(0, 5);
    blocks_over(name, table, from, want == 0 ? 5 : want, want == 0, want_excess, to);
}

static void takes(const char *name, munasirel_state from, unsigned code, unsigned amount, munasirel_state to)
{
    advances(name, old_default, from, code, 0, amount, 0, 0, to);
}

static void refuses(const char *name, munasirel_state from, unsigned code, unsigned amount, unsigned want)
{
    advances(name, old_default, from, code, 0, amount, want, 0, from);
}

/* Refused with 9 to 13. */
static void refuses_over(const char *name, munasirel_state from, unsigned code, unsigned amount, unsigned want, uint64_t excess)
{
    advances(name, old_default, from, code, 0, amount, want, excess, from);
}

/* Where single calls from a state come to over the first so many records of the list, up to the first that is refused. */
struct ended { unsigned number; size_t accepted; uint64_t excess; munasirel_state state; };

static struct ended one_by_one(munasirel_limits table, munasirel_state from, size_t count)
{
    struct ended end = {0, 0, 0, from};
    for (size_t i = 0; end.number == 0 && i < count; i++) {
        end.number = munasirel_advance(&end.state, table, codes[i], 0, (uint8_t)(amounts[i] % 256), (uint8_t)(amounts[i] / 256),
                                       &end.excess);
        end.accepted += end.number == 0;
    }
    return end;
}

/* The list cut in blocks, up to the first that is refused: after each as after single calls. */
static struct ended cuts(const char *name, munasirel_limits table, munasirel_state from)
{
    static const size_t sizes[] = {1, 2, 3, 5, 7};
    struct ended end = {0, 0, 0, from};
    for (size_t i = 0; i < sizeof sizes / sizeof *sizes; i++) {
        end = (struct ended){0, 0, 0, from};
        for (size_t at = 0; end.number == 0 && at < steps; at += sizes[i]) {
            size_t count = at + sizes[i] < steps ? sizes[i] : steps - at;
            struct ended single = one_by_one(table, from, at + count);
            cut(at, count);
            blocks_over(name, table, end.state, single.number, single.accepted - at, single.excess, single.state);
            end = single;
        }
    }
    return end;
}

/* The steps one after the other, with the phase and the box after each; then in blocks. */
static void walks(const char *name, munasirel_state from, const char *text, const uint8_t *phases, const char *boxes,
                  munasirel_state to)
{
    uint64_t odd = 77;
    fresh();
    munasirel_state *state = lend(&from, sizeof from);
    uint64_t *excess = lend(&odd, sizeof odd);
    int good = 1;
    list(text);
    for (size_t i = 0; i < steps; i++) {
        uint8_t low = (uint8_t)(amounts[i] % 256), high = (uint8_t)(amounts[i] / 256);
        good &= munasirel_advance(state, old_default, codes[i], 0, low, high, excess) == 0 && *excess == 0;
        good &= state->phase == phases[i] && state->gear_box == boxes[i] - '0';
    }
    check("advance", name, "numbers, excesses, phases or boxes", good && strlen(boxes) == steps);
    check("advance", name, "end", same_state(state, &to));
    check("advance", name, "bytes", guarded());
    cuts(name, old_default, from);
    cut(0, steps), blocks(name, old_default, from, 0, steps, to);
}

static void advancing_runs(void)
{
    static const struct { unsigned code, amount; munasirel_state to; } k1[] = {
        {1, 0, {0, 0, 1, 0, 1, 0, 0, 0}},           {12, 5, {5, 0, 1, 0, 1, 0, 0, 0}},
        {4, 0, {5, 0, 1, 0, 2, 5, 0, 0}},           {12, 100, {105, 0, 1, 0, 2, 5, 0, 0}},
        {5, 0, {105, 0, 1, 0, 3, 105, 0, 0}},       {12, 5, {110, 0, 1, 0, 3, 105, 0, 0}},
        {8, 0, {110, 0, 3, 110, 1, 110, 0, 0}},     {4, 0, {110, 0, 3, 110, 2, 110, 0, 0}},
        {12, 300, {410, 0, 3, 110, 2, 110, 0, 0}},  {5, 0, {410, 0, 3, 110, 3, 410, 0, 0}},
        {8, 0, {410, 1, 22, 410, 0, 410, 0, 0}},    {11, 0, {410, 1, 0, 410, 0, 410, 0, 0}},
        {12, 90, {500, 1, 0, 410, 0, 410, 0, 0}},   {2, 0, {500, 1, 6, 500, 1, 500, 500, 0}},
        {12, 2, {502, 1, 6, 500, 1, 500, 500, 0}},  {4, 0, {502, 1, 6, 500, 2, 502, 500, 0}},
        {7, 0, {502, 1, 6, 500, 5, 502, 500, 0}},   {12, 249, {751, 1, 6, 500, 5, 502, 500, 0}},
        {9, 0, {751, 1, 7, 751, 1, 751, 500, 0}},   {4, 0, {751, 1, 7, 751, 2, 751, 500, 0}},
        {12, 150, {901, 1, 7, 751, 2, 751, 500, 0}}, {6, 0, {901, 1, 7, 751, 4, 901, 500, 0}},
        {12, 50, {951, 1, 7, 751, 4, 901, 500, 0}}, {10, 0, {951, 1, 23, 951, 0, 951, 500, 7}},
        {12, 65535, {66486, 1, 23, 951, 0, 951, 500, 7}},
    };
    munasirel_state at = S(0);
    for (size_t i = 0; i < sizeof k1 / sizeof *k1; i++) {
        takes("K1, then gear to gear into an error", at, k1[i].code, k1[i].amount, k1[i].to);
        at = k1[i].to;
    }
    for (unsigned code = 1; code < 12; code++)
        refuses("after an error", at, code, 0, 7);
    takes("after an error", at, 13, 0, S(66486, 1, 0, 66486, 0, 66486, 0, 0));

    munasirel_state in_gear = S(10, 1, 0, 10, 0, 10, 0, 0);
    walks("from neutral, by the clutch", S(0), "1 4 7 t151 9 4 5 8 4 5 8 4 5 8 11",
          (const uint8_t[]){1, 1, 1, 1, 2, 2, 2, 4, 4, 4, 5, 5, 5, 22, 0}, "000000000011111", S(151, 1, 0, 151, 0, 151, 0, 0));
    walks("from neutral, a clutch that would not close, a reset", S(0), WOULD_NOT_CLOSE " 13 3",
          (const uint8_t[]){1, 1, 1, 1, 2, 2, 2, 4, 4, 4, 5, 5, 5, 23, 0, 17}, "0000000000111111",
          S(151, 1, 17, 151, 1, 151, 151, 0));
    walks("gear to gear", in_gear, "2 4 5 8 4 5 8 4 5 8 4 5 8",
          (const uint8_t[]){6, 6, 6, 8, 8, 8, 10, 10, 10, 12, 12, 12, 22}, "1111110000001", S(10, 1, 22, 10, 0, 10, 10, 0));
    walks("gear to gear, by the clutch", in_gear, "2 4 7 t251 9 4 5 8 4 5 8 4 5 8 4 5 8",
          (const uint8_t[]){6, 6, 6, 6, 7, 7, 7, 9, 9, 9, 14, 14, 14, 16, 16, 16, 22}, "11111111110001111",
          S(261, 1, 22, 261, 0, 261, 10, 0));
    walks("gear to gear, by the clutch later", in_gear, "2 4 5 8 4 5 8 4 7 t151 9 4 5 8 4 5 8 4 6 10",
          (const uint8_t[]){6, 6, 6, 8, 8, 8, 10, 10, 10, 10, 11, 11, 11, 13, 13, 13, 15, 15, 15, 23}, "11111100000000001111",
          S(161, 1, 23, 161, 0, 161, 10, 15));
    walks("to neutral", in_gear, "3 4 5 8 4 5 8", (const uint8_t[]){17, 17, 17, 19, 19, 19, 22}, "1111110",
          S(10, 0, 22, 10, 0, 10, 10, 0));
    walks("to neutral, by the clutch", in_gear, "3 4 7 t251 9 4 5 8 4 5 8 4 5 8 11",
          (const uint8_t[]){17, 17, 17, 17, 18, 18, 18, 20, 20, 20, 21, 21, 21, 22, 0}, "111111111100000",
          S(261, 0, 0, 261, 0, 261, 0, 0));
    walks("to neutral, a clutch that would not close, a reset", in_gear, "3 4 7 t251 9 4 5 8 4 5 8 4 6 10 13 1",
          (const uint8_t[]){17, 17, 17, 17, 18, 18, 18, 20, 20, 20, 21, 21, 21, 23, 0, 1}, "1111111111000000",
          S(261, 0, 1, 261, 1, 261, 261, 0));
}

static int sets(uint8_t phase)
{
    return phase == 3 || phase == 4 || phase == 12 || phase == 13 || phase == 14;
}

static int releases(uint8_t phase)
{
    return phase == 8 || phase == 9 || phase == 19 || phase == 20;
}

static void advancing_steps(void)
{
    const munasirel_state rest = S(0), odd = S(1, 2, 24, 3, 6, 4, 5, 255), late = S(4294967295, 0, 1, 0, 2, 0, 0, 0);
    const munasirel_state broken = S(9, 1, 23, 3, 0, 4, 5, 7);
    const munasirel_limits bad = with(17, 1404);
    advances("4", bad, rest, 1, 0, 0, 4, 0, rest);
    advances("4 before 5 and 6", bad, rest, 14, 1, 0, 4, 0, rest);
    advances("4 before 7", with(3, 0), odd, 1, 0, 0, 4, 0, odd);
    refuses("5, code 0", rest, 0, 0, 5);
    refuses("5, code 14", rest, 14, 0, 5);
    refuses("5, code 255, before 6 and 7", odd, 255, 9, 5);
    advances("5 before 6 for a middle byte", old_default, rest, 14, 1, 0, 5, 0, rest);
    advances("6, a middle byte", old_default, rest, 1, 1, 0, 6, 0, rest);
    advances("6, a middle byte of a tick", old_default, rest, 12, 128, 5, 6, 0, rest);
    for (unsigned code = 1; code < 14; code += code == 11 ? 2 : 1) {
        refuses("6, a low amount", code == 13 ? broken : rest, code, 1, 6);
        refuses("6, a high amount", code == 13 ? broken : rest, code, 256, 6);
    }
    advances("6, a middle byte of a reset", old_default, broken, 13, 1, 0, 6, 0, broken);
    refuses("6, a tick of 0, before 7", odd, 12, 0, 6);
    refuses("7, phase 24", S(0, 0, 24, 0, 0, 0, 0, 0), 12, 1, 7);
    refuses("7, phase 255", S(0, 0, 255, 0, 0, 0, 0, 0), 1, 0, 7);
    refuses("7, stage 6", S(0, 0, 0, 0, 6, 0, 0, 0), 12, 1, 7);
    refuses("7, stage 255", S(0, 0, 0, 0, 255, 0, 0, 0), 1, 0, 7);
    refuses("7, box 2, before 8", S(0, 2, 0, 0, 0, 0, 0, 0), 1, 0, 7);
    refuses("7, box 255", S(0, 255, 22, 0, 0, 0, 0, 0), 11, 0, 7);
    refuses("7 before 13", S(4294967295, 2, 0, 0, 0, 0, 0, 0), 12, 1, 7);
    for (unsigned code = 4; code < 12; code++)
        refuses("7, at rest", rest, code, 0, 7);
    for (unsigned code = 1; code < 11; code++)
        refuses("7, in done", S(9, 1, 22, 9, 0, 9, 0, 0), code, 0, 7);
    /* In phase 2 each stage allows one step, but working two, and none and waiting no step at all. */
    static const uint8_t allowed[6][2] = {{0, 0}, {4, 4}, {5, 6}, {8, 8}, {10, 10}, {0, 0}};
    for (uint8_t stage = 0; stage < 6; stage++)
        for (unsigned code = 1; code < 12; code++)
            if (code != allowed[stage][0] && code != allowed[stage][1])
                refuses("7, in phase 2", S(0, 0, 2, 0, stage, 0, 0, 0), code, 0, 7);
    refuses("7, an engine does not fail", S(0, 1, 17, 0, 2, 0, 0, 0), 6, 0, 7);
    refuses("7, only an engine waits", S(0, 1, 18, 0, 2, 0, 0, 0), 7, 0, 7);
    takes("an error of an engine phase", S(7, 1, 10, 0, 4, 0, 3, 0), 10, 0, S(7, 1, 23, 7, 0, 7, 3, 10));
    takes("at rest with stage good", S(7, 0, 0, 1, 3, 1, 9, 8), 1, 0, S(7, 0, 1, 7, 1, 7, 7, 0));
    refuses("8, from neutral in gear", S(0, 1, 0, 0, 0, 0, 0, 0), 1, 0, 8);
    refuses("8, gear to gear in neutral", rest, 2, 0, 8);
    refuses("8, to neutral in neutral", rest, 3, 0, 8);

    takes("ask at 151", S(151, 0, 1, 0, 5, 0, 0, 0), 9, 0, S(151, 0, 2, 151, 1, 151, 0, 0));
    refuses_over("9, ask at 150", S(150, 0, 1, 0, 5, 0, 0, 0), 9, 0, 9, 1);
    takes("ask for zero torque at 251", S(251, 1, 17, 0, 5, 0, 0, 0), 9, 0, S(251, 1, 18, 251, 1, 251, 0, 0));
    refuses_over("9, ask for zero torque at 250", S(250, 1, 6, 0, 5, 0, 0, 0), 9, 0, 9, 1);
    refuses_over("9, a sum above 32 bits", S(200, 0, 1, 4294967295, 5, 0, 0, 0), 9, 0, 9, 4294967246);
    refuses_over("9, an excess above 32 bits", S(0, 0, 1, 4294967295, 5, 0, 0, 0), 9, 0, 9, 4294967446);
    refuses_over("9, the same of zero torque", S(250, 1, 17, 4294967295, 5, 9, 0, 0), 9, 0, 9, 4294967296);
    advances("9, another DE", with(12, 255), S(9, 1, 6, 0, 5, 4, 0, 0), 9, 0, 0, 9, 246, S(9, 1, 6, 0, 5, 4, 0, 0));
    takes("K13 at 150", S(150, 0, 1, 0, 3, 0, 0, 0), 8, 0, S(150, 0, 3, 150, 1, 150, 0, 0));
    refuses_over("10, K13 at 151", S(151, 0, 1, 0, 3, 0, 0, 0), 8, 0, 10, 1);
    takes("take zero torque at 250", S(250, 1, 6, 0, 3, 0, 0, 0), 8, 0, S(250, 1, 8, 250, 1, 250, 0, 0));
    refuses_over("10, take zero torque at 251", S(251, 1, 17, 0, 3, 0, 0, 0), 8, 0, 10, 1);
    refuses_over("10, by the phase's time", S(900, 0, 10, 300, 3, 899, 0, 0), 8, 0, 10, 450);
    refuses_over("10, at the clock's end", S(4294967295, 1, 6, 0, 3, 0, 0, 0), 8, 0, 10, 4294967045);
    advances("10, another EX", with(7, 140), S(150, 0, 1, 0, 3, 0, 0, 0), 8, 0, 0, 10, 10, S(150, 0, 1, 0, 3, 0, 0, 0));
    takes("take after any time", S(9999, 0, 4, 0, 3, 0, 0, 0), 8, 0, S(9999, 1, 5, 9999, 1, 9999, 0, 0));
    takes("take, a sum above 32 bits", S(4294967295, 0, 1, 4294967295, 3, 0, 0, 0), 8, 0,
          S(4294967295, 0, 3, 4294967295, 1, 4294967295, 0, 0));

    /* A reset keeps the clock and the box, and asks for phase 23 alone. */
    for (uint8_t box = 0; box < 2; box++)
        for (uint8_t stage = 0; stage < 6; stage++)
            takes("a reset", S(9, box, 23, 3, stage, 4, 5, 7), 13, 0, S(9, box, 0, 9, 0, 9, 0, 0));
    for (uint8_t phase = 0; phase < 23; phase++)
        refuses("7, a reset elsewhere", S(9, 1, phase, 3, 4, 4, 5, 7), 13, 0, 7);
    refuses("7, a reset in no listed stage", S(9, 1, 23, 3, 6, 4, 5, 7), 13, 0, 7);
    refuses("7, a reset in phase 24", S(9, 1, 24, 3, 0, 4, 5, 7), 13, 0, 7);

    /* Taking an order moves the box by the order, wherever it stood; in all other phases it is kept, on entering 22 too. */
    static const uint8_t next[] = {0, 3, 4, 22, 5, 22, 8, 9, 10, 14, 12, 13, 22, 15, 16, 22, 22, 19, 20, 22, 21, 22};
    for (uint8_t phase = 1; phase < 22; phase++)
        for (uint8_t box = 0; box < 2; box++)
            takes("the box of a take", S(9, box, phase, 9, 3, 9, 5, 0), 8, 0,
                  S(9, sets(phase) ? 1 : releases(phase) ? 0 : box, next[phase], 9, next[phase] < 22, 9, 5, 0));

    /* By the phases' orders: the phase limits 9, 10, 13, 14, 15 and 16, with stage waiting, and the device limits 1 to 6. */
    static const struct { uint8_t phase; unsigned longest, device; } limit[] = {
        {1, 155, 100},  {2, 200, 150},  {3, 350, 300},  {4, 350, 300},  {5, 200, 150},  {6, 255, 200},  {7, 200, 150},
        {8, 250, 200},  {9, 250, 200},  {10, 155, 100}, {11, 200, 150}, {12, 350, 300}, {13, 350, 300}, {14, 350, 300},
        {15, 200, 150}, {16, 200, 150}, {17, 255, 200}, {18, 200, 150}, {19, 250, 200}, {20, 250, 200}, {21, 200, 150},
    };
    for (size_t i = 0; i < sizeof limit / sizeof *limit; i++) {
        munasirel_state waiting = S(0, 0, limit[i].phase, 0, 5, 0, 0, 0), working = S(0, 0, limit[i].phase, 0, 2, 0, 0, 0);
        munasirel_state waited = waiting, worked = working;
        waited.clock = limit[i].longest, worked.clock = limit[i].device;
        takes("up to the phase limit", waiting, 12, limit[i].longest, waited);
        refuses_over("11", waiting, 12, limit[i].longest + 1, 11, 1);
        refuses_over("11, far past", waited, 12, 65535, 11, 65535);
        takes("up to the device limit", working, 12, limit[i].device, worked);
        refuses_over("12, working", working, 12, limit[i].device + 1, 12, 1);
        refuses_over("12, past the phase limit too", working, 12, limit[i].longest + 1, 12, limit[i].longest + 1 - limit[i].device);
        refuses_over("12, far past both", worked, 12, 65535, 12, 65535);
    }
    takes("stage none, the phase limit alone", S(0, 0, 1, 0, 0, 0, 0, 0), 12, 155, S(155, 0, 1, 0, 0, 0, 0, 0));
    refuses_over("11, stage none", S(0, 0, 1, 0, 0, 0, 0, 0), 12, 156, 11, 1);
    refuses_over("11, stage failed", S(0, 0, 2, 0, 4, 0, 0, 0), 12, 201, 11, 1);
    refuses_over("11, a late stage time", S(100, 0, 1, 0, 2, 100, 0, 0), 12, 56, 11, 1);
    refuses_over("11, by the phase's time", S(100, 0, 1, 40, 5, 90, 0, 0), 12, 100, 11, 5);
    refuses_over("11, at the clock's end", S(4294967290, 0, 1, 0, 5, 0, 0, 0), 12, 5, 11, 4294967140);
    takes("sent, up to the channel limit", S(7, 0, 2, 7, 1, 7, 0, 0), 12, 5, S(12, 0, 2, 7, 1, 7, 0, 0));
    refuses_over("12, sent", S(7, 0, 2, 7, 1, 7, 0, 0), 12, 6, 12, 1);
    takes("good, up to the channel limit", S(7, 0, 2, 7, 3, 7, 0, 0), 12, 5, S(12, 0, 2, 7, 3, 7, 0, 0));
    refuses_over("12, good", S(7, 0, 2, 7, 3, 7, 0, 0), 12, 6, 12, 1);
    refuses_over("12 before 11", S(0, 0, 2, 0, 2, 0, 0, 0), 12, 65535, 12, 65385);
    refuses_over("12, the phase limit passed by more", S(100, 0, 1, 0, 2, 100, 0, 0), 12, 65535, 12, 65435);
    refuses_over("12, at the clock's end", S(4294967290, 0, 1, 0, 3, 0, 0, 0), 12, 5, 12, 4294967290);
    takes("a tick, sums above 32 bits", S(0, 0, 1, 4294967295, 2, 4294967295, 0, 0), 12, 65535,
          S(65535, 0, 1, 4294967295, 2, 4294967295, 0, 0));
    takes("the clock's last tick", S(4294967294, 0, 0, 1, 2, 3, 4, 255), 12, 1, S(4294967295, 0, 0, 1, 2, 3, 4, 255));
    refuses_over("13", S(4294967295, 0, 0, 1, 2, 3, 4, 255), 12, 1, 13, 1);
    refuses_over("13 by 7", S(4294967295, 0, 0, 1, 2, 3, 4, 255), 12, 7, 13, 7);
    refuses_over("13 by the largest tick", S(4294967295, 1, 22, 0, 0, 0, 0, 0), 12, 65535, 13, 65535);
    refuses_over("13 by 1", S(4294901761, 1, 23, 0, 0, 0, 0, 0), 12, 65535, 13, 1);
    takes("up to the clock's end", S(4294901760, 1, 23, 0, 0, 0, 0, 0), 12, 65535, S(4294967295, 1, 23, 0, 0, 0, 0, 0));
    refuses_over("13 before 12 and 11", late, 12, 1, 13, 1);
}

static int opens(uint8_t phase)
{
    return phase == 2 || phase == 7 || phase == 11 || phase == 18;
}

static int closes(uint8_t phase)
{
    return phase == 5 || phase == 15 || phase == 16 || phase == 21;
}

/* The device is good, or failed, in a phase that asks for a delay: from the stage's time on, and before any with 9. */
static void reports_from(uint8_t phase, unsigned code, unsigned delay)
{
    uint8_t stage = code == 5 ? 3 : 4;
    munasirel_state at = S(1000 + delay, 1, phase, 900, 2, 1000, 7, 0), to = at;
    to.stage = stage, to.stage_time = at.clock, advances("at the delay", apart, at, code, 0, 0, 0, 0, to);
    at.clock = to.clock = to.stage_time = 9999, advances("long after the delay", apart, at, code, 0, 0, 0, 0, to);
    at.clock = 1000 + delay - 1, advances("9, one before the delay", apart, at, code, 0, 0, 9, 1, at);
    at.clock = 1000, advances("9 by all of the delay", apart, at, code, 0, 0, 9, delay, at);
    at.clock = 0, advances("9, the stage ahead", apart, at, code, 0, 0, 9, 1000 + delay, at);
    at.stage_time = UINT32_MAX, advances("9 by more than 32 bits", apart, at, code, 0, 0, 9, UINT32_MAX + (uint64_t)delay, at);
    at.clock = 500, advances("9, a sum above 32 bits", apart, at, code, 0, 0, 9, UINT32_MAX - 500 + delay, at);
    at.stage = 1, advances("7 before 9, sent", apart, at, code, 0, 0, 7, 0, at);
    at.stage = 2, at.gear_box = 2, advances("7 before 9, no box", apart, at, code, 0, 0, 7, 0, at);

    /* With a delay of 0 from the stage's time on still. */
    at = to = S(9, 0, phase, 0, 2, 9, 0, 0), to.stage = stage, takes("no delay, at the stage's time", at, code, 0, to);
    at.clock = 8, refuses_over("9 without a delay, the stage ahead", at, code, 0, 9, 1);
    at.clock = 0, at.stage_time = UINT32_MAX, refuses_over("9 without a delay, far ahead", at, code, 0, 9, UINT32_MAX);
}

/* In a phase that asks for none, even of a stage ahead. */
static void reports_at_once(uint8_t phase, unsigned code)
{
    munasirel_state at = S(1000, 1, phase, 900, 2, 1000, 7, 0), to = at;
    to.stage = code == 5 ? 3 : 4, advances("at once", apart, at, code, 0, 0, 0, 0, to);
    at.stage_time = UINT32_MAX, advances("at once, the stage ahead", apart, at, code, 0, 0, 0, 0, to);
    takes("at once without delays", at, code, 0, to);
}

static void advancing_clutches(void)
{
    const munasirel_state rest = S(0), working = S(0, 0, 2, 0, 2, 0, 0, 0);
    for (uint8_t phase = 1; phase < 22; phase++) {
        munasirel_state at = S(1000, 1, phase, 900, 2, 1000, 7, 0);
        if (opens(phase)) {
            reports_from(phase, 5, apart.clutch_open_de), reports_from(phase, 6, apart.error_clutch_open_de);
        } else if (closes(phase)) {
            reports_from(phase, 5, apart.clutch_close_de), reports_from(phase, 6, apart.error_clutch_close_de);
        } else {
            reports_at_once(phase, 5);
            if (sets(phase) || releases(phase))
                reports_at_once(phase, 6);
            else
                advances("7, an engine does not fail", apart, at, 6, 0, 0, 7, 0, at);
        }
    }
    advances("4, rule 16", house_with(20, 60), rest, 1, 0, 0, 4, 0, rest);
    advances("4, rule 16, before 9", house_with(20, 60), working, 5, 0, 0, 4, 0, working);
    advances("9, ask at 150 with delays", house, S(150, 0, 1, 0, 5, 0, 0, 0), 9, 0, 0, 9, 1, S(150, 0, 1, 0, 5, 0, 0, 0));
    advances("a tick past the delays", house, working, 12, 0, 150, 0, 0, S(150, 0, 2, 0, 2, 0, 0, 0));
    advances("12 with delays", house, working, 12, 0, 151, 12, 1, working);
}

/* The steps in blocks from the start state; their end is the verdict on their file, and its line. */
static void cuts_file(munasirel_limits table, const char *text)
{
    char line[MUNASIREL_LINE_ROOM];
    list(text);
    struct ended end = cuts(text, table, S(0));
    snprintf(line, sizeof line, "%s %zu %u %u %u %u %llu\n", end.number == 0 ? "accepted" : "refused", end.accepted, end.number,
             (unsigned)end.state.clock, (unsigned)end.state.phase, (unsigned)end.state.gear_box, (unsigned long long)end.excess);
    make_list(&table);
    gives(text, end.number, 0, end.accepted, end.excess, end.state);
    lines_in(text, line, sizeof line);
}

/* Bytes behind the block, which would be a wrong record if there were more of them. */
static void leave_over(size_t count)
{
    static const uint8_t wrong[] = {14, 1, 1};
    memcpy(made + made_length, wrong, sizeof wrong);
    made_length += count;
}

static void advancing_blocks(void)
{
    const munasirel_state rest = S(0), odd = S(1, 2, 24, 3, 6, 4, 5, 255), ticked = S(7, 0, 0, 0, 0, 0, 0, 0);
    const munasirel_state shifted = S(410, 1, 0, 410, 0, 410, 0, 0), k11 = S(410, 1, 23, 410, 0, 410, 410, 19);
    const munasirel_state requested = S(7, 0, 1, 7, 1, 7, 7, 0);
    const munasirel_state late = S(4294901755, 1, 23, 1, 0, 2, 3, 4), latest = S(4294967295, 1, 23, 1, 0, 2, 3, 4);
    const munasirel_limits bad = with(17, 1404);
    make_block(K1), blocks("K1", old_default, rest, 0, 12, shifted);
    make_block(K11), blocks("K11", old_default, rest, 7, 19, k11);
    cut(12, 8), blocks("K11 from its thirteenth record on", old_default, shifted, 7, 7, k11);
    make_block("1 4 7 t150 9"), blocks_over("K5", old_default, rest, 9, 4, 1, S(150, 0, 1, 0, 5, 0, 0, 0));
    make_block("2 1 4"), blocks("8 at the first", old_default, rest, 8, 0, rest);
    make_block("t7 14 1"), blocks("5 in the middle", old_default, rest, 5, 1, ticked);
    make_block("t7 t0 1"), blocks("6 in the middle", old_default, rest, 6, 1, ticked);
    make_block("t7 1 4"), made[9] = 1, blocks("6, a middle byte of the last", old_default, rest, 6, 2, requested);
    make_block("t7 1 1 14"), blocks("7 before a later 5", old_default, rest, 7, 2, requested);
    make_block("1 t3 t2"), blocks("the channel limit by two ticks", old_default, rest, 0, 3, S(5, 0, 1, 0, 1, 0, 0, 0));
    make_block("1 t3 t2 t1 4"), blocks_over("12 by three ticks", old_default, rest, 12, 3, 1, S(5, 0, 1, 0, 1, 0, 0, 0));
    make_block("1 t3 t200 4");
    blocks_over("12, past the phase limit too", old_default, rest, 12, 2, 198, S(3, 0, 1, 0, 1, 0, 0, 0));
    make_block("1 4 7 t151 t4"), blocks("the phase limit by two ticks", old_default, rest, 0, 5, S(155, 0, 1, 0, 5, 0, 0, 0));
    make_block("1 4 7 t151 t4 t1"), blocks_over("11 by three ticks", old_default, rest, 11, 5, 1, S(155, 0, 1, 0, 5, 0, 0, 0));
    make_block("1 4 7 t151 t90 9"), blocks_over("11 by more", old_default, rest, 11, 4, 86, S(151, 0, 1, 0, 5, 0, 0, 0));
    make_block("t5 t65535"), blocks("the clock's end by two ticks", old_default, late, 0, 2, latest);
    make_block("t5 t65535 t1"), blocks_over("13 by three ticks", old_default, late, 13, 2, 1, latest);
    make_block("t5 t65535 t300 14"), blocks_over("13 by more", old_default, late, 13, 2, 300, latest);
    make_block("8 9");
    blocks_over("10", old_default, S(900, 0, 10, 300, 3, 899, 0, 0), 10, 0, 450, S(900, 0, 10, 300, 3, 899, 0, 0));
    make_block("4 7 9 8"), blocks_over("9 by more than 32 bits", old_default, S(0, 0, 1, 4294967295, 1, 0, 0, 0), 9, 2, 4294967446,
                                       S(0, 0, 1, 4294967295, 5, 0, 0, 0));
    make_block("1 t6"), blocks("12 under a looser table", with(0, 6), rest, 0, 2, S(6, 0, 1, 0, 1, 0, 0, 0));
    make_block("1 t5"), blocks_over("12 under a tighter table", with(0, 4), rest, 12, 1, 1, S(0, 0, 1, 0, 1, 0, 0, 0));
    make_block(BUS_OF_10_MS), blocks("10 ms on the bus", new_default, rest, 0, 13, S(430, 1, 0, 430, 0, 430, 0, 0));
    blocks_over("10 ms on the bus, the old default", old_default, rest, 12, 1, 5, S(0, 0, 1, 0, 1, 0, 0, 0));

    /* The number of each code with the amount 0, at rest in neutral; then a run that has all thirteen. */
    static const uint8_t number[] = {5, 0, 8, 8, 7, 7, 7, 7, 7, 7, 7, 7, 6, 7, 5, 5};
    for (uint8_t code = 0; code < sizeof number; code++) {
        make_block("t7 1"), made[4] = code;
        blocks("every code", old_default, rest, number[code], code == 1 ? 2 : 1, code == 1 ? requested : ticked);
    }
    make_block("1 4 7 t151 9 4 5 8 4 5 8 4 6 10 13 2 4 5 8 4 5 8 4 5 8 4 5 8 11 3");
    blocks("all thirteen steps", old_default, rest, 0, 30, S(151, 1, 17, 151, 1, 151, 151, 0));

    /* A table that is not admitted, and a state that is none. */
    make_block(K1), blocks("4", bad, rest, 4, 0, rest);
    make_block("1"), blocks("4, one record", with(3, 0), rest, 4, 0, rest);
    make_block("14 t0"), made[1] = 1, blocks("4 before 5, 6 and 7", bad, odd, 4, 0, odd);
    make_block("14 1"), made[1] = 1, blocks("5 before 6 and 7", old_default, odd, 5, 0, odd);
    make_block("t0 14"), blocks("6 before 7", old_default, odd, 6, 0, odd);
    make_block("t1 14"), blocks("7 before a later 5, no state", old_default, odd, 7, 0, odd);
    blocks("7, phase 24", old_default, S(1, 0, 24, 1, 0, 1, 0, 0), 7, 0, S(1, 0, 24, 1, 0, 1, 0, 0));
    blocks("7, stage 6", old_default, S(1, 0, 0, 1, 6, 1, 0, 0), 7, 0, S(1, 0, 0, 1, 6, 1, 0, 0));
    blocks("7, box 2", old_default, S(1, 2, 0, 1, 0, 1, 0, 0), 7, 0, S(1, 2, 0, 1, 0, 1, 0, 0));

    /* Bytes that are no whole record, by themselves and behind records. */
    for (size_t count = 0; count < 4; count++) {
        made_length = 0, leave_over(count);
        blocks("no record", old_default, shifted, 0, 0, shifted);
        blocks("no record, a bad table", bad, shifted, 0, 0, shifted);
        blocks("no record, no state", old_default, odd, 0, 0, odd);
        blocks("no record, a bad table and no state", with(0, 0), odd, 0, 0, odd);
        make_block(K1), leave_over(count), blocks("left over", old_default, rest, 0, 12, shifted);
        blocks("left over, a bad table", bad, rest, 4, 0, rest);
        make_block("t7 4"), leave_over(count), blocks("left over behind a refused record", old_default, rest, 7, 1, ticked);
        make_block("t7 4"), made_length = 4 + count, blocks("left over of a wrong record", old_default, rest, 0, 1, ticked);
    }

    /* A block may be longer than any file. */
    ticks(MUNASIREL_MOST_RECORDS + 1, 65535), cut(0, steps);
    blocks("16,373 ticks", old_default, rest, 0, 16373, S(1073004555, 0, 0, 0, 0, 0, 0, 0));
    blocks_over("13 after 16,000 ticks", old_default, S(3246407295, 1, 22, 9, 0, 9, 8, 0), 13, 16000, 65535,
                S(4294967295, 1, 22, 9, 0, 9, 8, 0));

    cuts_file(old_default, K1);
    cuts_file(with(17, 1405), K1);
    cuts_file(old_default, K11);
    cuts_file(old_default, "1 t6");
    cuts_file(with(0, 6), "1 t6");
    cuts_file(old_default, BUS_OF_10_MS);
    cuts_file(new_default, BUS_OF_10_MS);
    cuts_file(new_default, "1 t10 t1");
    cuts_file(house, BUS_OF_10_MS);
    cuts_file(old_default, "1 t5 4 t101");
    cuts_file(old_default, "1 4 7 t150 9");
    cuts_file(old_default, "1 4 7 t151 9");
    cuts_file(old_default, "1 4 7 t156");
    cuts_file(old_default, "1 t5 4 t65535");
    cuts_file(old_default, IN_GEAR " 3 4 7 t9 9");
    cuts_file(old_default, "2");
    cuts_file(old_default, "1 1");
    cuts_file(old_default, "1 4 6");
    cuts_file(old_default, WOULD_NOT_CLOSE " t9 13 3");
    cuts_file(old_default, WOULD_NOT_CLOSE " 13 1");
    cuts_file(old_default, WOULD_NOT_CLOSE " 13 13");
    cuts_file(old_default, "1 4 5 8 4 5 8 11 2 4 7 t251 9 4 t150 5 8 4 5 8 4 5 8 4 5 8 11 3 4 5 8 4 5 8 11 14");
    cuts_file(old_default, "t1 t2 t3 t4 t5 t6 t0");
    cuts_file(house, DELAYED " 3");
    cuts_file(house, TO_OPEN " t19 5");
    cuts_file(house, TO_OPEN " t20 6");
    cuts_file(house, TO_CLOSE " t19 t1 5 8 11 2 4 7 t251 9 4 t60 6 10 13");
    cuts_file(house, TO_CLOSE " t59 6 10");
    cuts_file(apart, TO_OPEN " t21 5 8 4 5 8 4 t83 6");
    make_block(TO_OPEN " t19 5"), blocks_over("9, opened too early", house, rest, 9, 9, 1, S(175, 0, 2, 151, 2, 156, 0, 0));
    make_block("6 5"), blocks_over("9 at the first", apart, S(1, 0, 21, 0, 2, 0, 0, 0), 9, 0, 83, S(1, 0, 21, 0, 2, 0, 0, 0));
}

int main(void)
{
    judging();
    giving();
    admitting();
    tightening();
    naming();
    tabling();
    lining();
    joining();
    writing();
    writing_none();
    advancing_runs();
    advancing_steps();
    advancing_clutches();
    advancing_blocks();
    return finish();
}
