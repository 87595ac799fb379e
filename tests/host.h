/* What the calls of tests/host*.c share: counting, lending between guard bytes, and making step files.
 *
 * Whatever a call is lent lies between guard bytes, and every case looks at them afterwards. What is expected comes from documents 01
 * and 02, by hand or by the small file maker below. The known runs are written as they are there: a number is a step, tN a tick. */
#ifndef HOST_H
#define HOST_H

#include <stdio.h>
#include <string.h>

#include "munasirel.h"

/* ---- counting */
static unsigned passed, failed;

static inline void check(const char *function, const char *name, const char *what, int holds)
{
    if (holds) {
        passed++;
    } else {
        failed++;
        printf("%s, %s: wrong %s\n", function, name, what);
    }
}

/* ---- what is lent: copies between guard bytes, and a second copy to compare with */
enum { GUARD = 64, GUARD_BYTE = 0xa5, ARENA = 1 << 19 };

static _Alignas(8) uint8_t arena[ARENA];
static _Alignas(8) uint8_t before[ARENA];
static struct { size_t at, size; } lent[8];
static size_t lents, used = ARENA - GUARD;

static inline void fresh(void)
{
    memset(arena, GUARD_BYTE, used + GUARD);
    used = 0;
    lents = 0;
}

static inline void *lend(const void *content, size_t size)
{
    size_t at = (used + GUARD + 7) / 8 * 8;
    if (size > 0) {
        memcpy(arena + at, content, size);
        memcpy(before + at, content, size);
    }
    lent[lents].at = at;
    lent[lents].size = size;
    lents++;
    used = at + size;
    return arena + at;
}

/* All bytes outside of what is lent are guard bytes still. */
static inline int guarded(void)
{
    size_t from = 0;
    for (size_t i = 0; i <= lents; i++) {
        size_t to = i < lents ? lent[i].at : used + GUARD;
        for (; from < to; from++)
            if (arena[from] != GUARD_BYTE)
                return 0;
        if (i < lents)
            from += lent[i].size;
    }
    return 1;
}

/* What was lent at this address is as it was, from a place on. */
static inline int kept(const void *address, size_t from)
{
    size_t at = (size_t)((const uint8_t *)address - arena);
    for (size_t i = 0; i < lents; i++)
        if (lent[i].at == at)
            return from <= lent[i].size && memcmp(arena + at + from, before + at + from, lent[i].size - from) == 0;
    return 0;
}

/* ---- step files, made by hand */
/* The old default, under which files without a table are judged, and the new one, which is handed out. */
static const munasirel_limits old_default = {5,   100, 200, 150, 150, 300, 200, 150,  250, 155, 255,
                                             151, 251, 200, 350, 250, 200, 1500, 0,   0,   0,   0};
static const munasirel_limits new_default = {10,  100, 200, 150, 150, 300, 200, 150,  250, 155, 255,
                                             151, 251, 200, 350, 250, 200, 1500, 0,   0,   0,   0};
/* The house's table, which is the new default with delays, and one in which no two delays are equal. */
static const munasirel_limits house = {10,  100, 200, 150, 150, 300, 200, 150,  250, 155, 255,
                                       151, 251, 200, 350, 250, 200, 1500, 20,  60,  20,  60};
static const munasirel_limits apart = {5,   100, 200, 150, 150, 300, 200, 150,  250, 155, 255,
                                       151, 251, 200, 350, 250, 200, 1500, 21,  62,  33,  84};
static const char *const K1 = "1 t5 4 t100 5 t5 8 4 t300 5 8 11";
static const char *const K11 = "1 t5 4 t100 5 t5 8 4 t300 5 8 11 3 4 5 8 4 6 10 11";
/* A shift on the bus that needs 10 ms: accepted under the new default, and refused under the old one at its first tick. */
static const char *const BUS_OF_10_MS = "1 t10 4 t100 5 t10 8 4 t300 5 t10 8 11";
/* From neutral, at once. */
#define IN_GEAR "1 4 5 8 4 5 8 11"
/* The set order is taken in phase 4, and the clutch will not close in phase 5. */
#define WOULD_NOT_CLOSE "1 4 7 t151 9 4 5 8 4 5 8 4 6 10"
/* From neutral by the clutch, as early as the house's table allows: up to the delivery of the open order, at 156 ms, of the close
 * order, at 181 ms, and whole. */
#define TO_OPEN "1 t5 4 7 t146 9 t5 4"
#define TO_CLOSE TO_OPEN " t20 5 8 4 5 8 t5 4"
#define DELAYED TO_CLOSE " t20 5 8 11"

static uint8_t codes[MUNASIREL_MOST_RECORDS + 1];
static uint32_t amounts[MUNASIREL_MOST_RECORDS + 1];
static size_t steps;
static uint8_t made[MUNASIREL_LONGEST_FILE + 64];
static size_t made_length;

/* The codes and amounts of a list of steps; tN is a tick. */
static inline void list(const char *text)
{
    steps = 0;
    while (*text) {
        int tick = *text == 't';
        uint32_t number = 0;
        for (text += tick; *text >= '0' && *text <= '9'; text++)
            number = 10 * number + (uint32_t)(*text - '0');
        codes[steps] = tick ? 12 : (uint8_t)number;
        amounts[steps] = tick ? number : 0;
        steps++;
        while (*text == ' ')
            text++;
    }
}

/* So many ticks of one amount. */
static inline void ticks(size_t count, uint32_t amount)
{
    for (steps = 0; steps < count; steps++) {
        codes[steps] = 12;
        amounts[steps] = amount;
    }
}

static inline void put(size_t number, unsigned size)
{
    for (; size > 0; size--, number >>= 8)
        made[made_length++] = (uint8_t)number;
}

/* So many records of the list, from a place on. */
static inline void put_records(size_t from, size_t count)
{
    for (size_t i = from; i < from + count; i++) {
        put(codes[i], 2);
        put(amounts[i], 2);
    }
}

/* The file of the list, with the first k entries of a table. */
static inline void make_entries(unsigned k, const munasirel_limits *table)
{
    uint16_t entries[22];
    memcpy(entries, table, sizeof entries);
    made_length = 0;
    put(12, 2);
    put(k, 2);
    put(12 + 2 * k, 4);
    put(steps, 4);
    for (unsigned i = 0; i < k; i++)
        put(entries[i], 2);
    put_records(0, steps);
}

/* The same with a table as it is written, in eighteen entries or in twenty-two, or, where there is none, without: such a file is
 * judged under the old default. */
static inline void make_list(const munasirel_limits *table)
{
    if (!table)
        make_entries(0, &old_default);
    else if (table->clutch_open_de || table->error_clutch_open_de || table->clutch_close_de || table->error_clutch_close_de)
        make_entries(22, table);
    else
        make_entries(18, table);
}

static inline void make(const char *text)
{
    list(text);
    make_list(NULL);
}

static inline void make_with(munasirel_limits table, const char *text)
{
    list(text);
    make_list(&table);
}

/* With all twenty-two entries, whatever the delays. */
static inline void make_with_22(munasirel_limits table, const char *text)
{
    list(text);
    make_entries(22, &table);
}

/* A table with one entry changed: of any, of the old default, and of the house's. */
static inline munasirel_limits changed(munasirel_limits table, unsigned entry, unsigned limit)
{
    uint16_t entries[22];
    memcpy(entries, &table, sizeof entries);
    entries[entry] = (uint16_t)limit;
    memcpy(&table, entries, sizeof table);
    return table;
}

static inline munasirel_limits with(unsigned entry, unsigned limit)
{
    return changed(old_default, entry, limit);
}

static inline munasirel_limits house_with(unsigned entry, unsigned limit)
{
    return changed(house, entry, limit);
}

/* A block of so many records of the list, from a place on; it is made where a file would be. */
static inline void cut(size_t from, size_t count)
{
    made_length = 0;
    put_records(from, count);
}

static inline void make_block(const char *text)
{
    list(text);
    cut(0, steps);
}

/* ---- states: clock, box, phase, phase time, stage, stage time, request time, failed phase */
#define S(...) ((munasirel_state){__VA_ARGS__})

static inline int same_state(const munasirel_state *a, const munasirel_state *b)
{
    return a->clock == b->clock && a->gear_box == b->gear_box && a->phase == b->phase && a->phase_time == b->phase_time &&
           a->stage == b->stage && a->stage_time == b->stage_time && a->request_time == b->request_time &&
           a->failed_phase == b->failed_phase;
}

/* ---- the sum, as the last line; returns the status */
static inline int finish(void)
{
    printf("%u passed, %u failed\n", passed, failed);
    return failed == 0 ? 0 : 1;
}

#endif
