/* Files, tables, states, records, blocks and extensions of lists made by chance, the same in every run. */
#ifndef CHANCE_H
#define CHANCE_H

#include <string.h>

#include "reference.h"
#include "shifts.h"

enum { LONGEST_BLOCK = 300 };

/* The file read or made, with room for records that are too many. */
static uint8_t file[MUNASIREL_LONGEST_FILE + 64];
static size_t file_length;

static uint32_t below(uint32_t bound)
{
    static uint64_t chance = 1;
    chance ^= chance << 13;
    chance ^= chance >> 7;
    chance ^= chance << 17;
    return (uint32_t)(chance >> 32) % bound;
}

static int once_in(uint32_t bound)
{
    return below(bound) == 0;
}

static void clear_delays(uint16_t table[ENTRIES])
{
    memset(table + LIMITS, 0, (ENTRIES - LIMITS) * sizeof *table);
}

/* Delays to open and to close that nearly always keep rule 16. */
static void make_delays(uint16_t table[ENTRIES])
{
    for (int i = 0; i < 2; i++) {
        uint16_t device_limit = table[CLUTCH_OPEN_DL + i], plain = 1 + below(device_limit / 2 + 1u);
        table[CLUTCH_OPEN_DE + 2 * i] = plain;
        table[ERROR_CLUTCH_OPEN_DE + 2 * i] = once_in(4) ? device_limit : plain + 1 + below(device_limit / 2 + 1u);
    }
}

/* A table that keeps each rule narrowly, with delays or without, or with one entry changed. */
static void make_table(uint16_t table[ENTRIES])
{
    for (int i = CHANNEL_DL; i <= GEAR_RELEASE_DL; i++)
        table[i] = 1 + below(40);
    uint16_t channels = 2 * table[CHANNEL_DL];
    table[SYNC_EX] = channels + table[ENGINE_SYNC_DL] + below(2);
    table[ZERO_EX] = channels + table[ENGINE_ZERO_DL] + below(2);
    table[OPEN_CLUTCH_DL] = channels + table[CLUTCH_OPEN_DL] + 1 + below(2);
    table[CLOSE_CLUTCH_DL] = channels + table[CLUTCH_CLOSE_DL] + 1 + below(2);
    table[SET_GEAR_DL] = channels + table[GEAR_SET_DL] + 1 + below(2);
    table[RELEASE_DL] = channels + table[GEAR_RELEASE_DL] + 1 + below(2);
    table[SYNC_DE] = table[SYNC_EX] + 1 + below(2);
    table[ZERO_DE] = table[ZERO_EX] + 1 + below(2);
    table[SYNC_DL] = table[SYNC_DE] + below(2);
    table[ZERO_DL] = table[ZERO_DE] + (once_in(2) ? below(2) : below(200));
    uint16_t f = table[SYNC_DL] + table[OPEN_CLUTCH_DL] + table[SET_GEAR_DL] + table[CLOSE_CLUTCH_DL];
    uint16_t n = table[ZERO_DL] + table[OPEN_CLUTCH_DL] + table[RELEASE_DL] + table[CLOSE_CLUTCH_DL];
    uint16_t g1 = table[ZERO_EX] + table[RELEASE_DL] + f, g2 = n + table[SET_GEAR_DL];
    const uint16_t sums[] = {f, n, g1, g2, g1 > g2 ? g1 : g2};
    table[CHANGE_DL] = sums[once_in(4) ? below(4) : 4];
    clear_delays(table);
    if (once_in(2))
        make_delays(table);
    if (once_in(4))
        table[below(ENTRIES)] += 2 * below(2) - 1;
    else if (once_in(20))
        table[below(ENTRIES)] = below(2);
}

/* A step of any kind; a tick ends nearby, or at a limit or right beside it. */
static void make_record(const munasirel_state *state, const uint16_t table[ENTRIES], uint8_t record[4])
{
    int is_tick = once_in(2);
    uint16_t limit = table[below(ENTRIES)];
    const uint32_t ends[] = {state->clock + below(6), state->stage_time + limit, state->phase_time + limit, UINT32_MAX};
    uint16_t amount = is_tick ? ends[below(4)] + below(3) - 1 - state->clock : 0;
    uint8_t other = 1 + below(MUNASIREL_STEP_RESET - 1);
    record[0] = is_tick ? MUNASIREL_STEP_TICK : other == MUNASIREL_STEP_TICK ? MUNASIREL_STEP_RESET : other;
    record[1] = 0;
    record[2] = amount & 255;
    record[3] = amount >> 8;
    if (once_in(100))
        record[below(4)] = below(256);
}

static void put_numbers(uint8_t *bytes, const uint16_t *numbers, size_t count)
{
    for (size_t i = 0; i < count; i++) {
        bytes[2 * i] = numbers[i] & 255;
        bytes[2 * i + 1] = numbers[i] >> 8;
    }
}

/* The file's header, the first so many entries of a table, and the length with so many records. */
static void put_head(const uint16_t table[ENTRIES], uint16_t entries, uint16_t count)
{
    const uint16_t header[] = {12, entries, 12 + 2 * entries, 0, count, 0};
    put_numbers(file, header, 6);
    put_numbers(file + 12, table, entries);
    file_length = 12 + 2 * (size_t)entries + 4 * (size_t)count;
}

/* A file of steps that, but for a few, are allowed one after the other, under a table made by chance or, without one, under the old
 * default. */
static void make_file(void)
{
    static const uint16_t numbers[] = {0, LIMITS, ENTRIES, ENTRIES};
    uint16_t table[ENTRIES], entries = numbers[below(4)], count = 0;
    munasirel_state state = {0};
    uint64_t excess;
    memcpy(table, old_default, sizeof old_default);
    if (entries != 0)
        make_table(table);
    if (entries == LIMITS)
        clear_delays(table);
    for (uint32_t tries = below(1000); tries > 0; tries--) {
        uint8_t *record = file + 12 + 2 * entries + 4 * count;
        make_record(&state, table, record);
        uint8_t number = reference_advance(&state, table, record, &excess);
        if (number == 0 || once_in(number == MUNASIREL_TOO_EARLY ? 20 : 400))
            count++;
    }
    put_head(table, entries, count);
}

/* A file of so many ticks at rest. */
static void make_ticks(const uint16_t table[ENTRIES], uint16_t entries, uint16_t count)
{
    static const uint8_t tick_of_9[] = {MUNASIREL_STEP_TICK, 0, 9, 0};
    put_head(table, entries, count);
    for (size_t at = 12 + 2 * (size_t)entries; at < file_length; at += 4)
        memcpy(file + at, tick_of_9, 4);
}

/* One byte changed, or another length. */
static void damage_file(void)
{
    switch (below(4)) {
    case 0:
        file[below(12)] = below(256);
        break;
    case 1:
        file[below((uint32_t)file_length)] = below(256);
        break;
    case 2:
        file_length = below((uint32_t)file_length);
        break;
    default:
        file_length += 1 + below(8);
    }
}

/* Any state: nearly listed, its times shortly before its clock, or not; before the clock's beginning they lie at its end. In one of
 * eight the clutch has worked for about as long as its delays. */
static void make_state(munasirel_state *state)
{
    static const uint8_t clutch_phases[] = {2, 5, 7, 11, 15, 16, 18, 21};
    const uint32_t clocks[] = {UINT32_MAX - below(70000), below(30), 1000 + below(1000), 1000 + below(1000)};
    state->clock = clocks[below(4)];
    state->gear_box = once_in(20) ? below(256) : below(2);
    state->phase = once_in(20) ? below(256) : below(24);
    state->phase_time = state->clock - (once_in(20) ? below(UINT32_MAX) : below(300));
    state->stage = once_in(20) ? below(256) : below(6);
    state->stage_time = state->clock - (once_in(20) ? below(UINT32_MAX) : below(300));
    state->request_time = below(UINT32_MAX);
    state->failed_phase = below(256);
    if (once_in(8)) {
        state->phase = clutch_phases[below(8)];
        state->stage = MUNASIREL_STAGE_WORKING;
        state->stage_time = state->clock - below(40);
    }
}

/* A block of any length: steps that, but for a few, are allowed one after the other from the state on, up to one for which none was
 * found, and bytes left over. Returns its length. */
static size_t make_block(munasirel_state state, const uint16_t table[ENTRIES], uint8_t block[LONGEST_BLOCK])
{
    size_t length = below(LONGEST_BLOCK + 1);
    uint64_t excess;
    int most = 50;
    for (size_t at = 0; at < length; at++)
        block[at] = below(256);
    for (size_t at = 0; at + 4 <= length; at += 4) {
        int tries = once_in(100) ? 1 : most;
        do
            make_record(&state, table, block + at);
        while (reference_advance(&state, table, block + at, &excess) != 0 && --tries > 0);
        if (tries == 0)
            most = 1;
    }
    return length;
}

/* A list with the records appended to its file, and guard bytes behind its room. */
enum { LIST_GUARD = 16 };
static struct {
    uint8_t list[MUNASIREL_LONGEST_LIST + LIST_GUARD];
    size_t room, held;
    munasirel_state state;
    uint32_t count;
    uint16_t table[ENTRIES];
    uint8_t records[LONGEST_BLOCK];
    size_t length;
} extension;

/* A list with a last entry that fits the state, or nearly. */
static void make_fitting_list(void)
{
    const munasirel_state *state = &extension.state;
    uint32_t shifts = is_unfinished(state->phase) + below(4);
    extension.held = LIST_HEADER + ENTRY * shifts;
    for (size_t at = 0; at < extension.held; at++)
        extension.list[at] = below(256);
    put_u32(extension.list, shifts);
    put_u32(extension.list + 4, LIST_HEADER);
    extension.count = shifts + below(100);
    if (shifts > 0 && !once_in(8)) {
        uint8_t *behind = extension.list + extension.held;
        put_u32(behind - ENTRY + REQUEST_TIME, state->request_time);
        put_end(behind, extension.count - 1 - (is_unfinished(state->phase) ? 0 : below(2)), state);
        if (!is_unfinished(state->phase))
            behind[END - ENTRY] = once_in(8) ? 0 : 1 + below(255);
    }
}

/* One number of the extension changed, or one byte. */
static void damage_extension(void)
{
    size_t last = extension.held > LIST_HEADER ? extension.held - ENTRY : 0;
    switch (below(10)) {
    case 0:
        extension.held = extension.held + below(40) - 20;
        break;
    case 1:
        extension.held = below(LIST_HEADER);
        break;
    case 2:
        extension.list[below(LIST_HEADER)] = below(256);
        break;
    case 3:
        extension.list[last + below(ENTRY)] = below(256);
        break;
    case 4:
        extension.count = once_in(2) ? extension.count + below(3) - 1 : MUNASIREL_MOST_RECORDS - below(80);
        break;
    case 5:
        extension.count = below(UINT32_MAX);
        break;
    case 6:
        make_table(extension.table);
        break;
    case 7:
        make_state(&extension.state);
        break;
    case 8:
        extension.records[below(LONGEST_BLOCK)] = below(256);
        break;
    default:
        extension.room = extension.held - below(3);
    }
}

/* The list of the beginning of a file made, and the records behind it; or a list by the way of a state. One in three is damaged. */
static void make_extension(void)
{
    memset(extension.list, 77, 4096);
    if (once_in(3)) {
        make_state(&extension.state);
        make_table(extension.table);
        make_fitting_list();
        extension.length = make_block(extension.state, extension.table, extension.records);
    } else {
        make_file();
        size_t records = file[4], count = below((uint32_t)reference_verdict(file, file_length).accepted + 1);
        put_u32(file + 8, (uint32_t)count);
        file_length = records + 4 * count;
        extension.state = reference_verdict(file, file_length).state;
        extension.count = (uint32_t)count;
        read_table(file, extension.table);
        extension.held = reference_list(file, file_length, extension.list, MUNASIREL_LONGEST_LIST).length;
        extension.length = below(LONGEST_BLOCK + 1);
        memcpy(extension.records, file + file_length, LONGEST_BLOCK);
    }
    extension.room = extension.held + below(6 * ENTRY);
    if (once_in(3))
        damage_extension();
    if (extension.room > MUNASIREL_LONGEST_LIST)
        extension.room = 0;
}

#endif
