/* The rules of document 01, as document 02 changes them, in straightforward C: the limit table, the phases, the thirteen steps, what
 * a file's and a record's bytes mean. The judge, the running judge, its blocks, the list and its extension each compile their own copy. */
#ifndef RULES_H
#define RULES_H

#include <string.h>

#include "munasirel.h"

/* ---- numbers in bytes */
static inline uint16_t u16_at(const uint8_t *bytes)
{
    return (uint16_t)(bytes[0] | bytes[1] << 8);
}

static inline uint32_t u32_at(const uint8_t *bytes)
{
    return u16_at(bytes) | (uint32_t)u16_at(bytes + 2) << 16;
}

/* ---- the limit table: its entries, the old default, its rules */
enum {
    CHANNEL_DL,
    ENGINE_SYNC_DL,
    ENGINE_ZERO_DL,
    CLUTCH_OPEN_DL,
    CLUTCH_CLOSE_DL,
    GEAR_SET_DL,
    GEAR_RELEASE_DL,
    SYNC_EX,
    ZERO_EX,
    SYNC_DL,
    ZERO_DL,
    SYNC_DE,
    ZERO_DE,
    OPEN_CLUTCH_DL,
    SET_GEAR_DL,
    RELEASE_DL,
    CLOSE_CLUTCH_DL,
    CHANGE_DL,
    CLUTCH_OPEN_DE,
    ERROR_CLUTCH_OPEN_DE,
    CLUTCH_CLOSE_DE,
    ERROR_CLUTCH_CLOSE_DE,
    ENTRIES,
    LIMITS = CLUTCH_OPEN_DE /* the entries before the delays */
};

/* Files without a table are judged under this. The new default is written out wherever it is meant. */
static const uint16_t old_default[ENTRIES] = {5,   100, 200, 150, 150, 300, 200, 150, 250, 155, 255,
                                              151, 251, 200, 350, 250, 200, 1500, 0, 0, 0, 0};

static inline int is_set(const uint16_t table[ENTRIES])
{
    for (int i = 0; i < LIMITS; i++)
        if (table[i] == 0)
            return 0;
    return 1;
}

static inline int has_delays(const uint16_t table[ENTRIES])
{
    static const uint16_t none[ENTRIES - LIMITS];
    return memcmp(table + LIMITS, none, sizeof none) != 0;
}

static inline int is_delay(uint16_t plain, uint16_t error, uint16_t device_limit)
{
    return plain >= 1 && plain < error && error <= device_limit;
}

/* The first rule that a table breaks, 0 for an admitted one. */
static inline uint8_t broken_rule(const uint16_t table[ENTRIES])
{
    uint32_t channels = 2 * (uint32_t)table[CHANNEL_DL];
    uint32_t f = (uint32_t)table[SYNC_DL] + table[OPEN_CLUTCH_DL] + table[SET_GEAR_DL] + table[CLOSE_CLUTCH_DL];
    uint32_t n = (uint32_t)table[ZERO_DL] + table[OPEN_CLUTCH_DL] + table[RELEASE_DL] + table[CLOSE_CLUTCH_DL];
    uint32_t g1 = table[ZERO_EX] + table[RELEASE_DL] + f;
    uint32_t g2 = n + table[SET_GEAR_DL];

    if (!is_set(table))
        return 1;
    if (channels + table[ENGINE_SYNC_DL] > table[SYNC_EX])
        return 2;
    if (channels + table[ENGINE_ZERO_DL] > table[ZERO_EX])
        return 3;
    if (channels + table[CLUTCH_OPEN_DL] >= table[OPEN_CLUTCH_DL])
        return 4;
    if (channels + table[CLUTCH_CLOSE_DL] >= table[CLOSE_CLUTCH_DL])
        return 5;
    if (channels + table[GEAR_SET_DL] >= table[SET_GEAR_DL])
        return 6;
    if (channels + table[GEAR_RELEASE_DL] >= table[RELEASE_DL])
        return 7;
    if (table[SYNC_EX] >= table[SYNC_DE])
        return 8;
    if (table[ZERO_EX] >= table[ZERO_DE])
        return 9;
    if (table[SYNC_DE] > table[SYNC_DL])
        return 10;
    if (table[ZERO_DE] > table[ZERO_DL])
        return 11;
    if (f > table[CHANGE_DL])
        return 12;
    if (n > table[CHANGE_DL])
        return 13;
    if (g1 > table[CHANGE_DL])
        return 14;
    if (g2 > table[CHANGE_DL])
        return 15;
    if (has_delays(table) && (!is_delay(table[CLUTCH_OPEN_DE], table[ERROR_CLUTCH_OPEN_DE], table[CLUTCH_OPEN_DL]) ||
                              !is_delay(table[CLUTCH_CLOSE_DE], table[ERROR_CLUTCH_CLOSE_DE], table[CLUTCH_CLOSE_DL])))
        return 16;
    return 0;
}

/* ---- a file */
static inline uint32_t most_records(int entries)
{
    return entries == ENTRIES ? MUNASIREL_MOST_RECORDS_22 : MUNASIREL_MOST_RECORDS;
}

/* 1, 2 or 3 for a file whose header or length is wrong, else 0. */
static inline uint8_t refused_header(const uint8_t *file, size_t file_length)
{
    if (file_length < 12)
        return MUNASIREL_TOO_SHORT;
    uint16_t table_offset = u16_at(file);
    uint16_t entries = u16_at(file + 2);
    uint32_t record_offset = u32_at(file + 4);
    uint32_t count = u32_at(file + 8);
    if (table_offset != 12 || (entries != 0 && entries != LIMITS && entries != ENTRIES) || record_offset != 12u + 2u * entries ||
        count > most_records(entries))
        return MUNASIREL_BAD_HEADER;
    if (file_length != record_offset + 4 * (size_t)count)
        return MUNASIREL_BAD_LENGTH;
    return MUNASIREL_ACCEPTED;
}

/* The table of a file with a good header. */
static inline void read_table(const uint8_t *file, uint16_t table[ENTRIES])
{
    int entries = u16_at(file + 2);
    for (int i = 0; i < LIMITS; i++)
        table[i] = entries == 0 ? old_default[i] : u16_at(file + 12 + 2 * i);
    for (int i = LIMITS; i < ENTRIES; i++)
        table[i] = entries == ENTRIES ? u16_at(file + 12 + 2 * i) : 0;
}

/* ---- orders and phases */
enum { SYNC = 1, ZERO_TORQUE, OPEN, CLOSE, SET, RELEASE };

/* The entries of an order's limits; EX and DE are the engine's, the plain and the error delay the clutch's. */
static const struct {
    uint8_t device_limit, phase_limit, ex, de, plain, error;
} limits_of[] = {
    [SYNC] = {ENGINE_SYNC_DL, SYNC_DL, SYNC_EX, SYNC_DE, 0, 0},
    [ZERO_TORQUE] = {ENGINE_ZERO_DL, ZERO_DL, ZERO_EX, ZERO_DE, 0, 0},
    [OPEN] = {CLUTCH_OPEN_DL, OPEN_CLUTCH_DL, 0, 0, CLUTCH_OPEN_DE, ERROR_CLUTCH_OPEN_DE},
    [CLOSE] = {CLUTCH_CLOSE_DL, CLOSE_CLUTCH_DL, 0, 0, CLUTCH_CLOSE_DE, ERROR_CLUTCH_CLOSE_DE},
    [SET] = {GEAR_SET_DL, SET_GEAR_DL, 0, 0, 0, 0},
    [RELEASE] = {GEAR_RELEASE_DL, RELEASE_DL, 0, 0, 0, 0},
};

/* Of each phase its order, the next phase when taken, and the phase after asking for the clutch. */
static const struct {
    uint8_t order, taken, clutch;
} phases[] = {
    [1] = {SYNC, 3, 2},
    [2] = {OPEN, 4, 0},
    [3] = {SET, 22, 0},
    [4] = {SET, 5, 0},
    [5] = {CLOSE, 22, 0},
    [6] = {ZERO_TORQUE, 8, 7},
    [7] = {OPEN, 9, 0},
    [8] = {RELEASE, 10, 0},
    [9] = {RELEASE, 14, 0},
    [10] = {SYNC, 12, 11},
    [11] = {OPEN, 13, 0},
    [12] = {SET, 22, 0},
    [13] = {SET, 15, 0},
    [14] = {SET, 16, 0},
    [15] = {CLOSE, 22, 0},
    [16] = {CLOSE, 22, 0},
    [17] = {ZERO_TORQUE, 19, 18},
    [18] = {OPEN, 20, 0},
    [19] = {RELEASE, 22, 0},
    [20] = {RELEASE, 21, 0},
    [21] = {CLOSE, 22, 0},
};

static inline int is_unfinished(uint8_t phase)
{
    return phase >= 1 && phase <= 21;
}

static inline int is_engine_phase(uint8_t phase)
{
    return phase == 1 || phase == 6 || phase == 10 || phase == 17;
}

/* ---- the thirteen steps on a listed state: each answers 0 and changes the state, or answers the number that refuses it */
static inline int shifts_in(const munasirel_state *state, uint8_t stage)
{
    return is_unfinished(state->phase) && state->stage == stage;
}

static inline void enter(munasirel_state *state, uint8_t phase)
{
    if (phase == MUNASIREL_PHASE_AT_REST)
        state->request_time = 0;
    state->failed_phase = phase == MUNASIREL_PHASE_ERROR ? state->phase : 0;
    state->phase = phase;
    state->phase_time = state->clock;
    state->stage = is_unfinished(phase) ? MUNASIREL_STAGE_SENT : MUNASIREL_STAGE_NONE;
    state->stage_time = state->clock;
}

static inline uint8_t request(munasirel_state *state, uint8_t gear_box, uint8_t phase)
{
    if (state->phase != MUNASIREL_PHASE_AT_REST)
        return MUNASIREL_NOT_ALLOWED;
    if (state->gear_box != gear_box)
        return MUNASIREL_WRONG_BOX;
    enter(state, phase);
    state->request_time = state->clock;
    return MUNASIREL_ACCEPTED;
}

static inline uint8_t move_stage(munasirel_state *state, uint8_t from, uint8_t to)
{
    if (!shifts_in(state, from))
        return MUNASIREL_NOT_ALLOWED;
    state->stage = to;
    state->stage_time = state->clock;
    return MUNASIREL_ACCEPTED;
}

/* The device is good or failed; a clutch can not be before its delay. */
static inline uint8_t report(munasirel_state *state, const uint16_t table[ENTRIES], uint8_t to)
{
    if (!shifts_in(state, MUNASIREL_STAGE_WORKING))
        return MUNASIREL_NOT_ALLOWED;
    uint8_t order = phases[state->phase].order;
    if (order == OPEN || order == CLOSE) {
        uint16_t delay = table[to == MUNASIREL_STAGE_GOOD ? limits_of[order].plain : limits_of[order].error];
        if (state->clock < (uint64_t)state->stage_time + delay)
            return MUNASIREL_TOO_EARLY;
    }
    state->stage = to;
    state->stage_time = state->clock;
    return MUNASIREL_ACCEPTED;
}

static inline uint8_t take(munasirel_state *state, const uint16_t table[ENTRIES])
{
    if (!shifts_in(state, MUNASIREL_STAGE_GOOD))
        return MUNASIREL_NOT_ALLOWED;
    uint8_t order = phases[state->phase].order;
    if (is_engine_phase(state->phase)) {
        if (state->clock > (uint64_t)state->phase_time + table[limits_of[order].ex])
            return MUNASIREL_TOO_LATE;
    }
    if (order == SET)
        state->gear_box = MUNASIREL_BOX_IN_GEAR;
    if (order == RELEASE)
        state->gear_box = MUNASIREL_BOX_NEUTRAL;
    enter(state, phases[state->phase].taken);
    return MUNASIREL_ACCEPTED;
}

static inline uint8_t ask_clutch(munasirel_state *state, const uint16_t table[ENTRIES])
{
    if (!shifts_in(state, MUNASIREL_STAGE_WAITING) || !is_engine_phase(state->phase))
        return MUNASIREL_NOT_ALLOWED;
    uint16_t de = table[limits_of[phases[state->phase].order].de];
    if (state->clock < (uint64_t)state->phase_time + de)
        return MUNASIREL_TOO_EARLY;
    enter(state, phases[state->phase].clutch);
    return MUNASIREL_ACCEPTED;
}

static inline uint8_t tick(munasirel_state *state, const uint16_t table[ENTRIES], uint16_t amount)
{
    uint64_t clock = (uint64_t)state->clock + amount;

    if (clock > UINT32_MAX)
        return MUNASIREL_PAST_CLOCK;
    if (is_unfinished(state->phase)) {
        uint8_t order = phases[state->phase].order;
        switch (state->stage) {
        case MUNASIREL_STAGE_SENT:
        case MUNASIREL_STAGE_GOOD:
            if (clock > (uint64_t)state->stage_time + table[CHANNEL_DL])
                return MUNASIREL_PAST_STAGE_LIMIT;
            break;
        case MUNASIREL_STAGE_WORKING:
            if (clock > (uint64_t)state->stage_time + table[limits_of[order].device_limit])
                return MUNASIREL_PAST_STAGE_LIMIT;
            break;
        }
        if (clock > (uint64_t)state->phase_time + table[limits_of[order].phase_limit])
            return MUNASIREL_PAST_PHASE_LIMIT;
    }
    state->clock = (uint32_t)clock;
    return MUNASIREL_ACCEPTED;
}

static inline uint8_t step(munasirel_state *state, const uint16_t table[ENTRIES], uint8_t code, uint16_t amount)
{
    switch (code) {
    case MUNASIREL_STEP_FROM_NEUTRAL:
        return request(state, MUNASIREL_BOX_NEUTRAL, 1);
    case MUNASIREL_STEP_GEAR_TO_GEAR:
        return request(state, MUNASIREL_BOX_IN_GEAR, 6);
    case MUNASIREL_STEP_TO_NEUTRAL:
        return request(state, MUNASIREL_BOX_IN_GEAR, 17);
    case MUNASIREL_STEP_DELIVER:
        return move_stage(state, MUNASIREL_STAGE_SENT, MUNASIREL_STAGE_WORKING);
    case MUNASIREL_STEP_DEVICE_GOOD:
        return report(state, table, MUNASIREL_STAGE_GOOD);
    case MUNASIREL_STEP_DEVICE_FAILED:
        if (is_engine_phase(state->phase))
            return MUNASIREL_NOT_ALLOWED;
        return report(state, table, MUNASIREL_STAGE_FAILED);
    case MUNASIREL_STEP_ENGINE_WAITS:
        if (!is_engine_phase(state->phase))
            return MUNASIREL_NOT_ALLOWED;
        return move_stage(state, MUNASIREL_STAGE_WORKING, MUNASIREL_STAGE_WAITING);
    case MUNASIREL_STEP_TAKE:
        return take(state, table);
    case MUNASIREL_STEP_ASK_CLUTCH:
        return ask_clutch(state, table);
    case MUNASIREL_STEP_RAISE_ERROR:
        if (!shifts_in(state, MUNASIREL_STAGE_FAILED))
            return MUNASIREL_NOT_ALLOWED;
        enter(state, MUNASIREL_PHASE_ERROR);
        return MUNASIREL_ACCEPTED;
    case MUNASIREL_STEP_FINISH:
        if (state->phase != MUNASIREL_PHASE_DONE)
            return MUNASIREL_NOT_ALLOWED;
        enter(state, MUNASIREL_PHASE_AT_REST);
        return MUNASIREL_ACCEPTED;
    case MUNASIREL_STEP_RESET:
        if (state->phase != MUNASIREL_PHASE_ERROR)
            return MUNASIREL_NOT_ALLOWED;
        enter(state, MUNASIREL_PHASE_AT_REST);
        return MUNASIREL_ACCEPTED;
    default:
        return tick(state, table, amount);
    }
}

/* ---- any state, and a record */
static inline int is_listed(const munasirel_state *state)
{
    return state->phase <= MUNASIREL_PHASE_ERROR && state->stage <= MUNASIREL_STAGE_WAITING &&
           state->gear_box <= MUNASIREL_BOX_IN_GEAR;
}

/* The code and the amount of a record's four bytes, or 5 or 6. */
static inline uint8_t read_record(const uint8_t record[4], uint8_t *code, uint16_t *amount)
{
    *code = record[0];
    *amount = u16_at(record + 2);
    if (*code < MUNASIREL_STEP_FROM_NEUTRAL || *code > MUNASIREL_STEP_RESET)
        return MUNASIREL_BAD_CODE;
    if (record[1] != 0 || (*code == MUNASIREL_STEP_TICK) != (*amount != 0))
        return MUNASIREL_BAD_AMOUNT;
    return MUNASIREL_ACCEPTED;
}

/* How far over a refused record is, by its number and on the state before it; with 9 and 10 the amount is 0. */
static inline uint64_t excess_of(uint8_t number, const munasirel_state *state, const uint16_t table[ENTRIES], const uint8_t record[4])
{
    uint8_t order = is_unfinished(state->phase) ? phases[state->phase].order : 0;
    uint64_t clock = (uint64_t)state->clock + u16_at(record + 2);

    switch (number) {
    case MUNASIREL_TOO_EARLY:
        if (record[0] == MUNASIREL_STEP_ASK_CLUTCH)
            return state->phase_time + (uint64_t)table[limits_of[order].de] - clock;
        return state->stage_time - clock +
               table[record[0] == MUNASIREL_STEP_DEVICE_GOOD ? limits_of[order].plain : limits_of[order].error];
    case MUNASIREL_TOO_LATE:
        return clock - state->phase_time - table[limits_of[order].ex];
    case MUNASIREL_PAST_PHASE_LIMIT:
        return clock - state->phase_time - table[limits_of[order].phase_limit];
    case MUNASIREL_PAST_STAGE_LIMIT:
        return clock - state->stage_time -
               table[state->stage == MUNASIREL_STAGE_WORKING ? limits_of[order].device_limit : CHANNEL_DL];
    case MUNASIREL_PAST_CLOCK:
        return clock - UINT32_MAX;
    default:
        return 0;
    }
}

/* A record's four bytes on a listed state, under an admitted table. */
static inline uint8_t judge_record(munasirel_state *state, const uint16_t table[ENTRIES], const uint8_t record[4])
{
    uint8_t code;
    uint16_t amount;
    uint8_t number = read_record(record, &code, &amount);

    if (number != 0)
        return number;
    return step(state, table, code, amount);
}

#endif
