/* What the straightforward C version's list of shifts and its extension share: a list's bytes, and an entry that is laid at the
 * request and completed where the shift ends. */
#ifndef SHIFTS_H
#define SHIFTS_H

#include "rules.h"

/* The header's length and an entry's, and where in an entry its fields stand. */
enum { LIST_HEADER = 8, ENTRY = 16, LAST = 2, KIND = 4, ROUTE = 5, END = 6, ZERO = 7, REQUEST_TIME = 8, AGE = 12 };

static inline void put_u16(uint8_t *bytes, uint32_t number)
{
    bytes[0] = (uint8_t)number;
    bytes[1] = (uint8_t)(number >> 8);
}

static inline void put_u32(uint8_t *bytes, uint32_t number)
{
    put_u16(bytes, number);
    put_u16(bytes + 2, number >> 16);
}

/* 1, 2 or 3 for bytes that are no list, else 0. */
static inline uint8_t refused_list(const uint8_t *list, size_t list_length)
{
    if (list_length < LIST_HEADER)
        return MUNASIREL_TOO_SHORT;
    if (u32_at(list + 4) != LIST_HEADER)
        return MUNASIREL_BAD_HEADER;
    if (list_length != LIST_HEADER + ENTRY * (size_t)u32_at(list))
        return MUNASIREL_BAD_LENGTH;
    return MUNASIREL_ACCEPTED;
}

/* The age of the shift; in a state that no list of steps leads to, the request may lie ahead. */
static inline uint32_t age_in(const munasirel_state *state)
{
    return state->clock < state->request_time ? 0 : state->clock - state->request_time;
}

/* The entry before `behind` ends, or stands open, at this record and in the state after it. */
static inline void put_end(uint8_t *behind, size_t index, const munasirel_state *state)
{
    uint8_t *entry = behind - ENTRY;
    put_u16(entry + LAST, (uint32_t)index);
    entry[END] = state->phase == MUNASIREL_PHASE_DONE    ? MUNASIREL_END_DONE
                 : state->phase == MUNASIREL_PHASE_ERROR ? MUNASIREL_END_ERROR
                                                         : MUNASIREL_END_OPEN;
    put_u32(entry + AGE, age_in(state));
}

/* What an accepted record adds to the entries that end at `behind`, with the state after it; returns where they end then. */
static inline uint8_t *list_record(uint8_t *behind, size_t index, uint8_t code, const munasirel_state *state)
{
    switch (code) {
    case MUNASIREL_STEP_FROM_NEUTRAL:
    case MUNASIREL_STEP_GEAR_TO_GEAR:
    case MUNASIREL_STEP_TO_NEUTRAL:
        put_u32(behind, (uint32_t)index);
        put_u32(behind + KIND, code);
        put_u32(behind + REQUEST_TIME, state->clock);
        return behind + ENTRY;
    case MUNASIREL_STEP_ASK_CLUTCH:
        behind[ROUTE - ENTRY] = MUNASIREL_ROUTE_CLUTCH;
        break;
    case MUNASIREL_STEP_TAKE:
    case MUNASIREL_STEP_RAISE_ERROR:
        if (!is_unfinished(state->phase))
            put_end(behind, index, state);
    }
    return behind;
}

#endif
