/* The straightforward C version's extension of a list: the records appended are judged and listed in one pass. It has a file of its
 * own, so that the step is laid into its loop as it is into that of list.c. */
#include <string.h>

#include "reference.h"
#include "shifts.h"

/* Whether a list of so many bytes can be that of a file which ends in this state after so many records. */
static int fits(const uint8_t *list, size_t held, const munasirel_state *state, uint32_t count)
{
    if (held == LIST_HEADER)
        return !is_unfinished(state->phase);
    const uint8_t *entry = list + held - ENTRY;
    if (is_unfinished(state->phase))
        return entry[END] == MUNASIREL_END_OPEN && u16_at(entry + LAST) == count - 1 &&
               u32_at(entry + REQUEST_TIME) == state->request_time && u32_at(entry + AGE) == age_in(state);
    return entry[END] != MUNASIREL_END_OPEN && u16_at(entry + LAST) < count;
}

munasirel_listed reference_extend(uint8_t *list, size_t list_length, size_t held, munasirel_state state, uint32_t count,
                                  const uint16_t table[ENTRIES], const uint8_t *records, size_t records_length)
{
    size_t more = records_length / 4;
    uint8_t entries[MUNASIREL_LONGEST_LIST], *behind = entries;

    if (held > list_length)
        return (munasirel_listed){MUNASIREL_NO_ROOM, 0, 0, 0, 0};
    uint8_t number = refused_list(list, held);
    if (number != 0)
        return (munasirel_listed){number, 0, 0, 0, 0};
    if (count + more > most_records(has_delays(table) ? ENTRIES : LIMITS) || u32_at(list) > count)
        return (munasirel_listed){MUNASIREL_BAD_HEADER, 0, 0, 0, 0};
    uint8_t rule = broken_rule(table);
    if (rule != 0)
        return (munasirel_listed){MUNASIREL_TABLE_NOT_ADMITTED, rule, 0, 0, 0};
    if (!fits(list, held, &state, count))
        return (munasirel_listed){MUNASIREL_GAP, 0, 0, 0, 0};
    /* A state that is not listed refuses the first record, by 5, 6 or 7; from a listed one a step leads to a listed one. */
    if (more > 0 && !is_listed(&state)) {
        uint64_t excess;
        number = reference_advance(&state, table, records, &excess);
        return (munasirel_listed){number, 0, count, excess, 0};
    }

    if (is_unfinished(state.phase)) {
        held -= ENTRY;
        memcpy(entries, list + held, ENTRY);
        entries[ZERO] = 0;
        behind += ENTRY;
    }
    for (size_t i = 0; i < more; i++) {
        const uint8_t *record = records + 4 * i;
        number = judge_record(&state, table, record);
        if (number != 0)
            return (munasirel_listed){number, 0, count + i, excess_of(number, &state, table, record), 0};
        behind = list_record(behind, count + i, record[0], &state);
    }
    if (is_unfinished(state.phase) && more > 0)
        put_end(behind, count + more - 1, &state);

    size_t length = held + (size_t)(behind - entries);
    if (length > list_length)
        return (munasirel_listed){MUNASIREL_NO_ROOM, 0, 0, 0, 0};
    memcpy(list + held, entries, (size_t)(behind - entries));
    put_u32(list, (uint32_t)((length - LIST_HEADER) / ENTRY));
    return (munasirel_listed){MUNASIREL_ACCEPTED, 0, 0, 0, length};
}
