/* The straightforward C version's list of shifts: a step file is judged and listed in one pass, into a list of its own that is copied
 * where the file is accepted and the list fits. It is the quickest of the shapes that were counted, in instructions a record of the
 * busy and of the parked night, before clutches had delays:
 *
 *     70.91, 56.39   the judge, a count of the requests, then a second pass that keeps the phase
 *     69.41, 54.90   the same, counted in 16 bits
 *     68.66, 49.90   and ticks and codes 4 to 7 apart
 *     68.62, 54.90   a second pass without the phase: a shift is done at the take before the finish
 *     64.61, 51.02   and no count where the buffer has room for any list
 *     63.41, 46.02   and ticks, codes 4 to 7 and takes apart
 *     49.31 to 54.69, 34.01 to 38.01   in one pass, entries as structs that become bytes at the end
 *     49.32 to 51.01, 34.01 to 40.01   in one pass, an entry laid whole where its shift ends, kind and route kept or by the phase
 *     48.86 to 50.16, 34.01 to 35.02   in one pass as here, otherwise written
 *     47.90, 33.01   as here
 *
 * Without a list the judge of reference.c took 49.03 and 35.02: such differences come from how the compiler shares out registers. With
 * the delays they take 51.21 and 34.02 with a list, and 50.89 and 35.02 without. */
#include <string.h>

#include "reference.h"
#include "shifts.h"

munasirel_listed reference_list(const uint8_t *file, size_t file_length, uint8_t *out, size_t out_length)
{
    munasirel_state state = {0};
    uint16_t table[ENTRIES];
    uint8_t list[MUNASIREL_LONGEST_LIST], *behind = list + LIST_HEADER;

    uint8_t number = refused_header(file, file_length);
    if (number != 0)
        return (munasirel_listed){number, 0, 0, 0, 0};
    read_table(file, table);
    uint8_t rule = broken_rule(table);
    if (rule != 0)
        return (munasirel_listed){MUNASIREL_TABLE_NOT_ADMITTED, rule, 0, 0, 0};

    const uint8_t *records = file + u32_at(file + 4);
    size_t count = u32_at(file + 8);
    for (size_t index = 0; index < count; index++) {
        const uint8_t *record = records + 4 * index;
        number = judge_record(&state, table, record);
        if (number != 0)
            return (munasirel_listed){number, 0, index, excess_of(number, &state, table, record), 0};
        behind = list_record(behind, index, record[0], &state);
    }
    if (is_unfinished(state.phase))
        put_end(behind, count - 1, &state);

    size_t length = (size_t)(behind - list);
    if (length > out_length)
        return (munasirel_listed){MUNASIREL_NO_ROOM, 0, 0, 0, 0};
    put_u32(list, (uint32_t)((length - LIST_HEADER) / ENTRY));
    put_u32(list + 4, LIST_HEADER);
    memcpy(out, list, length);
    return (munasirel_listed){MUNASIREL_ACCEPTED, 0, 0, 0, length};
}

munasirel_fetched reference_fetch(const uint8_t *list, size_t list_length, size_t number)
{
    uint8_t refused = refused_list(list, list_length);
    if (refused == 0 && number >= u32_at(list))
        refused = MUNASIREL_GAP;
    if (refused != 0)
        return (munasirel_fetched){refused, {0, 0, 0, 0, 0, 0, 0}};
    const uint8_t *entry = list + LIST_HEADER + ENTRY * number;
    return (munasirel_fetched){MUNASIREL_ACCEPTED,
                               {u16_at(entry), u16_at(entry + LAST), entry[KIND], entry[ROUTE], entry[END],
                                u32_at(entry + REQUEST_TIME), u32_at(entry + AGE)}};
}
