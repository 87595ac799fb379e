/* The straightforward C version's running judge by blocks of records. It has a file of its own, so that the step is laid into its
 * loop as it is into the single call of advance.c. */
#include "reference.h"
#include "rules.h"

uint8_t reference_advance_block(munasirel_state *state, const uint16_t table[ENTRIES], const uint8_t *records, size_t length,
                                size_t *accepted, uint64_t *excess)
{
    size_t count = length / 4, index = 0;
    uint8_t number = 0;

    *accepted = 0;
    *excess = 0;
    if (count == 0)
        return MUNASIREL_ACCEPTED;
    if (broken_rule(table) != 0)
        return MUNASIREL_TABLE_NOT_ADMITTED;
    /* A state that is not listed refuses the first record, by 5, 6 or 7; from a listed one a step leads to a listed one. */
    if (!is_listed(state))
        return reference_advance(state, table, records, excess);
    munasirel_state now = *state;
    while (index < count && (number = judge_record(&now, table, records + 4 * index)) == 0)
        index++;
    *state = now;
    *accepted = index;
    /* The refused record by itself, for its excess. */
    return number == 0 ? MUNASIREL_ACCEPTED : reference_advance(state, table, records + 4 * index, excess);
}
