/* The straightforward C version's running judge: one record at a time on a state that the caller keeps. */
#include "reference.h"
#include "rules.h"

uint8_t reference_advance(munasirel_state *state, const uint16_t table[ENTRIES], const uint8_t record[4], uint64_t *excess)
{
    uint8_t code;
    uint16_t amount;

    *excess = 0;
    if (broken_rule(table) != 0)
        return MUNASIREL_TABLE_NOT_ADMITTED;
    uint8_t number = read_record(record, &code, &amount);
    if (number != 0)
        return number;
    if (!is_listed(state))
        return MUNASIREL_NOT_ALLOWED;
    number = step(state, table, code, amount);
    if (number != 0)
        *excess = excess_of(number, state, table, record);
    return number;
}
