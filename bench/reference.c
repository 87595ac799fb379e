/* The straightforward C version's judge: a step file to its verdict, and the line of it. */
#include <stdio.h>
#include <string.h>

#include "reference.h"
#include "rules.h"

munasirel_judged reference_verdict(const uint8_t *file, size_t file_length)
{
    munasirel_state state = {0};
    uint16_t table[ENTRIES];

    uint8_t number = refused_header(file, file_length);
    if (number != 0)
        return (munasirel_judged){number, 0, 0, 0, state};
    read_table(file, table);
    uint8_t rule = broken_rule(table);
    if (rule != 0)
        return (munasirel_judged){MUNASIREL_TABLE_NOT_ADMITTED, rule, 0, 0, state};

    const uint8_t *records = file + u32_at(file + 4);
    size_t count = u32_at(file + 8);
    for (size_t index = 0; index < count; index++) {
        number = judge_record(&state, table, records + 4 * index);
        if (number != 0)
            return (munasirel_judged){number, 0, index, excess_of(number, &state, table, records + 4 * index), state};
    }
    return (munasirel_judged){MUNASIREL_ACCEPTED, 0, count, 0, state};
}

uint8_t reference_line(const uint8_t *file, size_t file_length, uint8_t *out, size_t out_length, size_t *line_length)
{
    munasirel_judged verdict = reference_verdict(file, file_length);
    const munasirel_state *state = &verdict.state;
    const char *word = verdict.number == 0 ? "accepted" : verdict.number <= MUNASIREL_TABLE_NOT_ADMITTED ? "unread" : "refused";
    char line[MUNASIREL_LINE_ROOM];
    size_t length = (size_t)snprintf(line, sizeof line, "%s %zu %u %u %u %u %llu\n", word, verdict.accepted,
                                     (unsigned)verdict.number, (unsigned)state->clock, (unsigned)state->phase,
                                     (unsigned)state->gear_box, (unsigned long long)verdict.excess);

    *line_length = 0;
    if (length > out_length)
        return MUNASIREL_NO_ROOM;
    memcpy(out, line, length);
    *line_length = length;
    return MUNASIREL_ACCEPTED;
}
