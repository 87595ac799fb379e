/* A vehicle gets the new clutch unit: what of its records would the house's delays refuse?
 *
 *     house FILE
 *
 * The step file is judged under its own table, and its line is printed. Then its records are judged with the house's delays in that
 * table, which must still be admitted, and it is printed how far they are accepted. The status is 0 where both accept all of them, 1
 * where one does not, 2 where it is not given a file that it can read, and 3 where the output can not be written.
 */
#include <stdio.h>

#include "munasirel.h"

static uint8_t file[MUNASIREL_LONGEST_FILE + 1];

static size_t number_at(size_t place, size_t size)
{
    return size == 0 ? 0 : file[place] + 256 * number_at(place + 1, size - 1);
}

/* The table of the vehicle with the delays of the house. */
static munasirel_limits delayed(munasirel_limits table)
{
    const munasirel_limits house = munasirel_house();
    table.clutch_open_de = house.clutch_open_de;
    table.error_clutch_open_de = house.error_clutch_open_de;
    table.clutch_close_de = house.clutch_close_de;
    table.error_clutch_close_de = house.error_clutch_close_de;
    return table;
}

/* Judges a file of this length both ways; returns whether both accept it. */
static int accepted(size_t length)
{
    uint8_t line[MUNASIREL_LINE_ROOM];
    size_t line_length, count;
    uint64_t excess;
    uint8_t own = munasirel_judge(file, length);
    munasirel_line(file, length, line, sizeof line, &line_length);
    printf("as it is: %.*s", (int)line_length, (const char *)line);
    if (own != 0 && own <= MUNASIREL_TABLE_NOT_ADMITTED)
        return 0;
    munasirel_limits table = delayed(munasirel_table(file, length));
    uint8_t rule = munasirel_admit(table);
    if (rule != 0) {
        printf("with delays: its table breaks rule %u\n", (unsigned)rule);
        return 0;
    }
    munasirel_state state = {0};
    size_t first = number_at(4, 4);
    uint8_t number = munasirel_advance_block(&state, table, file + first, length - first, &count, &excess);
    printf("with delays: %zu records accepted", count);
    if (number != 0)
        printf(", then number %u", (unsigned)number);
    if (excess != 0)
        printf(", %llu ms %s", (unsigned long long)excess, number == MUNASIREL_TOO_EARLY ? "too early" : "over");
    printf("\n");
    return own == 0 && number == 0;
}

int main(int words, char **word)
{
    if (words != 2) {
        fprintf(stderr, "usage: house FILE\n");
        return 2;
    }
    FILE *input = fopen(word[1], "rb");
    if (!input) {
        fprintf(stderr, "house: %s: can not be opened\n", word[1]);
        return 2;
    }
    size_t length = fread(file, 1, sizeof file, input);
    int failed = ferror(input);
    fclose(input);
    if (failed) {
        fprintf(stderr, "house: %s: can not be read\n", word[1]);
        return 2;
    }
    int well = accepted(length);
    if (fflush(stdout) != 0 || ferror(stdout)) {
        fprintf(stderr, "house: the output can not be written\n");
        return 3;
    }
    return well ? 0 : 1;
}
