/* A step file in the manual's language: which variables of machine m9 each record changes.
 *
 *     m9 FILE
 *
 * Each record gives a line: its index, its code, and for a tick its amount; then the flags that it raises (+) and lowers (-), and the
 * times that it sets. What is refused gives its number, with 9 to 13 how far over it is, and ends the list. The status is 0 where every
 * record is accepted, 1 where one is refused or the file can't be read as a step file, 2 where the file can not be read at all, and 3
 * where the output can not be written.
 */
#include <stdio.h>

#include "munasirel_m9.h"

static uint8_t file[MUNASIREL_LONGEST_FILE + 1];

static size_t number_at(size_t place, size_t size)
{
    return size == 0 ? 0 : file[place] + 256 * number_at(place + 1, size - 1);
}

/* What a step changed. */
static void show(const munasirel_m9_variables *before, const munasirel_m9_variables *after)
{
#define FLAG(name) \
    if (before->name != after->name) \
        printf(" %c%s", after->name ? '+' : '-', #name);
#define TIME(name) \
    if (before->name != after->name) \
        printf(" %s=%lu", #name, (unsigned long)after->name);
    MUNASIREL_M9_FLAGS(FLAG)
    MUNASIREL_M9_TIMES(TIME)
    printf("\n");
}

/* Shows the records of a file of this length; says whether each is accepted. */
static int accepted(size_t length)
{
    uint8_t number = munasirel_judge(file, length);
    if (number != 0 && number <= MUNASIREL_TABLE_NOT_ADMITTED) {
        printf("unread %u\n", (unsigned)number);
        return 0;
    }
    munasirel_limits table = munasirel_table(file, length);
    munasirel_m9_variables now = munasirel_m9_start();
    size_t first = number_at(4, 4), count = number_at(8, 4);
    for (size_t i = 0; i < count; i++) {
        const uint8_t *record = file + first + 4 * i;
        printf("%zu: %u", i, (unsigned)record[0]);
        if (record[0] == MUNASIREL_STEP_TICK)
            printf(" of %u", (unsigned)(record[2] + 256 * record[3]));
        munasirel_m9_moved moved = munasirel_m9_advance(now, table, record[0], record[1], record[2], record[3]);
        if (moved.number != 0) {
            printf(" refused %u", (unsigned)moved.number);
            if (moved.excess > 0)
                printf(", %llu ms %s", (unsigned long long)moved.excess, moved.number == MUNASIREL_TOO_EARLY ? "too early" : "over");
            printf("\n");
            return 0;
        }
        show(&now, &moved.variables);
        now = moved.variables;
    }
    return 1;
}

int main(int count, char **words)
{
    if (count != 2) {
        fprintf(stderr, "usage: m9 FILE\n");
        return 2;
    }
    FILE *input = fopen(words[1], "rb");
    if (!input) {
        fprintf(stderr, "m9: %s: can not be opened\n", words[1]);
        return 2;
    }
    size_t length = fread(file, 1, sizeof file, input);
    int failed = ferror(input);
    fclose(input);
    if (failed) {
        fprintf(stderr, "m9: %s: can not be read\n", words[1]);
        return 2;
    }
    int well = accepted(length);
    if (fflush(stdout) != 0 || ferror(stdout)) {
        fprintf(stderr, "m9: the output can not be written\n");
        return 3;
    }
    return well ? 0 : 1;
}
