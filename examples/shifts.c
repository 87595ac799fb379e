/* A host that keeps the list of shifts beside a file which grows.
 *
 *     shifts FILE
 *
 * The file's first records are there at first, and their list is built. The others arrive in blocks: with each one the list is
 * extended and the file made longer, without a look at the records that were there. A block that is refused changes neither of
 * them, and is the last. Then each shift is fetched from the list and printed, and the list is held to a fresh one of the file.
 * The status is 0 where the file is accepted and the lists are equal, 1 where it is not or they are not, 2 where it is not given a
 * file that it can read, and 3 where the output can not be written.
 */
#include <stdio.h>
#include <string.h>

#include "munasirel.h"

enum { AT_FIRST = 4, BLOCK = 5 }; /* records */

/* The whole file; and the one that grows, of which so many records are there, with the judge's state and the list after them. */
static uint8_t whole[MUNASIREL_LONGEST_FILE + 1];
static uint8_t file[MUNASIREL_LONGEST_FILE];
static size_t records_at, count;
static munasirel_state state;
static uint8_t list[MUNASIREL_LONGEST_LIST];
static size_t list_length;

static size_t smaller(size_t a, size_t b)
{
    return a < b ? a : b;
}

static size_t number_at(size_t place, size_t size)
{
    return size == 0 ? 0 : whole[place] + 256 * number_at(place + 1, size - 1);
}

/* What a number means here. */
static const char *in_words(uint8_t number)
{
    switch (number) {
    case MUNASIREL_TOO_SHORT:
        return "too short";
    case MUNASIREL_BAD_HEADER:
        return "a wrong header";
    case MUNASIREL_BAD_LENGTH:
        return "a wrong length";
    case MUNASIREL_TABLE_NOT_ADMITTED:
        return "a table that is not admitted";
    case MUNASIREL_BAD_CODE:
        return "no such step";
    case MUNASIREL_BAD_AMOUNT:
        return "a wrong middle byte or amount";
    case MUNASIREL_NOT_ALLOWED:
        return "a step that its phase or stage does not allow";
    case MUNASIREL_WRONG_BOX:
        return "a request with the box on the wrong side";
    case MUNASIREL_TOO_EARLY:
        return "too early for the clutch";
    case MUNASIREL_TOO_LATE:
        return "taken too late";
    case MUNASIREL_PAST_PHASE_LIMIT:
        return "past the phase limit";
    case MUNASIREL_PAST_STAGE_LIMIT:
        return "past the channel or device limit";
    case MUNASIREL_PAST_CLOCK:
        return "past the end of the clock";
    case MUNASIREL_GAP:
        return "a state that does not fit the list";
    default:
        return "no room for the list";
    }
}

/* Prints how a list was made; returns whether it was. */
static int is_listed(const munasirel_listed *listed)
{
    if (listed->number == 0) {
        printf("a list of %zu bytes\n", listed->length);
        return 1;
    }
    printf("refused, %s", in_words(listed->number));
    if (listed->rule > 0)
        printf(", rule %u", (unsigned)listed->rule);
    if (listed->number > MUNASIREL_TABLE_NOT_ADMITTED && listed->number <= MUNASIREL_PAST_CLOCK)
        printf(", at record %zu", listed->index);
    if (listed->excess > 0)
        printf(", by %llu ms", (unsigned long long)listed->excess);
    printf("\n");
    return 0;
}

/* Puts so many records behind those that are there, and counts them in the header. */
static void grow(const uint8_t *block, size_t records)
{
    memcpy(file + records_at + 4 * count, block, 4 * records);
    count += records;
    for (size_t i = 0; i < 4; i++)
        file[8 + i] = (uint8_t)(count >> 8 * i);
}

/* The file with its first records, its list, and the judge's state after them; returns whether it is accepted. */
static int begin(size_t records)
{
    memcpy(file, whole, records_at);
    grow(whole + records_at, records);
    size_t length = records_at + 4 * records;
    munasirel_listed listed = munasirel_list(file, length, list, sizeof list);
    list_length = listed.length;
    state = munasirel_verdict(file, length).state;
    printf("%zu at first: ", records);
    return is_listed(&listed);
}

/* Takes a block of so many records more; returns whether they are accepted. */
static int append(const uint8_t *block, size_t records, munasirel_limits table)
{
    size_t accepted;
    uint64_t excess;
    munasirel_listed listed = munasirel_extend(list, sizeof list, list_length, state, (uint32_t)count, table, block, 4 * records);
    printf("%zu more: ", records);
    if (!is_listed(&listed))
        return 0;
    list_length = listed.length;
    munasirel_advance_block(&state, table, block, 4 * records, &accepted, &excess);
    grow(block, records);
    return 1;
}

/* Fetches and prints each shift of the list; returns whether only the number past the last was refused. */
static int print_shifts(void)
{
    static const char *const kinds[] = {"", "from neutral", "gear to gear", "to neutral"};
    static const char *const routes[] = {"without the clutch", "by the clutch"};
    static const char *const ends[] = {"open", "done", "error"};
    size_t i = 0;
    munasirel_fetched fetched;
    for (; (fetched = munasirel_fetch(list, list_length, i)).number == 0; i++) {
        const munasirel_shift *s = &fetched.shift;
        printf("shift %zu, records %u to %u: %s, %s, requested at %u ms, %s after %u ms\n", i, (unsigned)s->first,
               (unsigned)s->last, kinds[s->kind], routes[s->route], (unsigned)s->request_time, ends[s->end], (unsigned)s->age);
    }
    printf("shifts: %zu\n", i);
    return fetched.number == MUNASIREL_GAP;
}

/* Whether the list is the one that is built of the file as it stands; prints it. */
static int is_fresh(void)
{
    static uint8_t fresh[MUNASIREL_LONGEST_LIST];
    size_t length = munasirel_list(file, records_at + 4 * count, fresh, sizeof fresh).length;
    int same = length == list_length && memcmp(list, fresh, length) == 0;
    printf("the list is %s as a fresh one\n", same ? "the same" : "NOT the same");
    return same;
}

/* Keeps the list of a whole file of so many bytes, as it grows; returns whether all is well. */
static int keep(size_t length)
{
    uint8_t number = munasirel_judge(whole, length);
    if (number != 0 && number <= MUNASIREL_TABLE_NOT_ADMITTED) {
        printf("not a step file: %s\n", in_words(number));
        return 0;
    }
    records_at = number_at(4, 4);
    size_t records = number_at(8, 4);
    munasirel_limits table = munasirel_table(whole, length);
    printf("records: %zu\n", records);
    int well = begin(smaller(AT_FIRST, records));
    if (!well)
        return 0;
    while (well && count < records)
        well = append(whole + records_at + 4 * count, smaller(BLOCK, records - count), table);
    well &= print_shifts();
    return is_fresh() && well;
}

int main(int words, char **word)
{
    if (words != 2) {
        fprintf(stderr, "usage: shifts FILE\n");
        return 2;
    }
    FILE *input = fopen(word[1], "rb");
    if (!input) {
        fprintf(stderr, "shifts: %s: can not be opened\n", word[1]);
        return 2;
    }
    size_t length = fread(whole, 1, sizeof whole, input);
    int failed = ferror(input);
    fclose(input);
    if (failed || length == sizeof whole) {
        fprintf(stderr, "shifts: %s: %s\n", word[1], failed ? "can not be read" : "is longer than a step file can be");
        return 2;
    }
    int well = keep(length);
    if (fflush(stdout) || ferror(stdout)) {
        fprintf(stderr, "shifts: the output can not be written\n");
        return 3;
    }
    return well ? 0 : 1;
}
