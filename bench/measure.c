/* Works on a step file by the library and by the C version, to have its instructions counted or its time taken.
 *
 *     measure CALL TIMES FILE    makes a call so many times; the running judges advance over all the file's records, by one of them
 *                                a call, or by N as library-block-N or C-block-N; so do the lists that are extended, as
 *                                library-extend-N or C-extend-N, from the list of no records on
 *     measure FILE               prints the nanoseconds a record of judging, the best and the median of the library, then of C
 *
 * The status is the number that refuses the file, or 0. */
#define _POSIX_C_SOURCE 199309L
#include <stdio.h>
#include <stdlib.h>
#include <string.h>
#include <time.h>

#include "reference.h"

static uint8_t file[MUNASIREL_LONGEST_FILE];
static size_t file_length;
static const uint8_t *records;
static size_t block; /* the records of a block */
static uint8_t list[MUNASIREL_LONGEST_LIST];
static munasirel_state states[MUNASIREL_MOST_RECORDS + 1]; /* before each block of records */

/* ---- the calls */
static uint8_t library_judge(void)
{
    return munasirel_judge(file, file_length);
}

static uint8_t c_judge(void)
{
    return reference_verdict(file, file_length).number;
}

static uint8_t library_line(void)
{
    uint8_t line[MUNASIREL_LINE_ROOM];
    size_t length;
    return munasirel_line(file, file_length, line, sizeof line, &length);
}

static uint8_t c_line(void)
{
    uint8_t line[MUNASIREL_LINE_ROOM];
    size_t length;
    return reference_line(file, file_length, line, sizeof line, &length);
}

static uint8_t library_advance(void)
{
    munasirel_limits table = munasirel_table(file, file_length);
    munasirel_state state = {0};
    uint8_t number = 0;
    uint64_t excess;
    for (const uint8_t *record = records; number == 0 && record < file + file_length; record += 4)
        number = munasirel_advance(&state, table, record[0], record[1], record[2], record[3], &excess);
    return number;
}

static uint8_t c_advance(void)
{
    munasirel_limits limits = munasirel_table(file, file_length);
    uint16_t table[22];
    munasirel_state state = {0};
    uint8_t number = 0;
    uint64_t excess;
    memcpy(table, &limits, sizeof table);
    for (const uint8_t *record = records; number == 0 && record < file + file_length; record += 4)
        number = reference_advance(&state, table, record, &excess);
    return number;
}

/* The bytes of the block that begins here; the last may be shorter. */
static size_t block_length(const uint8_t *from)
{
    size_t left = (size_t)(file + file_length - from);
    return left < 4 * block ? left : 4 * block;
}

static uint8_t library_block(void)
{
    munasirel_limits table = munasirel_table(file, file_length);
    munasirel_state state = {0};
    uint8_t number = 0;
    size_t length, accepted;
    uint64_t excess;
    for (const uint8_t *from = records; number == 0 && (length = block_length(from)) > 0; from += length)
        number = munasirel_advance_block(&state, table, from, length, &accepted, &excess);
    return number;
}

static uint8_t c_block(void)
{
    munasirel_limits limits = munasirel_table(file, file_length);
    uint16_t table[22];
    munasirel_state state = {0};
    uint8_t number = 0;
    size_t length, accepted;
    uint64_t excess;
    memcpy(table, &limits, sizeof table);
    for (const uint8_t *from = records; number == 0 && (length = block_length(from)) > 0; from += length)
        number = reference_advance_block(&state, table, from, length, &accepted, &excess);
    return number;
}

static uint8_t library_list(void)
{
    return munasirel_list(file, file_length, list, sizeof list).number;
}

static uint8_t c_list(void)
{
    return reference_list(file, file_length, list, sizeof list).number;
}

/* The list of no records. */
static munasirel_listed empty_list(void)
{
    static const uint8_t empty[] = {0, 0, 0, 0, 8, 0, 0, 0};
    memcpy(list, empty, sizeof empty);
    return (munasirel_listed){0, 0, 0, 0, sizeof empty};
}

static uint8_t library_extend(void)
{
    munasirel_limits table = munasirel_table(file, file_length);
    munasirel_listed listed = empty_list();
    uint32_t count = 0;
    size_t length;
    for (const uint8_t *from = records; listed.number == 0 && (length = block_length(from)) > 0; from += length) {
        listed = munasirel_extend(list, sizeof list, listed.length, states[count / block], count, table, from, length);
        count += (uint32_t)block;
    }
    return listed.number;
}

static uint8_t c_extend(void)
{
    munasirel_limits limits = munasirel_table(file, file_length);
    uint16_t table[22];
    munasirel_listed listed = empty_list();
    uint32_t count = 0;
    size_t length;
    memcpy(table, &limits, sizeof table);
    for (const uint8_t *from = records; listed.number == 0 && (length = block_length(from)) > 0; from += length) {
        listed = reference_extend(list, sizeof list, listed.length, states[count / block], count, table, from, length);
        count += (uint32_t)block;
    }
    return listed.number;
}

/* Makes the states for an extension ready, once. */
static void make_states(void)
{
    munasirel_limits table = munasirel_table(file, file_length);
    size_t length, accepted;
    uint64_t excess;
    munasirel_state *state = states;
    for (const uint8_t *from = records; (length = block_length(from)) > 0; from += length, state++) {
        state[1] = state[0];
        munasirel_advance_block(state + 1, table, from, length, &accepted, &excess);
    }
}

/* Behind a name that ends in '-' stands the number of records. */
static const struct {
    const char *name;
    uint8_t (*call)(void);
} calls[] = {
    {"library-judge", library_judge},     {"C-judge", c_judge},
    {"library-line", library_line},       {"C-line", c_line},
    {"library-advance", library_advance}, {"C-advance", c_advance},
    {"library-block-", library_block},    {"C-block-", c_block},
    {"library-list", library_list},       {"C-list", c_list},
    {"library-extend-", library_extend},  {"C-extend-", c_extend},
};

/* Whether a word names a call; the records of a block are taken from it. */
static int names(const char *word, const char *name)
{
    size_t length = strlen(name);
    if (name[length - 1] != '-')
        return strcmp(word, name) == 0;
    if (strlen(word) <= length || memcmp(word, name, length) != 0)
        return 0;
    int count = atoi(word + length);
    block = count > 0 ? (size_t)count : 0;
    if (block > 0)
        make_states();
    return block > 0;
}

static uint8_t repeat(uint8_t (*call)(void), int times)
{
    uint8_t number = 0;
    for (int i = 0; number == 0 && i < times; i++)
        number = call();
    return number;
}

/* ---- the clock */
enum { ROUNDS = 15, REPEATS = 20 };

static double nanoseconds_a_record(uint8_t (*call)(void))
{
    struct timespec from, to;
    clock_gettime(CLOCK_MONOTONIC, &from);
    repeat(call, REPEATS);
    clock_gettime(CLOCK_MONOTONIC, &to);
    double taken = (double)(to.tv_sec - from.tv_sec) * 1e9 + (double)(to.tv_nsec - from.tv_nsec);
    return taken / REPEATS / ((double)(file + file_length - records) / 4);
}

static int ascending(const void *a, const void *b)
{
    double x = *(const double *)a, y = *(const double *)b;
    return (x > y) - (x < y);
}

/* The library and C in turns, so that what else the machine does falls on both. */
static uint8_t take_times(void)
{
    double library[ROUNDS], c[ROUNDS];
    uint8_t number = library_judge();
    if (number != 0)
        return number;
    for (int i = 0; i < ROUNDS; i++) {
        library[i] = nanoseconds_a_record(library_judge);
        c[i] = nanoseconds_a_record(c_judge);
    }
    qsort(library, ROUNDS, sizeof *library, ascending);
    qsort(c, ROUNDS, sizeof *c, ascending);
    printf("%.2f %.2f %.2f %.2f\n", library[0], library[ROUNDS / 2], c[0], c[ROUNDS / 2]);
    return 0;
}

/* ---- the file */
static int load(const char *name)
{
    FILE *from = fopen(name, "rb");
    if (!from)
        return 0;
    file_length = fread(file, 1, sizeof file, from);
    int failed = ferror(from);
    fclose(from);
    records = file + file[4];
    return !failed;
}

int main(int words, char **word)
{
    if ((words != 2 && words != 4) || !load(word[words - 1]))
        return 2;
    if (words == 2)
        return take_times();
    for (size_t i = 0; i < sizeof calls / sizeof *calls; i++)
        if (names(word[1], calls[i].name))
            return repeat(calls[i].call, atoi(word[2]));
    return 2;
}
