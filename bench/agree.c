/* Holds the library and the C version to each other: on the files named, on files made by chance, half of them damaged, on files of
 * about the most records, on single records and blocks of 0 to 300 bytes at any state and under any table, and on lists of shifts,
 * what is fetched from them and their extensions. The records of the files named come in blocks too, and extend their lists.
 *
 *     agree FILE..
 *
 * The status is 0 where nothing differs, and every number, rule, kind of block and case of the clutch's delays that can come up did, and
 * an excess that takes more than 32 bits. */
#include <stdio.h>
#include <string.h>

#include "chance.h"

enum { MADE_FILES = 20000, MADE_RECORDS = 200000, MADE_BLOCKS = 40000, MADE_EXTENSIONS = 40000 };

/* How often each number, rule and kind of block and an excess above 32 bits came up. */
enum { ACCEPTED, REFUSED_FIRST, REFUSED_LATER, BAD_TABLE, EMPTY, KINDS }; /* a block without a whole record is empty */
static unsigned numbers_of_files[14], numbers_of_records[14], numbers_of_blocks[14], rules[17], kinds[KINDS], above_32_bits;
static unsigned numbers_of_lists[16], numbers_of_fetches[16], numbers_of_extensions[16];

/* How often cases of the clutch's delays came up: a clutch that is good or failed too early, also where that is by its stage time alone;
 * a file of 22 entries that is accepted, also with four zeros, or has such a clutch; an extension past the smaller of the two most. */
enum { EARLY_GOOD, EARLY_FAILED, EARLY_AHEAD, OF_22, OF_22_ZEROS, EARLY_IN_FILE, PAST_MOST_22, CASES };
static unsigned cases[CASES];

/* ---- the comparison */
static munasirel_limits limits_in(const uint16_t table[ENTRIES])
{
    munasirel_limits limits;
    memcpy(&limits, table, sizeof limits);
    return limits;
}

static int same_line(size_t room)
{
    uint8_t library[MUNASIREL_LINE_ROOM] = {0}, c[MUNASIREL_LINE_ROOM] = {0};
    size_t library_length, c_length;
    uint8_t library_number = munasirel_line(file, file_length, library, room, &library_length);
    uint8_t c_number = reference_line(file, file_length, c, room, &c_length);
    return library_number == c_number && library_length == c_length && memcmp(library, c, sizeof c) == 0;
}

static int same_state(const munasirel_state *a, const munasirel_state *b)
{
    return a->clock == b->clock && a->gear_box == b->gear_box && a->phase == b->phase && a->phase_time == b->phase_time &&
           a->stage == b->stage && a->stage_time == b->stage_time && a->request_time == b->request_time &&
           a->failed_phase == b->failed_phase;
}

static int same_verdict(void)
{
    munasirel_judged library = munasirel_verdict(file, file_length), c = reference_verdict(file, file_length);
    uint8_t rule = c.number == MUNASIREL_TABLE_NOT_ADMITTED ? munasirel_admit(munasirel_table(file, file_length)) : 0;
    numbers_of_files[library.number]++;
    rules[library.rule]++;
    if (file_length > 12 && file[2] == ENTRIES) {
        cases[OF_22] += library.number == 0;
        cases[OF_22_ZEROS] += library.number == 0 && munasirel_table(file, file_length).clutch_open_de == 0;
        cases[EARLY_IN_FILE] += library.number == MUNASIREL_TOO_EARLY && !is_engine_phase(library.state.phase);
    }
    return library.number == c.number && library.rule == c.rule && library.accepted == c.accepted && library.excess == c.excess &&
           same_state(&library.state, &c.state) && munasirel_judge(file, file_length) == c.number && rule == c.rule &&
           same_line(MUNASIREL_LINE_ROOM) && same_line(20);
}

static int same_advance(const munasirel_state *state, const uint16_t table[ENTRIES], const uint8_t record[4])
{
    munasirel_state library = *state, c = *state;
    uint64_t excess = UINT64_MAX, c_excess = UINT64_MAX - 1;
    uint8_t number = munasirel_advance(&library, limits_in(table), record[0], record[1], record[2], record[3], &excess);
    numbers_of_records[number]++;
    above_32_bits += excess > UINT32_MAX;
    if (number == MUNASIREL_TOO_EARLY && !is_engine_phase(state->phase))
        cases[!has_delays(table) ? EARLY_AHEAD : record[0] == MUNASIREL_STEP_DEVICE_GOOD ? EARLY_GOOD : EARLY_FAILED]++;
    return number == reference_advance(&c, table, record, &c_excess) && excess == c_excess && same_state(&library, &c);
}

static int kind_of(uint8_t number, size_t length, size_t accepted)
{
    if (length < 4)
        return EMPTY;
    if (number == MUNASIREL_TABLE_NOT_ADMITTED)
        return BAD_TABLE;
    return number == 0 ? ACCEPTED : accepted == 0 ? REFUSED_FIRST : REFUSED_LATER;
}

/* Advances the state, and sets how many records are accepted. */
static int same_block(munasirel_state *state, const uint16_t table[ENTRIES], const uint8_t *records, size_t length, size_t *accepted)
{
    munasirel_state c = *state;
    size_t c_accepted = SIZE_MAX - 1;
    uint64_t excess = UINT64_MAX, c_excess = UINT64_MAX - 1;
    *accepted = SIZE_MAX;
    uint8_t number = munasirel_advance_block(state, limits_in(table), records, length, accepted, &excess);
    numbers_of_blocks[number]++;
    kinds[kind_of(number, length, *accepted)]++;
    return number == reference_advance_block(&c, table, records, length, &c_accepted, &c_excess) && *accepted == c_accepted &&
           excess == c_excess && same_state(state, &c);
}

static int same_listed(const munasirel_listed *a, const munasirel_listed *b)
{
    return a->number == b->number && a->rule == b->rule && a->index == b->index && a->excess == b->excess && a->length == b->length;
}

static int same_fetch(const uint8_t *list, size_t length, size_t number)
{
    munasirel_fetched library = munasirel_fetch(list, length, number), c = reference_fetch(list, length, number);
    const munasirel_shift *a = &library.shift, *b = &c.shift;
    numbers_of_fetches[library.number]++;
    return library.number == c.number && a->first == b->first && a->last == b->last && a->kind == b->kind && a->route == b->route &&
           a->end == b->end && a->request_time == b->request_time && a->age == b->age;
}

/* The lists in a room, with what lies behind it; and each shift of them, and one more. */
static int same_list_in(size_t room)
{
    static uint8_t library[MUNASIREL_LONGEST_LIST + LIST_GUARD], c[MUNASIREL_LONGEST_LIST + LIST_GUARD];
    memset(library, 77, room + LIST_GUARD);
    memset(c, 77, room + LIST_GUARD);
    munasirel_listed listed = munasirel_list(file, file_length, library, room);
    munasirel_listed c_listed = reference_list(file, file_length, c, room);
    int same = same_listed(&listed, &c_listed) && memcmp(library, c, room + LIST_GUARD) == 0;
    numbers_of_lists[listed.number]++;
    for (size_t number = 0; same && listed.number == 0 && number <= (listed.length - LIST_HEADER) / ENTRY; number++)
        same = same_fetch(library, listed.length, number);
    return same;
}

static int same_list(void)
{
    static uint8_t list[MUNASIREL_LONGEST_LIST];
    size_t length = reference_list(file, file_length, list, sizeof list).length;
    return same_list_in(length) && same_list_in(length + below(40)) && same_list_in(length > 0 ? length - 1 : 0) &&
           same_list_in(below(LIST_HEADER));
}

/* Extends the list. */
static int same_extension(void)
{
    static uint8_t c[sizeof extension.list];
    size_t size = extension.room + LIST_GUARD;
    memcpy(c, extension.list, size);
    munasirel_listed listed = munasirel_extend(extension.list, extension.room, extension.held, extension.state, extension.count,
                                               limits_in(extension.table), extension.records, extension.length);
    munasirel_listed c_listed = reference_extend(c, extension.room, extension.held, extension.state, extension.count,
                                                 extension.table, extension.records, extension.length);
    numbers_of_extensions[listed.number]++;
    size_t records = extension.count + extension.length / 4;
    if (listed.number == MUNASIREL_BAD_HEADER && records > MUNASIREL_MOST_RECORDS_22 && records <= MUNASIREL_MOST_RECORDS)
        cases[PAST_MOST_22]++;
    if (listed.number == 0)
        extension.held = listed.length;
    return same_listed(&listed, &c_listed) && memcmp(extension.list, c, size) == 0;
}

/* ---- the runs: each answers how often the two differ, but the first whether they agree */
static int same_in_blocks(void)
{
    static uint8_t fresh[MUNASIREL_LONGEST_LIST];
    uint8_t number = munasirel_judge(file, file_length);
    if (number >= MUNASIREL_TOO_SHORT && number <= MUNASIREL_TABLE_NOT_ADMITTED)
        return 1;
    memset(&extension, 0, sizeof extension);
    put_u32(extension.list + 4, LIST_HEADER);
    extension.held = LIST_HEADER;
    extension.room = MUNASIREL_LONGEST_LIST;
    read_table(file, extension.table);
    for (size_t at = file[4]; at < file_length;) {
        size_t length = below(LONGEST_BLOCK + 1), accepted;
        if (length > file_length - at)
            length = file_length - at;
        extension.length = length;
        memcpy(extension.records, file + at, length);
        if (!same_extension() || !same_block(&extension.state, extension.table, file + at, length, &accepted))
            return 0;
        if (accepted < length / 4)
            return 1;
        extension.count += (uint32_t)accepted;
        at += 4 * accepted;
    }
    return extension.held == munasirel_list(file, file_length, fresh, sizeof fresh).length &&
           memcmp(extension.list, fresh, extension.held) == 0;
}

static unsigned compare_named(int count, char **names)
{
    unsigned differ = 0;
    for (int i = 0; i < count; i++) {
        FILE *from = fopen(names[i], "rb");
        file_length = from ? fread(file, 1, sizeof file, from) : 0;
        if (!from || ferror(from) || !same_verdict()) {
            printf("%s: the verdicts differ, or it can not be read\n", names[i]);
            differ++;
        } else if (!same_list()) {
            printf("%s: the lists differ\n", names[i]);
            differ++;
        } else if (!same_in_blocks()) {
            printf("%s: the answers to blocks of it differ, or the list extended by them\n", names[i]);
            differ++;
        }
        if (from)
            fclose(from);
    }
    return differ;
}

static unsigned compare_made(void)
{
    unsigned differ = 0;
    for (int i = 0; i < MADE_FILES; i++) {
        make_file();
        if (i % 2 == 1)
            damage_file();
        if (!same_verdict() || !same_list()) {
            printf("file %d made by chance: the verdicts or the lists differ\n", i);
            differ++;
        }
    }
    return differ;
}

/* With no entries, with eighteen, and with twenty-two that have no delays and that have some; the limits are the old default's. */
static unsigned compare_longest(void)
{
    uint16_t table[ENTRIES];
    unsigned differ = 0;
    for (uint16_t count = MUNASIREL_MOST_RECORDS_22 - 1; count <= MUNASIREL_MOST_RECORDS + 1; count++)
        for (int i = 0; i < 4; i++) {
            memcpy(table, old_default, sizeof table);
            if (i == 3)
                make_delays(table);
            make_ticks(table, i == 0 ? 0 : i == 1 ? LIMITS : ENTRIES, count);
            if (!same_verdict() || !same_list()) {
                printf("%u ticks with table %d: the verdicts or the lists differ\n", (unsigned)count, i);
                differ++;
            }
        }
    return differ;
}

static unsigned compare_records(void)
{
    unsigned differ = 0;
    for (int i = 0; i < MADE_RECORDS; i++) {
        munasirel_state state;
        uint16_t table[ENTRIES];
        uint8_t record[4];
        make_state(&state);
        make_table(table);
        make_record(&state, table, record);
        if (!same_advance(&state, table, record)) {
            printf("record %d made by chance: the answers differ\n", i);
            differ++;
        }
    }
    return differ;
}

static unsigned compare_blocks(void)
{
    unsigned differ = 0;
    for (int i = 0; i < MADE_BLOCKS; i++) {
        munasirel_state state;
        uint16_t table[ENTRIES];
        uint8_t block[LONGEST_BLOCK];
        size_t accepted;
        make_state(&state);
        make_table(table);
        size_t length = make_block(state, table, block);
        if (!same_block(&state, table, block, length, &accepted)) {
            printf("block %d made by chance: the answers differ\n", i);
            differ++;
        }
    }
    return differ;
}

static unsigned compare_extensions(void)
{
    unsigned differ = 0;
    for (int i = 0; i < MADE_EXTENSIONS; i++) {
        make_extension();
        if ((extension.held <= extension.room && !same_fetch(extension.list, extension.held, below(10))) || !same_extension()) {
            printf("extension %d made by chance: the answers differ\n", i);
            differ++;
        }
    }
    return differ;
}

/* How much of that never came up; a file never gives 10, and would have to be longer to give 13. */
static unsigned never_came_up(void)
{
    unsigned never = above_32_bits == 0;
    for (unsigned i = 0; i < 14; i++) {
        never += i != 10 && i != 13 && numbers_of_files[i] == 0;
        never += (i == 0 || i >= 4) && numbers_of_records[i] == 0;
        never += (i == 0 || i >= 4) && numbers_of_blocks[i] == 0;
    }
    for (unsigned i = 0; i < 16; i++) {
        never += i != 10 && i != 13 && i != 14 && numbers_of_lists[i] == 0;
        never += (i <= 3 || i == 14) && numbers_of_fetches[i] == 0;
        never += numbers_of_extensions[i] == 0;
    }
    for (unsigned i = 0; i < 17; i++)
        never += rules[i] == 0;
    for (unsigned i = 0; i < CASES; i++)
        never += cases[i] == 0;
    for (unsigned i = 0; i < KINDS; i++)
        never += kinds[i] == 0;
    return never;
}

int main(int words, char **word)
{
    unsigned differ =
        compare_named(words - 1, word + 1) + compare_made() + compare_longest() + compare_records() + compare_blocks() +
        compare_extensions();
    unsigned never = never_came_up();
    printf("Blocks, with those of the files: %u accepted, %u refused at the first record, %u later, %u with 4, %u empty.\n",
           kinds[ACCEPTED], kinds[REFUSED_FIRST], kinds[REFUSED_LATER], kinds[BAD_TABLE], kinds[EMPTY]);
    printf("Extensions of lists, with those of the files: %u accepted, %u not fitting their state, %u without room.\n",
           numbers_of_extensions[0], numbers_of_extensions[MUNASIREL_GAP], numbers_of_extensions[MUNASIREL_NO_ROOM]);
    printf("Clutches too early: %u good, %u failed, %u by their stage time alone. Files of 22 entries that are accepted: %u.\n",
           cases[EARLY_GOOD], cases[EARLY_FAILED], cases[EARLY_AHEAD], cases[OF_22]);
    printf("Held to each other on %d files, %d made by chance, %d single records, %d blocks and %d extensions: ", words - 1,
           MADE_FILES, MADE_RECORDS, MADE_BLOCKS, MADE_EXTENSIONS);
    printf("%u differ, %u cases never came up.\n", differ, never);
    return differ == 0 && never == 0 ? 0 : 1;
}
