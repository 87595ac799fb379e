/* Writes the first so many records of a night to standard output, as a step file without a table, which is judged under the old
 * default, or with the old default in it, or with the old default and the house's delays of the clutch.
 *
 *     night busy|parked RECORDS [old_default|house_delays]
 *
 * A busy night goes through every route over and over, as late as the old default allows: ticks end at the channel's and the
 * device's limits and, where the engine waits for the clutch, at the DE and the phase limit. That is later than the house's delays
 * ask for. A parked night is ticks at rest. The nights are those from before there was a new default, so that what is counted can be
 * compared. The library writes no file without a table any more: of one that it wrote the entries are left out here. */
#include <stdio.h>
#include <stdlib.h>
#include <string.h>

#include "munasirel.h"

struct step {
    uint8_t code;
    uint32_t amount;
};

#define STEP(name) {MUNASIREL_STEP_##name, 0}
#define TICK(amount) {MUNASIREL_STEP_TICK, amount}

/* An order that is taken, and an engine order after which the clutch is asked for. */
#define TAKEN(device_limit) TICK(5), STEP(DELIVER), TICK(device_limit), STEP(DEVICE_GOOD), TICK(5), STEP(TAKE)
#define ASKED(device_limit) TICK(5), STEP(DELIVER), TICK(device_limit), STEP(ENGINE_WAITS), TICK(46), TICK(4), STEP(ASK_CLUTCH)

#define SYNC TAKEN(100)
#define SYNC_THEN_CLUTCH ASKED(100)
#define ZERO_TORQUE TAKEN(200)
#define ZERO_TORQUE_THEN_CLUTCH ASKED(200)
#define OPEN TAKEN(150)
#define CLOSE TAKEN(150)
#define SET TAKEN(300)
#define RELEASE TAKEN(200)

static const struct step busy[] = {
    STEP(FROM_NEUTRAL), SYNC, SET, STEP(FINISH),
    STEP(GEAR_TO_GEAR), ZERO_TORQUE, RELEASE, SYNC, SET, STEP(FINISH),
    STEP(GEAR_TO_GEAR), ZERO_TORQUE, RELEASE, SYNC_THEN_CLUTCH, OPEN, SET, CLOSE, STEP(FINISH),
    STEP(GEAR_TO_GEAR), ZERO_TORQUE_THEN_CLUTCH, OPEN, RELEASE, SET, CLOSE, STEP(FINISH),
    STEP(TO_NEUTRAL), ZERO_TORQUE, RELEASE, STEP(FINISH),
    STEP(FROM_NEUTRAL), SYNC_THEN_CLUTCH, OPEN, SET, CLOSE, STEP(FINISH),
    STEP(TO_NEUTRAL), ZERO_TORQUE_THEN_CLUTCH, OPEN, RELEASE, CLOSE, STEP(FINISH),
};
static const struct step parked[] = {TICK(60000)};

static uint8_t codes[MUNASIREL_MOST_RECORDS];
static uint32_t amounts[MUNASIREL_MOST_RECORDS];
static uint8_t file[MUNASIREL_LONGEST_FILE];

/* The old default, without delays or with the house's. The house's table is the new default with them, and the old default differs
 * from that in the channel's time alone. */
static munasirel_limits table_of(int with_delays)
{
    munasirel_limits table = with_delays ? munasirel_house() : munasirel_old_default();
    table.channel_dl = munasirel_old_default().channel_dl;
    return table;
}

/* Puts out the file of so many bytes, without its eighteen entries where it is to have no table; returns whether it could. */
static int put_out(size_t length, int without_table)
{
    size_t from = 12;
    if (without_table) {
        file[2] = 0;
        file[4] = 12;
        from = 12 + 2 * 18;
    }
    return fwrite(file, 1, 12, stdout) == 12 && fwrite(file + from, 1, length - from, stdout) == length - from;
}

int main(int words, char **word)
{
    if (words < 3)
        return 2;
    int is_busy = strcmp(word[1], "busy") == 0;
    const struct step *steps = is_busy ? busy : parked;
    size_t round = is_busy ? sizeof busy / sizeof *busy : sizeof parked / sizeof *parked;
    size_t records = (size_t)atoi(word[2]);
    munasirel_limits table = table_of(words > 3 && strcmp(word[3], "house_delays") == 0);
    size_t length, index;
    uint8_t rule;

    if (records > MUNASIREL_MOST_RECORDS)
        return 2;
    for (size_t i = 0; i < records; i++) {
        codes[i] = steps[i % round].code;
        amounts[i] = steps[i % round].amount;
    }
    uint8_t number = munasirel_write(table, 1, codes, records, amounts, records, file, sizeof file, &length, &index, &rule);
    return number == 0 && put_out(length, words == 3) ? 0 : 1;
}
