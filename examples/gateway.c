/* A gateway at night: two vehicles send their step files in parts, over a radio that drops, repeats and resumes.
 *
 *     gateway FILE FILE
 *
 * For each vehicle the parts are joined in a buffer of its own, the file is judged, and the line of its verdict is printed. Then a
 * running judge for each vehicle is advanced by a block of records at a time, the two in turns, and its end is held to the verdict.
 * Where records come in singly, munasirel_advance takes the four bytes of one.
 * The status is 0 where both agree with their verdicts, 1 where one does not, 2 where it is not given two files that it can read,
 * and 3 where the output can not be written.
 */
#include <stdio.h>

#include "munasirel.h"

/* What the gateway keeps of a vehicle. */
struct vehicle {
    uint8_t buffer[MUNASIREL_LONGEST_FILE];
    size_t held;
    munasirel_limits table;
    size_t records;           /* in the file */
    munasirel_judged verdict; /* on the file */
    munasirel_judged running; /* the running judge's, so far; all zeros: the start */
};

/* The two vehicles, and the file that one of them is sending. */
static struct vehicle vehicles[2];
static uint8_t sent[MUNASIREL_LONGEST_FILE + 1];

static size_t smaller(size_t a, size_t b)
{
    return a < b ? a : b;
}

static size_t u32_at(const uint8_t *bytes)
{
    return bytes[0] + ((size_t)bytes[1] << 8) + ((size_t)bytes[2] << 16) + ((size_t)bytes[3] << 24);
}

/* Reads a file of at most MUNASIREL_LONGEST_FILE bytes into sent; returns what is wrong, or NULL. A file that could be read in part
 * is not judged: its end may be missing. */
static const char *load(const char *name, size_t *length)
{
    FILE *file = fopen(name, "rb");
    if (!file)
        return "can not be opened";
    *length = fread(sent, 1, sizeof sent, file);
    int failed = ferror(file);
    fclose(file);
    return failed ? "can not be read" : *length == sizeof sent ? "is longer than a step file can be" : NULL;
}

/* Receives a file in parts of 16 bytes until all of it is held. The radio repeats the second sending and drops the fourth and the
 * seventh. The sender learns of a drop only when its next part is refused as beyond what is held. It then resumes 6 bytes before
 * that. */
static void receive(struct vehicle *v, size_t length)
{
    size_t at = 0, sending = 0;
    while (v->held < length) {
        size_t size = smaller(16, length - at);
        sending++;
        printf("  %2zu bytes at %2zu: ", size, at);
        if (sending == 4 || sending == 7) {
            printf("dropped\n");
            at += size;
            continue;
        }
        uint8_t number = munasirel_join(v->buffer, sizeof v->buffer, &v->held, at, sent + at, size);
        printf("number %u, %zu held\n", (unsigned)number, v->held);
        if (number == MUNASIREL_GAP)
            at = v->held - smaller(v->held, 6);
        else if (sending != 2)
            at += size;
    }
}

/* Prints a number, and with 9 to 13 how far over the record is. */
static void print_number(const munasirel_judged *judged)
{
    printf("number %u", (unsigned)judged->number);
    if (judged->excess > 0)
        printf(", %llu ms %s", (unsigned long long)judged->excess, judged->number == MUNASIREL_TOO_EARLY ? "too early" : "over");
}

/* Judges the file held, prints its line and makes the running judge ready. A file that is unread has no record for it. */
static void judge(struct vehicle *v)
{
    uint8_t line[MUNASIREL_LINE_ROOM];
    size_t length;
    v->verdict = munasirel_verdict(v->buffer, v->held);
    munasirel_line(v->buffer, v->held, line, sizeof line, &length);
    printf("  judged, ");
    print_number(&v->verdict);
    printf(": %.*s", (int)length, (const char *)line);
    if (v->verdict.number == 0 || v->verdict.number > MUNASIREL_TABLE_NOT_ADMITTED) {
        v->table = munasirel_table(v->buffer, v->held);
        v->records = u32_at(v->buffer + 8);
    } else {
        v->running = v->verdict;
    }
}

/* Advances a vehicle's running judge by its next block, of three records or of what is left; returns 0 where there is none, or a
 * record was refused. The records of a block before the refused one are accepted, and the state is the one after them. */
static int advance(int i)
{
    struct vehicle *v = &vehicles[i];
    munasirel_judged *r = &v->running;
    if (r->number != 0 || r->accepted == v->records)
        return 0;
    const uint8_t *block = v->buffer + u32_at(v->buffer + 4) + 4 * r->accepted;
    size_t size = smaller(3, v->records - r->accepted), accepted;
    r->number = munasirel_advance_block(&r->state, v->table, block, 4 * size, &accepted, &r->excess);
    r->accepted += accepted;
    printf("vehicle %d, a block of %zu: ", i + 1, size);
    print_number(r);
    printf(", %zu accepted\n", accepted);
    return 1;
}

static int same_state(const munasirel_state *a, const munasirel_state *b)
{
    return a->clock == b->clock && a->gear_box == b->gear_box && a->phase == b->phase && a->phase_time == b->phase_time &&
           a->stage == b->stage && a->stage_time == b->stage_time && a->request_time == b->request_time &&
           a->failed_phase == b->failed_phase;
}

/* Prints where the running judge stands; returns whether the verdict says the same. */
static int agrees(const struct vehicle *v)
{
    const munasirel_judged *r = &v->running, *verdict = &v->verdict;
    int same = r->number == verdict->number && r->accepted == verdict->accepted && r->excess == verdict->excess &&
               same_state(&r->state, &verdict->state);
    printf("%zu records accepted, ", r->accepted);
    print_number(r);
    printf(", clock %u, phase %u, box %u: %s\n", (unsigned)r->state.clock, (unsigned)r->state.phase, (unsigned)r->state.gear_box,
           same ? "as the verdict says" : "NOT as the verdict says");
    return same;
}

int main(int count, char **names)
{
    if (count != 3) {
        fprintf(stderr, "usage: gateway FILE FILE\n");
        return 2;
    }
    for (int i = 0; i < 2; i++) {
        size_t length;
        const char *wrong = load(names[i + 1], &length);
        if (wrong) {
            fprintf(stderr, "gateway: %s: %s\n", names[i + 1], wrong);
            return 2;
        }
        printf("vehicle %d sends %s, %zu bytes\n", i + 1, names[i + 1], length);
        receive(&vehicles[i], length);
        judge(&vehicles[i]);
    }
    int more = 1;
    while (more) {
        more = advance(0);
        more |= advance(1);
    }
    int same = 1;
    for (int i = 0; i < 2; i++) {
        printf("vehicle %d, block by block: ", i + 1);
        same &= agrees(&vehicles[i]);
    }
    if (fflush(stdout) || ferror(stdout)) {
        fprintf(stderr, "gateway: the output can not be written\n");
        return 3;
    }
    return same ? 0 : 1;
}
