/* Calls the manual's engine from C, and ends in 'N passed, M failed'. Both engines are run on the same records; what is expected of
 * the flags comes from the manual's events. */
#include "host.h"
#include "munasirel_m9.h"

static int same_variables(const munasirel_m9_variables *a, const munasirel_m9_variables *b)
{
#define DIFFERS(name) +(a->name != b->name)
    return (0 MUNASIREL_M9_FLAGS(DIFFERS) MUNASIREL_M9_TIMES(DIFFERS)) == 0;
}

static unsigned flags_up(const munasirel_m9_variables *v)
{
#define UP(name) +v->name
    return 0 MUNASIREL_M9_FLAGS(UP);
}

/* The reading is the state: clock, box, phase and stage, and in phases 1 to 21, stage sent, working or good, the times. */
static int reads_as(munasirel_m9_variables v, const munasirel_state *state)
{
    munasirel_m9_read read = munasirel_m9_reading(v);
    int limited = state->phase > MUNASIREL_PHASE_AT_REST && state->phase < MUNASIREL_PHASE_DONE &&
                  state->stage >= MUNASIREL_STAGE_SENT && state->stage <= MUNASIREL_STAGE_GOOD;
    return read.clock == state->clock && read.gear_box == state->gear_box && read.phase == state->phase &&
           read.stage == state->stage &&
           (!limited || (read.phase_time == state->phase_time && read.stage_time == state->stage_time &&
                         read.request_time == state->request_time));
}

/* Both engines from their starts over a list, whatever is refused of it: each number and excess, and the reading after each. The
 * variables at the end are left where they can be looked at. */
static munasirel_m9_variables both(const char *name, munasirel_limits table, const char *text)
{
    munasirel_m9_variables v = munasirel_m9_start();
    munasirel_state start = {0};
    uint64_t none = 0;
    int numbers = 1, rules = 1, excesses = 1, readings = 1, given_back = 1;
    list(text);
    fresh();
    munasirel_state *state = lend(&start, sizeof start);
    uint64_t *excess = lend(&none, sizeof none);
    munasirel_m9_moved empty = {0};
    munasirel_m9_moved *moved = lend(&empty, sizeof empty);
    for (size_t i = 0; i < steps; i++) {
        uint8_t low = (uint8_t)(amounts[i] % 256), high = (uint8_t)(amounts[i] / 256);
        uint8_t number = munasirel_advance(state, table, codes[i], 0, low, high, excess);
        *moved = munasirel_m9_advance(v, table, codes[i], 0, low, high);
        numbers &= moved->number == number;
        rules &= moved->rule == (number == 4 ? munasirel_admit(table) : 0);
        excesses &= moved->excess == *excess;
        given_back &= number == 0 || same_variables(&moved->variables, &v);
        v = moved->variables;
        readings &= reads_as(v, state);
    }
    check("m9", name, "numbers", numbers);
    check("m9", name, "rules", rules);
    check("m9", name, "excesses", excesses);
    check("m9", name, "variables of a refused step", given_back);
    check("m9", name, "readings", readings);
    check("m9", name, "bytes", guarded());
    return v;
}

static void manual(void)
{
    munasirel_m9_variables v = munasirel_m9_start(), w;
    check("m9", "start", "isNeu", v.isNeu);
    v.isNeu = false;
    w = (munasirel_m9_variables){0};
    check("m9", "start", "variables", same_variables(&v, &w));

    v = both("a request", old_default, "t7 1");
    check("m9", "a request", "flags", flags_up(&v) == 2 && v.isNeu && v.RequestFromNeu);
    check("m9", "a request", "times", v.time == 7 && v.RequestFromNeuT == 7);
    v = both("delivered", old_default, "1 t5 4");
    check("m9", "delivered", "flags", flags_up(&v) == 3 && v.Engine_Request_SyncSpeed && v.Engine_Request_SyncSpeedT == 5);
    v = both("taken", old_default, "1 t5 4 t100 5 t5 8");
    check("m9", "taken", "flags", flags_up(&v) == 5 && v.FromNeu_SyncSpeed && v.Engine_SyncSpeed);
    check("m9", "taken", "times", v.FromNeu_SyncSpeedT == 110 && v.Engine_SyncSpeedT == 105);
    v = both("K1", old_default, K1);
    check("m9", "K1", "flags", flags_up(&v) == 0 && v.time == 410);
    v = both("K11", old_default, K11);
    check("m9", "K11", "flags", v.Error_ToNeu_Release_NoClutch && v.Error_Gear_Release && !v.isNeu);
    both("gear to gear by the clutch", old_default, "1 4 5 8 4 5 8 11 2 4 7 t251 9 4 t150 5 8 4 5 8 4 5 8 4 5 8 11 3");
    both("gear to gear, the clutch asked for late", old_default, "1 4 5 8 4 5 8 11 2 4 5 8 4 5 8 4 7 t151 9 4 5 8 4 5 8 4 5 8 11");
    both("to neutral by the clutch", old_default, "1 4 5 8 4 5 8 11 3 4 7 t251 9 4 5 8 4 5 8 4 6 10 t9 11");
    v = both("a reset", old_default, WOULD_NOT_CLOSE " t9 13");
    check("m9", "a reset", "flags", flags_up(&v) == 0 && v.time == 160);
    both("resets", old_default,
         "13 " WOULD_NOT_CLOSE " 13 13 3 4 5 8 13 4 6 10 1 13 2 4 5 8 4 5 8 4 5 8 4 6 10 t3 13 1 13 4 7 t151");
    both("what is refused", old_default, "14 13 0 t0 2 1 1 8 9 10 11 t156 t6 4 t101 6 9 7 9 t151 9 t6 4 t151 6 10 10 11 t65535");
    both("a table that is not admitted", with(0, 0), "1 t5 13 14");
    v = both("10 ms on the bus, the new default", new_default, BUS_OF_10_MS);
    check("m9", "10 ms on the bus, the new default", "flags", flags_up(&v) == 0 && v.time == 430);
    v = both("10 ms on the bus, the old default", old_default, "1 t10");
    check("m9", "10 ms on the bus, the old default", "flags", v.RequestFromNeu && v.time == 0);

    /* With delays of the clutch; what is too early is refused, and the next record is tried on the same variables. */
    v = both("the house's delays", house, DELAYED);
    check("m9", "the house's delays", "flags", flags_up(&v) == 0 && !v.isNeu && v.time == 201);
    v = both("opened too early", house, TO_OPEN " 5 t19 5 6 t1 6 5");
    check("m9", "opened too early", "flags", v.Clutch_Open && !v.Error_Clutch_Open && v.Clutch_OpenT == 176);
    v = both("failed to open too early", apart, TO_OPEN " t61 6 t1 6");
    check("m9", "failed to open too early", "flags", v.Error_Clutch_Open && !v.Clutch_Open && v.time == 218);
    v = both("closed too early", apart, TO_OPEN " t21 5 8 4 5 8 4 t32 5 6 t1 5");
    check("m9", "closed too early", "flags", v.Clutch_Close && !v.Error_Clutch_Close && v.Clutch_CloseT == 210);
    v = both("failed to close too early", house, TO_CLOSE " t59 6 t1 6 10 13");
    check("m9", "failed to close too early", "flags", flags_up(&v) == 0 && v.time == 241);
    both("delays on every route", apart,
         TO_OPEN " t21 5 8 4 5 8 4 t32 5 t1 5 8 11 2 4 7 t251 9 4 5 t20 5 t1 5 8 4 5 8 4 5 8 4 5 6 t33 5 8 11 "
         "2 4 5 8 4 5 8 4 7 t151 9 4 t20 5 6 t1 5 8 4 5 8 4 t32 5 t51 6 t1 6 10 13 3 4 7 t251 9 4 t61 6 t1 6 10 13");
    both("to neutral with delays", apart, IN_GEAR " 3 4 7 t251 9 4 5 6 t21 6 5 8 4 5 8 4 5 6 t33 6 5 8 11");
    both("rule 16", house_with(18, 60), "1 t5 13 14");

    /* Every variable goes in and comes out, in a record that is refused. */
    unsigned k = 0;
#define NUMBERED(name) v.name = 1000 + k++;
#define IN_TURNS(name) v.name = k++ % 3 == 1;
    MUNASIREL_M9_TIMES(NUMBERED)
    MUNASIREL_M9_FLAGS(IN_TURNS)
    check("m9", "names", "count", k == 98);
    munasirel_m9_moved moved = munasirel_m9_advance(v, old_default, 14, 0, 0, 0);
    check("m9", "every variable", "number", moved.number == 5 && moved.rule == 0);
    check("m9", "every variable", "variables", same_variables(&moved.variables, &v));
    moved = munasirel_m9_advance(v, old_default, 1, 1, 0, 0);
    check("m9", "a middle byte", "number", moved.number == 6 && same_variables(&moved.variables, &v));
    v = munasirel_m9_start();
    moved = munasirel_m9_advance(v, old_default, 12, 0, 3, 1);
    v.time = 259;
    check("m9", "a tick's two bytes", "variables", moved.number == 0 && same_variables(&moved.variables, &v));

    /* FINAL lowers no error flag. */
    v = munasirel_m9_start();
    v.FromNeu_CloseClutch = v.Error_FromNeu_CloseClutch = v.Error_Gear_Set = true;
    moved = munasirel_m9_advance(v, old_default, 11, 0, 0, 0);
    v.FromNeu_CloseClutch = false;
    check("m9", "FINAL with errors up", "variables", moved.number == 0 && same_variables(&moved.variables, &v));

    /* A reset lowers every flag, whatever is up, and keeps isNeu and the times; it asks for one of the controller's errors. */
    for (int neutral = 0; neutral < 2; neutral++) {
#define RAISED(name) v.name = true;
        MUNASIREL_M9_FLAGS(RAISED)
        MUNASIREL_M9_TIMES(NUMBERED)
        v.isNeu = neutral;
        moved = munasirel_m9_advance(v, old_default, 13, 0, 0, 0);
        check("m9", "a reset with every flag up", "flags", moved.number == 0 && flags_up(&moved.variables) == (unsigned)neutral);
#define LOWERED(name) v.name = false;
        MUNASIREL_M9_FLAGS(LOWERED)
        v.isNeu = neutral;
        check("m9", "a reset with every flag up", "variables", same_variables(&moved.variables, &v));
        moved = munasirel_m9_advance(v, old_default, 13, 0, 0, 0);
        check("m9", "a reset with no flag up", "number", moved.number == 7 && same_variables(&moved.variables, &v));
        v.Error_Clutch_Open = v.Error_Clutch_Close = v.Error_Gear_Release = v.Error_Gear_Set = true;
        moved = munasirel_m9_advance(v, old_default, 13, 0, 0, 0);
        check("m9", "a reset with the devices' errors alone", "number", moved.number == 7 && same_variables(&moved.variables, &v));
    }
}

int main(void)
{
    manual();
    return finish();
}
