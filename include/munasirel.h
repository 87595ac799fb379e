/* The functions of libmunasirel.a, as C and C++ programs call them.
 *
 * Nothing is allocated, no pointer is kept after a call, and there is no state but the caller's. So calls may run in several
 * threads at once, as long as no call writes to what another one uses.
 *
 * Every pointer must be valid, aligned as its type asks and not NULL, even where the length behind it is 0. What a call writes must
 * not overlap anything else that the call is given. With that, every input is allowed: what is wrong is refused by a number.
 * A refused call changes no byte of a buffer, no count of bytes held and no state, except that munasirel_advance_block has advanced
 * the state by the records before the refused one.
 */
#ifndef MUNASIREL_H
#define MUNASIREL_H

#include <stddef.h>
#include <stdint.h>

#ifdef __cplusplus
extern "C" {
#endif

/* The numbers that a call answers. */
enum {
    MUNASIREL_ACCEPTED = 0,
    MUNASIREL_TOO_SHORT = 1,            /* a file of fewer than 12 bytes, or a list of fewer than 8 */
    MUNASIREL_BAD_HEADER = 2,           /* a header field is wrong, or too many records, or more shifts than records */
    MUNASIREL_BAD_LENGTH = 3,           /* a file or a list has a wrong length; for the writer, unequally many codes and amounts */
    MUNASIREL_TABLE_NOT_ADMITTED = 4,   /* the table breaks a rule */
    MUNASIREL_BAD_CODE = 5,             /* code 0 or above 13 */
    MUNASIREL_BAD_AMOUNT = 6,           /* the middle byte or the amount is wrong */
    MUNASIREL_NOT_ALLOWED = 7,          /* phase or stage does not allow the step, or the state is none that is listed */
    MUNASIREL_WRONG_BOX = 8,            /* at rest, but the box is on the wrong side */
    MUNASIREL_TOO_EARLY = 9,            /* the clutch is asked for, or is good or failed, too early */
    MUNASIREL_TOO_LATE = 10,            /* taken too late */
    MUNASIREL_PAST_PHASE_LIMIT = 11,    /* a tick past the phase limit */
    MUNASIREL_PAST_STAGE_LIMIT = 12,    /* a tick past the channel or device limit */
    MUNASIREL_PAST_CLOCK = 13,          /* the clock would pass 4,294,967,295 */
    MUNASIREL_GAP = 14,                 /* a part begins beyond the bytes held; a shift number is at or past the count; a state does
                                         * not fit the list */
    MUNASIREL_NO_ROOM = 15,             /* what is held, joined, written or listed does not fit */
    MUNASIREL_OVERLAP_DIFFERS = 16      /* a part differs from the bytes held */
};

/* How far over: the excess is the milliseconds by which a record is too early or past the limit. It is at least 1 with the numbers 9
 * to 13, and 0 with every other, MUNASIREL_ACCEPTED among them:
 *    9   phase time + DE - clock, where the clutch is asked for; DE and EX are those of the engine's order
 *        stage time + delay - clock, where it is good or failed; the delay is the plain one for good, the error one for failed
 *   10   clock - (phase time + EX)
 *   11   new clock - (phase time + phase limit)
 *   12   new clock - (stage time + channel or device limit), also where the tick passes the phase limit
 *   13   clock + amount - 4,294,967,295
 * Nothing wraps: with 9, on a state whose phase or stage time lies far ahead of its clock, it can pass 32 bits. */

/* The codes of the thirteen steps. A tick has an amount of 1 to 65,535, every other step the amount 0. A reset is allowed in phase 23
 * alone, enters phase 0 and keeps the box. */
enum {
    MUNASIREL_STEP_FROM_NEUTRAL = 1,
    MUNASIREL_STEP_GEAR_TO_GEAR = 2,
    MUNASIREL_STEP_TO_NEUTRAL = 3,
    MUNASIREL_STEP_DELIVER = 4,
    MUNASIREL_STEP_DEVICE_GOOD = 5,
    MUNASIREL_STEP_DEVICE_FAILED = 6,
    MUNASIREL_STEP_ENGINE_WAITS = 7,
    MUNASIREL_STEP_TAKE = 8,
    MUNASIREL_STEP_ASK_CLUTCH = 9,
    MUNASIREL_STEP_RAISE_ERROR = 10,
    MUNASIREL_STEP_FINISH = 11,
    MUNASIREL_STEP_TICK = 12,
    MUNASIREL_STEP_RESET = 13
};

/* Where the gear box stands. It moves when an order is taken, and at no other step: a set order makes it in gear, a release order
 * neutral. So a host that shows it sees it neutral in the middle of a gear to gear shift, from the release taken to the set taken
 * (phases 10 to 14), and after an error, in phase 23 and after the reset, it stands where the last order taken left it. */
enum { MUNASIREL_BOX_NEUTRAL = 0, MUNASIREL_BOX_IN_GEAR = 1 };

/* The stages of a phase. */
enum {
    MUNASIREL_STAGE_NONE = 0,
    MUNASIREL_STAGE_SENT = 1,
    MUNASIREL_STAGE_WORKING = 2,
    MUNASIREL_STAGE_GOOD = 3,
    MUNASIREL_STAGE_FAILED = 4,
    MUNASIREL_STAGE_WAITING = 5
};

/* The phases outside a shift. A shift is unfinished in phases 1 to 21. In phase 23 only ticks and a reset are accepted. */
enum { MUNASIREL_PHASE_AT_REST = 0, MUNASIREL_PHASE_DONE = 22, MUNASIREL_PHASE_ERROR = 23 };

/* Of a shift in a list: the kind, which is the code of its request; the route; and the end. */
enum { MUNASIREL_KIND_FROM_NEUTRAL = 1, MUNASIREL_KIND_GEAR_TO_GEAR = 2, MUNASIREL_KIND_TO_NEUTRAL = 3 };
enum { MUNASIREL_ROUTE_NO_CLUTCH = 0, MUNASIREL_ROUTE_CLUTCH = 1 };
enum { MUNASIREL_END_OPEN = 0, MUNASIREL_END_DONE = 1, MUNASIREL_END_ERROR = 2 };

/* The most records of a file, and of one with 22 entries; the longest good file, room for any line and for the list of any file, in
 * bytes. */
#define MUNASIREL_MOST_RECORDS 16372
#define MUNASIREL_MOST_RECORDS_22 16370
#define MUNASIREL_LONGEST_FILE 65536
#define MUNASIREL_LINE_ROOM 64
#define MUNASIREL_LONGEST_LIST 261960

/* The limit table: twenty-two entries in milliseconds, in the order of their entry numbers 0 to 21. The last four are the delays of
 * clutches that can not answer at once. Counted from the delivery of an order to open or to close, the clutch is good no sooner than
 * the order's plain delay, and failed no sooner than its error delay. Either all four are 0, or both plain delays are at least 1, and
 * each error delay exceeds its plain one and is at most its device limit.
 *
 * What a host has to change that was written for a table of eighteen entries:
 *   - It is compiled again: the struct has grown from 36 bytes to 44, and goes by value.
 *   - It sets the four delays to 0 for clutch units as they were. The answers then are what they were, but for a clutch that is good
 *     or failed on a state whose stage time lies ahead of its clock: that is refused with 9. No list of records leads there.
 *   - Files of eighteen entries or none are read with four delays of 0, and a table with four delays of 0 is written as eighteen
 *     entries, as it was. A host that looks into files itself finds 22 entries where there are delays, and the records behind them.
 *
 * Two tables are defaults: the old default, munasirel_old_default, has a channel_dl of 5, and the new default, munasirel_new_default,
 * has one of 10; all their other entries are the same. What changes for a host that was written when there was the old default alone:
 *   - munasirel_write with the wish for no table writes out the new default, as eighteen entries. For n records that takes 48 + 4n
 *     bytes, 36 more than it did, so that a buffer which just fitted gives 15 now. No file without a table is written any more.
 *   - What such a file is read back with and judged under is the new default. That accepts every list of records that the old default
 *     accepts, with the same end, which is proved; it also accepts some that the old default refuses.
 *   - A host that wants a file judged under the old default hands over munasirel_old_default() with a with_table of 1.
 *   - Files without a table are judged under the old default, as ever, and that is what munasirel_table gives of them.
 *   - munasirel_house has a channel_dl of 10, as the new default has. */
typedef struct munasirel_limits {
    uint16_t channel_dl;
    uint16_t engine_sync_dl;
    uint16_t engine_zero_dl;
    uint16_t clutch_open_dl;
    uint16_t clutch_close_dl;
    uint16_t gear_set_dl;
    uint16_t gear_release_dl;
    uint16_t sync_ex;
    uint16_t zero_ex;
    uint16_t sync_dl;
    uint16_t zero_dl;
    uint16_t sync_de;
    uint16_t zero_de;
    uint16_t open_clutch_dl;
    uint16_t set_gear_dl;
    uint16_t release_dl;
    uint16_t close_clutch_dl;
    uint16_t change_dl;
    uint16_t clutch_open_de;        /* the plain delay of an open order */
    uint16_t error_clutch_open_de;  /* its error delay */
    uint16_t clutch_close_de;       /* the plain delay of a close order */
    uint16_t error_clutch_close_de; /* its error delay */
} munasirel_limits;

/* The state of one vehicle's judge. At the start every field is 0. A call may change the padding bytes, so compare states field by
 * field and never with memcmp. */
typedef struct munasirel_state {
    uint32_t clock;        /* in milliseconds */
    uint8_t gear_box;      /* MUNASIREL_BOX_NEUTRAL or MUNASIREL_BOX_IN_GEAR */
    uint8_t phase;         /* 0 to 23 */
    uint32_t phase_time;   /* the clock when the phase was entered */
    uint8_t stage;         /* MUNASIREL_STAGE_NONE to MUNASIREL_STAGE_WAITING */
    uint32_t stage_time;   /* the clock when the stage was entered */
    uint32_t request_time; /* the clock at the request of the shift, 0 at rest */
    uint8_t failed_phase;  /* in phase 23 the phase that was left, else 0; a reset clears it */
} munasirel_state;

/* The whole verdict on a step file. The padding bytes may hold anything. */
typedef struct munasirel_judged {
    uint8_t number;        /* 0 where the file is accepted, or the number that refuses it, 1 to 13 */
    uint8_t rule;          /* the number of the broken rule with 4, else 0 */
    size_t accepted;       /* how many records were accepted, which is the index of the refused one; 0 with 1 to 4 */
    uint64_t excess;       /* how far over the refused record is, 0 but with 9 to 13 */
    munasirel_state state; /* after the records accepted; the start with 1 to 4 */
} munasirel_judged;

/* One shift of a file. A list of shifts has a header of 8 bytes, which are the count of shifts and the offset of the first entry,
 * always 8, of 32 bits each; then 16 bytes a shift, in the order of the requests. An entry is laid out as this struct is, low byte
 * first and with a zero byte where the padding is. */
typedef struct munasirel_shift {
    uint16_t first;        /* the index of the record that is the request */
    uint16_t last;         /* of the one that enters phase 22 or 23, else of the file's last */
    uint8_t kind;          /* MUNASIREL_KIND_FROM_NEUTRAL to MUNASIREL_KIND_TO_NEUTRAL */
    uint8_t route;         /* MUNASIREL_ROUTE_CLUTCH where the clutch was asked for, else MUNASIREL_ROUTE_NO_CLUTCH */
    uint8_t end;           /* MUNASIREL_END_OPEN to MUNASIREL_END_ERROR */
    uint32_t request_time; /* the clock at the request */
    uint32_t age;          /* the clock at the last record, less the request time */
} munasirel_shift;

/* How a list of shifts was made. The padding bytes may hold anything. */
typedef struct munasirel_listed {
    uint8_t number;  /* 0 where the list stands in the buffer, or the number that refuses it */
    uint8_t rule;    /* the number of the broken rule with 4, else 0 */
    size_t index;    /* the index in the file of the record that the judge refuses with 5 to 13, else 0 */
    uint64_t excess; /* how far over that record is, 0 but with 9 to 13 */
    size_t length;   /* the list's length, 0 where it is refused */
} munasirel_listed;

/* A shift fetched from a list. The padding bytes may hold anything. */
typedef struct munasirel_fetched {
    uint8_t number;        /* 0, or the number that refuses it */
    munasirel_shift shift; /* the entry; every field is 0 where it is refused */
} munasirel_fetched;

/* Judges a step file from the start state.
 *   file, file_length   the file's bytes, any number of them
 * Returns 0 where the file is accepted, or the number that refuses it, 1 to 13. */
uint8_t munasirel_judge(const uint8_t *file, size_t file_length);

/* Judges a step file from the start state, as munasirel_judge does.
 *   file, file_length   the file's bytes, any number of them
 * Returns the whole verdict. */
munasirel_judged munasirel_verdict(const uint8_t *file, size_t file_length);

/* Tests a limit table.
 * Returns 0 where the table is admitted, or the number of the first rule that it breaks, 1 to 16. */
uint8_t munasirel_admit(munasirel_limits table);

/* Compares a new limit table with the old one, entry by entry. Entries 0 to 10 and 13 to 16 are tighter where they are smaller, the
 * waiting times, which are entries 11, 12 and 18 to 21, where they are larger; change_dl, entry 17, never is.
 *   old_table, new_table   any two tables
 * Returns the number of the first entry that is tighter in the new table, 0 to 21, or 22 where none is. With 22 every list of records
 * that is accepted under the old table is accepted under the new one, with the same end, which is proved. For that both have to be
 * admitted, which is not tested here: munasirel_admit says it. */
uint8_t munasirel_tighter(munasirel_limits old_table, munasirel_limits new_table);

/* The old default, under which files without a table are judged for ever.
 * Returns 5, 100, 200, 150, 150, 300, 200, 150, 250, 155, 255, 151, 251, 200, 350, 250, 200 and 1500, and four delays of 0. */
munasirel_limits munasirel_old_default(void);

/* The new default, which is handed out now: munasirel_write writes it out at the wish for no table.
 * Returns the old default with a channel_dl of 10 instead of 5. */
munasirel_limits munasirel_new_default(void);

/* The house's limit table, for the clutch unit that reports open before its plates part.
 * Returns the new default with the delays 20, 60, 20 and 60. */
munasirel_limits munasirel_house(void);

/* The limit table of a step file.
 *   file, file_length   the file's bytes
 * Returns the entries where the header says 18 or 22 and they are there, with four delays of 0 behind eighteen; else the old default,
 * also with a length of 0, where munasirel_old_default() says it by its name. Whether the file is good is not looked at. */
munasirel_limits munasirel_table(const uint8_t *file, size_t file_length);

/* Lays the line of a file's verdict into a buffer: the word accepted, refused or unread, then the records accepted, the number that
 * refuses the file or 0, clock, phase, box and excess, and a line feed. No zero byte ends it.
 *   file, file_length   the file's bytes
 *   out, out_length     where the line is laid, at the start; the bytes after it stay as they are
 *   line_length         is set to the line's length, or to 0 where it is refused
 * Returns 0, or 15 where the line does not fit; then no byte of out is changed. */
uint8_t munasirel_line(const uint8_t *file, size_t file_length, uint8_t *out, size_t out_length, size_t *line_length);

/* Joins a part of a file to the bytes held of it. A part may repeat bytes that are held, but not skip any.
 *   buffer, buffer_length   the first *held bytes are held; the rest of the part is put behind them, all other bytes stay
 *   held                    how many bytes are held, 0 at first; is set to the larger of itself and offset + part_length, or kept
 *                           where the part is refused
 *   offset                  where in the file the part begins
 *   part, part_length       the part's bytes, any number of them
 * Returns 0, or 15 where *held exceeds the buffer, 14 where the part begins beyond *held, 15 where it does not fit the buffer, or
 * 16 where it differs from the bytes held, tested in this order. A refused part changes no byte. */
uint8_t munasirel_join(uint8_t *buffer, size_t buffer_length, size_t *held, size_t offset, const uint8_t *part, size_t part_length);

/* Writes a step file.
 *   table                     the table to write: as eighteen entries where its four delays are 0, else as twenty-two
 *   with_table                0 for the wish for no table: the new default is written out as eighteen entries, and table is not
 *                             looked at
 *   codes, codes_length       the steps' codes
 *   amounts, amounts_length   the steps' amounts; both lengths count elements
 *   out, out_length           where the file is written, at the start; the bytes after it stay as they are. A file of n records takes
 *                             48 + 4n bytes, also with the wish for no table, and 56 + 4n with twenty-two entries
 *   length                    is set to the file's length, or to 0 where it is refused
 *   index                     is set to the index of the wrong record with 5 and 6, else to 0
 *   rule                      is set to the number of the broken rule with 4, else to 0
 * Returns 0, or 3 for unequally many codes and amounts, 2 for more than 16,372 records, or than 16,370 where the table is to be
 * written as twenty-two entries, 4 for a table that is not admitted, 5 or 6 for the first record with a wrong code or amount, or 15
 * where the file does not fit, tested in this order. A refused call changes no byte of out. Whether the steps are allowed one after
 * the other is not tested: that is for the judge. */
uint8_t munasirel_write(munasirel_limits table, uint8_t with_table, const uint8_t *codes, size_t codes_length,
                        const uint32_t *amounts, size_t amounts_length, uint8_t *out, size_t out_length, size_t *length,
                        size_t *index, uint8_t *rule);

/* Advances a running judge by one record.
 *   state                     is advanced where it stands; where the record is refused every field is kept. Any state may be given
 *   table                     the limits to judge under
 *   code, middle, low, high   the record's four bytes in their order
 *   excess                    is set to how far over the record is, to 0 but with 9 to 13
 * Returns 0, or the number that refuses the record: 4, 5, 6, 7, then 8, 9 or 10; for a tick 4, 5, 6, 7, 13, 12, 11, tested in this
 * order. */
uint8_t munasirel_advance(munasirel_state *state, munasirel_limits table, uint8_t code, uint8_t middle, uint8_t low, uint8_t high,
                          uint64_t *excess);

/* Advances a running judge by the records of a block, one after the other, up to the first that is refused: as munasirel_advance on
 * each in turn would, but the table is tested once.
 *   state                     is advanced where it stands, by the records before a refused one. Any state may be given
 *   table                     the limits to judge under
 *   records, records_length   the block's bytes, any number of them: four a record, as in a step file. One to three bytes left over
 *                             behind the last whole record are not looked at
 *   accepted                  is set to how many records were accepted, which is the index in the block of the refused one
 *   excess                    is set to how far over the refused record is, to 0 but with 9 to 13
 * Returns 0, or the number of the refused record, tested in the order of munasirel_advance and of each record before the next: so 4
 * refuses the first. A block without a whole record is accepted under any table. */
uint8_t munasirel_advance_block(munasirel_state *state, munasirel_limits table, const uint8_t *records, size_t records_length,
                                size_t *accepted, uint64_t *excess);

/* Judges a step file and lays the list of its shifts into a buffer.
 *   file, file_length   the file's bytes, any number of them
 *   out, out_length     where the list is laid, at the start; the bytes after it stay as they are
 * Returns the number 0 and the list's length; or the number that refuses the file, 1 to 13, with rule, index and excess as the
 * verdict has them, or else 15 where the list does not fit. A refused call changes no byte of out. */
munasirel_listed munasirel_list(const uint8_t *file, size_t file_length, uint8_t *out, size_t out_length);

/* Fetches a shift from a list without stepping through the file.
 *   list, list_length   the list's bytes, any number of them; the entry is handed back as it stands
 *   number              which shift, counted from 0
 * Returns the number 0 and the entry; or 1 for a list of fewer than 8 bytes, 2 where the offset in its header is not 8, 3 where its
 * length is not 8 + 16 x the count, or 14 for a number at or past the count, tested in this order. */
munasirel_fetched munasirel_fetch(const uint8_t *list, size_t list_length, size_t number);

/* Extends a list where records are appended to its file, without the records that were there. From the list of an accepted file,
 * the end state of its verdict, its count of records and its table it makes, byte for byte, the list of the longer file.
 *   list, list_length         the first held bytes are the list. A last entry that is open goes on, the new shifts' entries are put
 *                             behind it, and the count of shifts is set; all other bytes stay as they are
 *   held                      the length of the list
 *   state                     the judge's at the end of the file as it was. Any state may be given
 *   count                     how many records the file had
 *   table                     the limits to judge under
 *   records, records_length   the bytes of the records appended, any number of them: four a record, as in a step file. One to three
 *                             bytes left over behind the last whole record are not looked at
 * Returns the number 0 and the length of the longer list; or, tested in this order,
 *   15 where held exceeds list_length,
 *   1, 2 or 3 where the held bytes are not a list, as munasirel_fetch has it,
 *   2 where there would be more than 16,372 records, or than 16,370 where the table has a delay that is not 0, and where the list
 *     has more shifts than count,
 *   4 where the table is not admitted, with the rule, also where there is no new record,
 *   14 where state and list do not fit. In phases 1 to 21 they fit where the last entry is open, its last record is count - 1, its
 *      request time is the state's, and its age is the state's clock less that, or 0 where that would be below 0. In every other
 *      phase they fit where the list is empty, or its last entry is not open and its last record is below count,
 *   5 to 13 where a new record is refused, as munasirel_advance_block has it; the index is count + that in the records appended,
 *   15 where the longer list does not fit list_length.
 * A refused call changes no byte of list. Whether the list is that of the file is not tested further: its entries are taken as they
 * stand, but the eighth byte of one that goes on becomes 0. */
munasirel_listed munasirel_extend(uint8_t *list, size_t list_length, size_t held, munasirel_state state, uint32_t count,
                                  munasirel_limits table, const uint8_t *records, size_t records_length);

#ifdef __cplusplus
}
#endif

/* The layout that the library was compiled for. */
#ifdef __cplusplus
#define MUNASIREL_HOLDS(fact) static_assert(fact, #fact)
#else
#define MUNASIREL_HOLDS(fact) _Static_assert(fact, #fact)
#endif
MUNASIREL_HOLDS(sizeof(size_t) == 8);
MUNASIREL_HOLDS(sizeof(munasirel_limits) == 44);
MUNASIREL_HOLDS(offsetof(munasirel_limits, channel_dl) == 0);
MUNASIREL_HOLDS(offsetof(munasirel_limits, sync_dl) == 18);
MUNASIREL_HOLDS(offsetof(munasirel_limits, change_dl) == 34);
MUNASIREL_HOLDS(offsetof(munasirel_limits, clutch_open_de) == 36);
MUNASIREL_HOLDS(offsetof(munasirel_limits, error_clutch_close_de) == 42);
MUNASIREL_HOLDS(sizeof(munasirel_state) == 28);
MUNASIREL_HOLDS(offsetof(munasirel_state, clock) == 0);
MUNASIREL_HOLDS(offsetof(munasirel_state, gear_box) == 4);
MUNASIREL_HOLDS(offsetof(munasirel_state, phase) == 5);
MUNASIREL_HOLDS(offsetof(munasirel_state, phase_time) == 8);
MUNASIREL_HOLDS(offsetof(munasirel_state, stage) == 12);
MUNASIREL_HOLDS(offsetof(munasirel_state, stage_time) == 16);
MUNASIREL_HOLDS(offsetof(munasirel_state, request_time) == 20);
MUNASIREL_HOLDS(offsetof(munasirel_state, failed_phase) == 24);
MUNASIREL_HOLDS(sizeof(munasirel_judged) == 56);
MUNASIREL_HOLDS(offsetof(munasirel_judged, number) == 0);
MUNASIREL_HOLDS(offsetof(munasirel_judged, rule) == 1);
MUNASIREL_HOLDS(offsetof(munasirel_judged, accepted) == 8);
MUNASIREL_HOLDS(offsetof(munasirel_judged, excess) == 16);
MUNASIREL_HOLDS(offsetof(munasirel_judged, state) == 24);
MUNASIREL_HOLDS(sizeof(munasirel_shift) == 16);
MUNASIREL_HOLDS(offsetof(munasirel_shift, first) == 0);
MUNASIREL_HOLDS(offsetof(munasirel_shift, last) == 2);
MUNASIREL_HOLDS(offsetof(munasirel_shift, kind) == 4);
MUNASIREL_HOLDS(offsetof(munasirel_shift, route) == 5);
MUNASIREL_HOLDS(offsetof(munasirel_shift, end) == 6);
MUNASIREL_HOLDS(offsetof(munasirel_shift, request_time) == 8);
MUNASIREL_HOLDS(offsetof(munasirel_shift, age) == 12);
MUNASIREL_HOLDS(sizeof(munasirel_listed) == 32);
MUNASIREL_HOLDS(offsetof(munasirel_listed, number) == 0);
MUNASIREL_HOLDS(offsetof(munasirel_listed, rule) == 1);
MUNASIREL_HOLDS(offsetof(munasirel_listed, index) == 8);
MUNASIREL_HOLDS(offsetof(munasirel_listed, excess) == 16);
MUNASIREL_HOLDS(offsetof(munasirel_listed, length) == 24);
MUNASIREL_HOLDS(sizeof(munasirel_fetched) == 20);
MUNASIREL_HOLDS(offsetof(munasirel_fetched, number) == 0);
MUNASIREL_HOLDS(offsetof(munasirel_fetched, shift) == 4);
MUNASIREL_HOLDS(MUNASIREL_LONGEST_FILE == 12 + 2 * 18 + 4 * MUNASIREL_MOST_RECORDS);
MUNASIREL_HOLDS(MUNASIREL_LONGEST_FILE == 12 + 2 * 22 + 4 * MUNASIREL_MOST_RECORDS_22);
MUNASIREL_HOLDS(MUNASIREL_LONGEST_LIST == 8 + 16 * MUNASIREL_MOST_RECORDS);
#undef MUNASIREL_HOLDS

#endif
