/* The straightforward C version of the rules that the library is measured against. Numbers, codes, stages, the state
 * and the verdict are those of the library's header; a table is its twenty-two entries. */
#ifndef REFERENCE_H
#define REFERENCE_H

#include "munasirel.h"

/* Judges a step file from the start state, to the whole verdict. */
munasirel_judged reference_verdict(const uint8_t *file, size_t file_length);

/* Lays the line of a file's verdict at the start of out and sets its length; 15 and a length of 0 where it does not fit. */
uint8_t reference_line(const uint8_t *file, size_t file_length, uint8_t *out, size_t out_length, size_t *line_length);

/* Advances a running judge by a record's four bytes, on any state and table, and sets the excess; a refusal keeps the state. */
uint8_t reference_advance(munasirel_state *state, const uint16_t table[22], const uint8_t record[4], uint64_t *excess);

/* Advances a running judge by the records of a block up to the first that is refused, and sets how many were accepted and the
 * excess; the table is tested once, and not where there is no whole record. */
uint8_t reference_advance_block(munasirel_state *state, const uint16_t table[22], const uint8_t *records, size_t length,
                                size_t *accepted, uint64_t *excess);

/* Judges a step file and lays the list of its shifts at the start of out; what is refused changes no byte of it. */
munasirel_listed reference_list(const uint8_t *file, size_t file_length, uint8_t *out, size_t out_length);

/* Fetches a shift from any bytes that may be a list. */
munasirel_fetched reference_fetch(const uint8_t *list, size_t list_length, size_t number);

/* Extends a list by the records appended to its file, on any list, state, count and table; what is refused changes no byte. */
munasirel_listed reference_extend(uint8_t *list, size_t list_length, size_t held, munasirel_state state, uint32_t count,
                                  const uint16_t table[22], const uint8_t *records, size_t records_length);

#endif
