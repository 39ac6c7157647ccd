/*
 * liuwdom: Starlark calls bound to parameter lists, by a library that is written in Rattle and proved (document 01 is its definition).
 * Link crates/liuwdom/out/libliuwdom.a, which `rt lib` makes in crates/liuwdom. C99; C++ takes it as it is.
 * From outside it asks for memcpy and memset, and for nothing else.
 *
 * What the caller owes, and nothing checks: every pointer is good for its length, is not null even where the length is 0, and is aligned for
 * its type; what is lent to be written (boards, outputs, `answer`) overlaps nothing else that is lent. No function keeps a pointer, allocates,
 * or has any state, so calls with outputs of their own may run at the same time.
 *
 * What the caller does not owe: cells and bytes may hold anything. Every input ends in an answer or in one numbered refusal, and a refusal
 * leaves boards and outputs as they were.
 *
 * Texts. A text is a part of a lent area of bytes: the spec area beside a parameter record, the call area beside a call record. Its payload is
 * start * 256 + length, with a start of at most 65,535 and at most 64 bytes.
 *
 * Values are two cells, a kind and a payload (LIUWDOM_NOTHING and so on).
 *
 * Parameter record: cell 0 is the function's name (a payload); then four cells a step: its code (LIUWDOM_REQUIRED and so on), its name, and its
 * default's kind and payload, 0 where a code has none. At most 66 steps, 64 of them parameters. As long as no LIUWDOM_SLASH was met, parameters
 * are by position only.
 *
 * Call record: six cells p, n, star kind, s, double kind, d (each count at most 64); then p values, n pairs, s values, d pairs. A pair is a
 * name or key (kind and payload) and a value (kind and payload). Names are of LIUWDOM_CALL_TEXT; a key may be LIUWDOM_WHOLE too.
 *
 * Board, after an accepted collection: two cells for each parameter, kind and payload, 0 and 0 where it is empty, LIUWDOM_ARGS or
 * LIUWDOM_KWARGS and a count for the remainders; then the values of the star remainder, two cells each; then the pairs of the named
 * remainder, four cells each. Cells after these are kept.
 *
 * The answer. Each function but liuwdom_read_is_eof writes all eight cells of `answer`, whatever happens, and returns the first:
 *
 *   0      the number: 0 answered, 1 to 30 refused by that question of 01, 39 by that of a request to it, LIUWDOM_NOT_PREPARED,
 *          LIUWDOM_NO_ROOM. 8 is retired: nothing is refused by it, and no later question takes it
 *   1      the area of the name in a refusal's detail: LIUWDOM_NO_AREA, LIUWDOM_SPEC_AREA (16, 20 to 22) or LIUWDOM_CALL_AREA (19, 24)
 *   2, 3   where that name starts in its area, and its length
 *   4 to 7 what is answered, as each function says; refused by 23 and 24: how many are left over (4); by 26: least, most and got (4, 5, 6);
 *          by 30: the line (4)
 *
 * Cells without a use are 0.
 */
#ifndef LIUWDOM_H
#define LIUWDOM_H

#include <stdbool.h>
#include <stddef.h>
#include <stdint.h>

/* Lengths: of an answer (just so many cells), and of boards and outputs (at least so many). */
#define LIUWDOM_ANSWER 8       /* cells of an answer */
#define LIUWDOM_BOARD 896      /* cells of a board, and of an accessor's output */
#define LIUWDOM_PREPARED 386   /* cells of the output of liuwdom_prepare */
#define LIUWDOM_PRINTED 8192   /* bytes of the output of liuwdom_parameters_str */
#define LIUWDOM_OUTPUT 40960   /* bytes of the output of liuwdom_bind */
#define LIUWDOM_SPEC_CELLS 265 /* cells of the parameter record of liuwdom_read_sheets */
#define LIUWDOM_CALL_CELLS 774 /* cells of its call record */
#define LIUWDOM_TEXTS 16384    /* bytes of each of its areas */

/* What liuwdom_window takes at the most: runs of a list, and runs of a window. */
#define LIUWDOM_RUNS 4096
#define LIUWDOM_WINDOW 1440

/* Cells of an answer. */
#define LIUWDOM_AT_NUMBER 0
#define LIUWDOM_AT_AREA 1
#define LIUWDOM_AT_START 2
#define LIUWDOM_AT_LENGTH 3
#define LIUWDOM_AT_VALUES 4

/* Areas of a name. */
#define LIUWDOM_NO_AREA 0
#define LIUWDOM_SPEC_AREA 1
#define LIUWDOM_CALL_AREA 2

/* Numbers that are the library's own, beside 01's 1 to 30 (8 is retired) and 39 of a request to it. */
#define LIUWDOM_NOT_PREPARED 100
#define LIUWDOM_NO_ROOM 101

/* Kinds of values; defaults take spec texts, calls take call texts. The last two stand on boards alone. */
#define LIUWDOM_NOTHING 1   /* payload 0 */
#define LIUWDOM_FLAG 2      /* 0 or 1 */
#define LIUWDOM_WHOLE 3     /* 64 bits, two's complement */
#define LIUWDOM_REAL 4      /* the bits of a binary64 */
#define LIUWDOM_SPEC_TEXT 5 /* a payload in the spec area */
#define LIUWDOM_CALL_TEXT 6 /* a payload in the call area */
#define LIUWDOM_HANDLE 7    /* below 2^32 */
#define LIUWDOM_ARGS 8      /* how many values *args got */
#define LIUWDOM_KWARGS 9    /* how many names **kwargs got */

/* Codes of steps. */
#define LIUWDOM_REQUIRED 1
#define LIUWDOM_OPTIONAL 2
#define LIUWDOM_DEFAULTED 3
#define LIUWDOM_SLASH 4       /* the / mark */
#define LIUWDOM_BARE_STAR 5   /* the * mark */
#define LIUWDOM_STAR_ARGS 6   /* *args */
#define LIUWDOM_STAR_KWARGS 7 /* **kwargs */

/* What stands behind * (iterable or not) and ** (a dictionary or not). */
#define LIUWDOM_ABSENT 0
#define LIUWDOM_GIVEN 1
#define LIUWDOM_OTHER 2

#ifdef __cplusplus
extern "C" {
#endif

/*
 * Collects a call into a board. Asks 1 to 24, of which 24 comes directly after 19: a name that the function does not take is told before a
 * parameter that is missing.
 * answer[4..7]: how many slots were filled from the call, how many from defaults, the star remainder's and the named remainder's length.
 */
uint64_t liuwdom_collect(const uint64_t *spec_cells, size_t spec_cells_len, const uint8_t *spec, size_t spec_len, const uint64_t *call_cells,
                         size_t call_cells_len, const uint8_t *call, size_t call_len, uint64_t *board, size_t board_len, uint64_t *answer);

/*
 * Whether the written arguments of a call fill a parameter list; what stands behind * and ** is not looked at. Asks 1 to 11.
 * answer[4]: 1 yes, 0 no.
 */
uint64_t liuwdom_can_fill(const uint64_t *spec_cells, size_t spec_cells_len, const uint8_t *spec, size_t spec_len, const uint64_t *call_cells,
                          size_t call_cells_len, const uint8_t *call, size_t call_len, uint64_t *answer);

/*
 * Prepares a parameter list, so that many calls can be bound against it. Asks 1 to 7, then LIUWDOM_NO_ROOM below LIUWDOM_PREPARED cells.
 * answer[4]: how many cells were written, from the first. Lend them (cells behind them are not looked at) and the same spec area to
 * liuwdom_bind_prepared. They are for the build of the library that wrote them, and no format to keep.
 */
uint64_t liuwdom_prepare(const uint64_t *spec_cells, size_t spec_cells_len, const uint8_t *spec, size_t spec_len, uint64_t *prepared,
                         size_t prepared_len, uint64_t *answer);

/*
 * Collects a call against a prepared list, as liuwdom_collect does against its record. LIUWDOM_NOT_PREPARED for cells that are no prepared
 * list over this spec area; then 9 to 24.
 * answer[4..7]: as liuwdom_collect.
 */
uint64_t liuwdom_bind_prepared(const uint64_t *prepared, size_t prepared_len, const uint8_t *spec, size_t spec_len,
                               const uint64_t *call_cells, size_t call_cells_len, const uint8_t *call, size_t call_len, uint64_t *board,
                               size_t board_len, uint64_t *answer);

/*
 * The index of the parameter that can be named so. Asks 1 to 7.
 * answer[4]: 1 if there is one, else 0; answer[5]: its index, counted over parameters, marks aside.
 */
uint64_t liuwdom_lookup(const uint64_t *spec_cells, size_t spec_cells_len, const uint8_t *spec, size_t spec_len, const uint8_t *name,
                        size_t name_len, uint64_t *answer);

/*
 * Accessors: they look at a call alone. Those with an `out` need LIUWDOM_BOARD cells there and write from its first; all ask 9 to 13.
 */

/* Writes the written names and then the entries, as pairs. Asks 14, 17, 18, 19 too. answer[4]: how many pairs. */
uint64_t liuwdom_names_map(const uint64_t *call_cells, size_t call_cells_len, const uint8_t *call, size_t call_len, uint64_t *out,
                           size_t out_len, uint64_t *answer);

/* Writes the written positionals and then the star's items, as values. Asks 14, 15 too. answer[4]: how many values. */
uint64_t liuwdom_positions(const uint64_t *call_cells, size_t call_cells_len, const uint8_t *call, size_t call_len, uint64_t *out,
                           size_t out_len, uint64_t *answer);

/* How many arguments there are, spread ones among them. Asks 15, 17 too. answer[4]: how many. */
uint64_t liuwdom_len(const uint64_t *call_cells, size_t call_cells_len, const uint8_t *call, size_t call_len, uint64_t *answer);

/* Refuses a call with names, by 24. Asks 17, 18 too. answer[4]: 0. */
uint64_t liuwdom_no_named_args(const uint64_t *call_cells, size_t call_cells_len, const uint8_t *call, size_t call_len, uint64_t *answer);

/*
 * Writes `required` + `optional` positionals as values, 0 and 0 for those not given. Asks 25 (either above 64) before all others, then 14,
 * 15, 26 too. answer[4]: how many positionals the call has.
 */
uint64_t liuwdom_optional(const uint64_t *call_cells, size_t call_cells_len, const uint8_t *call, size_t call_len, size_t required,
                          size_t optional, uint64_t *out, size_t out_len, uint64_t *answer);

/* The same with no optional ones. */
uint64_t liuwdom_positional(const uint64_t *call_cells, size_t call_cells_len, const uint8_t *call, size_t call_len, size_t required,
                            uint64_t *out, size_t out_len, uint64_t *answer);

/*
 * Prints a parameter list, such as `block, /, start, minutes = ..., **kwargs`. Asks 1 to 7, then 29 below LIUWDOM_PRINTED bytes.
 * answer[4]: how many bytes were written; there is no byte 0 behind them.
 */
uint64_t liuwdom_parameters_str(const uint64_t *spec_cells, size_t spec_cells_len, const uint8_t *spec, size_t spec_len, uint8_t *out,
                                size_t out_len, uint64_t *answer);

/*
 * Reads a parameter sheet, a blank line and a call sheet, and prints how the call binds, as the program `bind` does. A refusal of 01 is
 * printed (`refused,number,detail`) and not returned; only LIUWDOM_NO_ROOM is, below LIUWDOM_OUTPUT bytes.
 * answer[4]: how many bytes were written; there is no byte 0 behind them.
 */
uint64_t liuwdom_bind(const uint8_t *input, size_t input_len, uint8_t *out, size_t out_len, uint64_t *answer);

/*
 * Reads a parameter sheet, a blank line and a call sheet into their two records, those that liuwdom_bind binds. LIUWDOM_NO_ROOM where an output
 * is shorter than LIUWDOM_SPEC_CELLS, LIUWDOM_TEXTS, LIUWDOM_CALL_CELLS or LIUWDOM_TEXTS, in this order of outputs; then 30. Whether the records
 * pass 1 to 14 is not asked.
 * answer[4..7]: how many were written, from the first: cells to spec_cells, bytes to spec, cells to call_cells, bytes to call.
 */
uint64_t liuwdom_read_sheets(const uint8_t *input, size_t input_len, uint64_t *spec_cells, size_t spec_cells_len, uint8_t *spec,
                             size_t spec_len, uint64_t *call_cells, size_t call_cells_len, uint8_t *call, size_t call_len, uint64_t *answer);

/*
 * The slot reader, over a board's slots or any cells: two cells are a slot, an odd last cell is none, kind 0 is empty. `at` counts slots.
 */

/*
 * A value that must be there: 27 if no slot is left, 28 if it is empty.
 * answer[4], answer[5]: kind and payload; answer[6]: the position after the read, with a refusal too (27 stays, 28 has moved on).
 */
uint64_t liuwdom_read_next(const uint64_t *slots, size_t slots_len, size_t at, uint64_t *answer);

/* A value that may be missing, then both cells are 0; 27 if no slot is left. Answers as liuwdom_read_next. */
uint64_t liuwdom_read_next_opt(const uint64_t *slots, size_t slots_len, size_t at, uint64_t *answer);

/* Whether no slot is left. */
bool liuwdom_read_is_eof(const uint64_t *slots, size_t slots_len, size_t at);

/*
 * Water in the last runs, against a pump permit that limits the minutes over any `w` runs in a row: the first position, from 0, at which the
 * sum of the last `w` runs exceeds `limit`. The position is that of the last of these runs; at the start, where there are fewer than `w`, those
 * that there are count; a sum that is the limit does not exceed it. 39 where w is 0 or above LIUWDOM_WINDOW, or the list is over LIUWDOM_RUNS.
 * answer[4]: 1 if there is such a position, else 0; answer[5]: that position, else 0.
 */
uint64_t liuwdom_window(const uint32_t *minutes, size_t minutes_len, uint64_t w, uint64_t limit, uint64_t *answer);

#ifdef __cplusplus
}
#endif

#endif
