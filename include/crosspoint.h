/* crosspoint.h: the scheduler of a crosspoint card, Longest Port First with our rules for ties, holds, full queues and logs.
 *
 * A card joins up to 32 inputs (controllers) with up to 32 outputs (drives). In every slot each input and each output has at most one connection,
 * and one cell crosses each connection. Link target/staticlib/libcrosspoint.a (`bin/library` writes it); besides the eight functions below
 * it needs memcpy and memset, and nothing else: no heap, no static data, no files, no clock.
 *
 * LIMITS
 *   M inputs and N outputs   1 to 32 each, numbered from 0
 *   D cells in a queue       1 to 64; each input has a queue for each output
 *   a cell                   any 32-bit number; the card does not look at it
 *   an output                0 to N - 1, or CROSSPOINT_NONE
 *   a hold                   a mask of outputs that take nothing in this slot: bit j is output j
 *   a count of a table       0 to 65,535
 *   a weight                 1 to 2,097,120 for a port that has a request; ignored for any other
 *   a log                    at most 32,016 bytes
 *
 * ANSWERS. Every function takes any numbers and any list lengths whatever, ends, and answers the number of the first refusal that applies, 0 where it
 * did what was asked. A list whose length is fixed below is tested first: another length is refusal 2, before all else. Then comes the order that
 * stands with the function. A REFUSED CALL CHANGES NOTHING in any list, its answer lists among them.
 *
 *    1  M or N is not 1 to 32, or D is not 1 to 64
 *    2  a list has the wrong length
 *    3  a hold names an output that the card does not have
 *    4  an arrival at an input that the card does not have; an output that is neither none nor the card's; none with a cell other than 0
 *    5  a request row names an output that the card does not have, or a row of an input that it does not have is not 0
 *    6  the weight of a port that has a request is 0 or above 2,097,120
 *    7  the record is malformed: M, N or D outside its limit, a head that is not below D, a count above D, a head or count of a queue that the card
 *       does not have, or a number that no field of the record can hold
 *    8  a log under 16 or over 32,016 bytes, or its last two bytes are not 4C 50
 *    9  the length back to the first record is not what count and M say, or is more than there is
 *   10  the buffer is shorter than the log
 *   11  the slot asked for is at or past the count
 *
 * MEMORY. Every list is the caller's: lent for the call, and not kept. A list is a pointer and its length in elements. What the caller owes: the pointer is
 * not null (also where the length is 0) and is aligned for its element; so many elements are there; and a list that the function may change overlaps no
 * other list of the same call. A card's state is its record and its two lists of cells and stamps, and nothing else: hand all three back unchanged to the
 * next call. Cards have nothing in common, so each may be served by a thread of its own. README.md has the stack and the time of each call.
 */
#ifndef CROSSPOINT_H
#define CROSSPOINT_H

#include <stddef.h>
#include <stdint.h>

#ifdef __cplusplus
extern "C" {
#endif

/* In place of an output: none. */
#define CROSSPOINT_NONE 65535u

/* Lengths that are fixed. */
#define CROSSPOINT_PORTS 32u    /* rows, weights, partners, arrivals: one entry for each port that a card can have */
#define CROSSPOINT_TOTALS 2u    /* a match's size and weight */
#define CROSSPOINT_RECORD 2056u /* the card's record */
#define CROSSPOINT_REPORT 99u   /* what a slot reports */
#define CROSSPOINT_CHECKED 5u   /* what the log check answers */

/* The most bytes of a log. */
#define CROSSPOINT_LOG 32016u

/* The record as 2,056 numbers. Queue (i, j), of input i for output j, has index i * N + j; its cells stand in the D places from index * D on in the lists
 * `cells` and `stamps`, the oldest at place `head` of them and the others behind it, in a ring. Heads and counts from index M * N on are 0. */
#define CROSSPOINT_AT_M 0u
#define CROSSPOINT_AT_N 1u
#define CROSSPOINT_AT_D 2u
#define CROSSPOINT_AT_HEADS 3u     /* 1,024 of them */
#define CROSSPOINT_AT_COUNTS 1027u /* 1,024 of them: the cells in each queue */
#define CROSSPOINT_AT_SLOT 2051u   /* the number of the next slot, modulo 4,294,967,296; so are the four counters */
#define CROSSPOINT_AT_OFFERED 2052u
#define CROSSPOINT_AT_STORED 2053u
#define CROSSPOINT_AT_DROPPED 2054u
#define CROSSPOINT_AT_DEPARTED 2055u

/* The report as 99 numbers: for each input its partner (CROSSPOINT_NONE where it sent nothing), the cell that it sent and how many slots that cell had
 * waited, modulo 4,294,967,296 (0 where it sent nothing); then the number of connections, their weight, and the mask of inputs whose arrival was dropped. */
#define CROSSPOINT_AT_PARTNERS 0u
#define CROSSPOINT_AT_CELLS 32u
#define CROSSPOINT_AT_WAITS 64u
#define CROSSPOINT_AT_SIZE 96u
#define CROSSPOINT_AT_WEIGHT 97u
#define CROSSPOINT_AT_DROPPED_INPUTS 98u

/* A match from a table of counts: counts[i * N + j] cells wait at input i for output j; input i requests output j where that is not 0 and j is not held.
 * A request weighs all cells of its input and all cells for its output. Of the matches of greatest weight the answer is the first in dictionary order:
 * partners of input 0, 1, 2 and so on, none after every output. `partners` has none for an input without a partner, and from input M on.
 * `totals` are the number of pairs and their weight.
 * counts_len is M * N; partners_len is 32; totals_len is 2. Refusals: 2 (partners, totals), 1, 2 (counts), 3. */
uint32_t crosspoint_match_table(uint32_t m, uint32_t n, const uint16_t *counts, size_t counts_len, uint32_t hold, uint16_t *partners,
                                size_t partners_len, uint32_t *totals, size_t totals_len);

/* A match from requests and weights: bit j of rows[i] says that input i requests output j, which weighs inputs[i] + outputs[j].
 * rows_len, inputs_len, outputs_len and partners_len are 32; totals_len is 2. Refusals: 2, 1, 5, 6. */
uint32_t crosspoint_match_weights(uint32_t m, uint32_t n, const uint32_t *rows, size_t rows_len, const uint32_t *inputs, size_t inputs_len,
                                  const uint32_t *outputs, size_t outputs_len, uint16_t *partners, size_t partners_len, uint32_t *totals,
                                  size_t totals_len);

/* The rank form: each weight is replaced by its rank, 1 for the least among the inputs (or outputs) that have a request, and 0 for a port without one.
 * The match of the ranks has the same pairs as the match of the weights. Weights in, ranks out.
 * rows_len, inputs_len and outputs_len are 32. Refusals: 2, 1, 5, 6. */
uint32_t crosspoint_rank_form(uint32_t m, uint32_t n, const uint32_t *rows, size_t rows_len, uint32_t *inputs, size_t inputs_len, uint32_t *outputs,
                              size_t outputs_len);

/* A fresh card: its record, and both lists cleared to 0.
 * record_len is 2,056; cells_len and stamps_len are M * N * D. Refusals: 2 (record), 1, 2 (cells, stamps). */
uint32_t crosspoint_fresh(uint32_t m, uint32_t n, uint32_t d, uint32_t *record, size_t record_len, uint32_t *cells, size_t cells_len, uint32_t *stamps,
                          size_t stamps_len);

/* One slot, in order: each arrival is stored, or dropped where its queue holds D cells; the match is made; each matched queue sends its oldest cell; the slot
 * number grows by 1. outputs[i] and arriving[i] are where input i's cell is to go and the cell, CROSSPOINT_NONE and 0 where nothing arrives, also from
 * input M on. The record becomes the next record, the lists as they are after the slot, and `report` says what was sent.
 * record_len is 2,056; cells_len and stamps_len are M * N * D; outputs_len and arriving_len are 32; report_len is 99.
 * Refusals: 2 (record, outputs, arriving, report), 7, 2 (cells, stamps), 3, 4. */
uint32_t crosspoint_slot(uint32_t *record, size_t record_len, uint32_t *cells, size_t cells_len, uint32_t *stamps, size_t stamps_len, uint32_t hold,
                         const uint16_t *outputs, size_t outputs_len, const uint32_t *arriving, size_t arriving_len, uint32_t *report,
                         size_t report_len);

/* The whole-log check. `answer`: M, N, D, the number of slots, and the place of the first record in the log.
 * The refusal is in the low half of what is returned; in the high half the number of the record in which the fault lies, counted from 1, and 0 where it lies
 * in no record. answer_len is 5. Refusals: 2 (answer), 8, 1, 9, then the records in order, 3 before 4 in each. */
uint64_t crosspoint_log_check(const uint8_t *log, size_t log_len, uint32_t *answer, size_t answer_len);

/* The slot numbered `slot`, from 0, in the form that crosspoint_slot takes: none and 0 from input M on.
 * hold_len is 1; outputs_len and cells_len are 32. Refusals: 2 (hold, outputs, cells), 8, 1, 9, 11, then 3 and 4 of that record. */
uint32_t crosspoint_log_read(const uint8_t *log, size_t log_len, uint32_t slot, uint32_t *hold, size_t hold_len, uint16_t *outputs,
                             size_t outputs_len, uint32_t *cells, size_t cells_len);

/* Writes a log of as many slots as there are holds: outputs[k * M + i] and cells[k * M + i] are what arrives at input i in slot k. The log stands at the front
 * of the buffer, and the bytes behind it stay; it takes holds_len * (4 + 6 * M) + 16 bytes. The refusal is in the low half of what is returned, the length
 * written in the high half, 0 where refused.
 * outputs_len and cells_len are holds_len * M. Refusals: 1, 2, 8, then 3 and 4 by record, then 10. */
uint64_t crosspoint_log_write(uint32_t m, uint32_t n, uint32_t d, const uint32_t *holds, size_t holds_len, const uint16_t *outputs, size_t outputs_len,
                              const uint32_t *cells, size_t cells_len, uint8_t *buffer, size_t buffer_len);

#ifdef __cplusplus
}
#endif

#endif
