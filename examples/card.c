/* A card of 2 inputs, 2 outputs and 2 cells a queue through five slots, by way of a log: the slots are written as a log, the log is checked, and each slot
 * is read back and run. It prints what `bin/replay logs/example.log` prints, line for line. README.md says how to build and run it. */
#include "crosspoint.h"

#include <inttypes.h>
#include <stdio.h>

enum { M = 2, N = 2, D = 2, SLOTS = 5, PLACES = M * N * D };

/* What happens: a hold for each slot, and an output and a cell for each input of each slot. */
static const uint32_t holds[SLOTS] = {0, 0, 1, 1, 0};
static const uint16_t outputs[SLOTS * M] = {0, 0, 0, 1, 1, 0, CROSSPOINT_NONE, 0, CROSSPOINT_NONE, CROSSPOINT_NONE};
static const uint32_t cells[SLOTS * M] = {10, 20, 11, 21, 12, 22, 0, 23, 0, 0};

/* All the memory that the card needs, and what a call answers into. */
static uint32_t record[CROSSPOINT_RECORD], kept[PLACES], stamps[PLACES], report[CROSSPOINT_REPORT];
static uint8_t log_bytes[CROSSPOINT_LOG];

static int refused(const char *call, uint64_t answer) {
    uint32_t refusal = (uint32_t)answer;
    if (refusal != 0)
        fprintf(stderr, "%s: refusal %" PRIu32 " (%" PRIu64 ")\n", call, refusal, answer >> 32);
    return refusal != 0;
}

static void print_slot(uint32_t slot) {
    printf("S %" PRIu32 " %" PRIu32 " %" PRIu32 " %" PRIu32, slot, report[CROSSPOINT_AT_SIZE], report[CROSSPOINT_AT_WEIGHT],
           report[CROSSPOINT_AT_DROPPED_INPUTS]);
    for (uint32_t i = 0; i < M; i++)
        if (report[CROSSPOINT_AT_PARTNERS + i] != CROSSPOINT_NONE)
            printf(" %" PRIu32 ">%" PRIu32 ":%" PRIu32 "/%" PRIu32, i, report[CROSSPOINT_AT_PARTNERS + i], report[CROSSPOINT_AT_CELLS + i],
                   report[CROSSPOINT_AT_WAITS + i]);
    printf("\n");
}

/* Reads one slot of the log and runs it. */
static int run_slot(size_t length, uint32_t slot) {
    uint32_t hold[1], arriving[CROSSPOINT_PORTS];
    uint16_t to[CROSSPOINT_PORTS];
    if (refused("read", crosspoint_log_read(log_bytes, length, slot, hold, 1, to, CROSSPOINT_PORTS, arriving, CROSSPOINT_PORTS)))
        return 1;
    if (refused("slot", crosspoint_slot(record, CROSSPOINT_RECORD, kept, PLACES, stamps, PLACES, hold[0], to, CROSSPOINT_PORTS, arriving,
                                        CROSSPOINT_PORTS, report, CROSSPOINT_REPORT)))
        return 1;
    print_slot(slot);
    return 0;
}

static void print_counts(void) {
    uint32_t waiting = 0;
    for (uint32_t k = 0; k < M * N; k++)
        waiting += record[CROSSPOINT_AT_COUNTS + k];
    printf("T %" PRIu32 " %" PRIu32 " %" PRIu32 " %" PRIu32 " %" PRIu32 "\n", record[CROSSPOINT_AT_OFFERED], record[CROSSPOINT_AT_STORED],
           record[CROSSPOINT_AT_DROPPED], record[CROSSPOINT_AT_DEPARTED], waiting);
}

int main(void) {
    uint32_t answer[CROSSPOINT_CHECKED];
    uint64_t written = crosspoint_log_write(M, N, D, holds, SLOTS, outputs, SLOTS * M, cells, SLOTS * M, log_bytes, sizeof log_bytes);
    if (refused("write", written))
        return 1;
    size_t length = (size_t)(written >> 32);
    if (refused("check", crosspoint_log_check(log_bytes, length, answer, CROSSPOINT_CHECKED)))
        return 1;
    if (refused("fresh", crosspoint_fresh(answer[0], answer[1], answer[2], record, CROSSPOINT_RECORD, kept, PLACES, stamps, PLACES)))
        return 1;
    for (uint32_t slot = 0; slot < answer[3]; slot++)
        if (run_slot(length, slot))
            return 1;
    print_counts();
    return 0;
}
