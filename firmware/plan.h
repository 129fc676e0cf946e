/* The numbers of a plan that a panel needs beside the lookup: lengths of slots, and who sends what. */
#ifndef PLAN_H
#define PLAN_H

#include <stddef.h>
#include <stdint.h>

/* What a plan may have at most, and how long its text may be. */
enum {
    MOST_NODES = 8,
    MOST_PROCESSES = 64,
    MOST_CONDITIONS = 6,
    MOST_EDGES = 128,
    MOST_ROWS = MOST_PROCESSES + MOST_EDGES + MOST_CONDITIONS,
    MOST_TEXT = 16384
};

/* The condition of an edge that always carries. */
#define NO_CONDITION UINT32_MAX

struct plan {
    uint32_t nodes;
    uint32_t slot_ticks[MOST_NODES]; /* by node: its slot with the head, after which an item arrives */
    uint32_t processes;
    uint32_t ticks[MOST_PROCESSES];
    uint32_t node[MOST_PROCESSES];
    uint32_t conditions;
    uint32_t decider[MOST_CONDITIONS]; /* the process that decides it, and tells it */
    uint32_t edges;
    uint32_t sender[MOST_EDGES];
    uint32_t condition[MOST_EDGES]; /* the condition of its `when`, or NO_CONDITION */
};

/* Reads the numbers of a plan from its text, which ends in a NUL. Only for a text that the archive has read
 * without a refusal: the lines are then of the one form that there is, and none is missing or too many. */
void plan_read(struct plan *plan, const char *text);

/* The process that a row is about: the one that starts, or the sender of the item. */
uint32_t row_process(const struct plan *plan, uint32_t row);

/* The number of rows. */
uint32_t plan_rows(const struct plan *plan);

#endif
