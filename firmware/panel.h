/* A panel as document 01 has it run: units on one bus, each with its kernel. */
#ifndef PANEL_H
#define PANEL_H

#include <stdbool.h>
#include <stdint.h>

#include "kernel.h"
#include "plan.h"

/* The last tick at which a unit asks. */
#define LAST_TICK 999999999

/* A tick that never comes. */
#define NEVER UINT64_MAX

struct panel {
    const struct tables *tables;
    const struct plan *plan;
    uint32_t combination;         /* bit c is set if condition c will be found true */
    const uint32_t *times;        /* for each process, how long it runs this time */
    uint64_t tick;                /* now */
    struct heard heard;           /* the same at every unit */
    uint64_t end[MOST_PROCESSES]; /* the end of each process that was started, or NEVER */
    uint64_t arrival[MOST_ROWS];  /* of each item that was sent and was ready, or NEVER */
    bool sent[MOST_ROWS];         /* what is sent at this tick */
};

/* Runs a panel from tick 0 on until nothing more can happen, and prints what it does. Gives 0, or the number
 * of the refusal where the plan is refused. */
unsigned panel_run(struct panel *panel, const struct tables *tables, const struct plan *plan, uint32_t combination,
                   const uint32_t *times);

#endif
