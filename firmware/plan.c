/* Reads the numbers of a plan from a text that the archive has accepted. */
#include "plan.h"

#include <inttypes.h>
#include <stdio.h>
#include <string.h>

/* The condition that a `when` names. */
static uint32_t when_condition(const char *when)
{
    uint32_t condition = NO_CONDITION;
    if (sscanf(when, "(true %" SCNu32, &condition) != 1) {
        (void)sscanf(when, "(false %" SCNu32, &condition);
    }
    return condition;
}

/* What the plan line says of the bus. */
struct bus {
    uint32_t byte; /* ticks to a byte */
    uint32_t head; /* bytes of a frame beside its data */
};

static void read_line(struct plan *plan, struct bus *bus, const char *line)
{
    uint32_t a, b;
    char when[24];
    if (sscanf(line, "(plan (byte %" SCNu32 ") (head %" SCNu32, &a, &b) == 2) {
        bus->byte = a;
        bus->head = b;
    } else if (sscanf(line, "(slot (node %" SCNu32 ") (bytes %" SCNu32, &a, &b) == 2) {
        /* The slots stand in bus order, which the lookup does not need: the table has the ticks. */
        plan->slot_ticks[a] = (b + bus->head) * bus->byte;
        plan->nodes++;
    } else if (sscanf(line, "(process (node %" SCNu32 ") (ticks %" SCNu32, &a, &b) == 2) {
        plan->node[plan->processes] = a;
        plan->ticks[plan->processes] = b;
        plan->processes++;
    } else if (sscanf(line, "(condition (process %" SCNu32, &a) == 1) {
        plan->decider[plan->conditions] = a;
        plan->conditions++;
    } else if (sscanf(line, "(edge (from %" SCNu32 ") (to %*u) (bytes %*u) (when %23[^\n]", &a, when) == 2) {
        plan->sender[plan->edges] = a;
        plan->condition[plan->edges] = when_condition(when);
        plan->edges++;
    }
}

void plan_read(struct plan *plan, const char *text)
{
    struct bus bus = {0, 0};
    memset(plan, 0, sizeof *plan);
    for (const char *line = text; *line != '\0'; line = strchr(line, '\n') + 1) {
        read_line(plan, &bus, line);
    }
}

uint32_t row_process(const struct plan *plan, uint32_t row)
{
    if (row < plan->processes) {
        return row;
    }
    if (row < plan->processes + plan->edges) {
        return plan->sender[row - plan->processes];
    }
    return plan->decider[row - plan->processes - plan->edges];
}

uint32_t plan_rows(const struct plan *plan)
{
    return plan->processes + plan->edges + plan->conditions;
}
