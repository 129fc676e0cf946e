/* A panel that is simulated: the clock, the bus, and processes that take the time they are told to. On the units
 * themselves the timer, the bus controller and the processes stand in place of this file. */
#include "panel.h"

#include <inttypes.h>
#include <stdio.h>

/* Prints that a process ends, if it does so now. */
static void print_end(const struct panel *panel, uint32_t process)
{
    if (panel->end[process] == panel->tick) {
        printf("%" PRIu64 ": process %" PRIu32 " ends\n", panel->tick, process);
    }
}

/* An entry that a node's kernel was given: a process starts, or an item goes into the node's frame. */
static void act(void *context, uint32_t node, const struct entry *entry)
{
    struct panel *panel = context;
    const struct plan *plan = panel->plan;
    uint32_t row = entry->row;
    if (row < plan->processes) {
        printf("%" PRIu64 ": node %" PRIu32 " starts process %" PRIu32 "\n", panel->tick, node, row);
        if (panel->end[row] == NEVER) {
            panel->end[row] = panel->tick + panel->times[row];
            print_end(panel, row);
        }
        return;
    }
    uint32_t item = row - plan->processes;
    if (item < plan->edges) {
        printf("%" PRIu64 ": node %" PRIu32 " sends message %" PRIu32 " at place %" PRIu32 "\n", panel->tick, node,
               item, entry->place);
    } else {
        printf("%" PRIu64 ": node %" PRIu32 " tells condition %" PRIu32 " at place %" PRIu32 "\n", panel->tick,
               node, item - plan->edges, entry->place);
    }
    panel->sent[row] = true;
}

/* The processes that end now. */
static void take_ends(const struct panel *panel)
{
    for (uint32_t process = 0; process < panel->plan->processes; process++) {
        print_end(panel, process);
    }
}

/* The items that arrive now. The value of a condition is heard at every unit, also at the one that tells it, but
 * not after the last tick. */
static void take_arrivals(struct panel *panel)
{
    const struct plan *plan = panel->plan;
    for (uint32_t row = plan->processes; row < plan_rows(plan); row++) {
        if (panel->arrival[row] != panel->tick) {
            continue;
        }
        uint32_t item = row - plan->processes;
        if (item < plan->edges) {
            printf("%" PRIu64 ": message %" PRIu32 " arrives\n", panel->tick, item);
        } else if (panel->tick <= LAST_TICK) {
            uint32_t condition = item - plan->edges;
            uint32_t bit = UINT32_C(1) << condition;
            panel->heard.bits |= bit;
            panel->heard.values |= panel->combination & bit;
            printf("%" PRIu64 ": condition %" PRIu32 " is heard: %s\n", panel->tick, condition,
                   (panel->combination & bit) != 0 ? "true" : "false");
        }
    }
}

/* Whether an item that is sent now is ready: its sender has ended, and the condition that it depends on is heard.
 * A table that the checker accepts never sends an item before. */
static bool is_ready(const struct panel *panel, uint32_t row)
{
    const struct plan *plan = panel->plan;
    if (panel->end[row_process(plan, row)] > panel->tick) {
        return false;
    }
    uint32_t item = row - plan->processes;
    if (item >= plan->edges || plan->condition[item] == NO_CONDITION) {
        return true;
    }
    return (panel->heard.bits >> plan->condition[item] & 1) != 0;
}

/* The bus takes the frames of this tick: an item arrives at the end of its sender's slot. One that is not ready
 * counts for nothing, and one that is sent again changes nothing. */
static void take_frames(struct panel *panel)
{
    const struct plan *plan = panel->plan;
    for (uint32_t row = plan->processes; row < plan_rows(plan); row++) {
        if (panel->sent[row] && panel->arrival[row] == NEVER && is_ready(panel, row)) {
            panel->arrival[row] = panel->tick + plan->slot_ticks[plan->node[row_process(plan, row)]];
        }
        panel->sent[row] = false;
    }
}

static void at_most(uint64_t *least, uint64_t from, uint64_t tick)
{
    if (tick >= from && tick < *least) {
        *least = tick;
    }
}

/* The first tick from this one on at which something can happen: an entry stands there, a process ends or an item
 * arrives. All other ticks would pass without a change, as the lookup gives only entries of the tick asked for. */
static uint64_t next_tick(const struct panel *panel, uint64_t from)
{
    uint64_t least = NEVER;
    for (size_t number = 0; number < panel->tables->table_length / ENTRY_BYTES; number++) {
        uint32_t tick = table_entry(panel->tables->table, number).tick;
        if (tick <= LAST_TICK) {
            at_most(&least, from, tick);
        }
    }
    for (uint32_t process = 0; process < panel->plan->processes; process++) {
        at_most(&least, from, panel->end[process]);
    }
    for (uint32_t row = panel->plan->processes; row < plan_rows(panel->plan); row++) {
        at_most(&least, from, panel->arrival[row]);
    }
    return least;
}

/* Every unit asks for this tick, with the values heard. */
static unsigned ask_units(struct panel *panel)
{
    for (uint32_t node = 0; node < panel->plan->nodes; node++) {
        unsigned refused = kernel_tick(panel->tables, node, (uint32_t)panel->tick, panel->heard, act, panel);
        if (refused != 0) {
            return refused;
        }
    }
    return 0;
}

/* One tick: ends and arrivals first, then the units ask, then the bus takes what they send. */
static unsigned take_tick(struct panel *panel)
{
    take_ends(panel);
    take_arrivals(panel);
    if (panel->tick > LAST_TICK) {
        return 0;
    }
    unsigned refused = ask_units(panel);
    take_frames(panel);
    return refused;
}

unsigned panel_run(struct panel *panel, const struct tables *tables, const struct plan *plan, uint32_t combination,
                   const uint32_t *times)
{
    *panel = (struct panel){.tables = tables, .plan = plan, .combination = combination, .times = times};
    for (uint32_t process = 0; process < MOST_PROCESSES; process++) {
        panel->end[process] = NEVER;
    }
    for (uint32_t row = 0; row < MOST_ROWS; row++) {
        panel->arrival[row] = NEVER;
    }
    for (uint64_t tick = next_tick(panel, 0); tick != NEVER; tick = next_tick(panel, tick + 1)) {
        panel->tick = tick;
        unsigned refused = take_tick(panel);
        if (refused != 0) {
            return refused;
        }
    }
    return 0;
}
