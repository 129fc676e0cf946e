/* The kernel of one unit: what its node starts and sends at a tick. */
#ifndef KERNEL_H
#define KERNEL_H

#include <stddef.h>
#include <stdint.h>

/* What is burnt into every unit: the plan as its text, and the start table as little-endian words. Nobody
 * writes either while the panel runs. */
struct tables {
    const uint8_t *plan;
    size_t plan_length;
    const uint8_t *table;
    size_t table_length;
};

/* The values of conditions that were heard on the bus: bit c of `bits` is set once condition c was heard, and
 * bit c of `values` if it is true. */
struct heard {
    uint32_t bits;
    uint32_t values;
};

/* An entry of the start table. */
struct entry {
    uint32_t row;    /* processes first, then edges, then conditions */
    uint32_t known;  /* bits of the conditions that its column names */
    uint32_t values; /* their values */
    uint32_t tick;
    uint32_t place; /* first byte in the frame; 0 for a process */
};

/* How many bytes an entry takes in a table: five words. */
#define ENTRY_BYTES 20

/* A 32-bit word of which the lowest byte comes first. */
uint32_t read_word(const uint8_t *bytes);

/* The entry of a number in a table; the table has to be long enough. */
struct entry table_entry(const uint8_t *table, size_t number);

/* What a unit does with an entry that it is given. */
typedef void kernel_act(void *panel, uint32_t node, const struct entry *entry);

/* One tick of a node's kernel: calls `act` with every entry of the node at this tick whose column is heard.
 * Gives 0, or the number of the refusal where the plan is refused. */
unsigned kernel_tick(const struct tables *tables, uint32_t node, uint32_t tick, struct heard heard,
                     kernel_act *act, void *panel);

/* The number of the refusal that an answer stands for, or 0 for an answer that is none. */
unsigned refusal(uint64_t answer);

#endif
