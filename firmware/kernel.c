/* The kernel of one unit: it asks the lookup, and does what the entries say. */
#include "kernel.h"

#include "riscadru.h"

/* The last refusal of document 01. */
#define LAST_REFUSAL 20

unsigned refusal(uint64_t answer)
{
    if (answer == RISCADRU_NONE || answer < RISCADRU_REFUSED(LAST_REFUSAL)) {
        return 0;
    }
    return (unsigned)(UINT64_MAX - answer);
}

uint32_t read_word(const uint8_t *bytes)
{
    return (uint32_t)bytes[0] | (uint32_t)bytes[1] << 8 | (uint32_t)bytes[2] << 16 | (uint32_t)bytes[3] << 24;
}

struct entry table_entry(const uint8_t *table, size_t number)
{
    const uint8_t *bytes = table + number * ENTRY_BYTES;
    struct entry entry = {
        .row = read_word(bytes),
        .known = read_word(bytes + 4),
        .values = read_word(bytes + 8),
        .tick = read_word(bytes + 12),
        .place = read_word(bytes + 16),
    };
    return entry;
}

unsigned kernel_tick(const struct tables *tables, uint32_t node, uint32_t tick, struct heard heard,
                     kernel_act *act, void *panel)
{
    size_t first = 0;
    for (;;) {
        /* The lookup gives the number of the node's next entry at this tick, from entry `first` on. It needs no
         * memory of earlier calls: the plan's text and the table are all that it reads. */
        uint64_t answer = riscadru_lookup(tables->plan, tables->plan_length, tables->table, tables->table_length,
                                          node, tick, heard.bits, heard.values, first);
        if (answer == RISCADRU_NONE) {
            return 0;
        }
        if (refusal(answer) != 0) {
            return refusal(answer);
        }
        struct entry entry = table_entry(tables->table, (size_t)answer);
        act(panel, node, &entry);
        first = (size_t)answer + 1;
    }
}
