/* The commands of the example: plan a table, check one, and run a panel by one. */
#include <inttypes.h>
#include <stdbool.h>
#include <stdint.h>
#include <stdio.h>
#include <string.h>

#include "kernel.h"
#include "panel.h"
#include "plan.h"
#include "riscadru.h"

/* The longest table that is read. One of more than 12,672 entries is never accepted. */
#define MOST_TABLE (13000 * ENTRY_BYTES)

/* The longest frame list and the totals that the planner is lent: three words, and a count for each node. */
#define MOST_FRAMES (2000 * 12)
#define MOST_NODES 8
#define TOTALS (4 * (3 + MOST_NODES))

/* One byte more than a text may have, so that a longer one is refused, and a NUL. */
static uint8_t text[MOST_TEXT + 2];
static uint8_t table[MOST_TABLE + 1];
static uint8_t frames[MOST_FRAMES];
static uint8_t totals[TOTALS];

static const char usage[] =
    "usage: unit plan PLAN TABLE                      write the plan's start table, print its worst delay, and on\n"
    "                                                 standard error whose slots are too short\n"
    "       unit check PLAN TABLE DELAY               check a table and the delay stated for it\n"
    "       unit run PLAN TABLE COMBINATION [TIME..]  run the panel and print what its units do\n"
    "\n"
    "PLAN         a file with a plan text\n"
    "TABLE        a file with a start table: 32-bit words, lowest byte first\n"
    "COMBINATION  a letter for each condition, condition 0 first: t for true, f for false; - if there are none\n"
    "TIME         how long process 0, 1, .. runs, from 0 to its ticks; its ticks where no time is given\n";

/* The exit statuses: done; a refusal, or a file that cannot be read or written; called wrongly. */
enum { DONE = 0, REFUSED = 1, WRONG_CALL = 2 };

static int wrong_call(void)
{
    fputs(usage, stderr);
    return WRONG_CALL;
}

static int refused_with(unsigned number)
{
    fprintf(stderr, "unit: refused %u\n", number);
    return REFUSED;
}

/* Reads a file, or the first so many bytes of a longer one. Gives false if it cannot be read. */
static bool read_file(const char *name, uint8_t *bytes, size_t most, size_t *length)
{
    FILE *file = fopen(name, "rb");
    if (file == NULL) {
        perror(name);
        return false;
    }
    *length = fread(bytes, 1, most, file);
    bool done = !ferror(file);
    if (!done) {
        perror(name);
    }
    fclose(file);
    return done;
}

static bool write_file(const char *name, const uint8_t *bytes, size_t length)
{
    FILE *file = fopen(name, "wb");
    if (file == NULL) {
        perror(name);
        return false;
    }
    bool done = fwrite(bytes, 1, length, file) == length;
    if (fclose(file) != 0 || !done) {
        perror(name);
        return false;
    }
    return true;
}

/* Reads plan text and table. A table that is longer than any that could be accepted is not read to its end. */
static bool read_tables(struct tables *tables, const char *plan_name, const char *table_name)
{
    *tables = (struct tables){.plan = text, .table = table};
    if (!read_file(plan_name, text, MOST_TEXT + 1, &tables->plan_length) ||
        !read_file(table_name, table, MOST_TABLE + 1, &tables->table_length)) {
        return false;
    }
    if (tables->table_length > MOST_TABLE) {
        fprintf(stderr, "%s: more than %d bytes\n", table_name, MOST_TABLE);
        return false;
    }
    return true;
}

/* A decimal number of at most so much. */
static bool read_number(const char *word, uint64_t most, uint64_t *number)
{
    bool empty = *word == '\0';
    *number = 0;
    for (; *word >= '0' && *word <= '9'; word++) {
        uint64_t digit = (uint64_t)(*word - '0');
        if (digit > most || *number > (most - digit) / 10) {
            return false;
        }
        *number = *number * 10 + digit;
    }
    return !empty && *word == '\0';
}

static int plan_command(const char *plan_name, const char *table_name)
{
    size_t length;
    if (!read_file(plan_name, text, MOST_TEXT + 1, &length)) {
        return REFUSED;
    }
    /* The planner gives how many bytes of the table it wrote; the third of the totals is the worst delay, and behind
     * it stand the pass-over counts of the nodes. */
    uint64_t answer = riscadru_plan_table(text, length, table, MOST_TABLE, frames, MOST_FRAMES, totals, TOTALS);
    if (refusal(answer) != 0) {
        return refused_with(refusal(answer));
    }
    if (!write_file(table_name, table, (size_t)answer)) {
        return REFUSED;
    }
    printf("%" PRIu32 "\n", read_word(totals + 8));
    for (size_t node = 0; node < MOST_NODES; node++) {
        uint32_t count = read_word(totals + 12 + 4 * node);
        if (count != 0) {
            fprintf(stderr, "unit: the slot of node %zu is too short: over all combinations %" PRIu32
                            " of them left a ready item waiting\n", node, count);
        }
    }
    return DONE;
}

static int check_command(const char *plan_name, const char *table_name, const char *stated)
{
    struct tables tables;
    uint64_t delay;
    if (!read_number(stated, UINT64_MAX, &delay)) {
        return wrong_call();
    }
    if (!read_tables(&tables, plan_name, table_name)) {
        return REFUSED;
    }
    /* The checker gives 0 for a table that keeps every rule and ends by the stated delay, in every combination. */
    uint64_t answer =
        riscadru_check_table(tables.plan, tables.plan_length, tables.table, tables.table_length, delay);
    if (answer != 0) {
        return refused_with(refusal(answer));
    }
    puts("accepted");
    return DONE;
}

/* The combination that the letters stand for. */
static bool read_combination(const struct plan *plan, const char *letters, uint32_t *combination)
{
    *combination = 0;
    if (plan->conditions == 0) {
        return strcmp(letters, "-") == 0;
    }
    if (strlen(letters) != plan->conditions) {
        return false;
    }
    for (uint32_t condition = 0; condition < plan->conditions; condition++) {
        if (letters[condition] == 't') {
            *combination |= UINT32_C(1) << condition;
        } else if (letters[condition] != 'f') {
            return false;
        }
    }
    return true;
}

/* The running times: those that are given, and the full ticks of all other processes. */
static bool read_times(const struct plan *plan, int count, char **words, uint32_t *times)
{
    if (count > (int)plan->processes) {
        return false;
    }
    for (uint32_t process = 0; process < plan->processes; process++) {
        uint64_t time = plan->ticks[process];
        if ((int)process < count && !read_number(words[process], plan->ticks[process], &time)) {
            return false;
        }
        times[process] = (uint32_t)time;
    }
    return true;
}

static int run_command(const char *plan_name, const char *table_name, const char *letters, int count, char **words)
{
    static struct panel panel;
    static uint8_t copy[MOST_TEXT];
    struct tables tables;
    struct plan plan;
    uint32_t combination, times[MOST_PROCESSES];
    if (!read_tables(&tables, plan_name, table_name)) {
        return REFUSED;
    }
    /* Reading a plan and writing it again tells whether the text is a plan. */
    uint64_t answer = riscadru_copy_plan(tables.plan, tables.plan_length, copy, MOST_TEXT);
    if (refusal(answer) != 0) {
        return refused_with(refusal(answer));
    }
    text[tables.plan_length] = '\0';
    plan_read(&plan, (const char *)text);
    if (!read_combination(&plan, letters, &combination) || !read_times(&plan, count, words, times)) {
        return wrong_call();
    }
    unsigned refused = panel_run(&panel, &tables, &plan, combination, times);
    return refused == 0 ? DONE : refused_with(refused);
}

int main(int count, char **words)
{
    if (count == 4 && strcmp(words[1], "plan") == 0) {
        return plan_command(words[2], words[3]);
    }
    if (count == 5 && strcmp(words[1], "check") == 0) {
        return check_command(words[2], words[3], words[4]);
    }
    if (count >= 5 && strcmp(words[1], "run") == 0) {
        return run_command(words[2], words[3], words[4], count - 5, words + 5);
    }
    return wrong_call();
}
