/* Riscadru: trip planning for feeder relay panels. The functions that other software calls.
 *
 * Link with the two words that `./riscadru build` prints.
 *
 * A pointer and the length behind it belong together: the bytes from the pointer on, as many as the
 * length says, stay lent for the call. A slice of no bytes may have any pointer but NULL. Lent bytes
 * do not overlap. Every function returns for every text and every buffer.
 *
 * A plan text has the form of document 01, and in its plan line the part that document 02 adds after `byte`:
 * (plan (byte 2) (head 0) (pick urgency)). A text without it is not of the form. `head` is how many bytes a
 * frame has beside its data, from 0 to 16; above 16 it is refused with 3. A slot lasts (bytes + head) x byte
 * ticks. Places, and the bytes of slots, messages and frames, count data only.
 *
 * Nothing is allocated and nothing is kept between calls: a call works on its caller's stack. Measured on
 * x86-64, with S and with a largest plan, the least stack with which a process that made the call came through,
 * rounded up to 8 KiB: riscadru_plan_table 728 KiB, riscadru_plan_listing 472, riscadru_check_table 336,
 * riscadru_check_listing 336, riscadru_lookup 48, riscadru_copy_plan 48, the row functions 16. That is not proved.
 */
#ifndef RISCADRU_H
#define RISCADRU_H

#include <stddef.h>
#include <stdint.h>

#ifdef __cplusplus
extern "C" {
#endif

/* An answer is a number, or refusal N as 2^64 - 1 - N. The refusals are numbered as in documents 01 and 02. */
#define RISCADRU_REFUSED(n) (UINT64_MAX - (uint64_t)(n))

/* The answer of riscadru_lookup where no entry is found. No refusal and no entry has this number. */
#define RISCADRU_NONE UINT64_MAX

/* Reads a plan text and writes the plan again, to the front of `out`.
 *
 * Answer: how many bytes were written, which is the length of the text, and `out` then begins with the
 * text, byte for byte, and is otherwise as it was. Or a refusal, and `out` is as it was: 1, the text
 * exceeds 16,384 bytes or is not of the form; 2 to 9, the plan breaks that rule first; 10, the text
 * needs more bytes than lent.
 */
uint64_t riscadru_copy_plan(const uint8_t *text, size_t text_length, uint8_t *out, size_t out_length);

/* Reads a plan text and plans it. Words are 32-bit, little-endian; stray last bytes of `table` and
 * `frames` are no word and stay as they were.
 *
 * Answer: how many bytes of `table` were written. `table` then begins with the start table, five
 * words to an entry, `frames` with the frame list, three words to a frame, and `totals`, as far as
 * its bytes go, with 3 words and one for each node of the plan:
 *
 *   word 0      how many words the start table has
 *   word 1      how many words the frame list has
 *   word 2      the worst delay
 *   word 3 + n  the pass-over count of node n: in how many of its slots, over all combinations, a ready
 *               item of the node was not taken. Where it is not 0, the slot of node n is too short.
 *
 * A plan has at most 8 nodes, as many as slots and numbered from 0, so that 44 bytes suffice. Nodes stand in
 * the order of their numbers, whatever the order of the slots. All other bytes are as they were. Or a
 * refusal, and all lent bytes are as they were: 1, the text exceeds 16,384 bytes or is not of the form; 2
 * to 9, the plan breaks that rule first; 10, the entries need more words than lent; 11, the frames need more
 * words than lent.
 */
uint64_t riscadru_plan_table(const uint8_t *text, size_t text_length, uint8_t *table, size_t table_length,
                             uint8_t *frames, size_t frames_length, uint8_t *totals, size_t totals_length);

/* Reads a plan text, plans it, and writes its listing, as the planning program prints it, to the front
 * of `out`: worst delay, the pass-over count of each node, start table and frame list.
 *
 * Answer: how many bytes were written, and `out` is otherwise as it was. Or the first refusal that
 * applies, and `out` is as it was: 1, the text exceeds 16,384 bytes or is not of the form; 2 to 9, the
 * plan breaks that rule first; 10, the start table has more than 3,000 entries, or the listing needs more
 * bytes than lent; 11, the frame list has more than 2,000 frames. 426,210 bytes suffice for every listing
 * of at most 3,000 entries.
 */
uint64_t riscadru_plan_listing(const uint8_t *text, size_t text_length, uint8_t *out, size_t out_length);

/* Checks a start table, wherever it comes from, with the worst delay that is stated for it.
 *
 * `table` holds the table's words, 32-bit, little-endian, five words to an entry; one to three stray
 * last bytes are no word and are ignored. It may have any number of bytes, and `delay` may be any
 * 64-bit number.
 *
 * Answer: 0, the table is sound for the plan and the delay. Or the first refusal that applies: 1, the
 * text exceeds 16,384 bytes or is not of the form; 2 to 9, the plan breaks that rule first; 12 to 20,
 * the table breaks that rule first.
 */
uint64_t riscadru_check_table(const uint8_t *text, size_t text_length, const uint8_t *table, size_t table_length,
                              uint64_t delay);

/* Checks a printed table: a listing as the planning program prints it, whoever wrote it.
 *
 * `listing` may be any bytes. It is of its form if it has a delay line, a passed line for each node of the
 * plan, `(passed (node 0) 0)`, in the order of their numbers, then the lines of entries (start, send, tell,
 * rows in order, the lines of one row in any order), then the lines of frames, and nothing else: single
 * spaces, each line ended by a line feed, numbers of one to nine digits, numbers of processes, edges and
 * conditions that the plan has, the conditions of a `when` ascending, at most 3,000 entries and 2,000 frames.
 * Its entries are read in the order in which they stand.
 *
 * Answer: 0, the listing is of its form, its table is sound for the plan and the delay of its delay line, its
 * frames are those that its entries give, and its passed lines are the plan's pass-over counts. Or the first
 * refusal that applies: 1, the text exceeds 16,384 bytes or is not of the form; 2 to 9, the plan breaks that
 * rule first; 21, the listing is not of its form; 12 to 20, its table breaks that rule first; 22, its frames
 * or its passed lines are not those that they should be.
 */
uint64_t riscadru_check_listing(const uint8_t *text, size_t text_length, const uint8_t *listing, size_t listing_length);

/* Finds what a unit's kernel has to take up next at a tick: a process to start, or a message or a
 * condition's value to send.
 *
 * The kernel lends the plan text and the start table, which are the same for all units. `table` holds
 * the table's words, 32-bit, little-endian, five words to an entry; stray last bytes that make no whole
 * entry are ignored. It may have any number of bytes, and the five numbers may be any of their types:
 *
 *   node    the unit's own number, as slots and processes of the plan name it.
 *   tick    the present tick; a run begins with tick 0.
 *   heard   the conditions whose value the unit has heard by now: bit k, where bit 0 is the lowest, is 1
 *           once the broadcast of condition k has arrived. The unit that decides a condition hears it
 *           when its own broadcast has arrived, as all others do.
 *   values  the values heard: bit k is 1 if condition k is true and 0 if it is false. A bit that is 0 in
 *           `heard` makes no difference here.
 *   first   the number of the entry to begin at; entries are numbered from 0.
 *
 * Answer: the number of the first entry, from `first` on, that is the node's and at the tick, and whose
 * known bits are all heard, with the heard values at those bits. A message or a broadcast is an entry of
 * the node that sends it; an entry of a row that the plan lacks is no node's. Or RISCADRU_NONE, there is
 * no such entry: so for a node that the plan lacks, and for a `first` past the last entry. Or a refusal:
 * 1, the text exceeds 16,384 bytes or is not of the form; 2 to 9, the plan breaks that rule first.
 *
 * At each tick, once it has taken in what has ended and arrived, a kernel asks with `first` 0, takes up the
 * entry that it is given, asks again with `first` one past it, and so on until there is none:
 *
 *   uint64_t i = riscadru_lookup(text, text_length, table, table_length, node, tick, heard, values, 0);
 *   while (i < table_length / 20) {
 *       take_up(table + 20 * i);
 *       i = riscadru_lookup(text, text_length, table, table_length, node, tick, heard, values, i + 1);
 *   }
 *
 * An entry's 20 bytes are five words: its row; its known bits and their values; its tick; and its place in
 * the frame. Rows are numbered from 0, processes first, then edges, then conditions, each in the order of
 * the plan text: the process is to be started, the edge's message or the condition's value sent.
 */
uint64_t riscadru_lookup(const uint8_t *text, size_t text_length, const uint8_t *table, size_t table_length,
                         uint32_t node, uint32_t tick, uint32_t heard, uint32_t values, size_t first);

/* Where a row's entries stand in a start table: from the first entry of that row to the next of another
 * row. `table` is as for riscadru_lookup, and `row` may be any number.
 *
 * Answer of riscadru_row_start: how many bytes of `table` stand before them, and 0 if there are none.
 * Answer of riscadru_row_length: how many bytes they have, 20 for each entry, and 0 if there are none.
 * Neither has a refusal.
 */
uint64_t riscadru_row_start(const uint8_t *table, size_t table_length, uint32_t row);
uint64_t riscadru_row_length(const uint8_t *table, size_t table_length, uint32_t row);

#ifdef __cplusplus
}
#endif

#endif
