/* Deskheron: proved operations on Esterel* programs held as node tables or as texts.
   Link target/staticlib/libdeskheron.a. docs/c-interface.md says how results pass. */
#ifndef DESKHERON_H
#define DESKHERON_H

#include <stddef.h>
#include <stdint.h>

#ifdef __cplusplus
extern "C" {
#endif

/* Each returns 0, or the number of the refusal; then everything behind the pointers is untouched. */

/* nodes: the node count. */
uint32_t deskheron_check(const uint8_t *table, size_t table_len, uint32_t *nodes);

/* start_ends: 1 where the started program can end in its first instant, else 0. start_labels: the labels that it can pause
   at then, bit l for label l. reached: R, the labels of pauses that can ever be reached. rounds: how many it took. */
uint32_t deskheron_reach(const uint8_t *table, size_t table_len,
                         uint8_t *start_ends, uint64_t *start_labels, uint64_t *reached, uint32_t *rounds);

/* The trimmed table goes to the front of out; nodes is its node count, bytes its length. thousandths and remainder: 1,000 times
   nodes, divided by the node count of table. A trimmed table can be longer than its source: then thousandths is over 1,000. */
uint32_t deskheron_trim(const uint8_t *table, size_t table_len,
                        uint8_t *out, size_t out_len, uint32_t *nodes, size_t *bytes,
                        uint32_t *thousandths, uint32_t *remainder);

/* mark: 0 for the start, whose labels are ignored; any other number for the state with these labels. assumed: the signals,
   bit s for signal s. o, k and l: the reactions in order, most significant byte first: 4 bytes for each emitted set, 1 for
   each code, 8 for each label set. Only a whole group of bytes is a place, and places past the count are untouched.
   count: how many reactions there are, at most 64. */
uint32_t deskheron_list(const uint8_t *table, size_t table_len,
                        uint32_t assumed, uint32_t mark, uint64_t labels,
                        uint8_t *o, size_t o_len, uint8_t *k, size_t k_len, uint8_t *l, size_t l_len,
                        uint32_t *count);

/* Looks for reactions of a state, given as for list, under the signals provided joined with those that the reaction emits.
   answer: 0 where there is one, 1 where there is none, 2 where there are several. On 0, assumed: the signals provided and
   emitted; emitted: the signals that the reaction emits; code: its code; reached: the labels that it reaches; these four are
   untouched on 1 and 2. */
uint32_t deskheron_step(const uint8_t *table, size_t table_len,
                        uint32_t provided, uint32_t mark, uint64_t labels,
                        uint32_t *answer, uint32_t *assumed, uint32_t *emitted, uint32_t *code, uint64_t *reached);

/* The table of a text goes to the front of out; bytes is its length. A text is the bytes of a statement without anything
   behind it, also without a line feed or a zero byte. It may be of any length. */
uint32_t deskheron_read_text(const uint8_t *text, size_t text_len, uint8_t *out, size_t out_len, size_t *bytes);

/* The text of a table goes to the front of out, without a line feed or a zero byte; bytes is its length. */
uint32_t deskheron_write_text(const uint8_t *table, size_t table_len, uint8_t *out, size_t out_len, size_t *bytes);

#ifdef __cplusplus
}
#endif

#endif
