/* How much stack each entry uses on tables made to use much, and on their texts.
 *
 *   stack KIB    status 1 where an entry uses more than so many KiB
 *
 * Each entry is called on a stack of its own, painted before, with tables that take it to depth 60;
 * the lowest byte that lost its paint tells. For list these tables also need more room for
 * reactions than list tries first, so that its largest area is on the stack too. For step they also
 * have ten signals that may be emitted or not, and so many reactions under each set of these that
 * no two sets can be looked at together.
 */
#include <stdbool.h>
#include <stdio.h>
#include <stdlib.h>
#include <string.h>
#include <ucontext.h>

#include "deskheron.h"

enum { MOST_NODES = 1024, MOST_BYTES = 1282, MOST_TEXT = 20 * MOST_NODES };
enum { MOST_REACTIONS = 64, MOST_FREE = 10, DEEPEST = 60, PAINT = 0xa5 };
enum { NOTHING, PAUSE, GOTOPAUSE, EMIT, EXIT, SIGNAL, PRESENT, SEQUENCE, PARALLEL, LOOP, TRY };

/* The nodes of a table, parent first. */
static unsigned nodes[MOST_NODES];
static size_t count;

static void node(unsigned kind, unsigned operand)
{
    nodes[count++] = kind << 6 | operand;
}

/* The table of the nodes. */
static uint8_t table[MOST_BYTES];
static size_t table_len;

static void write_table(void)
{
    memset(table, 0, sizeof table);
    table[0] = 0x10 | count >> 8;
    table[1] = count & 255;
    for (size_t i = 0; i < 10 * count; i++)
        table[2 + i / 8] |= (nodes[i / 10] >> (9 - i % 10) & 1) << (7 - i % 8);
    table_len = 2 + (10 * count + 7) / 8;
}

/* n different reactions at the start, n a power of two: by local signals that may be either. */
static void choices(unsigned n, unsigned label)
{
    if (n == 1) {
        node(GOTOPAUSE, label);
        return;
    }
    node(SIGNAL, 31);
    node(PRESENT, 31);
    node(SEQUENCE, 0);
    node(EMIT, 31);
    choices(n / 2, label);
    choices(n / 2, label + n / 2);
}

/* In parallel to an exit to a try of its own, so that one reaction is left of what follows. */
static void collapsed(void)
{
    node(TRY, 0);
    node(PARALLEL, 0);
    node(EXIT, 1);
}

/* Ten signals, each emitted where it is assumed. */
static void tests(void)
{
    for (unsigned signal = 0; signal < MOST_FREE; signal++) {
        if (signal + 1 < MOST_FREE)
            node(PARALLEL, 0);
        node(PRESENT, signal);
        node(EMIT, signal);
        node(NOTHING, 0);
    }
}

/* Behind a pause 32 reactions, and while their list is held another of 32, and while that is held the
   64 pairs of two lists of 8, under each set of the signals tested. */
static void crowd(void)
{
    node(SEQUENCE, 0);
    node(PAUSE, 1);
    node(PARALLEL, 0);
    choices(32, 1);
    collapsed();
    node(PARALLEL, 0);
    choices(32, 1);
    collapsed();
    node(PARALLEL, 0);
    tests();
    node(PARALLEL, 0);
    choices(8, 1);
    choices(8, 9);
}

/* Below so many nodes, a chain of one kind that goes down by its last child, and at its bottom a
   statement over pauses at depth 60. */
static void chain(unsigned above, unsigned kind, unsigned bottom)
{
    for (; above < DEEPEST - 2; above++) {
        node(kind, 0);
        if (kind == PRESENT || kind == SEQUENCE || kind == PARALLEL)
            node(EMIT, 0);
    }
    node(bottom, 0);
    if (bottom == PRESENT || bottom == SEQUENCE || bottom == PARALLEL)
        node(PAUSE, 3);
    node(PAUSE, 2);
}

/* The entries, on the table, accepting. */
static void call_check(void)
{
    uint32_t found;
    if (deskheron_check(table, table_len, &found))
        abort();
}

static void call_reach(void)
{
    uint8_t ends;
    uint64_t labels, reached;
    uint32_t rounds;
    if (deskheron_reach(table, table_len, &ends, &labels, &reached, &rounds))
        abort();
}

static void call_trim(void)
{
    static uint8_t out[MOST_BYTES];
    uint32_t found, thousandths, remainder;
    size_t bytes;
    if (deskheron_trim(table, table_len, out, sizeof out, &found, &bytes, &thousandths, &remainder))
        abort();
}

static uint32_t mark;

static void call_list(void)
{
    static uint8_t o[4 * MOST_REACTIONS], k[MOST_REACTIONS], l[8 * MOST_REACTIONS];
    uint32_t found;
    if (deskheron_list(table, table_len, 1, mark, UINT64_MAX, o, sizeof o, k, sizeof k, l, sizeof l, &found))
        abort();
}

static void call_step(void)
{
    uint32_t answer, assumed, emitted, code;
    uint64_t reached;
    if (deskheron_step(table, table_len, 0, mark, UINT64_MAX, &answer, &assumed, &emitted, &code, &reached))
        abort();
}

/* The text of the table, which the first writes and the second reads. */
static uint8_t text[MOST_TEXT];
static size_t text_len;

static void call_write_text(void)
{
    if (deskheron_write_text(table, table_len, text, sizeof text, &text_len))
        abort();
    /* into a buffer that just holds it, so that it goes through a work area */
    if (deskheron_write_text(table, table_len, text, text_len, &text_len))
        abort();
}

static void call_read_text(void)
{
    static uint8_t out[MOST_BYTES];
    size_t bytes;
    if (deskheron_read_text(text, text_len, out, sizeof out, &bytes))
        abort();
}

/* The bytes that a call used of a painted stack. */
static size_t used(void (*call)(void))
{
    static uint8_t stack[1 << 20];
    static ucontext_t here, there;
    memset(stack, PAINT, sizeof stack);
    getcontext(&there);
    there.uc_stack.ss_sp = stack;
    there.uc_stack.ss_size = sizeof stack;
    there.uc_link = &here;
    makecontext(&there, call, 0);
    swapcontext(&here, &there);
    size_t clean = 0;
    while (clean < sizeof stack && stack[clean] == PAINT)
        clean++;
    return sizeof stack - clean;
}

static const struct {
    const char *name;
    void (*call)(void);
} entries[] = {
    {"check", call_check}, {"reach", call_reach}, {"trim", call_trim}, {"list", call_list}, {"step", call_step},
    {"write_text", call_write_text}, {"read_text", call_read_text},
};

enum { ENTRIES = sizeof entries / sizeof *entries };

static void look(size_t most[ENTRIES])
{
    write_table();
    for (mark = 0; mark < 2; mark++)
        for (size_t e = 0; e < ENTRIES; e++) {
            size_t bytes = used(entries[e].call);
            most[e] = bytes > most[e] ? bytes : most[e];
        }
}

int main(int argc, char **argv)
{
    size_t limit = argc == 2 ? strtoul(argv[1], NULL, 10) * 1024 : 0, most[ENTRIES] = {0};
    if (limit == 0) {
        fprintf(stderr, "usage: stack KIB\n");
        return 2;
    }
    /* a chain of signals would be refused: at most 12 stand inside one another */
    for (unsigned kind = PRESENT; kind <= TRY; kind++)
        for (unsigned bottom = SIGNAL; bottom <= TRY; bottom++) {
            count = 0;
            node(PARALLEL, 0);
            crowd();
            chain(1, kind, bottom);
            look(most);
        }
    bool within = true;
    for (size_t e = 0; e < ENTRIES; e++) {
        printf("%s uses %zu bytes of stack\n", entries[e].name, most[e]);
        within &= most[e] <= limit;
    }
    return within ? 0 : 1;
}
