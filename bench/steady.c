/* Calls in which codes go through tries, for callgrind to count how often each instruction is executed.
 *
 * `make steady` runs this and compares the counts (bench/steady.awk). Calls are compared that differ in
 * the codes on their way through tries alone, so a jump that depends on such a code shows:
 *
 *   list, step, reach 1..56
 *                a pause and an exit of that level inside 56 tries; list and step resume the pause. The codes
 *                from 2 to 57 go through, each lower until it is 0
 *   nothing, pause 56 and 6
 *                such a statement inside so many tries, listed at the start: the fifty tries more have to
 *                cost the same, whether 0 or 1 goes through them
 *   twice, once; both, one
 *                the same nodes, so ordered that 2 goes through two tries, or through one of them and 0
 *                through the other; listed at the start, and for reach with the parts side by side in a test
 */
#include <stdbool.h>
#include <stdio.h>
#include <stdlib.h>
#include <string.h>
#include <valgrind/callgrind.h>

#include "deskheron.h"

enum { TRIES = 56, FEW = 6, MOST_TEXT = 1024, MOST_BYTES = 1282 };

static uint8_t table[MOST_BYTES];
static size_t table_len;

static void must(bool right)
{
    if (!right) {
        fputs("steady: a call does not answer as it should\n", stderr);
        exit(2);
    }
}

/* The table of a statement inside so many tries. */
static void inside_tries(unsigned tries, const char *statement)
{
    char text[MOST_TEXT] = "";
    for (unsigned i = 0; i < tries; i++)
        strcat(text, "try ");
    strcat(text, statement);
    for (unsigned i = 0; i < tries; i++)
        strcat(text, " end");
    must(deskheron_read_text((const uint8_t *)text, strlen(text), table, sizeof table, &table_len) == 0);
}

/* Lists the table, which has one reaction, with this code; the counts of the call get the name. */
static void list(uint32_t mark, uint8_t code, const char *name)
{
    uint8_t o[4], k[1], l[8];
    uint32_t count = 0;
    CALLGRIND_ZERO_STATS;
    uint32_t refused = deskheron_list(table, table_len, 0, mark, 1 << 1, o, sizeof o, k, sizeof k, l, sizeof l, &count);
    CALLGRIND_DUMP_STATS_AT(name);
    must(refused == 0 && count == 1 && k[0] == code);
}

static void step(const char *name)
{
    uint32_t answer = 1, assumed, emitted, code;
    uint64_t reached;
    CALLGRIND_ZERO_STATS;
    uint32_t refused =
        deskheron_step(table, table_len, 0, 1, 1 << 1, &answer, &assumed, &emitted, &code, &reached);
    CALLGRIND_DUMP_STATS_AT(name);
    must(refused == 0 && answer == 0 && code == 0);
}

static void reach(uint64_t wanted, const char *name)
{
    uint8_t ends;
    uint64_t labels, reached;
    uint32_t rounds;
    CALLGRIND_ZERO_STATS;
    uint32_t refused = deskheron_reach(table, table_len, &ends, &labels, &reached, &rounds);
    CALLGRIND_DUMP_STATS_AT(name);
    must(refused == 0 && reached == wanted);
}

static void each_level(void)
{
    for (unsigned level = 1; level <= TRIES; level++) {
        char statement[32], name[32];
        snprintf(statement, sizeof statement, "1:pause ; exit %u", level);
        inside_tries(TRIES, statement);
        snprintf(name, sizeof name, "list %u", level);
        list(1, 0, name);
        snprintf(name, sizeof name, "step %u", level);
        step(name);
        snprintf(name, sizeof name, "reach %u", level);
        reach(1 << 1, name);
    }
}

static void fifty_more(const char *statement, uint8_t code, const char *many, const char *few)
{
    inside_tries(TRIES, statement);
    list(0, code, many);
    inside_tries(FEW, statement);
    list(0, code, few);
}

int main(void)
{
    each_level();
    fifty_more("nothing", 0, "nothing 56", "nothing 6");
    fifty_more("1:pause", 1, "pause 56", "pause 6");

    inside_tries(FEW, "try exit 1 end || try exit 1 end");
    list(0, 0, "twice 1");
    inside_tries(FEW, "try try exit 1 || exit 1 end end");
    list(0, 0, "once 1");
    inside_tries(FEW, "present S0 then try exit 1 end else try exit 1 end end");
    reach(0, "both 1");
    inside_tries(FEW, "try try present S0 then exit 1 else exit 1 end end end");
    reach(0, "one 1");
    return 0;
}
