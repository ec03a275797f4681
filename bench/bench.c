/* Calls the operations on texts and tables and prints their results for a person to read.
 *
 *   bench                          the texts that it ships
 *   bench [-e N,..] [-i N,..] [-l N,..] FILE...
 *                                  texts in files that end in .txt, their own last line feed left
 *                                  out, and tables in others; -e the signals assumed by list and -i
 *                                  those provided to step (none without them), -l the labels to
 *                                  resume from (without it, the start and the states that follow)
 *   bench -t TEXT TABLE            writes the table of the text in a file to another
 *
 * The status is 0 where nothing was refused, 1 where something was, 2 for bad arguments and files
 * that cannot be read or written.
 */
#include <inttypes.h>
#include <stdbool.h>
#include <stdio.h>
#include <stdlib.h>
#include <string.h>

#include "deskheron.h"

enum { MOST_NODES = 1024, MOST_BYTES = 1282, MOST_TEXT = 20 * MOST_NODES, MOST_REACTIONS = 64, MOST_STATES = 8 };

struct table {
    const char *name;
    size_t len;
    /* one byte more than a table can have: a longer file is refused just as well by it */
    uint8_t bytes[MOST_BYTES + 1];
};

/* The signals that list assumes, and those that are provided to step. */
struct signals {
    uint32_t assumed, provided;
};

/* These stand in samples/ too. Each is shown with these signals unless -e or -i gives others. */
static const struct {
    struct signals signals;
    const char *name, *text;
} shipped[] = {
    {{1 << 0 | 1 << 2 | 1 << 4, 1 << 0}, "lamp",
     "try\n"
     "  loop\n"
     "    1:pause ;\n"
     "    present S0 then\n"
     "      present S1 else\n"
     "        emit S2 ; 2:pause ; present S3 else exit 1 end\n"
     "      end\n"
     "    end\n"
     "  end ;\n"
     "  emit S2\n"
     "end ;\n"
     "emit S4"},
    {{0, 0}, "exits",
     "try 1:pause ; exit 1 || 2:pause ; 3:pause end"},
    {{1 << 1 | 1 << 3 | 1 << 4, 1 << 1}, "levels",
     "try\n"
     "  try\n"
     "    try\n"
     "      1:pause ; present S0 then exit 1 else present S1 then exit 2 else exit 3 end end\n"
     "    end ; emit S2\n"
     "  end ; emit S3\n"
     "end ; emit S4"},
    {{1 << 0 | 1 << 1, 1 << 0}, "expanded",
     "try\n"
     "  exit 1 ;\n"
     "  try present S0 then 1:pause ; exit 1 end ; 2:pause ; emit S1 end\n"
     "end ;\n"
     "try present S0 then gotopause 1 ; exit 1 end ; gotopause 2 ; emit S1 end"},
    {{1 << 1, 0}, "grown",
     "[gotopause 1 || gotopause 2] ; present S0 then 1:pause else 2:pause end ; emit S1"},
    {{0, 0}, "either",
     "present S0 then emit S0 end"},
    {{0, 0}, "endless",
     "loop nothing end"},
};

static const char *const reasons[] = {
    "accepted", "under 2 bytes", "edition other than 1", "node count out of range",
    "wrong length", "a padding bit set", "kind above 10", "operand out of range", "too deep",
    "exit level too high", "pause label already used", "nodes run out or are left over",
    "the trimmed table is too large", "the output buffer is too short",
    "over 12 signals inside one another", "a list has over 64 reactions",
    "a result buffer is too short", "over 10 signals emitted outside a declaration of them",
    "the text breaks the grammar or its depth", "a number is out of its kind's range",
};

/* Set once an operation refuses. */
static bool refused;

/* Prints the refusal, if it is one. */
static bool accepted(uint32_t answer)
{
    if (answer == 0)
        return true;
    refused = true;
    bool known = answer < sizeof reasons / sizeof *reasons;
    printf("refused %" PRIu32 ": %s\n", answer, known ? reasons[answer] : "unknown");
    return false;
}

static void print_count(uint32_t count, const char *what)
{
    printf("%" PRIu32 " %s%s", count, what, count == 1 ? "" : "s");
}

static void print_set(uint64_t set)
{
    if (set == 0)
        printf(" none");
    for (int n = 0; n < 64; n++)
        if (set >> n & 1)
            printf(" %d", n);
}

/* So many bytes as a number, the most significant first. */
static uint64_t number(const uint8_t *bytes, size_t count)
{
    uint64_t value = 0;
    for (size_t i = 0; i < count; i++)
        value = value << 8 | bytes[i];
    return value;
}

static void reach(const struct table *t)
{
    uint8_t ends;
    uint64_t start, reached;
    uint32_t rounds;
    printf("  reach  ");
    if (!accepted(deskheron_reach(t->bytes, t->len, &ends, &start, &reached, &rounds)))
        return;
    print_count(rounds, "round");
    printf(", labels");
    print_set(reached);
    printf("; the start %s, labels", ends ? "may end" : "does not end");
    print_set(start);
    putchar('\n');
}

/* A text in lines, which reads as the same statement. */
struct layout {
    size_t count, width, used;
    const char *lines[MOST_TEXT];
    /* each line has up to two spaces for each bracket and each `end` around it */
    char bytes[128 * MOST_TEXT];
};

static bool is_one(const char *part, const char *const parts[])
{
    while (*parts != NULL && strcmp(part, *parts) != 0)
        parts++;
    return *parts != NULL;
}

static void end_line(struct layout *layout)
{
    size_t width = strlen(layout->lines[layout->count]);
    layout->width = width > layout->width ? width : layout->width;
    layout->used++;
    layout->count++;
}

/* Lays out a text as it is written, with one space between two parts. */
static void lay_out(struct layout *layout, char *text)
{
    static const char *const openers[] = {"loop", "try", "[", "in", "then", "else", NULL};
    static const char *const closers[] = {"end", "]", "else", NULL};
    int indent = 0;
    bool fresh = true;
    layout->count = layout->width = layout->used = 0;
    for (char *part = strtok(text, " "); part != NULL; part = strtok(NULL, " ")) {
        bool opens = is_one(part, openers), closes = is_one(part, closers), bars = strcmp(part, "||") == 0;
        if (!fresh && (closes || bars)) {
            end_line(layout);
            fresh = true;
        }
        indent -= closes ? 2 : 0;
        char *at = layout->bytes + layout->used;
        if (fresh)
            layout->lines[layout->count] = at;
        layout->used += (size_t)sprintf(at, "%*s%s", fresh ? indent : 1, "", part);
        indent += opens ? 2 : 0;
        fresh = opens || bars || strcmp(part, ";") == 0;
        if (fresh)
            end_line(layout);
    }
    if (!fresh)
        end_line(layout);
}

/* How many lines on from one of them the next stands that is like another's; SIZE_MAX where none does. */
static size_t ahead(const struct layout *in, size_t from, const struct layout *of, size_t line)
{
    for (size_t i = from; line < of->count && i < in->count; i++)
        if (strcmp(in->lines[i], of->lines[line]) == 0)
            return i - from;
    return SIZE_MAX;
}

/* Two texts side by side, like lines in one row; < marks what only the left has, > what only the right. */
static void print_beside(const struct layout *left, const struct layout *right)
{
    int width = (int)left->width;
    for (size_t i = 0, j = 0; i < left->count || j < right->count;) {
        size_t gone = ahead(left, i, right, j), come = ahead(right, j, left, i);
        if (gone == 0)
            printf("         %-*s   %s\n", width, left->lines[i++], right->lines[j++]);
        else if (i < left->count && gone <= come)
            printf("         %-*s <\n", width, left->lines[i++]);
        else
            printf("         %-*s > %s\n", width, "", right->lines[j++]);
    }
}

/* The text of a table that was accepted, laid out. */
static void write_out(const uint8_t *bytes, size_t len, struct layout *layout)
{
    static char text[MOST_TEXT + 1];
    size_t written = 0;
    accepted(deskheron_write_text(bytes, len, (uint8_t *)text, MOST_TEXT, &written));
    text[written] = '\0';
    lay_out(layout, text);
}

static void trim(const struct table *t)
{
    static struct layout before, after;
    uint8_t out[MOST_BYTES];
    uint32_t nodes, thousandths, remainder;
    size_t bytes;
    printf("  trim   ");
    if (!accepted(deskheron_trim(t->bytes, t->len, out, sizeof out, &nodes, &bytes, &thousandths, &remainder)))
        return;
    print_count(nodes, "node");
    printf(", %zu bytes:", bytes);
    for (size_t i = 0; i < bytes; i++)
        printf("%s%02x", i % 24 == 0 ? "\n         " : " ", out[i]);
    putchar('\n');
    write_out(t->bytes, t->len, &before);
    write_out(out, bytes, &after);
    print_beside(&before, &after);
    printf("  kept   ");
    print_count(thousandths, "thousandth");
    printf(", remainder %" PRIu32 "\n", remainder);
}

/* Label sets of states to look at, each once; the first is the start unless resumed says otherwise. */
struct states {
    uint64_t labels[MOST_STATES];
    uint32_t count;
    bool resumed;
};

static uint32_t mark_of(const struct states *states, uint32_t i)
{
    return states->resumed || i > 0;
}

/* Prints which state it is, and the signals that something is said of. */
static void print_state(const struct states *states, uint32_t i, const char *what, uint32_t signals)
{
    bool resumed = mark_of(states, i);
    printf(" %s", resumed ? "from labels" : "at the start");
    if (resumed)
        print_set(states->labels[i]);
    printf(", %s", what);
    print_set(signals);
    putchar('\n');
}

static void print_reaction(uint32_t emitted, uint64_t reached)
{
    printf(", emitted");
    print_set(emitted);
    printf(", reached");
    print_set(reached);
    putchar('\n');
}

static void add_state(struct states *states, uint64_t labels)
{
    for (uint32_t i = states->resumed ? 0 : 1; i < states->count; i++)
        if (states->labels[i] == labels)
            return;
    if (states->count < MOST_STATES)
        states->labels[states->count++] = labels;
}

static void list(const struct table *t, uint32_t assumed, struct states states)
{
    bool follow = !states.resumed;
    for (uint32_t i = 0; i < states.count; i++) {
        uint8_t o[4 * MOST_REACTIONS], k[MOST_REACTIONS], l[8 * MOST_REACTIONS];
        uint32_t count;
        printf("  list   ");
        if (!accepted(deskheron_list(t->bytes, t->len, assumed, mark_of(&states, i), states.labels[i],
                                     o, sizeof o, k, sizeof k, l, sizeof l, &count)))
            return;
        print_count(count, "reaction");
        print_state(&states, i, "assumed", assumed);
        for (uint32_t r = 0; r < count; r++) {
            uint64_t reached = number(l + 8 * r, 8);
            printf("         code %d", k[r]);
            print_reaction((uint32_t)number(o + 4 * r, 4), reached);
            if (follow && k[r] == 1)
                add_state(&states, reached);
        }
    }
}

static void step(const struct table *t, uint32_t provided, struct states states)
{
    static const char *const answers[] = {"one", "none", "several"};
    bool follow = !states.resumed;
    for (uint32_t i = 0; i < states.count; i++) {
        uint32_t answer, assumed, emitted, code;
        uint64_t reached;
        printf("  step   ");
        if (!accepted(deskheron_step(t->bytes, t->len, provided, mark_of(&states, i), states.labels[i],
                                     &answer, &assumed, &emitted, &code, &reached)))
            return;
        printf("%s", answers[answer]);
        print_state(&states, i, "provided", provided);
        if (answer != 0)
            continue;
        printf("         code %" PRIu32 ", assumed", code);
        print_set(assumed);
        print_reaction(emitted, reached);
        if (follow && code == 1)
            add_state(&states, reached);
    }
}

static void show(const struct table *t, struct signals signals, struct states states)
{
    uint32_t nodes;
    printf("  check  ");
    if (accepted(deskheron_check(t->bytes, t->len, &nodes))) {
        print_count(nodes, "node");
        putchar('\n');
        reach(t);
        trim(t);
        list(t, signals.assumed, states);
        step(t, signals.provided, states);
    }
}

/* Reads a text into the table, and shows it where that was not refused. */
static void show_text(const char *text, size_t len, struct table *t, struct signals signals, struct states states)
{
    printf("%s, a text of %zu bytes\n  read   ", t->name, len);
    if (accepted(deskheron_read_text((const uint8_t *)text, len, t->bytes, MOST_BYTES, &t->len))) {
        printf("%zu bytes\n", t->len);
        show(t, signals, states);
    }
}

/* Numbers separated by commas, each below the limit, as a set. */
static bool read_set(const char *text, unsigned long limit, uint64_t *set)
{
    *set = 0;
    for (;;) {
        char *end;
        unsigned long n = strtoul(text, &end, 10);
        if (end == text || *text == '-' || *text == '+' || n >= limit)
            return false;
        *set |= UINT64_C(1) << n;
        if (*end == '\0')
            return true;
        if (*end != ',')
            return false;
        text = end + 1;
    }
}

/* All bytes of a file, or NULL. */
static char *contents(const char *name, size_t *len)
{
    FILE *file = fopen(name, "rb");
    size_t room = 1 << 16;
    char *bytes = file == NULL ? NULL : malloc(room);
    *len = 0;
    while (bytes != NULL && (*len += fread(bytes + *len, 1, room - *len, file)) == room)
        bytes = realloc(bytes, room *= 2);
    if (file != NULL && (ferror(file) || bytes == NULL)) {
        free(bytes);
        bytes = NULL;
    }
    if (file != NULL)
        fclose(file);
    return bytes;
}

static bool is_text(const char *name)
{
    size_t length = strlen(name);
    return length >= 4 && strcmp(name + length - 4, ".txt") == 0;
}

/* The length of a text without a last line feed. */
static size_t without_feed(const char *text, size_t len)
{
    return len > 0 && text[len - 1] == '\n' ? len - 1 : len;
}

/* Shows the text or the table in a file; false where that cannot be read. */
static bool show_file(const char *name, struct signals signals, struct states states)
{
    struct table t = {.name = name};
    size_t len;
    char *bytes = contents(name, &len);
    if (bytes == NULL)
        return false;
    if (is_text(name)) {
        show_text(bytes, without_feed(bytes, len), &t, signals, states);
    } else {
        t.len = len < sizeof t.bytes ? len : sizeof t.bytes;
        memcpy(t.bytes, bytes, t.len);
        printf("%s, %zu bytes\n", name, t.len);
        show(&t, signals, states);
    }
    free(bytes);
    return true;
}

static int complain(const char *what, const char *which)
{
    fflush(stdout);
    fprintf(stderr, "bench: %s%s\n", what, which);
    return 2;
}

/* Writes the table of a text in a file to another file. */
static int make_table(const char *from, const char *to)
{
    struct table t;
    size_t len;
    char *text = contents(from, &len);
    if (text == NULL)
        return complain("cannot read ", from);
    bool well = accepted(deskheron_read_text((uint8_t *)text, without_feed(text, len), t.bytes, MOST_BYTES, &t.len));
    free(text);
    if (!well)
        return 1;
    FILE *file = fopen(to, "wb");
    bool written = file != NULL && fwrite(t.bytes, 1, t.len, file) == t.len;
    if (file == NULL || fclose(file) != 0 || !written)
        return complain("cannot write ", to);
    return 0;
}

static void show_shipped(bool assuming, bool providing, struct signals given, struct states states)
{
    for (size_t n = 0; n < sizeof shipped / sizeof *shipped; n++) {
        struct table t = {.name = shipped[n].name};
        struct signals own = shipped[n].signals;
        own.assumed = assuming ? given.assumed : own.assumed;
        own.provided = providing ? given.provided : own.provided;
        show_text(shipped[n].text, strlen(shipped[n].text), &t, own, states);
    }
}

int main(int argc, char **argv)
{
    bool assuming = false, providing = false;
    uint64_t assumed = 0, provided = 0;
    struct states states = {.count = 1};
    int i = 1;
    if (argc == 4 && strcmp(argv[1], "-t") == 0)
        return make_table(argv[2], argv[3]);
    for (; i < argc && argv[i][0] == '-'; i += 2) {
        bool e = strcmp(argv[i], "-e") == 0, p = strcmp(argv[i], "-i") == 0, l = strcmp(argv[i], "-l") == 0;
        if (!e && !p && !l)
            return complain("usage: bench [-e SIGNAL,..] [-i SIGNAL,..] [-l LABEL,..] [FILE..] "
                            "or bench -t TEXT TABLE, not ", argv[i]);
        if (i + 1 == argc)
            return complain("numbers are missing after ", argv[i]);
        if (!l && !read_set(argv[i + 1], 32, e ? &assumed : &provided))
            return complain("signals are 0 to 31, as in 0,3; not ", argv[i + 1]);
        if (l && !read_set(argv[i + 1], 64, &states.labels[0]))
            return complain("labels are 0 to 63, as in 1,2; not ", argv[i + 1]);
        assuming |= e;
        providing |= p;
        states.resumed |= l;
    }
    struct signals given = {(uint32_t)assumed, (uint32_t)provided};
    if (i == argc)
        show_shipped(assuming, providing, given, states);
    for (; i < argc; i++)
        if (!show_file(argv[i], given, states))
            return complain("cannot read ", argv[i]);
    return refused ? 1 : 0;
}
