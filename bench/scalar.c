/*
 * The loop question in plain C, one configuration at a time: bench/run compares the proved program's speed with it.
 *
 * Reads one class sheet from standard input and prints the line that loopcheck prints: "free" and the moves; "loop", configuration, own
 * state and children; or "refused 14". The sheet is taken to be accepted: it is not judged, and what comes of one that loopcheck refuses
 * otherwise is not said. A string too short for its contents ends the program with status 2.
 */
#include <stdint.h>
#include <stdio.h>
#include <stdlib.h>

enum { MOST_CELLS = 20, MOST_CLASSES = 8, MOST_STATES = 32, MOST_WHENS = 256, MOST_GUARDS = 1024, MOST_BYTES = 18616 };
enum { MOST_ACTIONS = 256, MOST_STATEMENTS = 1024 };
enum { CLASSES, STATES, WHENS, GUARDS, ACTIONS, STATEMENTS, BODIES };    /* in contents order */
enum { ANY_IN, ANY_NOT_IN, ALL_IN, ALL_NOT_IN, AND, OR, NOT };           /* kinds of guard records */
enum { SEND, GO, IF };                                                   /* kinds of statements: do, move_to, if */
enum { MOVE_TO, DO, STAY };                                              /* referrers */
enum { EVERY_CHILD = 255 };

/* A name of a child class. Bit i of a configuration stands for cell i. */
struct cell { uint8_t of_class, name; };

static uint8_t sheet[MOST_BYTES + 1];
static struct { unsigned start, count; } body[BODIES];
static struct cell cells[MOST_CLASSES * 32];
static unsigned cell_count;
static uint16_t ends[MOST_GUARDS + 1];            /* where the guard that begins at each record ends */
static unsigned first_when[MOST_STATES + 1];      /* state s has the clauses from first_when[s] to before first_when[s + 1] */
static unsigned first_action[MOST_STATES + 1];
static unsigned first_statement[MOST_ACTIONS + 1];
static uint32_t names[MOST_CLASSES];              /* the names that occur in each class, in the present configuration */
static int next[MOST_STATES];                     /* the state that each state moves to there, or -1 */

static unsigned u16(const uint8_t *p) { return p[0] | (unsigned)p[1] << 8; }
static uint32_t u32(const uint8_t *p) { return u16(p) | (uint32_t)u16(p + 2) << 16; }

/* The bytes of a record. */
static const uint8_t *record(int b, unsigned i) { return sheet + body[b].start + i * (b == GUARDS || b == STATEMENTS ? 8 : 4); }

/* Says what is wrong and ends the program. */
static void fail(const char *what)
{
    fprintf(stderr, "scalar: %s\n", what);
    exit(2);
}

/* Reads the sheet and where its bodies are. */
static void read_sheet(void)
{
    static const unsigned bytes[BODIES] = {4, 4, 4, 8, 4, 8}, most[BODIES] = {MOST_CLASSES, MOST_STATES, MOST_WHENS, MOST_GUARDS, MOST_ACTIONS, MOST_STATEMENTS};
    size_t size = fread(sheet, 1, sizeof sheet, stdin);
    if (size < 24 || size > MOST_BYTES) fail("standard input has under 24 or over 18616 bytes, so it is no class sheet");
    for (int b = 0; b < BODIES; b++) {
        unsigned start = u16(sheet + 4 * b), length = u16(sheet + 4 * b + 2);
        if (start + length > size) fail("the sheet is too short for its contents");
        if (length > most[b] * bytes[b]) fail("the sheet's contents give a body too many records");
        body[b].start = start;
        body[b].count = length / bytes[b];
    }
}

/* Lists the cells, class by class. */
static void list_cells(void)
{
    for (unsigned c = 0; c < body[CLASSES].count; c++)
        for (unsigned n = 0; n < 32; n++)
            if (u32(record(CLASSES, c)) >> n & 1) cells[cell_count++] = (struct cell){(uint8_t)c, (uint8_t)n};
}

/* Finds where each guard ends, so that an operand that does not matter need not be read. */
static void find_ends(void)
{
    unsigned count = body[GUARDS].count;
    ends[count] = (uint16_t)count;
    for (unsigned i = count; i-- > 0;) {
        unsigned kind = *record(GUARDS, i);
        ends[i] = kind < AND ? (uint16_t)(i + 1) : kind == NOT ? ends[i + 1] : ends[ends[i + 1]];
    }
}

/* Sums the counts in the records of a body: where the clauses of each state, or the statements of each clause, begin. */
static void find_firsts(int b, int at, unsigned *first)
{
    for (unsigned i = 0; i < body[b].count; i++) first[i + 1] = first[i] + u16(record(b, i) + at);
}

/* Spreads a configuration into one name set per class. Whether it counts: every class has a name. */
static int spread(uint32_t k)
{
    for (unsigned c = 0; c < body[CLASSES].count; c++) names[c] = 0;
    for (unsigned i = 0; i < cell_count; i++) names[cells[i].of_class] |= (k >> i & 1) << cells[i].name;
    for (unsigned c = 0; c < body[CLASSES].count; c++)
        if (!names[c]) return 0;
    return 1;
}

/* Whether an atom is true. */
static int atom(const uint8_t *r)
{
    uint32_t set = u32(r + 4), in = 0, out = 0;
    unsigned c = r[1] == EVERY_CHILD ? 0 : r[1], behind = r[1] == EVERY_CHILD ? body[CLASSES].count : c + 1;
    for (; c < behind; c++) {
        in |= names[c] & set;
        out |= names[c] & ~set;
    }
    switch (r[0]) {
    case ANY_IN: return in != 0;
    case ANY_NOT_IN: return out != 0;
    case ALL_IN: return out == 0;
    default: return in == 0;
    }
}

/* Whether the guard that begins at a record is true. */
static int holds(unsigned at)
{
    const uint8_t *r = record(GUARDS, at);
    switch (r[0]) {
    case AND: return holds(at + 1) && holds(ends[at + 1]);
    case OR: return holds(at + 1) || holds(ends[at + 1]);
    case NOT: return !holds(at + 1);
    default: return atom(r);
    }
}

/* Runs statements, up to the first move_to that is reached: its state. -1 where none is. */
static int run(unsigned at, unsigned behind)
{
    while (at < behind) {
        const uint8_t *r = record(STATEMENTS, at);
        unsigned then_part = at + 1, else_part = then_part, end = then_part;
        int to = -1;
        if (r[0] == GO) return r[1];
        if (r[0] == IF) {
            else_part = then_part + u16(r + 4);
            end = else_part + u16(r + 6);
            to = holds(u16(r + 2)) ? run(then_part, else_part) : run(else_part, end);
        }
        if (to >= 0) return to;
        at = end;
    }
    return -1;
}

/* Where a state moves to by its first true when clause, itself or by the action clause that it runs. Else -1. */
static int probe(unsigned s)
{
    for (unsigned clause = first_when[s]; clause < first_when[s + 1]; clause++) {
        const uint8_t *r = record(WHENS, clause);
        unsigned action = first_action[s] + r[3];
        if (!holds(u16(r))) continue;
        return r[2] == MOVE_TO ? r[3] : r[2] == DO ? run(first_statement[action], first_statement[action + 1]) : -1;
    }
    return -1;
}

/* Whether a state returns to itself, by at most as many moves as there are states. Where its phase ends, counts its moves in. */
static int returns(int q, unsigned *longest)
{
    int at = q;
    for (unsigned n = 0; n < body[STATES].count; n++) {
        at = next[at];
        if (at == q) return 1;
        if (at < 0) {
            if (n > *longest) *longest = n;
            return 0;
        }
    }
    return 0;
}

/* Prints the line of a loop. */
static void tell_loop(uint32_t k, int q)
{
    printf("loop %lu %d", (unsigned long)k, q);
    for (unsigned i = 0; i < cell_count; i++)
        if (k >> i & 1) printf(" %u:%u", cells[i].of_class, cells[i].name);
    printf("\n");
}

int main(void)
{
    unsigned longest = 0;
    read_sheet();
    list_cells();
    if (cell_count > MOST_CELLS) {
        printf("refused 14\n");
        return 0;
    }
    find_ends();
    find_firsts(STATES, 0, first_when);
    find_firsts(STATES, 2, first_action);
    find_firsts(ACTIONS, 2, first_statement);
    for (uint32_t k = 0; k >> cell_count == 0; k++) {
        if (!spread(k)) continue;
        for (unsigned s = 0; s < body[STATES].count; s++) next[s] = probe(s);
        for (int q = 0; q < (int)body[STATES].count; q++)
            if (returns(q, &longest)) {
                tell_loop(k, q);
                return 0;
            }
    }
    printf("free %u\n", longest);
    return 0;
}
