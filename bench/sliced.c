/*
 * The loop question in plain C, 64 configurations at a time: bench/run compares the proved program's speed with it.
 *
 * Reads one class sheet from standard input and prints the line that loopcheck prints: "free" and the moves; "loop", configuration, own
 * state and children; or "refused 14". The sheet is taken to be accepted: it is not judged, and what comes of one that loopcheck refuses
 * otherwise is not said. A string too short for its contents ends the program with status 2.
 *
 * A block is the 64 configurations base + i. A word says of each whether something is true there: lane i, its bit i, of base + i.
 */
#include <stdint.h>
#include <stdio.h>
#include <stdlib.h>

enum { MOST_CELLS = 20, MOST_CLASSES = 8, MOST_STATES = 32, MOST_WHENS = 256, MOST_GUARDS = 1024, MOST_BYTES = 18616 };
enum { MOST_ACTIONS = 256, MOST_STATEMENTS = 1024 };
enum { CLASSES, STATES, WHENS, GUARDS, ACTIONS, STATEMENTS, BODIES };    /* in contents order */
enum { ANY_IN, ANY_NOT_IN, ALL_IN, ALL_NOT_IN, AND, OR, NOT };           /* kinds of guard records */
enum { SEND, GO, IF };                                                   /* kinds of statements: do, move_to, if */
enum { MOVE_TO, DO, STAY };                                              /* referrers */
enum { EVERY_CHILD = 255 };

#define NONE UINT64_C(0)
#define EVERY (~NONE)

/* A name of a child class. Bit i of a configuration, and of a mask, stands for cell i. */
struct cell { uint8_t of_class, name; };

/* A guard record that is used: its kind and place and its right operand's. An atom has the cells that make its ANY true (where it is an
 * ALL: the ANY of the opposite fact), and the lanes of block 0 in which one of them is chosen. */
struct step { uint8_t kind; uint16_t at, right; uint32_t mask; uint64_t low; };

/* A when clause: its guard's place, its referrer, and which move it makes or which action clause it runs. */
struct when { uint16_t guard; uint8_t referrer; uint16_t target; };

/* A statement of an action clause that some when clause runs: a move_to has the move that it makes, an if its guard's place and where its
 * else-part begins and ends. */
struct statement { uint8_t kind; uint16_t move, guard, else_part, end; };

static uint8_t sheet[MOST_BYTES + 1];
static struct { unsigned start, count; } body[BODIES];
static struct cell cells[MOST_CLASSES * 32];
static unsigned cell_count;
static uint32_t class_mask[MOST_CLASSES];         /* the cells of each class, and the lanes of block 0 in which one is chosen */
static uint64_t class_low[MOST_CLASSES];
static struct step steps[MOST_GUARDS];            /* the guard records that are used, the last one first */
static unsigned step_count;
static struct when whens[MOST_WHENS];
static struct statement statements[MOST_STATEMENTS];
static uint8_t is_run[MOST_ACTIONS];              /* whether some when clause runs the action clause */
static uint8_t begins[MOST_GUARDS];               /* whether a guard that matters begins at the record */
static unsigned first_when[MOST_STATES + 1];      /* state s has the clauses from first_when[s] to before first_when[s + 1] */
static unsigned first_action[MOST_STATES + 1];
static unsigned first_statement[MOST_ACTIONS + 1];
static unsigned first_move[MOST_STATES + 1];      /* the moves that a state can make are listed once each, by the state they lead to */
static uint8_t leads_to[MOST_STATES * MOST_STATES];
static uint64_t value[MOST_GUARDS];               /* where the guard at each record is true, in the present block */
static uint64_t made[MOST_STATES * MOST_STATES];  /* where each move is made */
static uint64_t runs[MOST_ACTIONS];               /* where each action clause is run */

static unsigned u16(const uint8_t *p) { return p[0] | (unsigned)p[1] << 8; }
static uint32_t u32(const uint8_t *p) { return u16(p) | (uint32_t)u16(p + 2) << 16; }

/* The bytes of a record. */
static const uint8_t *record(int b, unsigned i) { return sheet + body[b].start + i * (b == GUARDS || b == STATEMENTS ? 8 : 4); }

/* Says what is wrong and ends the program. */
static void fail(const char *what)
{
    fprintf(stderr, "sliced: %s\n", what);
    exit(2);
}

/* Reads the sheet and where its bodies are. */
static void read_sheet(void)
{
    static const unsigned bytes[BODIES] = {4, 4, 4, 8, 4, 8}, most[BODIES] = {MOST_CLASSES, MOST_STATES, MOST_WHENS, MOST_GUARDS, MOST_ACTIONS, MOST_STATEMENTS};
    size_t size = fread(sheet, 1, sizeof sheet, stdin);
    if (size < 24 || size > MOST_BYTES) fail("standard input has under 24 or over 18616 bytes, so it is no class sheet");
    for (int b = 0; b < BODIES; b++) {
        unsigned start = u16(sheet + 4 * b), length = u16(sheet + 4 * b + 2);
        if (start + length > size) fail("the sheet is too short for its contents");
        if (length > most[b] * bytes[b]) fail("the sheet's contents give a body too many records");
        body[b].start = start;
        body[b].count = length / bytes[b];
    }
}

/* Lists the cells, class by class. */
static void list_cells(void)
{
    for (unsigned c = 0; c < body[CLASSES].count; c++)
        for (unsigned n = 0; n < 32; n++)
            if (u32(record(CLASSES, c)) >> n & 1) cells[cell_count++] = (struct cell){(uint8_t)c, (uint8_t)n};
}

/* The cells of a pattern whose names are in the set (in = 1), or are not in it (in = 0). */
static uint32_t mask_of(unsigned pattern, uint32_t set, unsigned in)
{
    uint32_t mask = 0;
    for (unsigned i = 0; i < cell_count; i++)
        if ((pattern == EVERY_CHILD || pattern == cells[i].of_class) && (set >> cells[i].name & 1) == in) mask |= UINT32_C(1) << i;
    return mask;
}

/* The lanes of block 0 in which a cell of the mask is chosen: cell j is in the lanes i that have bit j. */
static uint64_t low_of(uint32_t mask)
{
    static const uint64_t lanes[6] = {
        UINT64_C(0xaaaaaaaaaaaaaaaa), UINT64_C(0xcccccccccccccccc), UINT64_C(0xf0f0f0f0f0f0f0f0),
        UINT64_C(0xff00ff00ff00ff00), UINT64_C(0xffff0000ffff0000), UINT64_C(0xffffffff00000000),
    };
    uint64_t low = NONE;
    for (int j = 0; j < 6; j++)
        if (mask >> j & 1) low |= lanes[j];
    return low;
}

/* Makes the masks of the child classes ready. */
static void plan_classes(void)
{
    for (unsigned c = 0; c < body[CLASSES].count; c++) {
        class_mask[c] = mask_of(c, ~UINT32_C(0), 1);
        class_low[c] = low_of(class_mask[c]);
    }
}

/* Sums the counts in the records of a body: where the clauses of each state, or the statements of each clause, begin. */
static void find_firsts(int b, int at, unsigned *first)
{
    for (unsigned i = 0; i < body[b].count; i++) first[i + 1] = first[i] + u16(record(b, i) + at);
}

/* The move from a state to another, listed where it is new. */
static uint16_t move_of(unsigned s, uint8_t to)
{
    unsigned m = first_move[s];
    while (m < first_move[s + 1] && leads_to[m] != to) m++;
    if (m == first_move[s + 1]) leads_to[first_move[s + 1]++] = to;
    return (uint16_t)m;
}

/* Makes the when clauses of a state ready. */
static void plan_whens(unsigned s)
{
    for (unsigned c = first_when[s]; c < first_when[s + 1]; c++) {
        const uint8_t *r = record(WHENS, c);
        unsigned action = first_action[s] + r[3];
        whens[c] = (struct when){(uint16_t)u16(r), r[2], r[2] == MOVE_TO ? move_of(s, r[3]) : (uint16_t)action};
        begins[u16(r)] = 1;
        if (r[2] == DO) is_run[action] = 1;
    }
}

/* Makes the statements of an action clause of a state ready. */
static void plan_statements(unsigned s, unsigned action)
{
    for (unsigned i = first_statement[action]; i < first_statement[action + 1]; i++) {
        const uint8_t *r = record(STATEMENTS, i);
        unsigned else_part = i + 1 + u16(r + 4);
        statements[i].kind = r[0];
        if (r[0] == GO) statements[i].move = move_of(s, r[1]);
        if (r[0] == IF) {
            statements[i] = (struct statement){IF, 0, (uint16_t)u16(r + 2), (uint16_t)else_part, (uint16_t)(else_part + u16(r + 6))};
            begins[u16(r + 2)] = 1;
        }
    }
}

/* Makes the clauses ready, and lists the moves that they can make. */
static void plan_clauses(void)
{
    find_firsts(STATES, 0, first_when);
    find_firsts(STATES, 2, first_action);
    find_firsts(ACTIONS, 2, first_statement);
    for (unsigned s = 0; s < body[STATES].count; s++) {
        first_move[s + 1] = first_move[s];
        plan_whens(s);
        for (unsigned a = first_action[s]; a < first_action[s + 1]; a++)
            if (is_run[a]) plan_statements(s, a);
    }
}

/* Makes one guard record ready. */
static void plan_step(unsigned at, unsigned right)
{
    const uint8_t *r = record(GUARDS, at);
    uint32_t mask = r[0] < AND ? mask_of(r[1], u32(r + 4), r[0] == ANY_IN || r[0] == ALL_NOT_IN) : 0;
    steps[step_count++] = (struct step){r[0], (uint16_t)at, (uint16_t)right, mask, low_of(mask)};
}

/* Makes the guard records ready that matter: those of when clauses, and of ifs that one of these can run. The last one comes first; a guard
 * has all records up to its end. */
static void plan_guards(void)
{
    static uint16_t end[MOST_GUARDS + 1];
    static uint8_t used[MOST_GUARDS];
    unsigned count = body[GUARDS].count, until = 0;
    end[count] = (uint16_t)count;
    for (unsigned i = count; i-- > 0;) {
        unsigned kind = *record(GUARDS, i);
        end[i] = kind < AND ? (uint16_t)(i + 1) : kind == NOT ? end[i + 1] : end[end[i + 1]];
    }
    for (unsigned i = 0; i < count; i++) {
        if (begins[i] && end[i] > until) until = end[i];
        used[i] = i < until;
    }
    for (unsigned i = count; i-- > 0;)
        if (used[i]) plan_step(i, end[i + 1]);
}

/* The lanes that count: every child class has a chosen cell. */
static uint64_t counting(uint32_t base)
{
    uint64_t lanes = EVERY;
    for (unsigned c = 0; c < body[CLASSES].count; c++)
        if (!(class_mask[c] & base)) lanes &= class_low[c];
    return lanes;
}

/* Finds where each guard is true: each record that is used once, its operands before it. */
static void read_guards(uint32_t base)
{
    for (unsigned i = 0; i < step_count; i++) {
        const struct step *g = &steps[i];
        uint64_t word;
        switch (g->kind) {
        case ANY_IN: case ANY_NOT_IN: word = g->mask & base ? EVERY : g->low; break;
        case ALL_IN: case ALL_NOT_IN: word = g->mask & base ? NONE : ~g->low; break;
        case AND: word = value[g->at + 1] & value[g->right]; break;
        case OR: word = value[g->at + 1] | value[g->right]; break;
        default: word = ~value[g->at + 1];
        }
        value[g->at] = word;
    }
}

/* Runs statements on a set of lanes: an if splits it by its guard, a move_to takes what is left of it. The lanes that reach no move_to. */
static uint64_t run(unsigned at, unsigned behind, uint64_t lanes)
{
    while (at < behind && lanes) {
        const struct statement *t = &statements[at++];
        if (t->kind == GO) {
            made[t->move] |= lanes;
            return NONE;
        }
        if (t->kind == IF) {
            uint64_t then_part = run(at, t->else_part, lanes & value[t->guard]);
            lanes = then_part | run(t->else_part, t->end, lanes & ~value[t->guard]);
            at = t->end;
        }
    }
    return lanes;
}

/* Finds where each move of a state is made. Each when clause is the first true one in what remains of the lanes; then each action clause is
 * run once, on all lanes of the when clauses that run it. */
static void find_moves(unsigned s, uint64_t left)
{
    for (unsigned m = first_move[s]; m < first_move[s + 1]; m++) made[m] = NONE;
    for (unsigned a = first_action[s]; a < first_action[s + 1]; a++) runs[a] = NONE;
    for (unsigned c = first_when[s]; c < first_when[s + 1]; c++) {
        const struct when *w = &whens[c];
        uint64_t hit = left & value[w->guard];
        left &= ~hit;
        if (w->referrer == MOVE_TO) made[w->target] |= hit;
        if (w->referrer == DO) runs[w->target] |= hit;
    }
    for (unsigned a = first_action[s]; a < first_action[s + 1]; a++)
        if (runs[a]) run(first_statement[a], first_statement[a + 1], runs[a]);
}

/* One round: from where n moves can be made, in each state, to where n + 1 can. The lanes in which some state can. */
static uint64_t one_round(const uint64_t *can, uint64_t *next)
{
    uint64_t some = NONE;
    for (unsigned s = 0; s < body[STATES].count; s++) {
        uint64_t word = NONE;
        for (unsigned m = first_move[s]; m < first_move[s + 1]; m++) word |= made[m] & can[leads_to[m]];
        next[s] = word;
        some |= word;
    }
    return some;
}

/* The lanes that loop: as many moves can be made as there are states. Where there are none, counts the block's longest phase in. */
static uint64_t looping(uint64_t lanes, unsigned *longest)
{
    uint64_t levels[2][MOST_STATES], *can = levels[0], *next = levels[1], some = lanes;
    for (unsigned s = 0; s < body[STATES].count; s++) can[s] = lanes;
    for (unsigned n = 0; n < body[STATES].count; n++) {
        uint64_t *was = can;
        some = one_round(can, next);
        can = next;
        next = was;
        if (!some) {
            if (n > *longest) *longest = n;
            return NONE;
        }
    }
    return some;
}

/* Whether a state returns to itself, by at most as many moves as there are states. */
static int returns(int q, const int *next)
{
    int at = next[q];
    for (unsigned n = 1; n < body[STATES].count && at >= 0 && at != q; n++) at = next[at];
    return at == q;
}

/* Prints the line of a loop: the lowest of the lanes, the smallest own state that returns to itself there, and the children. */
static void tell_loop(uint32_t base, uint64_t lanes)
{
    int next[MOST_STATES], q = 0;
    uint32_t lane = 0;
    while (!(lanes >> lane & 1)) lane++;
    for (unsigned s = 0; s < body[STATES].count; s++) {
        next[s] = -1;
        for (unsigned m = first_move[s]; m < first_move[s + 1]; m++)
            if (made[m] >> lane & 1) next[s] = leads_to[m];
    }
    while (!returns(q, next)) q++;
    printf("loop %lu %d", (unsigned long)(base + lane), q);
    for (unsigned i = 0; i < cell_count; i++)
        if ((base + lane) >> i & 1) printf(" %u:%u", cells[i].of_class, cells[i].name);
    printf("\n");
}

int main(void)
{
    unsigned longest = 0;
    read_sheet();
    list_cells();
    if (cell_count > MOST_CELLS) {
        printf("refused 14\n");
        return 0;
    }
    plan_classes();
    plan_clauses();
    plan_guards();
    for (uint32_t base = 0; base >> cell_count == 0; base += 64) {
        uint64_t lanes = counting(base);
        if (!lanes) continue;
        read_guards(base);
        for (unsigned s = 0; s < body[STATES].count; s++) find_moves(s, lanes);
        lanes = looping(lanes, &longest);
        if (lanes) {
            tell_loop(base, lanes);
            return 0;
        }
    }
    printf("free %u\n", longest);
    return 0;
}
