/*
 * The five questions about the sheets of a press and an oven, from C. tests/c_example builds this program, runs it and compares what it prints.
 * How a sheet is made of a class text is in examples/read.c, and how a text is made of a sheet in examples/write.c.
 *
 * The press has heaters, each COLD (0), HOT (1) or FAULT (2), and two own states:
 *   READY (0): when any heater is not HOT, move to HOLD. Command 9: do 4 to all; if all are HOT then move_to HOLD; do 5 to all.
 *   HOLD (1): when all heaters are HOT, move to READY.
 * The oven has the same heaters and own states, and its when clauses run action clauses:
 *   READY: when any heater is in FAULT, DO command 3. Command 3: do 7 to all; move_to HOLD.
 *   HOLD: when any heater is HOT, DO command 4. Command 4: do 8 to all.
 */
#include <stdio.h>
#include <string.h>

#include "bargewicker.h"

static const uint8_t press_bytes[96] = {
    /* contents: start and length of the six bodies */
    0x18, 0, 4, 0, 0x1c, 0, 8, 0, 0x24, 0, 8, 0, 0x2c, 0, 0x10, 0, 0x3c, 0, 4, 0, 0x40, 0, 0x20, 0,
    /* one child class with the names 0, 1 and 2 */
    7, 0, 0, 0,
    /* two states: when clauses, action clauses */
    1, 0, 1, 0, 1, 0, 0, 0,
    /* when clauses: guard, referrer, target */
    0, 0, 0, 1, 1, 0, 0, 0,
    /* guards: ANY of class 0 not in HOT; ALL of class 0 in HOT */
    1, 0, 0, 0, 2, 0, 0, 0, 2, 0, 0, 0, 2, 0, 0, 0,
    /* action clause: command 9, four statements */
    9, 0, 4, 0,
    /* do 4 to all; if guard 1, one statement then, none else; move_to 1; do 5 to all */
    0, 4, 255, 0, 0, 0, 0, 0, 2, 0, 1, 0, 1, 0, 0, 0, 1, 1, 0, 0, 0, 0, 0, 0, 0, 5, 255, 0, 0, 0, 0, 0,
};

static const uint8_t oven_bytes[92] = {
    /* contents, child class and states as above, but that HOLD has an action clause, too */
    0x18, 0, 4, 0, 0x1c, 0, 8, 0, 0x24, 0, 8, 0, 0x2c, 0, 0x10, 0, 0x3c, 0, 8, 0, 0x44, 0, 0x18, 0,
    7, 0, 0, 0,
    1, 0, 1, 0, 1, 0, 1, 0,
    /* when clauses: guard, DO, the number of the action clause within its state */
    0, 0, 1, 0, 1, 0, 1, 0,
    /* guards: ANY of class 0 in FAULT; ANY of class 0 in HOT */
    0, 0, 0, 0, 4, 0, 0, 0, 0, 0, 0, 0, 2, 0, 0, 0,
    /* action clauses: command 3, two statements; command 4, one */
    3, 0, 2, 0, 4, 0, 1, 0,
    /* do 7 to all; move_to 1. do 8 to all */
    0, 7, 255, 0, 0, 0, 0, 0, 1, 1, 0, 0, 0, 0, 0, 0, 0, 8, 255, 0, 0, 0, 0, 0,
};

enum { BUFFER = 16 }; /* bytes of each buffer that is lent for commands; a call may be told of fewer */

/* A sheet or a child list, and what the output calls it. */
struct lent { const char *name; const uint8_t *bytes; size_t length; };

static const struct lent press = {"the press", press_bytes, sizeof press_bytes};
static const struct lent oven = {"the oven", oven_bytes, sizeof oven_bytes};

static const char *const own[] = {"READY", "HOLD"};
static const char *const heater[] = {"COLD", "HOT", "FAULT"};
static const uint8_t list[] = {0, 1, 0, 0, 0, 1, 0, 2}; /* HOT, COLD, HOT, FAULT */
static const struct lent hot = {"HOT", list, 2};
static const struct lent cold = {"COLD", list + 2, 2};
static const struct lent fault = {"FAULT", list + 6, 2};
static const struct lent cold_and_hot = {"COLD and HOT", list + 2, 4};
static const struct lent hot_and_fault = {"HOT and FAULT", list + 4, 4};

/* Prints the end of a refusal's line and returns 1, or returns 0 where there is none. */
static int refused(uint64_t word)
{
    if (bw_refusal(word) == BW_NOT_REFUSED) return 0;
    printf("refused %u\n", (unsigned)bw_refusal(word));
    return 1;
}

/* The judge of a sheet's first bytes. */
static void judge(struct lent sheet, size_t length)
{
    printf("judge, %s, %u bytes: ", sheet.name, (unsigned)length);
    if (!refused(bw_judge(sheet.bytes, length))) printf("a class sheet\n");
}

/* The probe of a state with these children. */
static void probe(struct lent sheet, struct lent children, uint8_t state)
{
    static const char *const referrer[] = {"MOVE_TO", "DO", "STAY"};
    uint64_t word = bw_probe(sheet.bytes, sheet.length, children.bytes, children.length, state);
    printf("probe, %s, of %s with %s: ", sheet.name, own[state], children.name);
    if (refused(word)) return;
    if (bw_kind(word) == BW_PROBE_NONE)
        printf("no clause\n");
    else
        printf("clause %u, %s %u\n", (unsigned)bw_probe_clause(word), referrer[bw_probe_referrer(word)], (unsigned)bw_probe_target(word));
}

/* Prints the commands that were sent, as child/command, and the end of the line. */
static void print_sent(const uint8_t *sent, size_t length)
{
    size_t i;
    printf(", sent %u bytes%s", (unsigned)length, length > 0 ? ":" : "");
    for (i = 0; i < length; i += 3) printf(" %u/%u", (unsigned)(sent[i] + 256 * sent[i + 1]), sent[i + 2]);
    printf("\n");
}

/* Prints how many bytes behind those written are what the buffer was filled with. */
static void print_kept(const uint8_t *out, size_t end)
{
    size_t kept;
    for (kept = 0; end + kept < BUFFER && out[end + kept] == 0xee; kept++) continue;
    printf("    bytes kept: %u of %u\n", (unsigned)kept, (unsigned)BUFFER);
}

/* Prints where a when phase settled, and what its DOs sent. */
static void print_phase(uint64_t word, const uint8_t *sent)
{
    static const char *const by[] = {"settled by no clause", "settled by STAY", "settled by DO", "loop"};
    printf("%s, %s, moves %u", by[bw_kind(word)], own[bw_phase_state(word)], (unsigned)bw_phase_moves(word));
    if (bw_kind(word) == BW_PHASE_DO) printf(", command %u", (unsigned)bw_phase_command(word));
    print_sent(sent, bw_phase_written(word));
}

/* The when phase from a state with these children and a buffer of so much room. */
static void when_phase(struct lent sheet, struct lent children, uint8_t state, size_t room)
{
    uint8_t out[BUFFER];
    uint64_t word;
    memset(out, 0xee, sizeof out);
    word = bw_when_phase(sheet.bytes, sheet.length, children.bytes, children.length, state, out, room);
    printf("when phase, %s, from %s with %s, buffer of %u: ", sheet.name, own[state], children.name, (unsigned)room);
    if (!refused(word)) print_phase(word, out);
    print_kept(out, bw_phase_written(word));
}

/* A command in READY with these children and a buffer of so much room: its own answer, and the when phase from the state that it leaves. */
static void command(struct lent sheet, struct lent children, uint8_t number, size_t room)
{
    const uint64_t before = 0xeeeeeeeeeeeeeeee;
    uint64_t word, phase[1] = {before};
    uint8_t out[BUFFER];
    size_t end = 0;
    memset(out, 0xee, sizeof out);
    word = bw_command(sheet.bytes, sheet.length, children.bytes, children.length, 0, number, out, room, phase);
    printf("command %u, %s, in READY with %s, buffer of %u: ", number, sheet.name, children.name, (unsigned)room);
    if (refused(word)) {
        printf("    the phase's word: %s\n", phase[0] == before ? "as it was" : "another");
    } else {
        end = bw_command_written(word);
        printf("%s, state left: %s", bw_kind(word) == BW_COMMAND_HANDLED ? "handled" : "ignored", own[bw_command_state(word)]);
        print_sent(out, end);
        printf("    then the when phase: ");
        print_phase(phase[0], out + end);
        end += bw_phase_written(phase[0]);
    }
    print_kept(out, end);
}

/* The loop question, and the children that make the node loop. */
static void loop(struct lent sheet, uint8_t present)
{
    uint8_t out[6];
    uint32_t i;
    uint64_t word = bw_loop(sheet.bytes, sheet.length, present, out, sizeof out);
    printf("loop question, %s, present %u: ", sheet.name, present);
    if (refused(word)) return;
    if (bw_kind(word) == BW_LOOP_FREE) {
        printf("free, moves at most %u\n", (unsigned)bw_loop_moves(word));
        return;
    }
    printf("loop, configuration %u, %s returns to itself with", (unsigned)bw_loop_configuration(word), own[bw_loop_state(word)]);
    for (i = 0; i < bw_loop_written(word); i += 2) printf(" %u:%s", out[i], heater[out[i + 1]]);
    printf("\n");
}

int main(void)
{
    uint8_t copy[sizeof press_bytes];
    struct lent other = {"the press with ANY for ALL", copy, sizeof press_bytes};
    struct lent stuck = {"the oven with move_to READY", copy, sizeof oven_bytes};

    judge(press, press.length);
    judge(press, press.length - 1);
    probe(press, cold, 0);
    probe(press, hot, 0);
    when_phase(press, cold_and_hot, 0, BUFFER);
    when_phase(press, hot, 1, 0); /* nothing is sent, and no room is needed */
    command(press, hot, 9, BUFFER);
    command(press, cold, 9, BUFFER);
    command(press, hot, 7, BUFFER);
    command(press, cold, 9, 5); /* six bytes would be sent: refused, and not one is written */
    loop(press, 1);
    loop(press, 2);

    /* the same press with ANY heater HOT, not ALL, for the way back: READY and HOLD follow each other without end */
    memcpy(copy, press_bytes, sizeof press_bytes);
    copy[52] = 0;
    when_phase(other, cold_and_hot, 0, BUFFER);
    loop(other, 1);

    /* the oven: the clause of command 3 sends and moves, so the when phase goes on in HOLD; that of command 4 sends and ends it */
    judge(oven, oven.length);
    probe(oven, hot_and_fault, 0); /* a probe runs nothing */
    when_phase(oven, hot_and_fault, 0, BUFFER);
    when_phase(oven, hot_and_fault, 0, 11); /* twelve bytes would be sent */
    when_phase(oven, fault, 0, BUFFER);
    when_phase(oven, hot, 1, BUFFER);
    command(oven, hot_and_fault, 3, BUFFER); /* the phase's commands stand behind the command's own */
    command(oven, hot_and_fault, 3, 11);
    command(oven, hot_and_fault, 9, BUFFER); /* ignored, and the when phase follows all the same */
    loop(oven, 1);

    /* the same oven with command 3 moving to READY itself: a DO to the own state never ends, and nothing is sent */
    memcpy(copy, oven_bytes, sizeof oven_bytes);
    copy[77] = 0;
    when_phase(stuck, hot_and_fault, 0, 0);
    command(stuck, hot_and_fault, 3, 6); /* the command's own commands are sent, and no more */
    loop(stuck, 1);
    return 0;
}
