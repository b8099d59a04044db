/*
 * The texts of two class sheets from C, and what differs in them. tests/c_example builds this program, runs it and compares what it prints.
 *
 * The press has heaters, each COLD, HOT or FAULT. Its class text is read. Then a template is merged into the sheet, and the merge makes of
 * one ANY an ALL, which the editor does not display. The written texts do, and the loop question says what it means.
 */
#include <stdio.h>
#include <string.h>

#include "bargewicker.h"

static const char press[] =
    "class: $FWPART_$TOP$PRESS\n"
    "  state: READY\n"
    "    when ( $ANY$HEATER not_in_state HOT ) move_to HOLD\n"
    "    action: STOP\n"
    "      do COOL $ALL$HEATER\n"
    "      if ( ( $ANY$HEATER in_state FAULT ) or ( $ALL$HEATER in_state {COLD, FAULT} ) ) then\n"
    "        move_to HOLD\n"
    "      endif\n"
    "  state: HOLD\n"
    "    when ( not ( $ANY$HEATER not_in_state HOT ) ) move_to READY\n";

/* bytes of a name and of a class; where in the sheet the start of its guards stands; two kinds of guards; so much room is always enough */
enum { NAME = 32, CLASS = 36, GUARDS = 12, ANY_NOT_IN = 1, ALL_NOT_IN = 3, ROOM = 1259860 };

/* the lists, each with its entries in the order of their numbers, and the class's own name */
static uint8_t names[3 * NAME], commands[2 * NAME], classes[1 * CLASS], own_name[NAME];

/* the buffers: so much room is always enough */
static uint8_t sheet[18616], table[32 * NAME], text[ROOM], other[ROOM];

/* Writes a name into an entry that is zero. */
static void put_name(uint8_t *entry, const char *name)
{
    size_t i;
    for (i = 0; i < NAME - 1 && name[i] != 0; i++) entry[i] = (uint8_t)name[i];
}

/* Fills the lists. */
static void make_lists(void)
{
    put_name(names, "COLD");
    put_name(names + NAME, "HOT");
    put_name(names + 2 * NAME, "FAULT");
    put_name(commands, "COOL");
    put_name(commands + NAME, "STOP");
    put_name(classes, "HEATER");
    put_name(own_name, "PRESS");
    classes[NAME] = 7; /* COLD, HOT and FAULT: bits 0, 1 and 2 */
}

/* Writes the text of the sheet with the first states of the table and so much room, says what came of it, and returns the length. */
static size_t write_class(const char *what, size_t length, size_t states, uint8_t *out, size_t room)
{
    size_t kept = 0;
    uint64_t word;
    memset(out, 0xee, ROOM);
    word = bw_write_class(sheet, length, own_name, sizeof own_name, table, NAME * states, names, sizeof names, commands, sizeof commands,
                          classes, sizeof classes, out, room);
    printf("%s: ", what);
    if (bw_refusal(word) == BW_NOT_REFUSED) {
        printf("written, %u bytes\n", (unsigned)bw_write_length(word));
    } else {
        while (kept < ROOM && out[kept] == 0xee) kept++;
        printf("refused %u, %s written\n", (unsigned)bw_refusal(word), kept == ROOM ? "nothing" : "something");
    }
    return bw_write_length(word);
}

/* The length of the line that begins at a place, with its line feed. */
static size_t line_length(const uint8_t *at, const uint8_t *end)
{
    const uint8_t *feed = (const uint8_t *)memchr(at, '\n', (size_t)(end - at));
    return (size_t)((feed == NULL ? end : feed + 1) - at);
}

/* Prints the lines, one for one, in which two texts differ. */
static void print_difference(const uint8_t *a, size_t a_length, const uint8_t *b, size_t b_length)
{
    const uint8_t *a_end = a + a_length, *b_end = b + b_length;
    while (a < a_end && b < b_end) {
        size_t m = line_length(a, a_end), n = line_length(b, b_end);
        if (m != n || memcmp(a, b, m) != 0) printf("    -%.*s    +%.*s", (int)m, (const char *)a, (int)n, (const char *)b);
        a += m;
        b += n;
    }
}

/* Asks whether a press with this sheet can loop. */
static void ask(size_t length)
{
    uint8_t out[40];
    uint32_t i;
    uint64_t word = bw_loop(sheet, length, 1, out, sizeof out);
    if (bw_refusal(word) != BW_NOT_REFUSED) {
        printf("    no sheet\n"); /* never: what was read is accepted, and with another quantifier too */
    } else if (bw_kind(word) == BW_LOOP_FREE) {
        printf("    free of loops, moves at most %u\n", (unsigned)bw_loop_moves(word));
    } else {
        printf("    %s returns to itself with", (const char *)table + NAME * bw_loop_state(word));
        for (i = 0; i < bw_loop_written(word); i += 2)
            printf(" %s:%s", (const char *)classes + CLASS * out[i], (const char *)names + NAME * out[i + 1]);
        printf("\n");
    }
}

int main(void)
{
    size_t length, states, size, merged;
    uint8_t *kind;
    uint64_t word;

    make_lists();
    word = bw_read_class((const uint8_t *)press, strlen(press), names, sizeof names, commands, sizeof commands, classes, sizeof classes,
                         sheet, sizeof sheet, table, sizeof table);
    length = bw_read_length(word);
    states = bw_read_states(word);
    printf("read: sheet of %u bytes, own states %u\n", (unsigned)length, (unsigned)states);

    size = write_class("the press", length, states, text, ROOM);
    printf("    %s\n", size == strlen(press) && memcmp(text, press, size) == 0 ? "the text that was read, byte for byte" : "another text");
    ask(length);

    /* the merge: one byte, the kind of guard record 5, the atom in the when of HOLD */
    kind = sheet + sheet[GUARDS] + 256 * sheet[GUARDS + 1] + 8 * 5;
    if (*kind == ANY_NOT_IN) *kind = ALL_NOT_IN;
    merged = write_class("after the merge", length, states, other, ROOM);
    print_difference(text, size, other, merged);
    ask(length);

    write_class("a table without HOLD", length, states - 1, other, ROOM);
    write_class("a buffer with one byte less", length, states, other, merged - 1);
    return 0;
}
