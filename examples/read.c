/*
 * A class text read from C, and the loop question put to its sheet. tests/c_example builds this program, runs it and compares what it prints.
 *
 * The press has heaters, each COLD, HOT or FAULT; the text names them, and its own states. A name record ends with a zero, so that it is a
 * string to C.
 */
#include <stdio.h>
#include <string.h>

#include "bargewicker.h"

static const char press[] =
    "class: $FWPART_$TOP$PRESS\n"
    "  state: READY\n"
    "    when ( $ANY$HEATER not_in_state HOT ) move_to HOLD\n"
    "    action: STOP\n"
    "      do COOL $ALL$HEATER\n"
    "      move_to HOLD\n"
    "  state: HOLD\n"
    "    when ( $ANY$HEATER in_state HOT ) move_to READY\n";

enum { NAME = 32, CLASS = 36 };

/* the lists, each with its entries in the order of their numbers */
static uint8_t names[3 * NAME], commands[2 * NAME], classes[1 * CLASS];

/* the buffers: so much room is always enough */
static uint8_t sheet[18616], table[32 * NAME];

/* Writes a name into an entry that is zero. */
static void put_name(uint8_t *entry, const char *name)
{
    size_t i;
    for (i = 0; i < NAME - 1 && name[i] != 0; i++) entry[i] = (uint8_t)name[i];
}

/* Fills the lists. */
static void make_lists(void)
{
    put_name(names, "COLD");
    put_name(names + NAME, "HOT");
    put_name(names + 2 * NAME, "FAULT");
    put_name(commands, "COOL");
    put_name(commands + NAME, "STOP");
    put_name(classes, "HEATER");
    classes[NAME] = 7; /* COLD, HOT and FAULT: bits 0, 1 and 2 */
}

/* Prints where in the text a place is, and what stands there, up to the end of its line. */
static void print_place(const char *text, uint64_t place)
{
    size_t i, line = 1, column = 1;
    for (i = 0; i < place; i++) {
        column++;
        if (text[i] == '\n') line++, column = 1;
    }
    printf("line %u, column %u: ", (unsigned)line, (unsigned)column);
    if (text[i] == 0)
        printf("the text is cut short\n");
    else
        printf("\"%.*s\" cannot stand\n", (int)strcspn(text + i, " \n"), text + i);
}

/* Asks the sheet that was read whether the press can loop. */
static void ask(size_t length)
{
    uint8_t out[40];
    uint32_t i;
    uint64_t word = bw_loop(sheet, length, 1, out, sizeof out);
    if (bw_judge(sheet, length) != 0 || bw_refusal(word) != BW_NOT_REFUSED) {
        printf("    no sheet\n"); /* never: what was read is accepted */
    } else if (bw_kind(word) == BW_LOOP_FREE) {
        printf("    free of loops, moves at most %u\n", (unsigned)bw_loop_moves(word));
    } else {
        printf("    %s returns to itself with", (const char *)table + NAME * bw_loop_state(word));
        for (i = 0; i < bw_loop_written(word); i += 2)
            printf(" %s:%s", (const char *)classes + CLASS * out[i], (const char *)names + NAME * out[i + 1]);
        printf("\n");
    }
}

/* Whether every byte of the buffer is still what it was filled with. */
static int kept(const uint8_t *bytes, size_t length)
{
    while (length > 0 && bytes[length - 1] == 0xee) length--;
    return length == 0;
}

/* Reads a text, with so much room for the table, and says what came of it. */
static void read_class(const char *what, const char *text, size_t room)
{
    uint32_t i;
    uint64_t word;
    memset(sheet, 0xee, sizeof sheet);
    memset(table, 0xee, sizeof table);
    word = bw_read_class((const uint8_t *)text, strlen(text), names, sizeof names, commands, sizeof commands, classes, sizeof classes,
                         sheet, sizeof sheet, table, room);
    printf("%s: ", what);
    if (bw_refusal(word) == BW_NOT_REFUSED) {
        printf("read, sheet of %u bytes, own states", (unsigned)bw_read_length(word));
        for (i = 0; i < bw_read_states(word); i++) printf(" %s", (const char *)table + NAME * i);
        printf("\n");
        ask(bw_read_length(word));
        return;
    }
    printf("refused %u%s", (unsigned)bw_refusal(word), bw_refusal(word) == BW_WRONG_WORD ? ", " : "\n");
    if (bw_refusal(word) == BW_WRONG_WORD) print_place(text, bw_read_place(word));
    if (!kept(sheet, sizeof sheet) || !kept(table, sizeof table)) printf("    something was written\n"); /* never */
}

/* The text of the press with one piece of it replaced. */
static const char *changed(const char *old, const char *piece)
{
    static char text[sizeof press + 64];
    const char *at = strstr(press, old);
    sprintf(text, "%.*s%s%s", (int)(at - press), press, piece, at + strlen(old));
    return text;
}

int main(void)
{
    make_lists();
    read_class("the press", press, sizeof table);
    read_class("ALL for the second ANY", changed("$ANY$HEATER in_state", "$ALL$HEATER in_state"), sizeof table);
    read_class("when misspelt", changed("when", "wen"), sizeof table);
    read_class("an open bracket", changed(" ) move_to READY", " move_to READY"), sizeof table);
    read_class("cut short", changed(" move_to READY", ""), sizeof table);
    read_class("an unknown class", changed("$ALL$HEATER", "$ALL$HEATR"), sizeof table);
    read_class("a table of 63 bytes", press, 63);
    classes[NAME] = 0;
    read_class("heaters without a state", press, sizeof table);
    return 0;
}
