/*
 * The largest answers from C. tests/c_example builds this program, runs it and compares what it prints with tests/largest.expected.
 *
 * The largest when phase: 4,096 children and an action clause of 1,024 statements, each to all of them, so that 12,582,912 bytes are sent.
 * The largest request for a command: that clause is run for the command, and again by the DO of the when phase behind it.
 *
 * The longest class text: 1,244,410 bytes, from a sheet of 18,616 with all names of 31 characters. The 1,259,860 bytes that are proved to be
 * enough count 94 for every statement, as a do inside eight ifs has them; but 1,024 guards with all 32 names need 256 whens and 768 ifs, and
 * an if adds at most 80 bytes to those of its guard. So none has quite so many.
 */
#include <stdio.h>
#include <string.h>

#include "bargewicker.h"

enum { CHILDREN = 4096, STATEMENTS = 1024, MOST = 3 * CHILDREN * STATEMENTS };
enum { NAME = 32, CLASS = 36, NAMES = 32, STATES = 32, WHENS = 256, GUARDS = 1024, ACTIONS = 256, LONGEST = 1244410 };

static uint8_t sheet[24 + 4 + 4 + 4 + 8 + 4 + 8 * STATEMENTS];
static uint8_t children[2 * CHILDREN]; /* zeros: all of class 0, in name 0 */
static uint8_t out[2 * MOST + 3];

/* the sheet with the longest text, its names, and buffers to read that text back */
static uint8_t full[24 + 4 * 8 + 4 * STATES + 4 * WHENS + 8 * GUARDS + 4 * ACTIONS + 8 * STATEMENTS];
static uint8_t own_name[NAME], own_states[NAME * STATES], names[NAME * NAMES], commands[NAME * 8], classes[CLASS * 8];
static uint8_t again[sizeof full + 1], table[sizeof own_states + 1];

/* Makes the sheet: one class with the name 0; one state; when all children are in 0, DO; command 9: 1,024 times do 7 to all. */
static void make_sheet(void)
{
    static const uint8_t head[48] = {
        24, 0, 4, 0, 28, 0, 4, 0, 32, 0, 4, 0, 36, 0, 8, 0, 44, 0, 4, 0, 48, 0, 0, 32,
        1, 0, 0, 0, 1, 0, 1, 0, 0, 0, 1, 0, 2, 255, 0, 0, 1, 0, 0, 0, 9, 0, 0, 4,
    };
    size_t i;
    memcpy(sheet, head, sizeof head);
    for (i = sizeof head; i < sizeof sheet; i += 8) sheet[i + 1] = 7, sheet[i + 2] = 255;
}

/* How many bytes, from the first on, are those of commands 7 to each child in turn, over and over. */
static size_t as_sent(void)
{
    size_t i = 0;
    while (i < sizeof out && out[i] == (i % 3 == 0 ? i / 3 % 256 : i % 3 == 1 ? i / 3 / 256 % (CHILDREN / 256) : 7)) i++;
    return i;
}

/* How many bytes, from the last on, are what the buffer was filled with. */
static size_t kept(const uint8_t *bytes, size_t length)
{
    size_t i = 0;
    while (i < length && bytes[length - 1 - i] == 0xee) i++;
    return i;
}

/* Prints a when phase. */
static void print_phase(uint64_t word)
{
    printf("refusal %u, kind %u, state %u, moves %u, command %u, bytes %u", (unsigned)bw_refusal(word), (unsigned)bw_kind(word),
           (unsigned)bw_phase_state(word), (unsigned)bw_phase_moves(word), (unsigned)bw_phase_command(word),
           (unsigned)bw_phase_written(word));
}

/* Prints what became of the buffer, and the end of the line. */
static void print_buffer(void)
{
    printf("; sent %lu, kept %lu\n", (unsigned long)as_sent(), (unsigned long)kept(out, sizeof out));
}

/* Asks for the when phase with so much room. */
static void when_phase(size_t room)
{
    uint64_t word;
    memset(out, 0xee, sizeof out);
    word = bw_when_phase(sheet, sizeof sheet, children, sizeof children, 0, out, room);
    printf("buffer of %lu: ", (unsigned long)room);
    print_phase(word);
    print_buffer();
}

/* Asks for command 9 with so much room. */
static void command(size_t room)
{
    const uint64_t before = 0xeeeeeeeeeeeeeeee;
    uint64_t word, phase[1] = {before};
    memset(out, 0xee, sizeof out);
    word = bw_command(sheet, sizeof sheet, children, sizeof children, 0, 9, out, room, phase);
    printf("command, buffer of %lu: refusal %u, kind %u, state %u, bytes %u, bits without a field %u; phase: ", (unsigned long)room,
           (unsigned)bw_refusal(word), (unsigned)bw_kind(word), (unsigned)bw_command_state(word), (unsigned)bw_command_written(word),
           (unsigned)bw_field(word, 24, 8));
    if (phase[0] == before)
        printf("as it was");
    else
        print_phase(phase[0]);
    print_buffer();
}

/* Puts a number of two bytes. */
static void put_two(uint8_t *at, size_t number)
{
    at[0] = (uint8_t)(number % 256);
    at[1] = (uint8_t)(number / 256);
}

/* Makes a list of names of 31 characters: what they name, the number, and underscores. */
static void make_names(uint8_t *list, size_t length, size_t entry, const char *what)
{
    size_t i;
    for (i = 0; i * entry < length; i++) {
        char name[2 * NAME];
        sprintf(name, "%s_%02u_____________________________", what, (unsigned)i);
        memcpy(list + i * entry, name, NAME - 1);
    }
}

/* Puts an if whose then-part is empty, with so many statements in its else-part, and returns the place behind it. */
static uint8_t *put_if(uint8_t *at, size_t in_else)
{
    static size_t guard = WHENS;
    at[0] = 2;
    put_two(at + 2, guard++);
    put_two(at + 6, in_else);
    return at + 8;
}

/* Puts the statements: five ifs, one in the other; in the last 251 ifs; in these 256 ifs, five of them one more than the others; in each of
 * these an if, and in that a do. All stand in else-parts, so that every if has the line of its else. */
static void put_statements(uint8_t *at)
{
    size_t i, j;
    for (i = 1; i <= 5; i++) at = put_if(at, STATEMENTS - i);
    for (i = 0; i < 251; i++) {
        size_t inside = i < 5 ? 2 : 1;
        at = put_if(at, 3 * inside);
        for (j = 0; j < inside; j++) at = put_if(put_if(at, 2), 1) + 8; /* do command 0 to class 0: zeros */
    }
}

/* Makes the full sheet: 8 classes and 32 states; of each state 8 whens, in which it stays, and 8 action clauses, of which the very last has
 * all statements; and 1,024 guards, ALL of class 0 not in any of the 32 names. */
static void make_full(void)
{
    static const size_t sizes[6] = {4 * 8, 4 * STATES, 4 * WHENS, 8 * GUARDS, 4 * ACTIONS, 8 * STATEMENTS};
    uint8_t *at = full + 24;
    size_t i, start = 24;
    for (i = 0; i < 6; i++, start += sizes[i - 1]) put_two(full + 4 * i, start), put_two(full + 4 * i + 2, sizes[i]);
    for (i = 0; i < 8; i++, at += 4) memset(at, 255, 4);
    for (i = 0; i < STATES; i++, at += 4) put_two(at, WHENS / STATES), put_two(at + 2, ACTIONS / STATES);
    for (i = 0; i < WHENS; i++, at += 4) put_two(at, i), at[2] = BW_STAY;
    for (i = 0; i < GUARDS; i++, at += 8) at[0] = 3, memset(at + 4, 255, 4);
    for (i = 0; i < ACTIONS; i++, at += 4) at[0] = (uint8_t)(i % 8), put_two(at + 2, i == ACTIONS - 1 ? STATEMENTS : 0);
    put_statements(at);
    make_names(own_name, sizeof own_name, NAME, "THE_LONGEST");
    make_names(own_states, sizeof own_states, NAME, "STATE");
    make_names(names, sizeof names, NAME, "name");
    make_names(commands, sizeof commands, NAME, "COMMAND");
    make_names(classes, sizeof classes, CLASS, "Class");
    for (i = 0; i < 8; i++) memset(classes + CLASS * i + NAME, 255, 4);
}

/* Prints the line that ends at a place, without the line feed there. */
static void print_line(const char *what, size_t end)
{
    size_t start = end;
    while (start > 0 && out[start - 1] != '\n') start--;
    printf("    %s: \"%.*s\"\n", what, (int)(end - start), (const char *)out + start);
}

/* Asks for the text with so much room, and reads it back. */
static void write_class(size_t room)
{
    uint64_t word;
    size_t end;
    memset(out, 0xee, sizeof out);
    word = bw_write_class(full, sizeof full, own_name, sizeof own_name, own_states, sizeof own_states, names, sizeof names, commands,
                          sizeof commands, classes, sizeof classes, out, room);
    end = bw_write_length(word);
    printf("text, buffer of %lu: refusal %u, bytes %lu, bits without a field %u; kept %lu\n", (unsigned long)room,
           (unsigned)bw_refusal(word), (unsigned long)end, (unsigned)bw_field(word, 8, 24), (unsigned long)kept(out, sizeof out));
    if (end == 0) return;
    print_line("first line", strcspn((const char *)out, "\n"));
    print_line("last line", end - 1);
    memset(again, 0xee, sizeof again);
    memset(table, 0xee, sizeof table);
    word = bw_read_class(out, end, names, sizeof names, commands, sizeof commands, classes, sizeof classes, again, sizeof again, table,
                         sizeof table);
    printf("    read back: refusal %u, states %u, bytes %u, %s\n", (unsigned)bw_refusal(word), (unsigned)bw_read_states(word),
           (unsigned)bw_read_length(word),
           memcmp(again, full, sizeof full) == 0 && memcmp(table, own_states, sizeof own_states) == 0 ? "the same" : "others");
}

int main(void)
{
    make_sheet();
    when_phase(MOST + 3);
    when_phase(MOST);
    when_phase(MOST - 1);
    when_phase(0);
    command(2 * MOST + 3);
    command(2 * MOST);
    command(2 * MOST - 1);
    command(MOST);
    make_full();
    write_class(LONGEST);
    write_class(LONGEST - 1);
    return 0;
}
