/*
 * Bargewicker for C: seven questions. Five are about class sheets, the binary form of a node class; one makes a sheet of a class text, the
 * form in which editors write it, and one writes the text of a sheet.
 *
 * Link with libbw.a, which scripts/staticlib writes for x86-64 Linux to target/staticlib/.
 *
 * Nothing is asked of a call but that each pointer points at as many bytes as the length behind it says, the one without a length at
 * one word, and that what is to be written overlaps nothing else that is lent. Any bytes and any numbers get an answer, and always the
 * same one. A refusal writes nothing, and bytes of a buffer behind those written are kept. No function keeps a pointer, allocates, or
 * calls anything.
 *
 * Each function returns one word. Bits 0 to 7 are the refusal, 0 for none. Where there is none, bits 8 to 15 are the kind of the
 * answer, and the fields of that kind follow; every other bit is 0. A command has a second word, that of the when phase behind it:
 *
 *   question    kind           fields
 *   judge       0 accepted
 *   probe       0 none
 *               1 clause       16-31 clause number, 32-39 referrer, 40-47 target
 *   when phase  0 no clause    16-23 state, 24-31 moves, 40-63 bytes written
 *               1 STAY         16-23 state, 24-31 moves, 40-63 bytes written
 *               2 DO           16-23 state, 24-31 moves, 32-39 command, 40-63 bytes written
 *               3 loop         16-23 state, 24-31 moves
 *   command     0 ignored      16-23 state left
 *               1 handled      16-23 state left, 32-63 bytes of its own sends
 *   loop        0 free         24-31 moves
 *               1 loop         16-23 state, 32-63 configuration
 *   read        0 read         16-23 own states, 32-63 length of the sheet
 *   write       0 written      32-63 length of the text
 *
 * Of the refusals only BW_WRONG_WORD has a field: bits 8 to 63 are its place in the text, modulo 2^56.
 *
 * The functions bw_refusal, bw_kind and so on below read one field each.
 */
#ifndef BARGEWICKER_H
#define BARGEWICKER_H

#include <stddef.h>
#include <stdint.h>

#ifdef __cplusplus
extern "C" {
#endif

/* Refusals. Each is given only where none before it is; a class text that is read has them in the order 16, 17, 18, 15, and one that is
 * written in the order 1 to 9, 17, 19, 15. 1 to 9 are the sheet's own; a question adds the ones named with it. */
enum {
    BW_NOT_REFUSED = 0,
    BW_SHEET_LENGTH = 1,     /* under 24 or over 18,616 bytes */
    BW_CONTENTS = 2,         /* starts, end, a length that is no whole number of records, a count outside its range */
    BW_EMPTY_NAME_SET = 3,   /* a child class with an empty set */
    BW_CLAUSE_COUNTS = 4,    /* when or action counts of the states do not sum to those of the bodies */
    BW_GUARD_LAYOUT = 5,     /* a guard record breaks its layout */
    BW_GUARD_REACH = 6,      /* a when clause's guard begins past the end, runs past it, or is too deep */
    BW_TARGET = 7,           /* a referrer over 2, or a wrong target */
    BW_ACTION_CLAUSE = 8,    /* command, zero byte, repeat in a state, or statement counts */
    BW_STATEMENT = 9,        /* a statement breaks its layout, its part or depth, or an if's guard its reach */
    BW_CHILD_LIST = 10,      /* odd, over 4,096 children, a class that is not there, a name that is not in its class */
    BW_ASKED_STATE = 11,     /* the asked state is not below the number of states */
    BW_ASKED_COMMAND = 12,   /* the asked command is over 63 */
    BW_PRESENT_BIT = 13,     /* a present bit is not below the number of child classes */
    BW_NAME_COUNT = 14,      /* the present classes have more than 20 names together */
    BW_ROOM = 15,            /* a buffer is too short */
    BW_WRONG_WORD = 16,      /* a word that cannot stand where it does, or the text is cut short */
    BW_NAMING = 17,          /* a lent list is not right, or a name is not known, missing, or stands twice */
    BW_LIMIT = 18,           /* more than a sheet can hold, or a child class with an empty set */
    BW_WRITTEN_GUARDS = 19   /* the guards that a text would have are over 1,024 records, a shared one counted at each use */
};

/* Kinds of answers, by question. */
enum { BW_PROBE_NONE = 0, BW_PROBE_CLAUSE = 1 };
enum { BW_PHASE_NONE = 0, BW_PHASE_STAY = 1, BW_PHASE_DO = 2, BW_PHASE_LOOP = 3 };
enum { BW_COMMAND_IGNORED = 0, BW_COMMAND_HANDLED = 1 };
enum { BW_LOOP_FREE = 0, BW_LOOP_FOUND = 1 };

/* Referrers of a when clause. */
enum { BW_MOVE_TO = 0, BW_DO = 1, BW_STAY = 2 };

/* Is this byte string a class sheet? Refusals 1 to 9. */
uint64_t bw_judge(const uint8_t *sheet, size_t sheet_length);

/* Which clause of the state is the first whose guard these children make true? A child list is pairs of bytes, class and name.
 * Refusals 1 to 9, 10, 11. */
uint64_t bw_probe(const uint8_t *sheet, size_t sheet_length, const uint8_t *children, size_t children_length, uint8_t state);

/* Where does the when phase from the state settle with these children, and by what; or does it loop? A DO runs its action clause at
 * once. If that reaches a move_to, even one to the own state, it is a move as by MOVE_TO, and the phase goes on; if not, the phase has
 * settled by this DO, and the answer has its command, which is not to be given again. Three bytes for each command that these clauses
 * sent go to the buffer, in the order in which they were sent: the child's place in the list, low byte first, and the command. A loop is
 * answered after as many moves as the class has states, with the state after them; it writes nothing and needs no room.
 * Refusals 1 to 9, 10, 11, and 15 where the buffer is too short for what is sent; 12,582,912 bytes are enough for every phase. */
uint64_t bw_when_phase(const uint8_t *sheet, size_t sheet_length, const uint8_t *children, size_t children_length, uint8_t state,
                       uint8_t *out, size_t room);

/* What does the command send to which children, and which state does it leave? And what does the when phase from that state come to? It
 * follows every command; one that is ignored leaves the asked state and sends nothing.
 * The word returned is the command's own answer. That of the phase goes to phase[0]: it is the word that bw_when_phase returns from the
 * state left, so that bw_kind, bw_phase_state and so on read it. A refusal leaves phase[0] as it was. The command's move_to is none of
 * the phase's moves.
 * The bytes of the command's own sends, three for each as above, stand at the head of the buffer, and directly behind them those of the
 * phase, which are none if it loops.
 * Refusals 1 to 9, 10, 11, 12, and 15 where the buffer is too short for all that is sent; 25,165,824 bytes are enough for every command. */
uint64_t bw_command(const uint8_t *sheet, size_t sheet_length, const uint8_t *children, size_t children_length, uint8_t state,
                    uint8_t command, uint8_t *out, size_t room, uint64_t phase[1]);

/* Can a node of this class loop, if children of the present classes (bit c for class c) are in any states? On a loop the answer is the
 * smallest configuration with one, the smallest state that returns to itself there, and in the buffer the children, two bytes, class
 * and name, for each set bit of the configuration (bw_loop_written). Free: the largest number of moves that a phase makes. Moves by a DO
 * count, and no command is written.
 * Refusals 1 to 9, 13, 14, and 15 where the buffer has not two bytes for each name of the present classes; 40 are always enough. */
uint64_t bw_loop(const uint8_t *sheet, size_t sheet_length, uint8_t present, uint8_t *out, size_t room);

/* Which class is this text? Where it is read, its sheet stands at the head of one buffer, ready for the questions above, and the names of
 * its own states at the head of the other, 32 bytes each.
 * The text is read with three lists; an entry's number is its place in its list, from 0. A name is always 32 bytes: 1 to 31 letters, digits
 * or underscores, and zeros. Names of the children's states: 32 bytes an entry. Commands: 32 bytes an entry. Child classes: 36 bytes an
 * entry, the name and the set of the class's state names, four bytes, low byte first, bit n for name n. A list may have no entry.
 * Refusals 16, whose place is the start of the first word that cannot stand there, or the text's length where it is cut short; 17; 18; and
 * 15 where a buffer is too short. 18,616 bytes for the sheet and 1,024 for the table are always enough. docs/TEXT.md has the grammar, and
 * all that 17 and 18 are given for. */
uint64_t bw_read_class(const uint8_t *text, size_t text_length, const uint8_t *names, size_t names_length, const uint8_t *commands,
                       size_t commands_length, const uint8_t *classes, size_t classes_length, uint8_t *sheet, size_t sheet_room,
                       uint8_t *table, size_t table_room);

/* What is the text of this sheet's class? It stands at the head of the buffer, in one fixed layout; no zero ends it. Reading it with the same
 * lists gives the same own states, and a sheet that has the same answers to every question.
 * The class's own name is one entry of 32 bytes; the table of own states has an entry for each state of the sheet, as bw_read_class writes
 * it. The lists are those of bw_read_class: the child classes exactly the sheet's, with its sets, and a name for every command and every
 * child state that is to be written; at most 32 names of child states and 64 commands.
 * Refusals 1 to 9, 17 where that is not so, 19, and 15 where the buffer is too short; 1,259,860 bytes are always enough. */
uint64_t bw_write_class(const uint8_t *sheet, size_t sheet_length, const uint8_t *own_name, size_t own_name_length,
                        const uint8_t *own_states, size_t own_states_length, const uint8_t *names, size_t names_length,
                        const uint8_t *commands, size_t commands_length, const uint8_t *classes, size_t classes_length, uint8_t *out,
                        size_t room);

/* A field of a word: width bits, from bit lowest on. */
static inline uint32_t bw_field(uint64_t word, unsigned lowest, unsigned width)
{
    return (uint32_t)((word >> lowest) & (((uint64_t)1 << width) - 1));
}

/* The refusal, BW_NOT_REFUSED for none. */
static inline uint32_t bw_refusal(uint64_t word) { return bw_field(word, 0, 8); }

/* The kind of the answer, where nothing was refused. */
static inline uint32_t bw_kind(uint64_t word) { return bw_field(word, 8, 8); }

/* The probe's clause: its number within the state, its referrer, and the referrer's target (a state for BW_MOVE_TO, the number of an
 * action clause within the state for BW_DO, 0 for BW_STAY). */
static inline uint32_t bw_probe_clause(uint64_t word) { return bw_field(word, 16, 16); }
static inline uint32_t bw_probe_referrer(uint64_t word) { return bw_field(word, 32, 8); }
static inline uint32_t bw_probe_target(uint64_t word) { return bw_field(word, 40, 8); }

/* The when phase, asked for or behind a command: the state reached, the moves made, the command of the DO that it settled by, and how
 * many bytes were written. */
static inline uint32_t bw_phase_state(uint64_t word) { return bw_field(word, 16, 8); }
static inline uint32_t bw_phase_moves(uint64_t word) { return bw_field(word, 24, 8); }
static inline uint32_t bw_phase_command(uint64_t word) { return bw_field(word, 32, 8); }
static inline uint32_t bw_phase_written(uint64_t word) { return bw_field(word, 40, 24); }

/* The command: the state that it leaves, and how many bytes of its own sends were written. */
static inline uint32_t bw_command_state(uint64_t word) { return bw_field(word, 16, 8); }
static inline uint32_t bw_command_written(uint64_t word) { return bw_field(word, 32, 32); }

/* The loop question: the moves where it is free; the state and the configuration of a loop. */
static inline uint32_t bw_loop_moves(uint64_t word) { return bw_field(word, 24, 8); }
static inline uint32_t bw_loop_state(uint64_t word) { return bw_field(word, 16, 8); }
static inline uint32_t bw_loop_configuration(uint64_t word) { return bw_field(word, 32, 32); }

/* How many bytes a loop's list has: two for each set bit of its configuration; 0 where there is no loop. */
static inline uint32_t bw_loop_written(uint64_t word)
{
    uint32_t rest = bw_loop_configuration(word), bytes = 0;
    for (; rest != 0; rest &= rest - 1) bytes += 2;
    return bytes;
}

/* A class text: the place of BW_WRONG_WORD; where it was read, the length of its sheet and the number of its own states. */
static inline uint64_t bw_read_place(uint64_t word) { return word >> 8; }
static inline uint32_t bw_read_length(uint64_t word) { return bw_field(word, 32, 32); }
static inline uint32_t bw_read_states(uint64_t word) { return bw_field(word, 16, 8); }

/* The text of a sheet: its length, where it was written. */
static inline uint32_t bw_write_length(uint64_t word) { return bw_field(word, 32, 32); }

#ifdef __cplusplus
}
#endif

#endif
