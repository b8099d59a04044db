//! The paper's worked cases, those of commands apart, phases and loops with DOs that were worked out by hand, and trees that come back from
//! their sheets.

use crate::answering::answer_line;
use crate::asking::list;
use crate::behaviour::{phase, step, Child, Phase, Step};
use crate::examples::about;
use crate::judging::judge;
use crate::limits::{counted, guards_of_depth, ifs_of_depth, MOST};
use crate::lines::hex;
use crate::loops::{ask, pairs, Answer};
use crate::moving::{moving_class, ALL, DEEP, MIXED};
use crate::random::Random;
use crate::reading::{read, Lent};
use crate::shapes::{class, Shape, BUSY, CROWD, LADDER, RING, ROUND, SMALL, TALL, WHOLE};
use crate::tree::Class;
use crate::writing::bodies_of;

const A: &str = "180004001c000800240008002c0010003c0000003c000000\
    070000000100000001000000000000010100000001000000020000000000000002000000";

/// The bytes of sheet A.
fn sheet_a() -> Vec<u8> {
    (0..A.len()).step_by(2).map(|at| u8::from_str_radix(&A[at..at + 2], 16).unwrap()).collect()
}

/// Sheet A with one byte changed, as hex.
fn a_with(at: usize, byte: u8) -> String {
    let mut sheet = sheet_a();
    sheet[at] = byte;
    hex(&sheet)
}

/// Sheet C: B with an action clause for command 9 in READY; then some bytes changed.
pub fn c_with(changes: &[(usize, u8)]) -> String {
    let mut sheet = sheet_a();
    sheet[52] = 2;
    sheet[20..24].copy_from_slice(&[64, 0, 32, 0]);
    sheet[18] = 4;
    sheet[30] = 1;
    sheet.extend_from_slice(&[9, 0, 4, 0]);
    sheet.extend_from_slice(&[0, 4, 255, 0, 0, 0, 0, 0]);
    sheet.extend_from_slice(&[2, 0, 1, 0, 1, 0, 0, 0]);
    sheet.extend_from_slice(&[1, 1, 0, 0, 0, 0, 0, 0]);
    sheet.extend_from_slice(&[0, 5, 255, 0, 0, 0, 0, 0]);
    for (at, byte) in changes {
        sheet[*at] = *byte;
    }
    hex(&sheet)
}

/// Asks a line and compares the answer.
pub fn case(question: String, answer: &str) {
    assert_eq!(answer_line(question.as_bytes()), answer, "{question}");
}

/// Cases 1 to 5: loops and phases.
#[test]
fn loops_and_phases() {
    let b = a_with(52, 2);
    case(format!("loop {A} 1 aaaaaaaaaaaabb"), "loop 3 0 00000001aaaabb");
    case(format!("loop {b} 1 aaaaaaaaaaaabb"), "free 1 aaaaaaaaaaaabb");
    case(format!("loop {A} 0 -"), "free 0 -");
    case(format!("loop {b} 0 -"), "free 1 -");
    case(format!("phase {A} 0001 1 -"), "none 0 1 0 - -");
    case(format!("phase {A} 0001 1 aabb"), "none 0 1 0 - aabb");
    case(format!("phase {A} 00000001 0 -"), "loop 0 2 0 - -");
    case(format!("phase {A} 00000001 0 aabb"), "loop 0 2 0 - aabb");
}

/// Cases 8 to 10: refusals.
#[test]
fn refusals() {
    case(format!("loop {A} 2 -"), "refused 13 -");
    case(format!("loop {A} 1 aaaaaaaaaa"), "refused 15 aaaaaaaaaa");
    case(format!("loop {A} 1 aaaaaaaaaaaa"), "loop 3 0 00000001aaaa");
    case(format!("judge {}", &A[..118]), "refused 2");
    case("judge -".to_string(), "refused 1");
    for (at, byte, number) in [(52, 7, 5), (36, 2, 6), (39, 2, 7)] {
        case(format!("judge {}", a_with(at, byte)), &format!("refused {number}"));
    }
    case(format!("probe {A} 0003 0"), "refused 10");
    case(format!("probe {A} - 2"), "refused 11");
    case(format!("command {A} - 0 64 -"), "refused 12 -");
}

/// Case 11: 20 names are answered, 21 are refused.
#[test]
fn twenty_names() {
    for (third, answer) in [(0x0f, "loop 3 0"), (0x1f, "refused 14")] {
        let mut sheet = sheet_a();
        sheet[24..28].copy_from_slice(&[255, 255, third, 0]);
        let line = format!("loop {} 1 {}", hex(&sheet), "00".repeat(42));
        assert!(answer_line(line.as_bytes()).starts_with(answer));
    }
}

/// A tree comes back from its sheet, shared guards or not.
#[test]
fn trees_come_back() {
    for index in 0..3000 {
        let random = &mut Random::for_question(7, index);
        let shape = random.pick(&[SMALL, WHOLE, LADDER, RING, BUSY, CROWD]);
        let tree = match random.below(10) {
            0 => guards_of_depth(random, 16),
            1 => ifs_of_depth(random, 8),
            _ => class(random, &shape),
        };
        let sheet = bodies_of(&tree, random.chance(50)).sheet();
        assert_eq!(judge(&sheet), Ok(tree));
    }
}

/// The depths just past the limits are refused, and the longest sheet is accepted.
#[test]
fn limits() {
    let random = &mut Random::for_question(8, 0);
    assert_eq!(judge(&bodies_of(&guards_of_depth(random, 17), true).sheet()), Err(6));
    assert_eq!(judge(&bodies_of(&ifs_of_depth(random, 9), true).sheet()), Err(9));
    let longest = counted(random, MOST).sheet();
    assert_eq!(longest.len(), 18_616);
    assert!(judge(&longest).is_ok());
}

/// Bytes 38 and 39 of sheet C as 1 and 0: READY's clause is a DO. Byte 74 is the if's guard, byte 52 the kind of HOLD's.
#[test]
fn sheet_c_with_a_do() {
    let closes = c_with(&[(38, 1), (39, 0)]);
    case(format!("phase {closes} 0000 0 aaaaaaaaaaaabb"), "do 0 0 6 9 000004000005bb");
    case(format!("phase {closes} 00000001 0 {}", "aa".repeat(12)), "do 0 0 12 9 000004010004000005010005");
    case(format!("phase {closes} 0000 0 aaaaaaaaaa"), "refused 15 aaaaaaaaaa");
    case(format!("phase {closes} 0001 0 -"), "none 0 0 0 - -");
    case(format!("phase {closes} 0001 1 -"), "none 0 1 0 - -");
    case(format!("loop {closes} 1 aaaaaaaaaaaa"), "free 1 aaaaaaaaaaaa");
    let moves = c_with(&[(38, 1), (39, 0), (74, 0)]);
    case(format!("phase {moves} 0000 0 aaaaaabb"), "none 1 1 3 - 000004bb");
    case(format!("phase {moves} 0000 0 aaaa"), "refused 15 aaaa");
    case(format!("phase {moves} 0001 1 -"), "none 0 1 0 - -");
    case(format!("loop {moves} 1 aaaaaaaaaaaa"), "free 1 aaaaaaaaaaaa");
    let turns = c_with(&[(38, 1), (39, 0), (74, 0), (52, 0)]);
    case(format!("phase {turns} 00000001 0 -"), "loop 0 2 0 - -");
    case(format!("phase {turns} 00000001 1 aabb"), "loop 1 2 0 - aabb");
    case(format!("loop {turns} 1 aaaaaaaaaaaabb"), "loop 3 0 00000001aaaabb");
}

/// The sheet of some states over the child names P, Q, R, the commands c0 to c9 and the classes K and L, which both have all names.
pub fn sheet_of(states: &str) -> String {
    let mut text = format!("class: $FWPART_$TOP$X {states}");
    for (word, guard) in [("TRUE", "$ALL$FwCHILDREN in_state {P,Q,R}"), ("SOME_", "$ANY$K in_state "), ("NO_", "$ALL$K not_in_state ")] {
        text = text.replace(word, guard);
    }
    let lent = about(&text, "P Q R", "c0 c1 c2 c3 c4 c5 c6 c7 c8 c9", "K L", 7);
    hex(&read(&Lent { sheet: vec![0; 4000], table: vec![0; 1200], ..lent }).unwrap().sheet)
}

/// 2.1: a DO that moves to the own state is a move, and the phase goes on: it loops.
#[test]
fn do_to_the_own_state() {
    let alone = sheet_of("state: A when TRUE do c9 action: c9 move_to A");
    case(format!("phase {alone} - 0 -"), "loop 0 1 0 - -");
    case(format!("phase {alone} 0000 0 aabb"), "loop 0 1 0 - aabb");
    case(format!("loop {alone} 0 -"), "loop 0 0 -");
    case(format!("loop {alone} 1 aaaaaaaaaaaa"), "loop 1 0 0000aaaaaaaa");
    let under_an_if = sheet_of("state: A when SOME_P do c9 when TRUE stay_in_state
        action: c9 do c4 $ALL$K if SOME_Q then move_to A endif state: B");
    case(format!("phase {under_an_if} 0000 0 aaaaaa"), "do 0 0 3 9 000004");
    case(format!("phase {under_an_if} 00000001 0 -"), "loop 0 2 0 - -");
    case(format!("phase {under_an_if} 0001 0 -"), "stay 0 0 0 - -");
    case(format!("loop {under_an_if} 1 aaaaaaaaaaaa"), "loop 3 0 00000001aaaa");
}

/// 2.2, 2.3 and 2.7: what the closing DO sends is written and its command named, whether it sends, moves nothing or has no statement.
#[test]
fn closing_do() {
    let sends = sheet_of("state: A when TRUE do c9 action: c8 action: c9 do c4 $ALL$K do c5 $ALL$L");
    case(format!("phase {sends} 000001010001 0 {}bb", "aa".repeat(9)), "do 0 0 9 9 000004020004010005bb");
    case(format!("phase {sends} 000001010001 0 {}", "aa".repeat(8)), &format!("refused 15 {}", "aa".repeat(8)));
    case(format!("phase {sends} - 0 -"), "do 0 0 0 9 -");
    case(format!("loop {sends} 3 {}", "aa".repeat(12)), &format!("free 0 {}", "aa".repeat(12)));
    let nothing = sheet_of("state: A when SOME_P do c1 when TRUE do c2 action: c1 move_to B action: c2 state: B when TRUE do c3
        action: c3 if SOME_Q then move_to A endif");
    case(format!("phase {nothing} 0001 0 -"), "do 0 0 0 2 -");
    case(format!("phase {nothing} 0000 0 aa"), "do 1 1 0 3 aa");
    case(format!("phase {nothing} 0001 1 -"), "do 0 1 0 2 -");
    case(format!("phase {nothing} 00000001 0 -"), "loop 0 2 0 - -");
}

/// 2.4: moves by DOs count to S like the others, and after S moves nothing is run any more.
#[test]
fn moves_by_dos_count() {
    let ring = sheet_of("state: A when TRUE do c1 action: c1 move_to B state: B when TRUE move_to C state: C when TRUE do c1
        action: c1 do c4 $ALL$K move_to A");
    case(format!("phase {ring} 0000 0 -"), "loop 0 3 0 - -");
    case(format!("phase {ring} 0000 1 aaaaaaaa"), "loop 1 3 0 - aaaaaaaa");
    case(format!("loop {ring} 0 -"), "loop 0 0 -");
    let entered = sheet_of("state: A when TRUE do c1 action: c1 move_to B state: B when TRUE do c1 action: c1 move_to C
        state: C when TRUE do c1 action: c1 move_to B state: D");
    case(format!("phase {entered} - 0 -"), "loop 2 4 0 - -");
    case(format!("phase {entered} - 1 -"), "loop 1 4 0 - -");
    case(format!("phase {entered} - 3 -"), "none 3 0 0 - -");
    case(format!("loop {entered} 0 aa"), "loop 0 1 aa");
}

/// A walk of three states by two DOs that send; it ends by what stands in the last state.
fn two_dos(last: &str) -> String {
    sheet_of(&format!("state: A when TRUE do c1 action: c1 do c4 $ALL$K move_to B state: B when TRUE do c2
        action: c2 do c5 $ALL$L do c6 $ALL$FwCHILDREN move_to C state: C {last}"))
}

/// 2.5: what the DOs send is written whatever the ending, in the order in which they ran; the command is the closing one's.
#[test]
fn sends_in_order() {
    let sent = "000004010005000006010006";
    let list = "00000100";
    let room = "aa".repeat(12);
    case(format!("phase {} {list} 0 {room}", two_dos("")), &format!("none 2 2 12 - {sent}"));
    case(format!("phase {} {list} 0 {room}bb", two_dos("when TRUE stay_in_state")), &format!("stay 2 2 12 - {sent}bb"));
    let closed = two_dos("when TRUE do c3 action: c3 do c7 $ALL$K");
    case(format!("phase {closed} {list} 0 {room}aaaaaa"), &format!("do 2 2 15 3 {sent}000007"));
    case(format!("phase {closed} {list} 0 {room}aaaa"), &format!("refused 15 {room}aaaa"));
    case(format!("phase {closed} {list} 2 aaaaaa"), "do 2 0 3 3 000007");
    case(format!("phase {} {list} 1 {room}", two_dos("")), "none 2 1 9 - 010005000006010006aaaaaa");
    case(format!("phase {} - 0 -", two_dos("")), "none 2 2 0 - -");
    case(format!("loop {} 0 -", two_dos("")), "free 2 -");
}

/// 2.6: 15 is last and for the whole phase; a phase that loops is answered with no room. And 0.2: 10 and 11 come before it.
#[test]
fn room_of_phases() {
    let walk = two_dos("when SOME_Q do c3 action: c3 do c7 $ALL$K move_to A");
    case(format!("phase {walk} 0000 0 {}", "aa".repeat(6)), "none 2 2 6 - 000004000006");
    case(format!("phase {walk} 0000 0 {}", "aa".repeat(5)), "refused 15 aaaaaaaaaa");
    case(format!("phase {walk} 0000 0 -"), "refused 15 -");
    case(format!("phase {walk} 0001 0 -"), "loop 0 3 0 - -");
    case(format!("phase {walk} 0001 1 {}", "aa".repeat(4)), "loop 1 3 0 - aaaaaaaa");
    case(format!("phase {walk} 0000 3 -"), "refused 11 -");
    case(format!("phase {walk} 0003 3 -"), "refused 10 -");
    case(format!("phase {walk} 0000 255 aa"), "refused 11 aa");
    case(format!("phase {walk} 00 0 aa"), "refused 10 aa");
    case("phase - - 0 aa".to_string(), "refused 1 aa");
    case(format!("phase {} 0000 0 aa", a_with(39, 2)), "refused 7 aa");
}

/// 2.8: the loop question counts these moves, with the ifs on the configuration's list.
#[test]
fn loops_by_dos() {
    let both = |there: &str, back: &str| sheet_of(&format!("state: A when TRUE do c1 action: c1 do c4 $ALL$K {there}
        state: B when TRUE do c2 action: c2 {back}"));
    let room = "aa".repeat(6);
    let there = "if SOME_P then if SOME_R then move_to B endif endif";
    case(format!("loop {} 1 {room}", both(there, "if SOME_Q then else move_to A endif")), "loop 5 0 00000002aaaa");
    case(format!("loop {} 1 {room}", both(there, "if SOME_P then else move_to A endif")), &format!("free 1 {room}"));
    case(format!("loop {} 1 {room}", both(there, "if NO_Q then move_to B endif")), "loop 1 1 0000aaaaaaaa");
    case(format!("loop {} 1 {room}", both("", "do c4 $ALL$K")), &format!("free 0 {room}"));
    case(format!("loop {} 0 -", both(there, "move_to A")), "free 1 -");
    let second = both("if $ANY$L in_state Q then move_to B endif", "move_to A");
    case(format!("loop {second} 3 {room}{room}"), "loop 17 0 00000101aaaaaaaaaaaaaaaa");
    case(format!("loop {second} 1 {room}"), &format!("free 1 {room}"));
    case(format!("loop {second} 1 {}", "aa".repeat(5)), &format!("refused 15 {}", "aa".repeat(5)));
    let mixed = sheet_of("state: A when TRUE move_to B state: B when NO_P do c1 action: c1 move_to C state: C when SOME_Q move_to D
        state: D when SOME_P do c1 action: c1 move_to A");
    case(format!("loop {mixed} 1 {room}"), &format!("free 3 {room}"));
}

/// 2.9: what stands behind the move_to that is reached is not run, and what stands behind one that is not reached is.
#[test]
fn behind_the_move() {
    let plain = sheet_of("state: A when TRUE do c1 action: c1 do c4 $ALL$K move_to B do c5 $ALL$K move_to A state: B");
    case(format!("phase {plain} 0000 0 aaaaaaaaaaaa"), "none 1 1 3 - 000004aaaaaa");
    let inside = sheet_of("state: A when TRUE do c1 action: c1 if SOME_P then do c4 $ALL$K move_to B do c6 $ALL$K else do c7 $ALL$K endif
        do c5 $ALL$K state: B");
    case(format!("phase {inside} 0000 0 aaaaaaaaaaaa"), "none 1 1 3 - 000004aaaaaa");
    case(format!("phase {inside} 0001 0 aaaaaaaaaaaa"), "do 0 0 6 1 000007000005");
    let deep = "if TRUE then if not TRUE then do c5 $ALL$K else ".repeat(4);
    let deep = sheet_of(&format!("state: A when TRUE do c1 action: c1 {deep} do c4 $ALL$K move_to B {} do c5 $ALL$K state: B", "endif ".repeat(8)));
    case(format!("phase {deep} 0000 0 aaaaaa"), "none 1 1 3 - 000004");
    case(format!("loop {deep} 0 -"), "free 1 -");
}

/// 2.12: nothing that was sent changes a child; two clauses may run one action; 2.10: the probe is as it was.
#[test]
fn children_stay_as_they_are() {
    let walk = sheet_of("state: A when SOME_P do c1 when SOME_Q do c1 action: c0 action: c1 do c1 $ALL$K if SOME_P then move_to B endif
        state: B when SOME_Q move_to A when SOME_P stay_in_state");
    case(format!("phase {walk} 0000 0 aaaaaa"), "stay 1 1 3 - 000001");
    case(format!("phase {walk} 0001 0 aaaaaa"), "do 0 0 3 1 000001");
    case(format!("phase {walk} 00000001 0 -"), "loop 0 2 0 - -");
    case(format!("probe {walk} 0000 0"), "clause 0 1 1");
    case(format!("probe {walk} 0001 0"), "clause 1 1 1");
    case(format!("command {walk} 0000 0 1 aaaaaaaaaaaa"), "handled 1 3 stay 1 0 0 - 000001aaaaaa");
}

/// What the phases from every state over every list of one child per name come to: the smallest configuration in which one loops, or the most moves.
fn by_phases(class: &Class, names: &[Child]) -> Result<usize, usize> {
    let mut most = 0;
    for configuration in 0..1usize << names.len() {
        let children: Vec<Child> = names.iter().enumerate().filter(|(bit, _)| configuration >> bit & 1 == 1).map(|(_, child)| *child).collect();
        if names.iter().any(|name| children.iter().all(|child| child.0 != name.0)) {
            continue;
        }
        for state in 0..class.states.len() as u8 {
            match phase(class, &children, state) {
                Phase::Loop { .. } => return Err(configuration),
                Phase::Settled { moves, .. } => most = most.max(moves),
            }
        }
    }
    Ok(most)
}

/// The loop question says what the phases say.
#[test]
fn loops_are_phases_that_loop() {
    let mut loops = 0;
    for index in 0..1500 {
        let random = &mut Random::for_question(9, index);
        let (shape, manner) = (random.pick(&[SMALL, LADDER, RING, RING]), random.pick(&[ALL, MIXED, DEEP]));
        let class = moving_class(random, &Shape { classes: (0, 2), names: (1, 3), ..shape }, &manner);
        let names = pairs(&class, ((1u16 << class.children.len()) - 1) as u8);
        let expected = match ask(&class, &names) {
            Answer::Loop { configuration, .. } => Err(configuration),
            Answer::Free { moves } => Ok(moves),
        };
        assert_eq!(by_phases(&class, &names), expected, "{index}");
        loops += usize::from(expected.is_err());
    }
    assert!((300..1200).contains(&loops));
}

/// A when phase as the paper has it: S moves, one after the other, and then no more.
fn counted_off(class: &Class, children: &[Child], start: u8) -> Phase {
    let (mut here, mut sent) = (start, Vec::new());
    for moves in 0..class.states.len() {
        match step(class, children, here, &mut sent) {
            Step::Move(next) => here = next,
            Step::End(ending) => return Phase::Settled { ending, state: here, moves, sent },
        }
    }
    Phase::Loop { state: here, moves: class.states.len() }
}

/// A walk that stops where it has been before says what S moves say.
#[test]
fn phases_counted_off() {
    for index in 0..3000 {
        let random = &mut Random::for_question(10, index);
        let (shape, manner) = (random.pick(&[SMALL, LADDER, RING, TALL, ROUND]), random.pick(&[ALL, MIXED]));
        let class = moving_class(random, &shape, &manner);
        let children: Vec<Child> = list(random, &class).chunks(2).map(|pair| (pair[0], pair[1])).collect();
        for start in 0..class.states.len() as u8 {
            assert_eq!(phase(&class, &children, start), counted_off(&class, &children, start), "{index}");
        }
    }
}

/// A phase's line has four fields behind its word.
#[test]
fn lines_of_phases() {
    for line in ["phase A - 0", "phase A - 0 - -", "phase A - 0 a", "phase A - 0 ", "phase A - -", "phase A - - 0"] {
        case(line.replace('A', A), "bad line");
    }
    case(format!("phase {A} - 0 -"), "none 0 0 0 - -");
}
