//! Command requests that were worked out by hand, point by point of request 4, and random ones held against the phase asked alone.

use crate::answering::answer_line;
use crate::commanding::telling_command;
use crate::lines::{hex, Question};
use crate::moving::{commanded_class, ALL, DEEP, MIXED, SENDING};
use crate::random::Random;
use crate::shapes::{BUSY, LADDER, RING, SMALL};
use crate::tests::{c_with, case, sheet_of};

/// 4.8: the paper's cases 6 and 7, with the phase behind.
#[test]
fn worked_cases() {
    let c = c_with(&[]);
    case(format!("command {c} 0001 0 9 aaaaaabb"), "handled 1 3 none 0 1 0 - 000004bb");
    case(format!("command {c} 0000 0 9 aaaaaaaaaaaa"), "handled 0 6 none 1 1 0 - 000004000005");
    case(format!("command {c} 0000 0 9 aaaaaaaaaa"), "refused 15 aaaaaaaaaa");
    case(format!("command {c} 0001 0 7 -"), "ignored 0 0 none 0 0 0 - -");
    case(format!("command {c} 0000 0 7 aa"), "ignored 0 0 none 1 1 0 - aa");
}

/// P in K moves A to B by a DO that sends; there Q stays, R runs a DO that closes, P in L leads back. In A, c1 is that DO's clause and c2 sends.
fn four_ends() -> String {
    sheet_of("state: A when SOME_P do c1 action: c1 do c4 $ALL$K move_to B action: c2 do c5 $ALL$K
        state: B when SOME_Q stay_in_state when SOME_R do c3 when $ANY$L in_state P move_to A action: c3 do c6 $ALL$K")
}

/// 4.1 and 4.2: the phase behind a handled command, in all four ways; its commands stand directly behind the command's own.
#[test]
fn behind_a_handled_command() {
    let ends = four_ends();
    case(format!("command {ends} 0000 0 2 {}bb", "aa".repeat(6)), "handled 0 3 none 1 1 3 - 000005000004bb");
    case(format!("command {ends} 00000001 0 2 {}", "aa".repeat(12)), "handled 0 6 stay 1 1 6 - 000005010005000004010004");
    let both = "000005010005000004010004000006010006";
    case(format!("command {ends} 00000002 0 2 {}", "aa".repeat(18)), &format!("handled 0 6 do 1 1 12 3 {both}"));
    case(format!("command {ends} 00000100 0 2 {}", "aa".repeat(7)), "handled 0 3 loop 0 2 0 - 000005aaaaaaaa");
    case(format!("command {ends} - 0 2 -"), "handled 0 0 none 0 0 0 - -");
    case(format!("command {ends} 0002 1 3 {}", "aa".repeat(6)), "handled 1 3 do 1 0 3 3 000006000006");
}

/// 4.4: an ignored command keeps the state and sends nothing; the phase from there follows, in all four ways, and may be 15.
#[test]
fn behind_an_ignored_command() {
    let ends = four_ends();
    case(format!("command {ends} 0000 0 9 aaaaaabb"), "ignored 0 0 none 1 1 3 - 000004bb");
    case(format!("command {ends} 0000 0 9 aaaa"), "refused 15 aaaa");
    case(format!("command {ends} 0000 0 9 -"), "refused 15 -");
    case(format!("command {ends} 00000001 0 3 {}", "aa".repeat(6)), "ignored 0 0 stay 1 1 6 - 000004010004");
    case(format!("command {ends} 00000002 0 9 {}", "aa".repeat(12)), "ignored 0 0 do 1 1 12 3 000004010004000006010006");
    case(format!("command {ends} 00000002 0 9 {}", "aa".repeat(11)), &format!("refused 15 {}", "aa".repeat(11)));
    case(format!("command {ends} 00000100 0 9 -"), "ignored 0 0 loop 0 2 0 - -");
    case(format!("command {ends} 00000100 0 9 aabbcc"), "ignored 0 0 loop 0 2 0 - aabbcc");
    case(format!("command {ends} 0002 1 2 aaaaaa"), "ignored 1 0 do 1 0 3 3 000006");
    case(format!("command {ends} 0001 1 1 -"), "ignored 1 0 stay 1 0 0 - -");
}

/// 4.1 and 4.5: the phase begins in the state that the command leaves, and the command's move_to is none of its moves.
#[test]
fn from_the_state_that_is_left() {
    let ends = four_ends();
    case(format!("command {ends} 0000 0 1 aaaaaa"), "handled 1 3 none 1 0 0 - 000004");
    case(format!("command {ends} 00000001 0 1 {}", "aa".repeat(6)), "handled 1 6 stay 1 0 0 - 000004010004");
    case(format!("command {ends} 00000002 0 1 {}", "aa".repeat(12)), "handled 1 6 do 1 0 6 3 000004010004000006010006");
    case(format!("command {ends} 00000100 0 1 aaaaaaaa"), "handled 1 3 loop 1 2 0 - 000004aa");
    let ladder = sheet_of("state: A action: c1 move_to B state: B when TRUE move_to C state: C when TRUE move_to A");
    case(format!("command {ladder} - 0 1 -"), "handled 1 0 none 0 2 0 - -");
    case(format!("command {ladder} - 0 2 -"), "ignored 0 0 none 0 0 0 - -");
    case(format!("command {ladder} - 1 1 -"), "ignored 1 0 none 0 2 0 - -");
    let ring = sheet_of("state: A when TRUE stay_in_state action: c1 move_to B state: B when TRUE move_to C state: C when TRUE move_to B");
    case(format!("command {ring} - 0 1 -"), "handled 1 0 loop 2 3 0 - -");
    case(format!("command {ring} - 0 2 -"), "ignored 0 0 stay 0 0 0 - -");
}

/// 4.3: the room is that of both, a byte less is 15; where the phase loops it is that of the command alone, whatever the loop sends.
#[test]
fn room_of_both() {
    let ends = four_ends();
    let both = "000005010005000004010004000006010006";
    case(format!("command {ends} 00000002 0 2 {}", "aa".repeat(20)), &format!("handled 0 6 do 1 1 12 3 {both}aaaa"));
    for short in [17, 12, 11, 7, 6, 5, 1] {
        case(format!("command {ends} 00000002 0 2 {}", "aa".repeat(short)), &format!("refused 15 {}", "aa".repeat(short)));
    }
    case(format!("command {ends} 00000002 0 2 -"), "refused 15 -");
    case(format!("command {ends} 00000100 0 2 aaaaaa"), "handled 0 3 loop 0 2 0 - 000005");
    case(format!("command {ends} 00000100 0 2 {}", "aa".repeat(6)), "handled 0 3 loop 0 2 0 - 000005aaaaaa");
    case(format!("command {ends} 00000100 0 2 aaaa"), "refused 15 aaaa");
    case(format!("command {ends} 00000100 0 2 -"), "refused 15 -");
}

/// 4.6: 12 comes before 15 and behind 10 and 11, whether the state has a clause for the six low bits or none, with room or without.
#[test]
fn twelve() {
    let ends = four_ends();
    for (command, buffer) in [(64, "-"), (66, "-"), (73, "-"), (255, "-"), (66, "aaaaaaaaaaaa"), (73, "aaaaaa"), (129, "aa")] {
        case(format!("command {ends} 0000 0 {command} {buffer}"), &format!("refused 12 {buffer}"));
    }
    case(format!("command {ends} 0000 0 63 -"), "refused 15 -");
    case(format!("command {ends} 0000 2 64 aa"), "refused 11 aa");
    case(format!("command {ends} 0003 2 64 aa"), "refused 10 aa");
    case(format!("command {ends} 0003 0 9 -"), "refused 10 -");
    case(format!("command {ends} 0000 2 9 -"), "refused 11 -");
    case("command - 0003 2 64 aa".to_string(), "refused 1 aa");
}

/// 4.7: a command whose move_to leads to the own state is handled, and the phase follows from there.
#[test]
fn move_to_the_own_state() {
    let stays = sheet_of("state: A when SOME_P move_to B action: c1 do c4 $ALL$K move_to A do c5 $ALL$K state: B action: c1");
    case(format!("command {stays} 0000 0 1 aaaaaaaa"), "handled 0 3 none 1 1 0 - 000004aa");
    case(format!("command {stays} 0001 0 1 aaaaaa"), "handled 0 3 none 0 0 0 - 000004");
    case(format!("command {stays} 0000 1 1 -"), "handled 1 0 none 1 0 0 - -");
    let turns = sheet_of("state: A when TRUE do c1 action: c1 do c4 $ALL$K move_to A");
    case(format!("command {turns} 0000 0 1 aaaaaaaaaaaa"), "handled 0 3 loop 0 1 0 - 000004aaaaaa");
    case(format!("command {turns} 0000 0 1 aa"), "refused 15 aa");
    case(format!("command {turns} 0000 0 2 aa"), "ignored 0 0 loop 0 1 0 - aa");
}

/// One clause runs as the command and again as a DO; what the first sent changes no child.
#[test]
fn the_same_clause_twice() {
    let twice = sheet_of("state: A when TRUE do c1 action: c0 action: c1 do c4 $ALL$K do c5 $ALL$L");
    case(format!("command {twice} 01000001 0 1 {}", "aa".repeat(12)), "handled 0 6 do 0 0 6 1 010004000005010004000005");
    case(format!("command {twice} 01000001 0 1 {}", "aa".repeat(11)), &format!("refused 15 {}", "aa".repeat(11)));
    case(format!("command {twice} 01000001 0 2 {}", "aa".repeat(6)), "ignored 0 0 do 0 0 6 1 010004000005");
    case(format!("command {twice} 01000001 0 0 {}", "aa".repeat(6)), "handled 0 0 do 0 0 6 1 010004000005");
    case(format!("command {twice} - 0 1 -"), "handled 0 0 do 0 0 0 1 -");
}

/// A command's line has five fields behind its word.
#[test]
fn lines_of_commands() {
    let c = c_with(&[]);
    for line in ["command C - 0 9", "command C - 0 9 - -", "command C - 0 - -", "command C - 0 256 -", "command C - 0 09 -", "command C - 0 9 a"] {
        case(line.replace('C', &c), "bad line");
    }
    case(format!("command {c} - 0 9 -"), "handled 1 0 none 0 1 0 - -");
}

/// The answer to a phase from a state into a buffer, its fields and the buffer apart.
fn phase_alone(sheet: &[u8], list: &[u8], state: &str, buffer: &[u8]) -> (String, String) {
    let answer = answer_line(format!("phase {} {} {state} {}", hex(sheet), hex(list), hex(buffer)).as_bytes());
    let (fields, after) = answer.rsplit_once(' ').unwrap();
    (fields.to_string(), after.trim_matches('-').to_string())
}

/// What the answer to a command must be, by the phase asked alone with what its own sends leave of the buffer; they are read off an answer with room.
fn composed(words: &[&str], sheet: &[u8], list: &[u8], buffer: &[u8]) -> String {
    let own = words[2].parse::<usize>().unwrap();
    let alone = buffer.get(own..).map(|rest| phase_alone(sheet, list, words[1], rest));
    match alone.filter(|(fields, _)| fields != "refused 15") {
        Some((fields, _)) if buffer.is_empty() => format!("{} {} 0 {fields} -", words[0], words[1]),
        Some((fields, after)) => format!("{} {} {own} {fields} {}{after}", words[0], words[1], &words[8][..2 * own]),
        None => format!("refused 15 {}", hex(buffer)),
    }
}

/// A request says what its command says and, behind that, what the phase asked alone says with the rest of the buffer.
#[test]
fn a_request_is_a_command_and_a_phase() {
    let (mut answered, mut refused) = (0, 0);
    for index in 0..2000 {
        let random = &mut Random::for_question(11, index);
        let (shape, manner) = (random.pick(&[SMALL, BUSY, LADDER, RING]), random.pick(&[ALL, MIXED, DEEP, SENDING]));
        let class = commanded_class(random, &shape, &manner);
        let question = telling_command(random, &[class]);
        let Question::Command { sheet, list, state, command, buffer } = question.clone() else { unreachable!() };
        let roomy = Question::Command { sheet: sheet.clone(), list: list.clone(), state, command, buffer: vec![0; 1_000] };
        let whole = answer_line(roomy.line().as_bytes());
        if whole.starts_with("refused") {
            continue;
        }
        let (words, got) = (whole.split(' ').collect::<Vec<&str>>(), answer_line(question.line().as_bytes()));
        assert_eq!(got, composed(&words, &sheet, &list, &buffer), "{index}");
        if got.starts_with("refused") { refused += 1 } else { answered += 1 }
    }
    assert!(answered > 1000 && refused > 200, "{answered} {refused}");
}
