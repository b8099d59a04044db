//! Class texts as they are written: worked examples byte for byte, every refusal, and texts that are read back.

use crate::answering::answer_line;
use crate::drafts::{class_record, name_record};
use crate::examples::{about, list, PRESS, RPC};
use crate::judging::judge;
use crate::lines::{hex, Question, LONGEST_LINE};
use crate::making_writes::{make_line, mixed_line};
use crate::random::Random;
use crate::reading::{read, Lent};
use crate::round_trips::{round_trip, text_in};
use crate::tests::c_with;
use crate::text_writing::{guards_of, size, write, Named};
use crate::written_limits::{counted_records, longest};

/// Bytes from hex.
fn bytes(hex: &str) -> Vec<u8> {
    (0..hex.len()).step_by(2).map(|at| u8::from_str_radix(&hex[at..at + 2], 16).unwrap()).collect()
}

/// A sheet with its names, which are parted by blanks; every class has this set.
fn named(sheet: Vec<u8>, title: &str, own: &str, lists: [&str; 3], set: u32) -> Named {
    let classes = lists[2].split_whitespace().flat_map(|name| class_record(name.as_bytes(), set.to_le_bytes())).collect();
    let (title, table) = (name_record(title.as_bytes()), list(own));
    Named { sheet, title, table, names: list(lists[0]), commands: list(lists[1]), classes, buffer: Vec::new() }
}

/// What is read from a text over lists, every class with this set, as a question about writing it.
fn reread(text: &str, lists: [&str; 3], set: u32) -> Named {
    let lent = Lent { sheet: vec![0; 20_000], table: vec![0; 1_024], ..about(text, lists[0], lists[1], lists[2], set) };
    let done = read(&lent).unwrap();
    let title = text.split('$').nth(3).unwrap_or("").split_whitespace().next().unwrap_or("X");
    Named { table: done.table, ..named(done.sheet, title, "", lists, set) }
}

/// The answer to a question with a buffer of this many bytes.
fn answer(named: &Named, room: usize) -> String {
    answer_line(Question::Write(Named { buffer: vec![0xaa; room], ..named.clone() }).line().as_bytes())
}

/// The question is answered with this text, which needs just its room; the bytes behind are kept, and a byte less is refused.
fn writes(named: &Named, text: &str) {
    assert_eq!(String::from_utf8(write(named).unwrap()).unwrap(), text);
    for more in [0, 1, 7] {
        let expected = format!("written {} {}{}", text.len(), hex(text.as_bytes()), "aa".repeat(more));
        assert_eq!(answer(named, text.len() + more), expected);
    }
    for room in [text.len() - 1, 1, 0] {
        assert_eq!(answer(named, room), format!("refused 15 {}", hex(&vec![0xaa; room])));
    }
    round_trip(named, text.as_bytes().to_vec()).unwrap();
}

/// The question is refused with this number whatever the room is, and the buffer stays as it was.
fn refuses(named: &Named, number: u8) {
    for room in [0, 1, 5_000] {
        assert_eq!(answer(named, room), format!("refused {number} {}", hex(&vec![0xaa; room])));
    }
}

const PRESS_LISTS: [&str; 3] = ["COLD HOT FAULT", "", "HEATER"];
const TEN: &str = "c0 c1 c2 c3 c4 c5 c6 c7 c8 c9";

/// Sheet A and its text.
#[test]
fn sheet_a() {
    let sheet = bytes("180004001c000800240008002c0010003c0000003c000000070000000100000001000000000000010100000001000000020000000000000002000000");
    writes(&named(sheet, "PRESS", "READY HOLD", PRESS_LISTS, 7), PRESS);
}

/// Listing 1 of the thesis comes back byte for byte.
#[test]
fn thesis_listing_1() {
    writes(&reread(RPC, ["ON ERROR", "RESET OFF", ""], 0), RPC);
}

/// Sheet C, whose when clause and if share a guard; read back it has one guard record more.
#[test]
fn sheet_c() {
    let asked = named(bytes(&c_with(&[])), "PRESS", "READY HOLD", ["COLD HOT FAULT", TEN, "HEATER"], 7);
    let text = "class: $FWPART_$TOP$PRESS
  state: READY
    when ( $ANY$HEATER not_in_state HOT ) move_to HOLD
    action: c9
      do c4 $ALL$FwCHILDREN
      if ( $ALL$HEATER in_state HOT ) then
        move_to HOLD
      endif
      do c5 $ALL$FwCHILDREN
  state: HOLD
    when ( $ALL$HEATER in_state HOT ) move_to READY
";
    writes(&asked, text);
    let again = reread(text, ["COLD HOT FAULT", TEN, "HEATER"], 7);
    assert_eq!((asked.sheet[14], again.sheet[14]), (16, 24));
    assert_eq!(judge(&again.sheet), judge(&asked.sheet));
}

const EVERYTHING: &str = "class: $FWPART_$TOP$X
  state: A
    when ( $ANY$K in_state {P, Q, R} ) do stop
    when ( $ALL$FwCHILDREN not_in_state {Q, R} ) stay_in_state A
    when ( ( $ANY$L not_in_state P ) and ( ( not ( $ALL$L in_state R ) ) or ( $ANY$K in_state Q ) ) ) move_to B
    action: go
      if ( not ( not ( $ANY$K in_state P ) ) ) then
      endif
      if ( $ANY$K in_state P ) then
      else
        if ( $ALL$K in_state Q ) then
          move_to A
          do go $ALL$L
          move_to B
        else
          do stop $ALL$K
        endif
      endif
    action: stop
  state: B
  state: C
    when ( ( ( $ANY$K in_state P ) or ( $ANY$K in_state Q ) ) or ( $ANY$K in_state R ) ) stay_in_state C
    when ( ( $ANY$K in_state P ) and ( ( $ANY$K in_state Q ) and ( $ANY$K in_state R ) ) ) do go
    action: stop
      do go $ALL$FwCHILDREN
    action: go
      move_to C
";
const LISTS: [&str; 3] = ["P Q R", "go stop", "K L"];

/// Everything in one text, and a class of which nothing is said.
#[test]
fn layout() {
    writes(&reread(EVERYTHING, LISTS, 3), EVERYTHING);
    writes(&reread("class: $FWPART_$TOP$A state: A", ["", "", ""], 0), "class: $FWPART_$TOP$A\n  state: A\n");
    let other = "class:$FWPART_$TOP$X state:A when not $ANY$K in_state{R,P,P}and(($ALL$L in_state{Q}))stay_in_state B action:go
        if $ANY$K in_state P then move_to A else endif state:B";
    let fixed = "class: $FWPART_$TOP$X
  state: A
    when ( ( not ( $ANY$K in_state {P, R} ) ) and ( $ALL$L in_state Q ) ) stay_in_state A
    action: go
      if ( $ANY$K in_state P ) then
        move_to A
      endif
  state: B
";
    writes(&reread(other, LISTS, 3), fixed);
}

/// A question about everything, changed.
fn changed(change: impl Fn(&mut Named)) -> Named {
    let mut named = reread(EVERYTHING, LISTS, 3);
    change(&mut named);
    named
}

/// One of the five things that are lent beside the sheet.
fn lent(named: &mut Named, number: usize) -> &mut Vec<u8> {
    [&mut named.title, &mut named.table, &mut named.names, &mut named.commands, &mut named.classes].into_iter().nth(number).unwrap()
}

/// 17: ill-formed records, parts of records, names twice, in all that is lent.
#[test]
fn wrong_records() {
    let wrong: [&[u8]; 7] = [b"", &[b'A'; 32], b"A-B", b"A\0B", b"when", b"TOP", b"A\x80"];
    for number in 0..5 {
        for record in wrong.map(name_record) {
            refuses(&changed(|named| lent(named, number)[..32].copy_from_slice(&record)), 17);
        }
        for cut in [1, 4, 31] {
            refuses(&changed(|named| { let length = lent(named, number).len() - cut; lent(named, number).truncate(length) }), 17);
            refuses(&changed(|named| { let length = lent(named, number).len() + cut; lent(named, number).resize(length, 0) }), 17);
        }
    }
    for number in 1..5 {
        let size = if number == 4 { 36 } else { 32 };
        refuses(&changed(|named| lent(named, number).copy_within(0..32, size)), 17);
    }
    refuses(&changed(|named| named.names.extend(name_record(b"P"))), 17);
    refuses(&changed(|named| named.commands.extend(name_record(b"stop"))), 17);
}

/// 17: the own name has other bytes than one record; it may be any name of the lists.
#[test]
fn own_name() {
    for length in [0, 31, 33, 64] {
        refuses(&changed(|named| named.title.resize(length, 0)), 17);
    }
    refuses(&changed(|named| named.title = list("X Y")), 17);
    for name in ["A", "P", "go", "K", "9", "When"] {
        writes(&changed(|named| named.title = list(name)), &EVERYTHING.replacen("$X", &format!("${name}"), 1));
    }
}

/// 17: the table and the classes are just those of the sheet.
#[test]
fn other_numbers() {
    refuses(&changed(|named| named.table.extend(name_record(b"D"))), 17);
    refuses(&changed(|named| named.table.truncate(64)), 17);
    refuses(&changed(|named| named.table.clear()), 17);
    refuses(&changed(|named| named.classes.extend(class_record(b"M", [1, 0, 0, 0]))), 17);
    refuses(&changed(|named| named.classes.truncate(36)), 17);
    for set in [0, 1, 2, 7] {
        refuses(&changed(|named| named.classes[32] = set), 17);
        refuses(&changed(|named| named.classes[68] = set), 17);
    }
    let swapped = changed(|named| { named.sheet[24] = 1; named.classes[32] = 3; named.classes[68] = 1 });
    refuses(&swapped, 17);
    writes(&changed(|named| { named.sheet[24] = 1; named.classes[32] = 1 }), EVERYTHING);
}

/// 17: what is written and has no name; a bit in a record that is not written needs none.
#[test]
fn without_a_name() {
    refuses(&changed(|named| { named.sheet[24] = 9; named.classes[32] = 9 }), 17);
    refuses(&changed(|named| named.names.truncate(64)), 17);
    let guards = |named: &Named| usize::from(named.sheet[12]) + 256 * usize::from(named.sheet[13]);
    for record in [0, 1, 3, 6, 10] {
        assert!(guards(&changed(|_| {})) > 0);
        refuses(&changed(|named| { let at = guards(named) + 8 * record + 4; named.sheet[at] |= 8 }), 17);
        refuses(&changed(|named| { let at = guards(named) + 8 * record + 7; named.sheet[at] |= 128 }), 17);
    }
    for text in ["action: go action: stop", "action: go do stop $ALL$K", "action: go move_to A do stop $ALL$K",
        "action: go if $ANY$K in_state P then do stop $ALL$K endif", "action: go if $ANY$K in_state P then else do stop $ALL$K endif"] {
        let asked = reread(&format!("class: $FWPART_$TOP$X state: A {text}"), LISTS, 3);
        assert!(write(&asked).is_ok());
        refuses(&Named { commands: list("go"), ..asked }, 17);
    }
}

/// A record that nothing uses is not written; it needs no name, and is not counted.
#[test]
fn unused_record() {
    let mut sheet = bytes("180004001c0008002400080\
        02c0018004400000044000000070000000100000001000000000000010100000001000000020000000000000002000000");
    sheet.extend([0, 255, 0, 0, 8, 0, 0, 128]);
    writes(&named(sheet.clone(), "PRESS", "READY HOLD", PRESS_LISTS, 7), PRESS);
    sheet[36] = 2;
    refuses(&named(sheet, "PRESS", "READY HOLD", PRESS_LISTS, 7), 17);
}

/// 17: names and commands that have no number; just as many as there are numbers are good.
#[test]
fn too_many() {
    let record = |number: usize| name_record(format!("n{number}").as_bytes());
    let more = |list: &mut Vec<u8>, count: usize| list.extend((list.len() / 32..count).flat_map(record).collect::<Vec<u8>>());
    writes(&changed(|named| { more(&mut named.names, 32); more(&mut named.commands, 64) }), EVERYTHING);
    refuses(&changed(|named| more(&mut named.names, 33)), 17);
    refuses(&changed(|named| more(&mut named.commands, 65)), 17);
}

/// How many guard records are written.
fn records(named: &Named) -> usize {
    guards_of(&judge(&named.sheet).unwrap()).into_iter().map(size).sum()
}

/// 19: 1,024 guard records are written, 1,025 are not, however few the sheet has.
#[test]
fn records_counted() {
    for index in 0..15 {
        let random = &mut Random::for_question(5, index);
        for (total, written) in [(1023, true), (1024, true), (1025, false), (1026, false), (4096, false)] {
            let named = counted_records(random, total).named();
            assert_eq!(records(&named), total);
            match written {
                true => round_trip(&named, write(&named).unwrap()).unwrap(),
                false => refuses(&named, 19),
            }
        }
    }
}

/// The sheet's own numbers come first, then 17, 19 and 15.
#[test]
fn order() {
    let random = &mut Random::for_question(6, 1);
    let many = counted_records(random, 1025).named();
    refuses(&many, 19);
    let wrong = Named { title: Vec::new(), ..many.clone() };
    refuses(&wrong, 17);
    let mut sheet = wrong.sheet.clone();
    sheet.push(0);
    refuses(&Named { sheet, ..wrong.clone() }, 2);
    refuses(&Named { sheet: Vec::new(), ..wrong }, 1);
    let a = "180004001c000800240008002c0010003c0000003c000000070000000100000001000000000000010100000001000000020000000000000002000000";
    for (at, byte, number) in [(24, 0, 3), (28, 9, 4), (52, 7, 5), (36, 2, 6), (39, 2, 7)] {
        let mut sheet = bytes(a);
        sheet[at] = byte;
        refuses(&Named { names: vec![0], ..named(sheet, "PRESS", "READY HOLD", PRESS_LISTS, 7) }, number);
    }
    for (at, number) in [(60, 8), (80, 9)] {
        let sheet = bytes(&c_with(&[(at + 1, 77)]));
        refuses(&Named { table: vec![0], ..named(sheet, "PRESS", "READY HOLD", ["COLD HOT FAULT", TEN, "HEATER"], 7) }, number);
    }
}

/// The longest text: 1,024 guards of one record about 32 names each, all names of 31 characters, every clause and statement there may be.
#[test]
fn longest_text() {
    let named = longest();
    let text = write(&named).unwrap();
    assert_eq!((text.len(), records(&named)), (1_244_410, 1024));
    assert!(text.len() <= 1_259_860);
    round_trip(&named, text).unwrap();
}

/// A writing question's line has seven fields behind its word; the longest line is a question, and one byte more is none.
#[test]
fn lines() {
    let line = Question::Write(reread("class: $FWPART_$TOP$A state: A", ["", "", ""], 0)).line();
    assert_eq!(answer_line(line.as_bytes()), "refused 15 -");
    let fields: Vec<&str> = line.split(' ').collect();
    assert_eq!(fields.len(), 8);
    for wrong in [fields[..7].join(" "), format!("{line} -"), format!("{line}0"), line.replace('-', ""), line.to_uppercase()] {
        assert_eq!(answer_line(wrong.as_bytes()), "bad line", "{wrong}");
    }
    for (turn, length) in [(3, LONGEST_LINE), (13, LONGEST_LINE + 1)] {
        let line = make_line(3, 125 * turn);
        assert_eq!((line.len(), answer_line(&line) == "bad line"), (length, length > LONGEST_LINE));
    }
}

/// A text that is not the one that must be written does not come back.
#[test]
fn wrong_texts() {
    let asked = changed(|_| {});
    let wrong = [
        (("state: B\n", "state B\n"), "the text is not read"),
        (("do stop $ALL$K", "do zap $ALL$K"), "the text is not read"),
        (("  state: B\n", "  state: B\n  state: D\n"), "the table does not come back"),
        (("in_state {P, Q, R}", "in_state {P, Q}"), "the sheet comes back with another tree"),
        (("$ALL$FwCHILDREN not_in_state", "$ANY$FwCHILDREN not_in_state"), "the sheet comes back with another tree"),
        (("do go $ALL$L\n          move_to B", "move_to B\n          do go $ALL$L"), "the sheet comes back with another tree"),
        (("stay_in_state A", "stay_in_state"), "what was read is not written as the same text"),
        (("endif\n    action: stop", "endif\n\n    action: stop"), "what was read is not written as the same text"),
        (("{P, Q, R}", "{P, R, Q}"), "what was read is not written as the same text"),
    ];
    for ((from, to), fault) in wrong {
        assert!(EVERYTHING.contains(from), "{from}");
        assert_eq!(round_trip(&asked, EVERYTHING.replacen(from, to, 1).into_bytes()), Err(fault), "{to}");
    }
    assert_eq!(text_in(b"written 2 616263"), Some(b"ab".to_vec()));
    assert_eq!([&b"written 3 6162"[..], b"refused 15 61", b"written 1"].map(text_in), [None, None, None]);
}

/// Random questions: what is written is read back.
#[test]
fn read_back() {
    let mut written = 0;
    for index in 1..600 {
        let line = mixed_line(11, index);
        let Some(text) = text_in(answer_line(&line).as_bytes()) else { continue };
        let Some(Question::Write(named)) = Question::read(&line) else { continue };
        assert_eq!(round_trip(&named, text), Ok(()), "{index}");
        written += 1;
    }
    assert!(written > 200);
}
