//! The worked examples of the class text: what is read, and the places of what is not.

use crate::answering::answer_line;
use crate::chart::Chart;
use crate::drafts::{draft, lists, name_record};
use crate::examples::{about, depths, list, placed, short, CHAMBER, CHAMBER_NAMES, CHAMBER_STATES, EXCERPT, EXCERPT_KIN, EXCERPT_NAMES};
use crate::examples::{wrong_lists, PLACES, PRESS, READ, REFUSED_17, RPC, STANDBY};
use crate::limits::{guards_of_depth, ifs_of_depth};
use crate::lines::{hex, Question, FORMER_LONGEST_LINE, LONGEST_LINE};
use crate::long_texts::long_text;
use crate::making;
use crate::printing::{layout, manner, pieces, white};
use crate::random::Random;
use crate::reading::{read, Lent, Refusal};
use crate::shapes::{class, BUSY, CROWD, LADDER, RING, SMALL, WHOLE};
use crate::words::{is_name, words_of, FIXED, NOWHERE, RESERVED};
use crate::writing::bodies_of;
use std::collections::HashSet;

/// A text with its lists, and buffers that are long enough.
fn lent(text: &str, names: &str, commands: &str, kin: &str) -> Lent {
    let set = ((1u64 << names.split_whitespace().count()) - 1) as u32;
    roomy(about(text, names, commands, kin, set))
}

/// The same with buffers that are long enough.
fn roomy(lent: Lent) -> Lent {
    Lent { sheet: vec![0xaa; 20_000], table: vec![0xbb; 2_000], ..lent }
}

/// The numbers of a body of a sheet, each of two bytes, from an offset in each record of this size.
fn column(sheet: &[u8], body: usize, size: usize, offset: usize) -> Vec<u16> {
    let number = |at: usize| u16::from_le_bytes([sheet[at], sheet[at + 1]]);
    let (start, length) = (usize::from(number(4 * body)), usize::from(number(4 * body + 2)));
    (start..start + length).step_by(size).map(|at| number(at + offset)).collect()
}

const SHEET_A: &str = "180004001c000800240008002c0010003c0000003c000000\
    070000000100000001000000000000010100000001000000020000000000000002000000";

/// Sheet A comes from its text byte for byte, with its table, and the bytes behind are kept.
#[test]
fn sheet_a() {
    let mut lent = lent(PRESS, "COLD HOT FAULT", "", "HEATER");
    (lent.sheet, lent.table) = (vec![0xaa; 61], vec![0xbb; 65]);
    let table = hex(&list("READY HOLD"));
    assert_eq!(answer_line(Question::Read(lent.clone()).line().as_bytes()), format!("read 60 2 {SHEET_A}aa {table}bb"));
    for (sheet, table) in [(59, 64), (60, 63), (0, 64), (60, 0)] {
        (lent.sheet, lent.table) = (vec![0xaa; sheet], vec![0xbb; table]);
        let answer = format!("refused 15 {} {}", hex(&lent.sheet), hex(&lent.table));
        assert_eq!(answer_line(Question::Read(lent.clone()).line().as_bytes()), answer);
    }
}

/// Listing 1 of the thesis.
#[test]
fn thesis_listing_1() {
    let done = read(&lent(RPC, "ON ERROR", "RESET OFF", "")).unwrap();
    assert_eq!(done.table, list("ON ERROR"));
    let sheet = "180000001800080020000800280010003800040\
        03c00080001000100010000000000000101000000\
        00ff00000200000000ff000001000000\
        000001000001ff0000000000";
    assert_eq!(hex(&done.sheet), sheet);
}

/// Listing 1 of the article: its states are missing; with them it is read.
#[test]
fn article_listing_1() {
    let as_it_stands = lent(CHAMBER, CHAMBER_NAMES, "STANDBY OFF ON", "RPC_HV RPC_LV RPC_T");
    assert_eq!(read(&as_it_stands), Err(Refusal { number: 17, place: None }));
    let whole = format!("{CHAMBER} {CHAMBER_STATES}");
    let done = read(&lent(&whole, CHAMBER_NAMES, "STANDBY OFF ON", "RPC_HV RPC_LV RPC_T")).unwrap();
    assert_eq!(done.table, list("OFF ERROR RAMPING STANDBY ON"));
    assert_eq!(column(&done.sheet, 2, 4, 0), [0, 3, 4, 7, 10]);
    assert_eq!(column(&done.sheet, 3, 8, 0).len(), 13);
    assert_eq!(column(&done.sheet, 1, 4, 2), [3, 0, 0, 0, 0]);
}

/// Listing 2 of the article, inside a class.
#[test]
fn article_listing_2() {
    let text = format!("class: $FWPART_$TOP$C state: OFF {STANDBY} state: ON");
    let done = read(&lent(&text, "ON", "STANDBY ON", "RPC_HV RPC_LV")).unwrap();
    assert_eq!(column(&done.sheet, 5, 8, 0), [0, 0x100, 2, 0x100, 2, 0x101, 0, 0, 0]);
    assert_eq!((column(&done.sheet, 5, 8, 4)[2], column(&done.sheet, 5, 8, 6)[2]), (3, 3));
    assert_eq!((column(&done.sheet, 5, 8, 4)[4], column(&done.sheet, 5, 8, 6)[4]), (1, 0));
    assert_eq!((column(&done.sheet, 5, 8, 2)[2], column(&done.sheet, 5, 8, 2)[4]), (0, 1));
}

/// Listing 3 of the article: dots stand nowhere; without them it loops as the article says.
#[test]
fn article_listing_3() {
    let (names, kin) = (EXCERPT_NAMES, EXCERPT_KIN);
    let dotted = format!("class: $FWPART_$TOP$C {EXCERPT}");
    let place = dotted.find('.');
    assert_eq!(read(&lent(&dotted, names, "", kin)), Err(Refusal { number: 16, place }));
    let whole = format!("{} state: HVMIXED", dotted.replace('.', ""));
    let done = read(&lent(&whole, names, "", kin)).unwrap();
    let phase = format!("phase {} 00000101 0 -", hex(&done.sheet));
    assert_eq!(answer_line(phase.as_bytes()), "loop 1 3 0 - -");
}

/// The places of 16.
#[test]
fn places() {
    for marked in PLACES {
        let (lent, place) = placed(marked);
        assert_eq!(read(&roomy(lent)), Err(Refusal { number: 16, place: Some(place) }), "{marked}");
    }
}

/// What is read, what is refused with 17, and the depths from both sides.
#[test]
fn read_or_refused() {
    for text in READ {
        assert!(read(&roomy(short(text))).is_ok(), "{text}");
    }
    for text in REFUSED_17 {
        assert_eq!(read(&roomy(short(text))), Err(Refusal::from(17)), "{text}");
    }
    assert!(wrong_lists().into_iter().all(|lent| read(&roomy(lent)) == Err(Refusal::from(17))));
    assert!(depths(0).into_iter().all(|lent| read(&roomy(lent)).is_ok()));
    assert!(depths(1).into_iter().all(|lent| read(&roomy(lent)) == Err(Refusal::from(18))));
}

/// The longest line is a question, and one that is a byte longer is none; both kinds of questions have such lines.
#[test]
fn longest_lines() {
    for turn in 19..25 {
        let line = Question::Read(long_text(&mut Random::for_question(3, turn), turn)).line();
        let lengths = [FORMER_LONGEST_LINE, FORMER_LONGEST_LINE + 1, LONGEST_LINE, LONGEST_LINE, LONGEST_LINE, LONGEST_LINE + 1];
        assert_eq!(line.len(), lengths[turn as usize - 19]);
        assert_eq!(answer_line(line.as_bytes()) == "bad line", line.len() > LONGEST_LINE);
    }
    for (turn, length) in [(20, LONGEST_LINE), (21, LONGEST_LINE + 1), (22, FORMER_LONGEST_LINE), (23, FORMER_LONGEST_LINE + 1)] {
        let line = making::make_line(3, 500 * turn + 250);
        assert_eq!(line.len(), length);
        assert_eq!(answer_line(&line) == "bad line", length > LONGEST_LINE);
    }
}

/// A line on which nothing is lent but buffers has an answer of its own length.
#[test]
fn longest_answer() {
    let line = Question::Read(long_text(&mut Random::for_question(3, 0), 23)).line();
    assert_eq!((line.len(), answer_line(line.as_bytes()).len()), (LONGEST_LINE, LONGEST_LINE));
}

/// Every fixed word is cut out whole, and no reserved run is a name.
#[test]
fn words() {
    for (number, word) in FIXED.iter().enumerate() {
        let words = words_of(word.as_bytes());
        assert_eq!((words.len(), usize::from(words[0].kind), words[0].end), (2, number, word.len()));
    }
    assert!(RESERVED.iter().all(|run| !is_name(run.as_bytes())));
    let cuts = |text: &str| words_of(text.as_bytes()).len() - 1;
    assert_eq!((cuts("$ANY$RPC_HV"), cuts("{A,B}"), cuts("state:OFF"), cuts("state :")), (2, 5, 2, 2));
    assert_eq!(words_of(b"state :")[0].kind, NOWHERE);
}

/// A random class as a text, with its sheet and its table.
fn sample(index: u64) -> (Lent, Vec<u8>, Vec<u8>) {
    let random = &mut Random::for_question(9, index);
    let shape = random.pick(&[SMALL, WHOLE, LADDER, RING, BUSY, CROWD]);
    let class = match random.below(10) {
        0 => guards_of_depth(random, 16),
        1 => ifs_of_depth(random, 8),
        _ => class(random, &shape),
    };
    let (draft, manner, white) = (draft(random, class), manner(random), white(random, 0));
    let pieces = pieces(random, &draft, manner);
    let [names, commands, classes] = lists(&draft);
    let sheet = bodies_of(&draft.class, false).sheet();
    let table: Vec<u8> = draft.own.iter().flat_map(|name| name_record(name)).collect();
    let text = layout(random, white, &pieces);
    (Lent { text, names, commands, classes, sheet: vec![0; sheet.len()], table: vec![0; table.len()] }, sheet, table)
}

/// A tree comes back from its text in any layout, with exactly the room that it needs.
#[test]
fn trees_come_back_from_texts() {
    for index in 0..600 {
        let (mut lent, sheet, table) = sample(index);
        let done = read(&lent).unwrap();
        assert_eq!((&done.sheet, &done.table), (&sheet, &table));
        lent.sheet.pop();
        assert_eq!(read(&lent), Err(Refusal { number: 15, place: None }));
        (lent.sheet, lent.table) = (sheet, table[1..].to_vec());
        assert_eq!(read(&lent), Err(Refusal { number: 15, place: None }));
    }
}

/// No item comes into a set of the chart twice: there is one way to read what was read so far.
#[test]
fn read_in_one_way() {
    for index in 0..300 {
        let (lent, ..) = sample(index);
        let chart = Chart::of(&words_of(&lent.text)).ok().unwrap();
        for (number, start) in chart.sets.iter().enumerate() {
            let end = chart.sets.get(number + 1).copied().unwrap_or(chart.items.len());
            let set: HashSet<(u8, u8, u32)> = chart.items[*start..end].iter().map(|item| (item.rule, item.read, item.origin)).collect();
            assert_eq!(set.len(), end - start);
        }
    }
}

/// A text that is cut before a word is of the grammar, or cut short: nothing before the cut is blamed.
#[test]
fn cut_texts() {
    for index in 0..60 {
        let (lent, ..) = sample(index);
        for word in words_of(&lent.text).iter().step_by(17) {
            let cut = Lent { text: lent.text[..word.start].to_vec(), ..lent.clone() };
            if let Err(Refusal { number: 16, place }) = read(&cut) {
                assert_eq!(place, Some(word.start));
            }
        }
    }
}
