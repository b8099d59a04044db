//! Counts what the questions of a file ask, by what they are and not by how they were made.

use crate::examples::examples;
use crate::lines::{Question, FORMER_LONGEST_LINE, LONGEST_LINE};
use crate::lists::{CLASS_RECORD, NAME_RECORD};
use crate::reading::{counts_of_text, deepest_if, operators_on_a_path, Lent};
use crate::tallying_commands::of_command;
use crate::tallying_phases::{of_loop, of_phase};
use crate::tallying_writes::of_writing;
use crate::text::{rule_16, Guard, Kin, Name, Referrer, State, Statement, Text};
use crate::words::{is_name, is_name_character, is_white, words_of, Word, END, FIXED, LONGEST_NAME, NAME, NOWHERE, RESERVED};
use crate::writing::RECORD;
use std::collections::{BTreeMap, HashSet};

/// The three lists: what is in them, and the size of a record.
const LISTS: [(&str, usize); 3] = [("names", NAME_RECORD), ("commands", NAME_RECORD), ("classes", CLASS_RECORD)];

/// The bytes of a list.
fn list(lent: &Lent, number: usize) -> &[u8] {
    [&lent.names, &lent.commands, &lent.classes][number]
}

/// What stands before the first zero of each record of a list.
fn names(lent: &Lent, number: usize) -> Vec<&[u8]> {
    let name = |record| -> &[u8] { <[u8]>::split(record, |byte| *byte == 0).next().unwrap_or(&[]) };
    list(lent, number).chunks_exact(LISTS[number].1).map(|record| name(&record[..NAME_RECORD])).collect()
}

/// What is wrong with a name record.
pub fn ill_formed(record: &[u8]) -> Option<&'static str> {
    let length = record.iter().position(|byte| *byte == 0);
    match length {
        None => Some("a record without a zero"),
        Some(0) if record.iter().all(|byte| *byte == 0) => Some("a record of zeros"),
        Some(length) if record[length..].iter().any(|byte| *byte != 0) => Some("something behind a zero"),
        Some(length) if RESERVED.iter().any(|run| run.as_bytes() == &record[..length]) => Some("a reserved run"),
        Some(length) => (!is_name(&record[..length])).then_some("a byte that no name has"),
    }
}

/// Does a name stand in the text, whatever for?
fn used(lent: &Lent, words: &[Word], name: &[u8]) -> &'static str {
    if words.iter().any(|word| &lent.text[word.start..word.end] == name) { "used" } else { "not used" }
}

/// What a list has against 17.
fn faults_of_list(lent: &Lent, words: &[Word], number: usize) -> Vec<String> {
    let (title, size) = LISTS[number];
    let mut faults = Vec::new();
    if list(lent, number).len() % size != 0 {
        faults.push(format!("{title}: a part of a record"));
    }
    let mut seen = HashSet::new();
    for (record, name) in list(lent, number).chunks_exact(size).zip(names(lent, number)) {
        if let Some(fault) = ill_formed(&record[..NAME_RECORD]) {
            faults.push(format!("{title}: {fault}"));
        } else if !seen.insert(name) {
            faults.push(format!("{title}: a name twice, {}", used(lent, words, name)));
        }
    }
    faults
}

/// What the three lists have against 17.
fn faults_of_lists(lent: &Lent, words: &[Word]) -> Vec<String> {
    let mut faults: Vec<String> = (0..3).flat_map(|number| faults_of_list(lent, words, number)).collect();
    let count = lent.names.len() / NAME_RECORD;
    let nameless = |record: &[u8]| (count..32).any(|bit| record[NAME_RECORD + bit / 8] >> (bit % 8) & 1 == 1);
    if lent.classes.chunks_exact(CLASS_RECORD).any(nameless) {
        faults.push("a set bit without a name".to_string());
    }
    faults
}

/// The names of a text that are not known, by what they stand for.
fn unknown(lent: &Lent, text: &Text) -> Vec<&'static str> {
    let own: Vec<Name> = text.states.iter().map(|state| state.name).collect();
    let [child, command, class] = [0, 1, 2].map(|number| names(lent, number));
    let mut found = Vec::new();
    let mut look = |known: &[&[u8]], name: &Name, what| if !known.contains(name) { found.push(what) };
    for guard in &text.guards {
        let Guard::Atom { kin, set, .. } = guard else { continue };
        set.iter().for_each(|name| look(&child, name, "a child state"));
        if let Kin::Class(name) = kin { look(&class, name, "a class of an atom") }
    }
    for statement in &text.statements {
        match statement {
            Statement::MoveTo(name) => look(&own, name, "the state of a move_to statement"),
            Statement::Send { command: name, kin } => {
                look(&command, name, "the command of a do statement");
                if let Kin::Class(name) = kin { look(&class, name, "a class of a do statement") }
            }
            Statement::If { .. } => {}
        }
    }
    for state in &text.states {
        state.actions.iter().for_each(|action| look(&command, &action.command, "the command of an action"));
        for when in &state.whens {
            match &when.referrer {
                Referrer::MoveTo(name) => look(&own, name, "the state of a move_to referrer"),
                Referrer::Stay(Some(name)) => look(&own, name, "the state of a stay_in_state"),
                Referrer::Do(name) => look(&command, name, "the command of a do referrer"),
                Referrer::Stay(None) => {}
            }
        }
    }
    found
}

/// Is one there twice?
fn twice<'n>(mut names: impl Iterator<Item = Name<'n>>) -> bool {
    let mut seen = HashSet::new();
    names.any(|name| !seen.insert(name))
}

/// What a text and its lists have against 17.
fn faults_17(lent: &Lent, text: &Text, words: &[Word]) -> Vec<String> {
    let mut faults = faults_of_lists(lent, words);
    faults.extend(unknown(lent, text).iter().map(|what| format!("not known: {what}")));
    if twice(text.states.iter().map(|state| state.name)) {
        faults.push("a state twice".to_string());
    }
    let commands = names(lent, 1);
    let lacks = |state: &State, name: &Name| commands.contains(name) && !state.actions.iter().any(|action| action.command == *name);
    for state in &text.states {
        if twice(state.actions.iter().map(|action| action.command)) {
            faults.push("an action twice".to_string());
        }
        if state.whens.iter().any(|when| matches!(&when.referrer, Referrer::Do(name) if lacks(state, name))) {
            faults.push("a do without its action".to_string());
        }
    }
    faults
}

/// What is limited: how many there are, and how many there may be.
fn limited(lent: &Lent, text: &Text) -> [(&'static str, usize, usize); 10] {
    let [states, whens, guards, actions, statements] = counts_of_text(text);
    [
        ("child state names", lent.names.len() / NAME_RECORD, 32),
        ("commands", lent.commands.len() / NAME_RECORD, 64),
        ("classes", lent.classes.len() / CLASS_RECORD, 8),
        ("states", states, 32),
        ("when clauses", whens, 256),
        ("guard records", guards, 1024),
        ("action clauses", actions, 256),
        ("statements", statements, 1024),
        ("operators on a path", operators_on_a_path(&text.guards), 16),
        ("ifs in each other", deepest_if(&text.statements), 8),
    ]
}

/// What a text and its lists have against 18.
fn faults_18(lent: &Lent, text: &Text) -> Vec<String> {
    let past = limited(lent, text).into_iter().filter(|(_, count, most)| count > most);
    let mut faults: Vec<String> = past.map(|(what, count, most)| {
        if count == most + 1 { format!("{count} {what}") } else { format!("more than {} {what}", most + 1) }
    }).collect();
    if lent.classes.chunks_exact(CLASS_RECORD).any(|record| record[NAME_RECORD..] == [0; 4]) {
        faults.push("an empty name set".to_string());
    }
    faults
}

/// How much room a buffer has.
fn room(title: &str, room: usize, needed: usize) -> String {
    match room as i64 - needed as i64 {
        -1 => format!("{title} one byte short"),
        i64::MIN..=-2 => format!("{title} shorter"),
        0 => format!("{title} just enough"),
        _ => format!("{title} longer"),
    }
}

/// The bytes that the sheet and the table of a text have.
fn needed(lent: &Lent, text: &Text) -> (usize, usize) {
    let records = counts_of_text(text).into_iter().zip(&RECORD[1..]).map(|(count, size)| count * size);
    (24 + lent.classes.len() / CLASS_RECORD * RECORD[0] + records.sum::<usize>(), NAME_RECORD * text.states.len())
}

/// How much of a list a text uses.
fn use_of_list(lent: &Lent, words: &[Word], number: usize) -> String {
    let names = names(lent, number);
    let count = names.iter().filter(|name| used(lent, words, name) == "used").count();
    let how = match names.len() {
        0 => "empty",
        _ if count == 0 => "none used",
        all if count == all => "all used",
        _ => "some used",
    };
    format!("read, {}: {how}", LISTS[number].0)
}

/// What is asked by a text that is neither 17 nor 18.
fn of_known_text(lent: &Lent, text: &Text, words: &[Word]) -> Vec<String> {
    let (sheet, table) = needed(lent, text);
    let mut labels = vec![format!("room: {}, {}", room("sheet", lent.sheet.len(), sheet), room("table", lent.table.len(), table))];
    let at = limited(lent, text).into_iter().filter(|(_, count, most)| count == most);
    labels.extend(at.map(|(what, count, _)| format!("within the limits: {count} {what}")));
    labels.extend((0..3).map(|number| use_of_list(lent, words, number)));
    labels
}

/// What is asked by a text of the grammar.
fn of_text(lent: &Lent, text: &Text, words: &[Word]) -> Vec<String> {
    let (names, limits) = (faults_17(lent, text, words), faults_18(lent, text));
    let mut labels = match (&names[..], &limits[..]) {
        ([], []) => return of_known_text(lent, text, words),
        ([], [limit]) => vec![format!("18 alone: {limit}")],
        ([], _) => vec!["18 for several reasons".to_string()],
        ([name], []) => vec![format!("17 alone: {name}")],
        (_, []) => vec!["17 for several reasons".to_string()],
        _ => vec!["17 and 18".to_string(), format!("17 and 18, in the text: {}", order(lent, words, None))],
    };
    let (sheet, table) = needed(lent, text);
    if lent.sheet.len() < sheet || lent.table.len() < table {
        labels.push(format!("15 behind {}", if names.is_empty() { 18 } else { 17 }));
    }
    labels
}

/// The kind of the word that cannot stand.
fn kind_of_wrong(text: &[u8], word: &Word) -> String {
    let bytes = &text[word.start..word.end];
    match word.kind {
        END if word.start == 0 => "the end of the empty text".to_string(),
        END if is_white(text[word.start - 1]) => "the end, behind white space".to_string(),
        END => "the end".to_string(),
        NAME => "a name".to_string(),
        NOWHERE if is_name_character(bytes[0]) && bytes.len() > LONGEST_NAME => "a run that is too long".to_string(),
        NOWHERE if is_name_character(bytes[0]) => "a reserved run that is no word".to_string(),
        NOWHERE if bytes == b"$" => "a lone $".to_string(),
        NOWHERE => "another byte".to_string(),
        kind => FIXED[usize::from(kind)].to_string(),
    }
}

/// Is the name behind this word not known?
fn not_known(lent: &Lent, own: &[&[u8]], before: &str, name: &[u8]) -> bool {
    match before {
        "in_state" | "not_in_state" | "{" | "," => !names(lent, 0).contains(&name),
        "action:" | "do" => !names(lent, 1).contains(&name),
        "$ANY$" | "$ALL$" => !names(lent, 2).contains(&name),
        "move_to" | "stay_in_state" => !own.contains(&name),
        _ => false,
    }
}

/// Where the words have a name that is not known, and where they pass a limit of states, ifs or operators: the first places.
fn places_of_faults(lent: &Lent, words: &[Word]) -> (Option<usize>, Option<usize>) {
    let bytes = |word: &Word| &lent.text[word.start..word.end];
    let spelled = |word: &Word| FIXED.get(usize::from(word.kind)).copied().unwrap_or("");
    let pairs = || words.iter().zip(words.iter().skip(1)).filter(|(_, name)| name.kind == NAME);
    let own: Vec<&[u8]> = pairs().filter(|(word, _)| spelled(word) == "state:").map(|(_, name)| bytes(name)).collect();
    let name = pairs().find(|(word, name)| not_known(lent, &own, spelled(word), bytes(name))).map(|(_, name)| name.start);
    let (mut states, mut ifs, mut operators) = (0, 0, 0);
    let limit = words.iter().find(|word| {
        match spelled(word) {
            "state:" => states += 1,
            "if" => (ifs, operators) = (ifs + 1, 0),
            "endif" => ifs -= 1,
            "when" => operators = 0,
            "and" | "or" | "not" => operators += 1,
            _ => {}
        }
        states > 32 || ifs > 8 || operators > 16
    });
    (name, limit.map(|word| word.start))
}

/// In which order the faults of a text stand; 16 has its place.
fn order(lent: &Lent, words: &[Word], wrong: Option<usize>) -> String {
    let (name, limit) = places_of_faults(lent, words);
    let places = [(wrong, "16"), (name, "17"), (limit, "18")];
    let mut there: Vec<(usize, &str)> = places.into_iter().filter_map(|(place, number)| Some((place?, number))).collect();
    there.sort();
    let numbers: Vec<&str> = there.into_iter().map(|(_, number)| number).collect();
    numbers.join(" before ")
}

/// What is asked by a text that is not of the grammar.
fn of_wrong_text(lent: &Lent, words: &[Word], place: usize) -> Vec<String> {
    let word = words.iter().find(|word| word.start == place).unwrap_or(&words[0]);
    let mut labels = vec![format!("16 at {}", kind_of_wrong(&lent.text, word)), format!("16 in the text: {}", order(lent, words, Some(place)))];
    if !faults_of_lists(lent, words).is_empty() {
        labels.push("16 and 17 by a list".to_string());
    }
    if !faults_18(lent, &Text::default()).is_empty() {
        labels.push("16 and 18 by a list".to_string());
    }
    labels
}

/// How deep the brackets of a text lie, if by the thousand.
fn thousands_of_brackets(text: &[u8]) -> Option<String> {
    let (mut depth, mut deepest) = (0i64, 0);
    for byte in text {
        depth += i64::from(*byte == b'(') - i64::from(*byte == b')');
        deepest = deepest.max(depth);
    }
    (deepest >= 1_000).then(|| "brackets thousands deep".to_string())
}

/// What a reading question asks.
fn of_reading(lent: &Lent) -> Vec<String> {
    let words = words_of(&lent.text);
    let mut labels = match rule_16(&lent.text) {
        Ok(text) => of_text(lent, &text, &words),
        Err(place) => of_wrong_text(lent, &words, place),
    };
    labels.extend(thousands_of_brackets(&lent.text));
    let worked = examples().iter().position(|known| Lent { sheet: Vec::new(), table: Vec::new(), ..lent.clone() } == *known);
    labels.extend(worked.map(|number| format!("worked example {number:>3}")));
    labels
}

/// What a line asks.
fn of_line(line: &[u8]) -> Vec<String> {
    let kind = match line.split(|byte| *byte == b' ').next() {
        Some(b"read") => "text",
        Some(b"write") => "write",
        _ => "sheet",
    };
    let known = [FORMER_LONGEST_LINE, FORMER_LONGEST_LINE + 1, LONGEST_LINE, LONGEST_LINE + 1];
    let there = known.iter().filter(|length| **length == line.len());
    let mut labels: Vec<String> = there.map(|length| format!("line of {length} bytes, {kind}")).collect();
    match Question::read(line) {
        Some(Question::Read(lent)) => labels.extend(of_reading(&lent)),
        Some(Question::Write(named)) => labels.extend(of_writing(&named)),
        Some(Question::Phase { sheet, list, state, buffer }) => labels.extend(of_phase(&sheet, &list, state, &buffer)),
        Some(Question::Command { sheet, list, state, command, buffer }) => labels.extend(of_command(&sheet, &list, state, command, &buffer)),
        Some(Question::Loop { sheet, present, buffer }) => labels.extend(of_loop(&sheet, present, &buffer)),
        None => labels.push(format!("no question, {kind}")),
        _ => {}
    }
    labels
}

/// Prints how often each thing is asked.
pub fn tally(questions: &[u8]) {
    let mut counts: BTreeMap<String, usize> = BTreeMap::new();
    for label in questions.split(|byte| *byte == b'\n').filter(|line| !line.is_empty()).flat_map(of_line) {
        *counts.entry(label).or_default() += 1;
    }
    for (label, count) in counts {
        println!("{count:>6}  {label}");
    }
}
