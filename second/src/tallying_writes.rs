//! Counts what writing questions ask: which names are wrong, how many records are written, how much room there is, and what the sheet has.

use crate::judging::judge;
use crate::lists::{CLASS_RECORD, NAME_RECORD};
use crate::sketches::written_records;
use crate::tallying::ill_formed;
use crate::text_writing::{commands_of, guards_of, size, write, Named};
use crate::tree::{Action, Atom, Class, Clause, Guard, Pattern, Referrer, Statement};
use crate::writing::{bodies_of, name_bytes, Bodies, GUARDS, RECORD, STATEMENTS, WHENS};
use std::collections::{BTreeSet, HashSet};

/// The bytes of the shortest text: a class with one state, names of one character.
const SHORTEST_TEXT: usize = 33;

/// What is lent beside the sheet: what it is, and the size of a record.
fn lent(named: &Named) -> [(&'static str, usize, &[u8]); 5] {
    [
        ("own name", NAME_RECORD, &named.title),
        ("table", NAME_RECORD, &named.table),
        ("names", NAME_RECORD, &named.names),
        ("commands", NAME_RECORD, &named.commands),
        ("classes", CLASS_RECORD, &named.classes),
    ]
}

/// What is wrong with the records of a list.
fn faults_of_list(title: &str, size: usize, list: &[u8]) -> Vec<String> {
    let mut faults = Vec::new();
    if title == "own name" && list.len() != size {
        faults.push(format!("own name of {} bytes", list.len()));
    } else if list.len() % size != 0 {
        faults.push(format!("{title}: a part of a record"));
    }
    let mut seen = HashSet::new();
    for record in list.chunks_exact(size).map(|record| &record[..NAME_RECORD]) {
        if let Some(fault) = ill_formed(record) {
            faults.push(format!("{title}: {fault}"));
        } else if !seen.insert(record) && title != "own name" {
            faults.push(format!("{title}: a name twice"));
        }
    }
    faults
}

/// A count against the one that is wanted.
fn against(title: &str, count: usize, wanted: usize) -> Option<String> {
    match count as i64 - wanted as i64 {
        0 => None,
        1 => Some(format!("{title}: one more than the sheet has")),
        -1 => Some(format!("{title}: one less than the sheet has")),
        _ => Some(format!("{title}: another number than the sheet has")),
    }
}

/// The name sets of the lent classes.
fn lent_sets(named: &Named) -> Vec<&[u8]> {
    named.classes.chunks_exact(CLASS_RECORD).map(|record| &record[NAME_RECORD..]).collect()
}

/// Does a set of four bytes have a bit without a name?
fn nameless(set: &[u8], names: usize) -> bool {
    (names..32).any(|bit| set[bit / 8] >> (bit % 8) & 1 == 1)
}

/// What the lent names have against 17, the numbers of them and the sets included.
fn faults_of_lent(named: &Named, class: &Class) -> Vec<String> {
    let mut faults: Vec<String> = lent(named).into_iter().flat_map(|(title, size, list)| faults_of_list(title, size, list)).collect();
    let (names, commands) = (named.names.len() / NAME_RECORD, named.commands.len() / NAME_RECORD);
    let sets = lent_sets(named);
    faults.extend(against("table", named.table.len() / NAME_RECORD, class.states.len()));
    faults.extend(against("classes", sets.len(), class.children.len()));
    if sets.len() == class.children.len() && class.children.iter().zip(&sets).any(|(names, set)| name_bytes(names) != **set) {
        faults.push("classes: a set that is not the sheet's".to_string());
    }
    if sets.iter().any(|set| nameless(set, names)) {
        faults.push("classes: a set bit without a name".to_string());
    }
    for (title, count, most) in [("names", names, 32), ("commands", commands, 64)] {
        if count > most {
            faults.push(if count == most + 1 { format!("{count} {title}") } else { format!("more than {} {title}", most + 1) });
        }
    }
    faults
}

/// The do statements of a list that have no name, inside an if or inside none.
fn nameless_sends(list: &[Statement], inside: bool, commands: usize) -> Vec<&'static str> {
    list.iter().flat_map(|statement| match statement {
        Statement::Send { command, .. } if usize::from(*command) >= commands => {
            vec![if inside { "a command of a do statement inside an if" } else { "a command of a do statement" }]
        }
        Statement::If { then, other, .. } => [nameless_sends(then, true, commands), nameless_sends(other, true, commands)].concat(),
        _ => Vec::new(),
    }).collect()
}

/// The atoms of a guard.
fn atoms(guard: &Guard) -> Vec<&Atom> {
    match guard {
        Guard::Atom(atom) => vec![atom],
        Guard::Not(inner) => atoms(inner),
        Guard::And(left, right) | Guard::Or(left, right) => [atoms(left), atoms(right)].concat(),
    }
}

/// What is written and has no name.
fn faults_of_written(named: &Named, class: &Class) -> Vec<String> {
    let (names, commands) = (named.names.len() / NAME_RECORD, named.commands.len() / NAME_RECORD);
    let actions = class.states.iter().flat_map(|state| &state.actions);
    let mut faults: Vec<&str> = actions.clone().flat_map(|action| nameless_sends(&action.body, false, commands)).collect();
    faults.extend(actions.filter(|action| usize::from(action.command) >= commands).map(|_| "a command of an action clause"));
    let whens: usize = class.states.iter().map(|state| state.clauses.len()).sum();
    for (number, guard) in guards_of(class).into_iter().enumerate() {
        if atoms(guard).iter().any(|atom| nameless(&name_bytes(&atom.names), names)) {
            faults.push(if number < whens { "a set bit of a when clause's guard" } else { "a set bit of an if's guard" });
        }
    }
    let faults: BTreeSet<&str> = faults.into_iter().collect();
    faults.into_iter().map(|fault| format!("without a name: {fault}")).collect()
}

/// The bodies of a sheet that is accepted.
fn bodies(sheet: &[u8]) -> Bodies {
    let number = |at: usize| usize::from(u16::from_le_bytes([sheet[at], sheet[at + 1]]));
    Bodies([0, 1, 2, 3, 4, 5].map(|body| sheet[number(4 * body)..number(4 * body) + number(4 * body + 2)].to_vec()))
}

/// What the guard records of a sheet are like: shared, not written, beginning inside others.
fn of_records(named: &Named, class: &Class) -> Vec<&'static str> {
    let mut bodies = bodies(&named.sheet);
    let mut places: Vec<u16> = (0..bodies.count(WHENS)).map(|at| bodies.number(WHENS, at, 0)).collect();
    let branches: Vec<usize> = (0..bodies.count(STATEMENTS)).filter(|at| bodies.0[STATEMENTS][at * RECORD[STATEMENTS]] == 2).collect();
    places.extend(branches.into_iter().map(|at| bodies.number(STATEMENTS, at, 2)));
    let used: BTreeSet<usize> = [true, false].into_iter().flat_map(|whens| written_records(&bodies, whens)).collect();
    let different: BTreeSet<u16> = places.iter().copied().collect();
    let written: usize = guards_of(class).into_iter().map(size).sum();
    let names = named.names.len() / NAME_RECORD;
    let unused: Vec<&[u8]> = bodies.0[GUARDS].chunks(8).enumerate().filter(|(at, _)| !used.contains(at)).map(|(_, record)| record).collect();
    let facts = [
        (different.len() < places.len(), "a guard that is used twice"),
        (different.len() == places.len() && written > used.len(), "guards that share records, but no beginning"),
        (!unused.is_empty(), "records that are not written"),
        (unused.iter().any(|record| record[0] < 4 && nameless(&record[4..], names)), "a set bit without a name in a record that is not written"),
        (named.sheet == bodies_of(class, false).sheet(), "a sheet as it comes from a text"),
    ];
    facts.into_iter().filter(|fact| fact.0).map(|fact| fact.1).collect()
}

/// How many operators are on the longest path of a guard.
fn operators(guard: &Guard) -> usize {
    match guard {
        Guard::Atom(_) => 0,
        Guard::Not(inner) => 1 + operators(inner),
        Guard::And(left, right) | Guard::Or(left, right) => 1 + operators(left).max(operators(right)),
    }
}

/// What a list of statements has, and how deep its ifs lie.
fn of_statements(list: &[Statement], depth: usize, found: &mut BTreeSet<String>) {
    for (at, statement) in list.iter().enumerate() {
        match statement {
            Statement::MoveTo(_) if at + 1 < list.len() => { found.insert("a statement behind a move_to".to_string()); }
            Statement::If { then, other, .. } => {
                let empty = |part: &[Statement]| if part.is_empty() { "empty" } else { "filled" };
                found.insert(format!("an if with its then-part {}, its else-part {}", empty(then), empty(other)));
                if depth == 7 {
                    found.insert("ifs 8 deep".to_string());
                }
                of_statements(then, depth + 1, found);
                of_statements(other, depth + 1, found);
            }
            _ => {}
        }
    }
}

/// What the tree of a sheet has.
fn of_class(class: &Class) -> BTreeSet<String> {
    let mut found = BTreeSet::new();
    let clauses: Vec<&Clause> = class.states.iter().flat_map(|state| &state.clauses).collect();
    let actions: Vec<&Action> = class.states.iter().flat_map(|state| &state.actions).collect();
    actions.iter().for_each(|action| of_statements(&action.body, 0, &mut found));
    for guard in guards_of(class) {
        for atom in atoms(guard) {
            let speaks = if atom.pattern == Pattern::Everyone { "all children" } else { "a class" };
            found.insert(format!("an atom about {speaks}, {:?}, inside {}", atom.quantifier, atom.inside));
            found.extend([1, 2, 32].into_iter().filter(|count| *count == atom.names.len()).map(|count| format!("a set of {count} names")));
        }
        found.extend((operators(guard) == 16).then(|| "16 operators on a path".to_string()));
    }
    for clause in &clauses {
        let word = match clause.referrer {
            Referrer::MoveTo(_) => "move_to",
            Referrer::Do(_) => "do",
            Referrer::Stay => "stay_in_state",
        };
        found.insert(format!("a referrer {word}"));
    }
    let facts = [(clauses.is_empty(), "no when clause"), (actions.is_empty(), "no action clause"), (class.children.is_empty(), "no child class")];
    found.extend(facts.into_iter().filter(|fact| fact.0).map(|fact| fact.1.to_string()));
    found
}

/// How much room a buffer has for a text.
fn room(buffer: usize, needed: usize) -> &'static str {
    match buffer {
        _ if buffer == needed => "just enough",
        0 => "none",
        _ if buffer + 1 == needed => "one byte short",
        _ if buffer < needed => "shorter",
        _ => "longer",
    }
}

/// What a question asks whose names are in order.
fn of_known(named: &Named, class: &Class, records: usize) -> Vec<String> {
    let mut labels = match records {
        1024 | 1025 => vec![format!("write, {records} guard records")],
        1026.. => vec!["write, more than 1025 guard records".to_string()],
        _ => Vec::new(),
    };
    if let Ok(text) = write(named) {
        labels.push(format!("write, room: {}", room(named.buffer.len(), text.len())));
        labels.extend((text.len() > 100_000).then(|| "write, more than 100,000 bytes".to_string()));
        if text.len() <= named.buffer.len() {
            labels.extend(of_records(named, class).into_iter().map(|fact| format!("written, {fact}")));
            labels.extend(of_class(class).into_iter().map(|fact| format!("written, {fact}")));
            labels.extend((commands_of(class).len() == 0).then(|| "written, no command".to_string()));
        }
    } else if named.buffer.len() < records {
        labels.push("write, 19 and too little room".to_string());
    }
    labels
}

/// What a writing question asks.
pub fn of_writing(named: &Named) -> Vec<String> {
    let class = match judge(&named.sheet) {
        Ok(class) => class,
        Err(number) => {
            let wrong = lent(named).into_iter().any(|(title, size, list)| !faults_of_list(title, size, list).is_empty());
            return vec![format!("write, sheet refused with {number}{}", if wrong { ", names wrong besides" } else { "" })];
        }
    };
    let records: usize = guards_of(&class).into_iter().map(size).sum();
    let faults = [faults_of_lent(named, &class), faults_of_written(named, &class)].concat();
    let mut labels = match &faults[..] {
        [] => return of_known(named, &class, records),
        [fault] if records <= 1024 => vec![format!("write, 17 alone: {fault}")],
        _ if records > 1024 => vec!["write, 17 and 19".to_string()],
        _ => vec!["write, 17 for several reasons".to_string()],
    };
    labels.extend((named.buffer.len() < SHORTEST_TEXT).then(|| "write, 17 and too little room for any text".to_string()));
    labels
}
