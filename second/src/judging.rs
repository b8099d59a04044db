//! From sheets to trees: the nine rules of the table, one function each, in their order. A refusal is its number.

use crate::tree::{Action, Atom, Clause, Class, Guard, Names, Pattern, Quantifier, Referrer, State, Statement};
use std::collections::BTreeSet;

pub const LONGEST_SHEET: usize = 18_616;
const CONTENTS: usize = 24;
const OPERATORS_ON_A_PATH: usize = 16;
const DEEPEST_IF: usize = 8;
const LAST_COMMAND: u8 = 63;

/// A body's record size, and the fewest and most records it may have.
const TABLE: [(usize, usize, usize); 6] = [(4, 0, 8), (4, 1, 32), (4, 0, 256), (8, 0, 1024), (4, 0, 256), (8, 0, 1024)];

type Records<'a> = Vec<&'a [u8]>;

/// A guard record that keeps its layout.
enum Record {
    Atom(Atom),
    And,
    Or,
    Not,
}

/// The number in two bytes, low byte first.
fn number(bytes: &[u8]) -> usize {
    usize::from(bytes[0]) + 256 * usize::from(bytes[1])
}

/// The names whose bits are set in four bytes.
fn names(bytes: &[u8]) -> Names {
    (0..32u8).filter(|name| bytes[usize::from(name / 8)] >> (name % 8) & 1 == 1).collect()
}

/// A pattern byte: a child class below K, or 255.
fn pattern(byte: u8, classes: usize) -> Option<Pattern> {
    match byte {
        255 => Some(Pattern::Everyone),
        class if usize::from(class) < classes => Some(Pattern::Class(class)),
        _ => None,
    }
}

/// Are all bytes zero?
fn blank(bytes: &[u8]) -> bool {
    bytes.iter().all(|byte| *byte == 0)
}

/// Rule 1: the sheet's length.
fn rule_1(sheet: &[u8]) -> Result<(), u8> {
    if (CONTENTS..=LONGEST_SHEET).contains(&sheet.len()) { Ok(()) } else { Err(1) }
}

/// Rule 2: the contents; gives the records of the six bodies.
fn rule_2(sheet: &[u8]) -> Result<Vec<Records<'_>>, u8> {
    let mut bodies = Vec::new();
    let mut expected = CONTENTS;
    for (entry, (size, fewest, most)) in sheet[..CONTENTS].chunks(4).zip(TABLE) {
        let (start, length) = (number(&entry[..2]), number(&entry[2..]));
        let end = start + length;
        if start != expected || end > sheet.len() || length % size != 0 {
            return Err(2);
        }
        let records: Records = sheet[start..end].chunks(size).collect();
        if records.len() < fewest || records.len() > most {
            return Err(2);
        }
        bodies.push(records);
        expected = end;
    }
    if expected == sheet.len() { Ok(bodies) } else { Err(2) }
}

/// Rule 3: the child classes and their names.
fn rule_3(records: &Records) -> Result<Vec<Names>, u8> {
    let children: Vec<Names> = records.iter().map(|record| names(record)).collect();
    if children.iter().any(|set| set.is_empty()) { Err(3) } else { Ok(children) }
}

/// Rule 4: how many when and action clauses each state has.
fn rule_4(records: &Records, whens: usize, actions: usize) -> Result<Vec<(usize, usize)>, u8> {
    let counts: Vec<(usize, usize)> = records.iter().map(|record| (number(&record[..2]), number(&record[2..]))).collect();
    let when_sum: usize = counts.iter().map(|count| count.0).sum();
    let action_sum: usize = counts.iter().map(|count| count.1).sum();
    if (when_sum, action_sum) == (whens, actions) { Ok(counts) } else { Err(4) }
}

/// Rule 5: every guard record, used or not.
fn rule_5(records: &Records, classes: usize) -> Result<Vec<Record>, u8> {
    records.iter().map(|record| guard_record(record, classes).ok_or(5)).collect()
}

/// One guard record, where it keeps its layout.
fn guard_record(record: &[u8], classes: usize) -> Option<Record> {
    let (quantifier, inside) = match record[0] {
        0 => (Quantifier::Any, true),
        1 => (Quantifier::Any, false),
        2 => (Quantifier::All, true),
        3 => (Quantifier::All, false),
        kind => return operator(kind, &record[1..]),
    };
    let pattern = pattern(record[1], classes)?;
    let names = names(&record[4..]);
    if blank(&record[2..4]) && !names.is_empty() {
        Some(Record::Atom(Atom { quantifier, inside, pattern, names }))
    } else {
        None
    }
}

/// An operator, whose other bytes are zero.
fn operator(kind: u8, rest: &[u8]) -> Option<Record> {
    match (kind, blank(rest)) {
        (4, true) => Some(Record::And),
        (5, true) => Some(Record::Or),
        (6, true) => Some(Record::Not),
        _ => None,
    }
}

/// Rule 6: the guard of each when clause.
fn rule_6(clauses: &Records, records: &[Record]) -> Result<Vec<Guard>, u8> {
    clauses.iter().map(|clause| guard_at(records, number(&clause[..2])).ok_or(6)).collect()
}

/// The guard that begins at a place, where it stays inside the records and is not too deep.
fn guard_at(records: &[Record], place: usize) -> Option<Guard> {
    let mut rest = records.get(place..)?.iter();
    read_guard(&mut rest, OPERATORS_ON_A_PATH)
}

/// Reads one guard off the front of the records.
fn read_guard(rest: &mut std::slice::Iter<Record>, operators: usize) -> Option<Guard> {
    let record = rest.next()?;
    if let Record::Atom(atom) = record {
        return Some(Guard::Atom(atom.clone()));
    }
    let below = operators.checked_sub(1)?;
    let left = Box::new(read_guard(rest, below)?);
    match record {
        Record::And => Some(Guard::And(left, Box::new(read_guard(rest, below)?))),
        Record::Or => Some(Guard::Or(left, Box::new(read_guard(rest, below)?))),
        _ => Some(Guard::Not(left)),
    }
}

/// Rule 7: where each when clause leads, state by state.
fn rule_7(clauses: &Records, counts: &[(usize, usize)]) -> Result<Vec<Referrer>, u8> {
    let mut referrers = Vec::new();
    let mut rest = clauses.iter();
    for (whens, actions) in counts {
        for clause in rest.by_ref().take(*whens) {
            referrers.push(match (clause[2], clause[3]) {
                (0, target) if usize::from(target) < counts.len() => Referrer::MoveTo(target),
                (1, target) if usize::from(target) < *actions => Referrer::Do(target),
                (2, 0) => Referrer::Stay,
                _ => return Err(7),
            });
        }
    }
    Ok(referrers)
}

/// Rule 8: the command and the number of statement records of each action clause.
fn rule_8(actions: &Records, counts: &[(usize, usize)], statements: usize) -> Result<Vec<(u8, usize)>, u8> {
    let mut heads = Vec::new();
    let mut rest = actions.iter();
    for (_, own) in counts {
        let mut commands = BTreeSet::new();
        for action in rest.by_ref().take(*own) {
            if action[0] > LAST_COMMAND || action[1] != 0 || !commands.insert(action[0]) {
                return Err(8);
            }
            heads.push((action[0], number(&action[2..])));
        }
    }
    let sum: usize = heads.iter().map(|head| head.1).sum();
    if sum == statements { Ok(heads) } else { Err(8) }
}

/// What rule 9 needs to know of the rest of the sheet.
struct Surroundings<'a> {
    classes: usize,
    states: usize,
    guards: &'a [Record],
}

/// Rule 9: the statements of each action clause.
fn rule_9(records: &Records, heads: &[(u8, usize)], around: &Surroundings) -> Result<Vec<Vec<Statement>>, u8> {
    let mut bodies = Vec::new();
    let mut rest = &records[..];
    for (_, length) in heads {
        let (own, others) = rest.split_at(*length);
        bodies.push(part(own, 0, around).ok_or(9)?);
        rest = others;
    }
    Ok(bodies)
}

/// The statements of one part, which lies inside this many ifs; they must fill it exactly.
fn part(mut records: &[&[u8]], ifs: usize, around: &Surroundings) -> Option<Vec<Statement>> {
    let mut statements = Vec::new();
    while let Some((first, rest)) = records.split_first() {
        let (statement, length) = match first[0] {
            0 => (send(first, around)?, 0),
            1 => (move_to(first, around)?, 0),
            2 => branch(first, rest, ifs + 1, around)?,
            _ => return None,
        };
        statements.push(statement);
        records = &rest[length..];
    }
    Some(statements)
}

/// A do: a command to the children of a pattern.
fn send(record: &[u8], around: &Surroundings) -> Option<Statement> {
    let pattern = pattern(record[2], around.classes)?;
    (record[1] <= LAST_COMMAND && blank(&record[3..])).then_some(Statement::Send { command: record[1], pattern })
}

/// A move_to: an own state.
fn move_to(record: &[u8], around: &Surroundings) -> Option<Statement> {
    (usize::from(record[1]) < around.states && blank(&record[2..])).then_some(Statement::MoveTo(record[1]))
}

/// An if that is this deep, with its two parts, and how many records those take.
fn branch(record: &[u8], rest: &[&[u8]], depth: usize, around: &Surroundings) -> Option<(Statement, usize)> {
    if record[1] != 0 || depth > DEEPEST_IF {
        return None;
    }
    let guard = guard_at(around.guards, number(&record[2..4]))?;
    let (middle, end) = (number(&record[4..6]), number(&record[4..6]) + number(&record[6..8]));
    let inside = rest.get(..end)?;
    let then = part(&inside[..middle], depth, around)?;
    let other = part(&inside[middle..], depth, around)?;
    Some((Statement::If { guard, then, other }, end))
}

/// The class that a sheet stands for, or the number of the first rule it breaks.
pub fn judge(sheet: &[u8]) -> Result<Class, u8> {
    rule_1(sheet)?;
    let bodies = rule_2(sheet)?;
    let children = rule_3(&bodies[0])?;
    let counts = rule_4(&bodies[1], bodies[2].len(), bodies[4].len())?;
    let records = rule_5(&bodies[3], children.len())?;
    let guards = rule_6(&bodies[2], &records)?;
    let referrers = rule_7(&bodies[2], &counts)?;
    let heads = rule_8(&bodies[4], &counts, bodies[5].len())?;
    let around = Surroundings { classes: children.len(), states: counts.len(), guards: &records };
    let parts = rule_9(&bodies[5], &heads, &around)?;

    let mut clauses = guards.into_iter().zip(referrers).map(|(guard, referrer)| Clause { guard, referrer });
    let mut actions = heads.into_iter().zip(parts).map(|((command, _), body)| Action { command, body });
    let states = counts.iter().map(|(whens, own)| State {
        clauses: clauses.by_ref().take(*whens).collect(),
        actions: actions.by_ref().take(*own).collect(),
    });
    let states = states.collect();
    Ok(Class { children, states })
}
