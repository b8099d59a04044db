//! Classes and lists at the limits of what a text may have, from both sides.

use crate::drafts::{class_record, name_record};
use crate::limits::nest;
use crate::lists::{CLASS_RECORD, NAME_RECORD};
use crate::naming::{fresh, Naming};
use crate::random::Random;
use crate::shapes::{atom, class, commands, deep_guard, pattern, Shape, WHOLE};
use crate::tree::{Action, Clause, Class, Guard, Names, Referrer, State, Statement};

/// A class with one child class, few names, and nothing in its states.
fn bare(random: &mut Random, states: usize) -> Class {
    let shape = Shape { classes: (1, 2), names: (1, 3), states: (states, states), clauses: (0, 0), actions: (0, 0), ..WHOLE };
    class(random, &shape)
}

/// An atom of a class.
fn some_atom(random: &mut Random, children: &[Names]) -> Guard {
    let mut atom = atom(random, children);
    while atom.names.len() > 2 {
        atom.names.pop_last();
    }
    Guard::Atom(atom)
}

/// A class with this many states.
pub fn states(random: &mut Random, count: usize) -> Class {
    let shape = Shape { states: (count, count), clauses: (0, 1), depth: 1, actions: (0, 1), statements: (0, 1), ..WHOLE };
    class(random, &shape)
}

/// A class with this many when clauses in all.
pub fn whens(random: &mut Random, count: usize) -> Class {
    let states = random.between(1, 4);
    let mut class = bare(random, states);
    for _ in 0..count {
        let guard = some_atom(random, &class.children);
        let referrer = if random.chance(50) { Referrer::Stay } else { Referrer::MoveTo(random.below(states) as u8) };
        let at = random.below(states);
        class.states[at].clauses.push(Clause { guard, referrer });
    }
    class
}

/// A class with this many action clauses in all, at most 64 in a state.
pub fn actions(random: &mut Random, count: usize) -> Class {
    let least = count.div_ceil(64);
    let states = random.between(least, least + 2);
    let mut class = bare(random, states);
    let mut left = count;
    for (number, state) in class.states.iter_mut().enumerate() {
        let behind = 64 * (states - number - 1);
        let share = if number + 1 == states { left } else { random.between(left.saturating_sub(behind), left.min(64)) };
        state.actions = commands(random, share).into_iter().map(|command| Action { command, body: Vec::new() }).collect();
        left -= share;
    }
    class
}

/// Statements that are this many in all, nested ones counted.
fn some_statements(random: &mut Random, children: &[Names], count: usize, ifs: usize) -> Vec<Statement> {
    let mut list = Vec::new();
    let mut left = count;
    while left > 0 {
        left -= 1;
        list.push(if ifs > 0 && random.chance(8) {
            let (then, other) = (random.below(left.min(40) + 1), random.below(left.min(40) + 1));
            let other = other.min(left - then);
            left -= then + other;
            let (then, other) = (some_statements(random, children, then, ifs - 1), some_statements(random, children, other, ifs - 1));
            Statement::If { guard: some_atom(random, children), then, other }
        } else if random.chance(50) {
            Statement::MoveTo(0)
        } else {
            Statement::Send { command: random.byte(0, 3), pattern: pattern(random, children.len()) }
        });
    }
    list
}

/// A class with this many statements in all.
pub fn statements(random: &mut Random, count: usize) -> Class {
    let mut class = bare(random, 1);
    let parts = random.between(1, 4);
    let mut left = count;
    for (number, command) in commands(random, parts).into_iter().enumerate() {
        let share = if number + 1 == parts { left } else { random.below(left + 1) };
        let body = some_statements(random, &class.children, share, 8);
        class.states[0].actions.push(Action { command, body });
        left -= share;
    }
    class
}

/// A guard with exactly this many records, and with no more operators on a path than need be, or few more.
pub fn guard_of_size(random: &mut Random, children: &[Names], size: usize) -> Guard {
    match size {
        0 | 1 => some_atom(random, children),
        2 => Guard::Not(Box::new(some_atom(random, children))),
        _ => {
            let middle = (size - 1) / 2;
            let left = random.between(middle.saturating_sub(2).max(1), middle);
            let (one, other) = (guard_of_size(random, children, left), guard_of_size(random, children, size - 1 - left));
            let (one, other) = (Box::new(one), Box::new(other));
            if random.chance(50) { Guard::And(one, other) } else { Guard::Or(one, other) }
        }
    }
}

/// A class with this many guard records in all, in one guard or in many, of when clauses and of ifs.
pub fn guard_records(random: &mut Random, count: usize) -> Class {
    let mut class = bare(random, 2);
    let most = random.pick(&[20, 60, 300, count]);
    let mut left = count;
    let mut body = Vec::new();
    while left > 0 {
        let size = if left <= most { left } else { random.between(most / 2, most) };
        let guard = guard_of_size(random, &class.children, size);
        match random.below(3) {
            0 => body.push(Statement::If { guard, then: Vec::new(), other: Vec::new() }),
            at => class.states[at - 1].clauses.push(Clause { guard, referrer: Referrer::Stay }),
        }
        left -= size;
    }
    class.states[0].actions.push(Action { command: 0, body });
    class
}

/// A guard with exactly this many operators on its longest path, all of them leaning one way.
fn leaning(random: &mut Random, children: &[Names], depth: usize) -> Guard {
    let way = random.below(4);
    let mut guard = some_atom(random, children);
    for _ in 0..depth {
        let beside = Box::new(some_atom(random, children));
        let inner = Box::new(guard);
        let and = random.chance(50);
        guard = match way {
            0 => Guard::And(inner, beside),
            1 => if and { Guard::And(beside, inner) } else { Guard::Or(beside, inner) },
            2 => Guard::Not(inner),
            _ => Guard::Or(inner, beside),
        };
    }
    guard
}

/// A small class with one action clause in each state.
fn small(random: &mut Random) -> Class {
    class(random, &Shape { states: (1, 2), clauses: (0, 1), depth: 1, actions: (1, 1), statements: (0, 1), ..WHOLE })
}

/// A class with ifs that nest this deep.
fn ifs(random: &mut Random, count: usize) -> Class {
    let mut class = small(random);
    let states = class.states.len();
    let body = nest(random, &class.children, count, states);
    class.states[random.below(states)].actions[0].body = body;
    class
}

/// A class with a guard that has this many operators on a path.
pub fn depth(random: &mut Random, count: usize) -> Class {
    let mut class = small(random);
    let children = class.children.clone();
    let guard = if random.chance(65) { leaning(random, &children, count) } else { deep_guard(random, &children, count) };
    if random.chance(50) {
        class.states[0].clauses.push(Clause { guard, referrer: Referrer::Stay });
    } else {
        class.states[0].actions[0].body.push(Statement::If { guard, then: vec![Statement::MoveTo(0)], other: Vec::new() });
    }
    class
}

/// A class at a limit, or past it by this many; limits that make a short text come more often.
pub fn near_limit(random: &mut Random, past: usize) -> Class {
    match random.below(24) {
        0..=4 => states(random, 32 + past),
        5..=11 => depth(random, 16 + past),
        12..=15 => ifs(random, 8 + past),
        16 | 17 => whens(random, 256 + past),
        18 | 19 => actions(random, 256 + past),
        20 | 21 => statements(random, 1024 + past),
        _ => guard_records(random, 1024 + past),
    }
}

/// The lists of a draft, filled up to so many records: fresh names, and sets that hold the first name.
fn fill_list(random: &mut Random, list: &mut Vec<u8>, size: usize, count: usize) {
    let name = |record: &[u8]| record.iter().copied().take_while(|byte| *byte > 0).collect();
    let mut taken: Vec<Vec<u8>> = list.chunks(size).map(name).collect();
    while taken.len() < count {
        let name = fresh(random, Naming::Short, &taken);
        list.extend(if size == CLASS_RECORD { class_record(&name, [1, 0, 0, 0]) } else { name_record(&name) });
        taken.push(name);
    }
}

/// Fills one of the lists up to its limit, or past it by this many. The list of names has a record at least.
pub fn fill_lists(random: &mut Random, lists: &mut [Vec<u8>; 3], past: usize) {
    fill_list(random, &mut lists[0], NAME_RECORD, 1);
    match random.below(3) {
        0 => fill_list(random, &mut lists[0], NAME_RECORD, 32 + past),
        1 => fill_list(random, &mut lists[1], NAME_RECORD, 64 + past),
        _ => fill_list(random, &mut lists[2], CLASS_RECORD, 8 + past),
    }
}

/// Empties the name set of a class, or lends one more class whose set is empty.
pub fn empty_set(random: &mut Random, lists: &mut [Vec<u8>; 3]) {
    let classes = lists[2].len() / CLASS_RECORD;
    let mut at = random.below(classes.max(1));
    if classes == 0 || (classes < 8 && random.chance(40)) {
        fill_list(random, &mut lists[2], CLASS_RECORD, classes + 1);
        at = classes;
    }
    lists[2][at * CLASS_RECORD + NAME_RECORD..(at + 1) * CLASS_RECORD].fill(0);
}

/// An action clause of four statements, one of which is an if with one guard record.
fn four_statements(random: &mut Random, children: &[Names], command: u8) -> Action {
    let mut list: Vec<Statement> = (0..3).map(|_| some_statements(random, children, 1, 0).remove(0)).collect();
    let inside = random.below(4);
    let then: Vec<Statement> = list.drain(..inside).collect();
    let guard = some_atom(random, children);
    let if_all = if random.chance(50) { Statement::If { guard, then, other: vec![] } } else { Statement::If { guard, then: vec![], other: then } };
    list.insert(random.below(list.len() + 1), if_all);
    Action { command, body: list }
}

/// The largest class of all: every count at its limit.
fn full_class(random: &mut Random) -> Class {
    let shape = Shape { classes: (8, 8), names: (1, 4), states: (32, 32), clauses: (0, 0), actions: (0, 0), ..WHOLE };
    let mut class = class(random, &shape);
    for number in 0..32 {
        let actions = commands(random, 8).into_iter().map(|command| four_statements(random, &class.children, command)).collect();
        let state = &mut class.states[number];
        state.actions = actions;
        for _ in 0..8 {
            let (target, number) = (random.byte(0, 31), random.byte(0, 7));
            let referrer = random.pick(&[Referrer::MoveTo(target), Referrer::Do(number), Referrer::Stay]);
            state.clauses.push(Clause { guard: guard_of_size(random, &class.children, 3), referrer });
        }
    }
    class
}

/// The largest class, as it is or with one more of something: a when clause, a guard record, an action clause, a statement, a state.
pub fn largest(random: &mut Random, more: usize) -> Class {
    let mut class = full_class(random);
    let children = class.children.clone();
    let at = random.below(32);
    let known: Vec<u8> = class.states[at].actions.iter().map(|action| action.command).collect();
    let state = &mut class.states[at];
    match more {
        1 => {
            state.clauses[0].guard = guard_of_size(random, &children, 2);
            state.clauses.push(Clause { guard: some_atom(random, &children), referrer: Referrer::Stay });
        }
        2 => state.clauses[7].guard = guard_of_size(random, &children, 4),
        3 => state.actions.push(Action { command: (0..64).find(|command| !known.contains(command)).unwrap_or(0), body: vec![] }),
        4 => state.actions[3].body.push(Statement::MoveTo(31)),
        5 => class.states.push(State { clauses: vec![], actions: vec![] }),
        _ => {}
    }
    class
}
