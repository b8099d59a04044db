//! Classes with names for all that they speak of, and the lists that are lent with their texts.

use crate::lists::NAME_RECORD;
use crate::naming::{distinct, fresh, Naming};
use crate::random::Random;
use crate::tree::{Atom, Class, Guard, Statement};
use crate::writing::name_bytes;
use std::collections::BTreeSet;

const MOST_COMMANDS: usize = 64;
const MOST_NAMES: usize = 32;

/// A class and its names: its own, those of its states, and those of the three lists.
#[derive(Clone)]
pub struct Draft {
    pub class: Class,
    pub title: Vec<u8>,
    pub own: Vec<Vec<u8>>,
    pub names: Vec<Vec<u8>>,
    pub commands: Vec<Vec<u8>>,
    pub kin: Vec<Vec<u8>>,
}

/// Changes every atom of a guard.
fn change_atoms(guard: &mut Guard, change: &mut dyn FnMut(&mut Atom)) {
    match guard {
        Guard::Atom(atom) => change(atom),
        Guard::And(left, right) | Guard::Or(left, right) => {
            change_atoms(left, change);
            change_atoms(right, change);
        }
        Guard::Not(inner) => change_atoms(inner, change),
    }
}

/// Changes every atom and every command of some statements.
fn change_statements(list: &mut [Statement], atoms: &mut dyn FnMut(&mut Atom), commands: &mut dyn FnMut(&mut u8)) {
    for statement in list {
        match statement {
            Statement::Send { command, .. } => commands(command),
            Statement::MoveTo(_) => {}
            Statement::If { guard, then, other } => {
                change_atoms(guard, atoms);
                change_statements(then, atoms, commands);
                change_statements(other, atoms, commands);
            }
        }
    }
}

/// Changes every atom and every command of a class.
pub fn change_class(class: &mut Class, atoms: &mut dyn FnMut(&mut Atom), commands: &mut dyn FnMut(&mut u8)) {
    for state in &mut class.states {
        for clause in &mut state.clauses {
            change_atoms(&mut clause.guard, atoms);
        }
        for action in &mut state.actions {
            commands(&mut action.command);
            change_statements(&mut action.body, atoms, commands);
        }
    }
}

/// The numbers below a limit, in some order.
pub fn shuffled(random: &mut Random, count: usize) -> Vec<u8> {
    let mut left: Vec<u8> = (0..count as u8).collect();
    (0..count).map(|_| left.remove(random.below(left.len()))).collect()
}

/// Keeps the commands that a class sends below a number, most often a small one.
fn fold_sends(random: &mut Random, class: &mut Class) {
    let count = random.pick(&[2, 3, 5, MOST_COMMANDS as u8]);
    for action in class.states.iter_mut().flat_map(|state| &mut state.actions) {
        change_statements(&mut action.body, &mut |_| {}, &mut |command| *command %= count);
    }
}

/// Gives the commands of a class the lowest numbers in some order, now and then with a few that are not used; gives how many there are.
fn fold_commands(random: &mut Random, class: &mut Class) -> usize {
    fold_sends(random, class);
    let mut used = BTreeSet::new();
    change_class(class, &mut |_| {}, &mut |command| { used.insert(*command); });
    let used: Vec<u8> = used.into_iter().collect();
    let most = MOST_COMMANDS - used.len();
    let count = used.len() + random.pick(&[0, 0, 1, 2, 3]).min(most);
    let numbers = shuffled(random, count);
    let place = |command: &u8| used.iter().position(|known| known == command).unwrap_or(0);
    change_class(class, &mut |_| {}, &mut |command| *command = numbers[place(command)]);
    count
}

/// Keeps the names of a class below a number, which it gives.
fn fold_names(random: &mut Random, class: &mut Class) -> usize {
    let mut atoms = 0;
    change_class(class, &mut |_| atoms += 1, &mut |_| {});
    if atoms == 0 && class.children.is_empty() && random.chance(50) {
        return 0;
    }
    let count = if random.chance(4) { MOST_NAMES } else { random.pick(&[1, 2, 3, 3, 4, 4, 5, 6, 7]) };
    for names in &mut class.children {
        *names = names.iter().map(|name| name % count as u8).collect();
    }
    change_class(class, &mut |atom| atom.names = atom.names.iter().map(|name| name % count as u8).collect(), &mut |_| {});
    count
}

/// Gives one word to an own state, a child state, a command and a class at once, where there are such.
fn share_word(random: &mut Random, draft: &mut Draft) {
    let word = fresh(random, Naming::Mixed, &[]);
    for list in [&mut draft.own, &mut draft.names, &mut draft.commands, &mut draft.kin] {
        if !list.is_empty() && !list.contains(&word) {
            let at = random.below(list.len());
            list[at] = word.clone();
        }
    }
}

/// Does a class have so much in it that its text should have short names?
fn is_large(class: &mut Class) -> bool {
    let (mut atoms, mut commands) = (0, 0);
    change_class(class, &mut |_| atoms += 1, &mut |_| commands += 1);
    atoms + commands > 60
}

/// A class with random names.
pub fn draft(random: &mut Random, mut class: Class) -> Draft {
    let naming = match random.below(9) {
        _ if is_large(&mut class) => Naming::Short,
        0..=2 => Naming::Common,
        3 | 4 => Naming::Short,
        5..=7 => Naming::Mixed,
        _ => Naming::Long,
    };
    let (names, commands) = (fold_names(random, &mut class), fold_commands(random, &mut class));
    let plain = |count: usize| if count > 20 { Naming::Short } else { naming };
    let mut draft = Draft {
        title: fresh(random, naming, &[]),
        own: distinct(random, plain(class.states.len()), class.states.len()),
        names: distinct(random, plain(names), names),
        commands: distinct(random, plain(commands), commands),
        kin: distinct(random, naming, class.children.len()),
        class,
    };
    if random.chance(20) {
        share_word(random, &mut draft);
    }
    draft
}

/// A name record.
pub fn name_record(name: &[u8]) -> Vec<u8> {
    let mut record = name.to_vec();
    record.resize(NAME_RECORD, 0);
    record
}

/// A class record.
pub fn class_record(name: &[u8], set: [u8; 4]) -> Vec<u8> {
    [name_record(name), set.to_vec()].concat()
}

/// The three lists of a draft.
pub fn lists(draft: &Draft) -> [Vec<u8>; 3] {
    let records = |names: &[Vec<u8>]| names.iter().flat_map(|name| name_record(name)).collect();
    let classes = draft.kin.iter().zip(&draft.class.children);
    [records(&draft.names), records(&draft.commands), classes.flat_map(|(name, set)| class_record(name, name_bytes(set))).collect()]
}
