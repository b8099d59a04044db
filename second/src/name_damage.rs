//! Damage to the names of a text and to the lists that are lent with it, aimed at 17.

use crate::drafts::{class_record, name_record};
use crate::lists::{CLASS_RECORD, NAME_RECORD};
use crate::naming::{fresh, run, Naming};
use crate::printing::{fixed_words, Piece, Role};
use crate::random::Random;
use crate::text_damage::places;
use crate::words::{is_name, RESERVED};

/// Bytes of a record, list by list.
const SIZES: [usize; 3] = [NAME_RECORD, NAME_RECORD, CLASS_RECORD];

const NAMES: usize = 0;
const COMMANDS: usize = 1;
const CLASSES: usize = 2;

/// The names of a list.
fn names_in(lists: &[Vec<u8>; 3], list: usize) -> Vec<Vec<u8>> {
    let name = |record: &[u8]| record.iter().take(NAME_RECORD).copied().take_while(|byte| *byte > 0).collect();
    lists[list].chunks(SIZES[list]).map(name).collect()
}

/// Adds a record with a fresh name to a list, and gives the name.
fn add_record(random: &mut Random, lists: &mut [Vec<u8>; 3], list: usize) -> Vec<u8> {
    let name = fresh(random, Naming::Mixed, &names_in(lists, list));
    if list == CLASSES {
        if lists[NAMES].is_empty() {
            add_record(random, lists, NAMES);
        }
        lists[CLASSES].extend(class_record(&name, [1, 0, 0, 0]));
    } else {
        lists[list].extend(name_record(&name));
    }
    name
}

/// Makes a list end within a record.
fn part_record(random: &mut Random, lists: &mut [Vec<u8>; 3]) {
    let list = random.below(3);
    let size = SIZES[list];
    let part = match random.below(3) {
        0 => 1,
        1 => random.pick(&[size - 1, 4, 8, 16, 31]),
        _ => random.between(1, size - 1),
    };
    if lists[list].is_empty() || random.chance(50) {
        let name = fresh(random, Naming::Mixed, &names_in(lists, list));
        let record = class_record(&name, [1, 0, 0, 0]);
        lists[list].extend_from_slice(&record[..part]);
    } else {
        let length = lists[list].len() - part;
        lists[list].truncate(length);
    }
}

/// Spoils the name of a record in one of the ways in which a record is ill-formed.
pub fn spoil_record(random: &mut Random, record: &mut [u8]) {
    let length = record.iter().position(|byte| *byte == 0).unwrap_or(NAME_RECORD);
    match random.below(11) {
        0 | 1 => record[..NAME_RECORD].fill(0),
        2 | 3 => {
            let name = run(random, NAME_RECORD);
            record[..NAME_RECORD].copy_from_slice(&name);
        }
        4 | 5 => record[random.below(length.max(1))] = random.pick(b"-& .$\x80:\xff\x01"),
        6 => record[random.between((length + 1).min(NAME_RECORD - 1), NAME_RECORD - 1)] = random.pick(b"A_0 \x01\xff"),
        7 => record[NAME_RECORD - 1] = random.pick(b"A9_"),
        8 => record[0] = 0,
        _ => record[..NAME_RECORD].copy_from_slice(&name_record(random.pick(&RESERVED).as_bytes())),
    }
}

/// Makes a record of a list ill-formed: one that is there, or one more.
fn ill_formed(random: &mut Random, lists: &mut [Vec<u8>; 3]) {
    let list = random.below(3);
    let size = SIZES[list];
    let mut at = random.below((lists[list].len() / size).max(1));
    if lists[list].len() < size || random.chance(70) {
        add_record(random, lists, list);
        at = lists[list].len() / size - 1;
    }
    spoil_record(random, &mut lists[list][at * size..(at + 1) * size]);
}

/// Gives a name twice in a list: one of those that are there, or one more that the text does not use.
fn name_twice(random: &mut Random, lists: &mut [Vec<u8>; 3]) {
    let list = random.below(3);
    let size = SIZES[list];
    if lists[list].len() < size || random.chance(50) {
        add_record(random, lists, list);
    }
    let count = lists[list].len() / size;
    let from = if random.chance(50) { count - 1 } else { random.below(count) };
    let mut record = lists[list][from * size..(from + 1) * size].to_vec();
    if list == CLASSES && random.chance(50) {
        record[NAME_RECORD..].copy_from_slice(&[1, 0, 0, 0]);
    }
    let to = size * if random.chance(70) { count } else { random.below(count + 1) };
    lists[list].splice(to..to, record);
}

/// Sets a bit of a class that has no name, or takes the last name away.
fn bit_without_name(random: &mut Random, lists: &mut [Vec<u8>; 3]) {
    if lists[CLASSES].len() < CLASS_RECORD || random.chance(30) {
        add_record(random, lists, CLASSES);
    }
    let names = (lists[NAMES].len() / NAME_RECORD) as u8;
    let at = CLASS_RECORD * random.below(lists[CLASSES].len() / CLASS_RECORD) + NAME_RECORD;
    if names > 31 {
        lists[CLASSES][at + 3] |= 0x80;
        lists[NAMES].truncate(31 * NAME_RECORD);
        return;
    }
    let bit = usize::from(random.edge(names, 31));
    lists[CLASSES][at + bit / 8] |= 1 << (bit % 8);
}

/// The names that a word in a role may be.
fn known(pieces: &[Piece], lists: &[Vec<u8>; 3], role: Role) -> Vec<Vec<u8>> {
    match role {
        Role::Child => names_in(lists, NAMES),
        Role::Kin => names_in(lists, CLASSES),
        Role::Action | Role::Do | Role::Send => names_in(lists, COMMANDS),
        _ => pieces.iter().filter(|piece| piece.role == Role::Own).map(|piece| piece.bytes.clone()).collect(),
    }
}

/// A name like this one that is not among those known; or one of another list.
fn unknown(random: &mut Random, name: &[u8], known: &[Vec<u8>], others: &[Vec<u8>]) -> Vec<u8> {
    let mut near = name.to_vec();
    match random.below(6) {
        0 => near = near.iter().map(|byte| byte ^ if byte.is_ascii_alphabetic() { 32 } else { 0 }).collect(),
        1 => { near.pop(); }
        2 => near.push(b'_'),
        3 => { let last = near.len().max(1) - 1; near[last] = random.pick(b"Qq7"); }
        4 if !others.is_empty() => near = random.pick(others),
        _ => near = fresh(random, Naming::Mixed, known),
    }
    if is_name(&near) && !known.contains(&near) { near } else { fresh(random, Naming::Mixed, known) }
}

/// Gives a word a name that is not known in its role.
fn unknown_name(random: &mut Random, pieces: &mut [Piece], lists: &[Vec<u8>; 3]) {
    let roles = [Role::Child, Role::Kin, Role::Action, Role::Do, Role::Send, Role::Target];
    let there: Vec<Role> = roles.into_iter().filter(|role| pieces.iter().any(|piece| piece.role == *role)).collect();
    if there.is_empty() {
        return;
    }
    let role = random.pick(&there);
    let at = random.pick(&places(pieces, |piece| piece.role == role));
    let known = known(pieces, lists, role);
    let elsewhere = pieces.iter().filter(|piece| piece.role != Role::Fixed && piece.role != role);
    let others: Vec<Vec<u8>> = elsewhere.map(|piece| piece.bytes.clone()).collect();
    pieces[at].bytes = unknown(random, &pieces[at].bytes.clone(), &known, &others);
}

/// Gives two states the same name, wherever one of them is spoken of.
fn state_twice(random: &mut Random, pieces: &mut Vec<Piece>) {
    let own = places(pieces, |piece| piece.role == Role::Own);
    if own.len() == 1 {
        let name = pieces[own[0]].clone();
        pieces.extend(fixed_words("state:"));
        return pieces.push(name);
    }
    let (one, other) = (random.pick(&own), random.pick(&own));
    let (kept, lost) = if one == other { (own[0], own[1]) } else { (one, other) };
    let (kept, lost) = (pieces[kept].bytes.clone(), pieces[lost].bytes.clone());
    for piece in pieces.iter_mut().filter(|piece| matches!(piece.role, Role::Own | Role::Target) && piece.bytes == lost) {
        piece.bytes = kept.clone();
    }
}

/// The words of one state: from behind its name to the next state.
fn words_of_state(random: &mut Random, pieces: &[Piece]) -> (usize, usize) {
    let mut own = places(pieces, |piece| piece.role == Role::Own);
    let number = random.below(own.len());
    let start = own[number] + 1;
    own.push(pieces.len() + 1);
    (start, own[number + 1] - 1)
}

/// Adds an action to a state that has one of that name, at its end.
fn action_twice(random: &mut Random, pieces: &mut Vec<Piece>, lists: &mut [Vec<u8>; 3]) {
    let (start, end) = words_of_state(random, pieces);
    let actions = places(pieces, |piece| piece.role == Role::Action);
    let own: Vec<usize> = actions.into_iter().filter(|at| (start..end).contains(at)).collect();
    let mut added = fixed_words("action:");
    if own.is_empty() {
        let bytes = add_record(random, lists, COMMANDS);
        added.push(Piece { bytes, role: Role::Action });
        added.extend(added.clone());
    } else {
        added.push(pieces[random.pick(&own)].clone());
    }
    pieces.splice(end..end, added);
}

/// Adds a when clause whose do has no action in its state, though its command is known and another state may have it.
fn do_without_action(random: &mut Random, pieces: &mut Vec<Piece>, lists: &mut [Vec<u8>; 3]) {
    let (start, end) = words_of_state(random, pieces);
    let own: Vec<&Piece> = pieces[start..end].iter().filter(|piece| piece.role == Role::Action).collect();
    let free: Vec<Vec<u8>> = names_in(lists, COMMANDS).into_iter().filter(|name| own.iter().all(|piece| piece.bytes != *name)).collect();
    let command = if free.is_empty() { add_record(random, lists, COMMANDS) } else { random.pick(&free) };
    let mut names = names_in(lists, NAMES);
    if names.is_empty() {
        names.push(add_record(random, lists, NAMES));
    }
    let mut when = fixed_words("when $ANY$ FwCHILDREN in_state");
    when.push(Piece { bytes: random.pick(&names), role: Role::Child });
    when.extend(fixed_words("do"));
    when.push(Piece { bytes: command, role: Role::Do });
    pieces.splice(start..start, when);
}

/// Damages the names of a text or its lists.
pub fn damage_names(random: &mut Random, pieces: &mut Vec<Piece>, lists: &mut [Vec<u8>; 3]) {
    match random.below(18) {
        0 => part_record(random, lists),
        1..=5 => ill_formed(random, lists),
        6 | 7 => name_twice(random, lists),
        8 => bit_without_name(random, lists),
        9..=13 => unknown_name(random, pieces, lists),
        14 | 15 => state_twice(random, pieces),
        16 => action_twice(random, pieces, lists),
        _ => do_without_action(random, pieces, lists),
    }
}
