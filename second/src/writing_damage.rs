//! Damage to the names that are lent with a sheet, aimed at 17; each kind is alone where the sheet has what it needs.

use crate::drafts::name_record;
use crate::lists::{CLASS_RECORD, NAME_RECORD};
use crate::name_damage::spoil_record;
use crate::naming::{fresh, Naming};
use crate::random::Random;
use crate::shapes::atom;
use crate::sketches::{written_records, Sketch};
use crate::text_writing::Named;
use crate::writing::{atom_record, Bodies, ACTIONS, CLASSES, GUARDS, STATEMENTS};
use std::collections::BTreeSet;

/// What is lent beside the sheet, and the size of a record.
const TITLE: usize = 0;
const TABLE: usize = 1;
const NAMES: usize = 2;
const COMMANDS: usize = 3;
const KIN: usize = 4;
const SIZES: [usize; 5] = [NAME_RECORD, NAME_RECORD, NAME_RECORD, NAME_RECORD, CLASS_RECORD];

/// Kinds of damage that need something of the sheet, and kinds that need the names alone.
const SHEET_KINDS: usize = 11;
const LENT_KINDS: usize = 17;

/// One of the lists that are lent.
fn lent(named: &mut Named, list: usize) -> &mut Vec<u8> {
    match list {
        TITLE => &mut named.title,
        TABLE => &mut named.table,
        NAMES => &mut named.names,
        COMMANDS => &mut named.commands,
        _ => &mut named.classes,
    }
}

/// How many records a list has.
fn count(named: &mut Named, list: usize) -> usize {
    lent(named, list).len() / SIZES[list]
}

/// A record with a fresh name, for one of the lists; a class has the first name.
fn more(random: &mut Random, list: usize) -> Vec<u8> {
    let mut record = name_record(&fresh(random, Naming::Mixed, &[]));
    record.resize(SIZES[list], 0);
    if list == KIN {
        record[NAME_RECORD] = 1;
    }
    record
}

/// Makes a list end within a record.
fn part_record(random: &mut Random, named: &mut Named) -> bool {
    let list = random.between(TABLE, KIN);
    let part = match random.below(3) {
        0 => 1,
        1 => SIZES[list] - 1,
        _ => random.between(1, SIZES[list] - 1),
    };
    if count(named, list) == 0 || random.chance(60) {
        let record = more(random, list);
        lent(named, list).extend_from_slice(&record[..part]);
    } else {
        let length = lent(named, list).len() - part;
        lent(named, list).truncate(length);
    }
    true
}

/// Gives the own name another length.
fn title_length(random: &mut Random, named: &mut Named) -> bool {
    let length = random.pick(&[0, 31, 33, 64]);
    let behind = more(random, TITLE);
    if length == 64 || random.chance(50) {
        named.title.extend_from_slice(&behind);
    }
    named.title.resize(length, 0);
    true
}

/// Makes a record ill-formed: one that is there, or one more where that alone is no fault.
fn ill_formed(random: &mut Random, named: &mut Named) -> bool {
    let list = random.between(TITLE, KIN);
    if (list == NAMES || list == COMMANDS) && random.chance(40) {
        let record = more(random, list);
        lent(named, list).extend_from_slice(&record);
    }
    let count = count(named, list);
    if count == 0 {
        return false;
    }
    let at = SIZES[list] * random.below(count);
    spoil_record(random, &mut lent(named, list)[at..at + SIZES[list]]);
    true
}

/// Gives a name twice in a list or in the table; the number of records stays where it must be the sheet's.
fn name_twice(random: &mut Random, named: &mut Named) -> bool {
    let list = random.between(TABLE, KIN);
    let count = count(named, list);
    if count == 0 {
        return false;
    }
    let (from, size) = (random.below(count), SIZES[list]);
    let name = lent(named, list)[from * size..from * size + NAME_RECORD].to_vec();
    if (list == NAMES || list == COMMANDS) && random.chance(60) {
        lent(named, list).extend(name);
        return true;
    }
    let others: Vec<usize> = (0..count).filter(|at| *at != from).collect();
    if others.is_empty() {
        return false;
    }
    let to = size * random.pick(&others);
    lent(named, list)[to..to + NAME_RECORD].copy_from_slice(&name);
    true
}

/// A name more or less in the table, or a class more or less; a class more may be the first.
fn other_count(random: &mut Random, named: &mut Named, list: usize, less: bool) -> bool {
    let size = SIZES[list];
    if less {
        let length = lent(named, list).len();
        lent(named, list).truncate(length.saturating_sub(size));
        return length > 0;
    }
    let record = more(random, list);
    let front = list == KIN && random.chance(30);
    let at = if front { 0 } else { lent(named, list).len() };
    lent(named, list).splice(at..at, record);
    list != KIN || !named.names.is_empty()
}

/// Gives a class a set that is not the sheet's, of names that are there; or the set of another class; or none.
fn other_set(random: &mut Random, named: &mut Named) -> bool {
    let (classes, names) = (count(named, KIN), count(named, NAMES).min(32));
    if classes == 0 {
        return false;
    }
    let set = |at: usize| at * CLASS_RECORD + NAME_RECORD..(at + 1) * CLASS_RECORD;
    let (at, other) = (random.below(classes), random.below(classes));
    let (own, others) = (named.classes[set(at)].to_vec(), named.classes[set(other)].to_vec());
    match random.below(6) {
        0 => named.classes[set(at)].fill(0),
        1 | 2 if own != others => {
            named.classes[set(at)].copy_from_slice(&others);
            named.classes[set(other)].copy_from_slice(&own);
        }
        _ => {
            let bit = random.below(names);
            named.classes[set(at).start + bit / 8] ^= 1 << (bit % 8);
        }
    }
    true
}

/// Fills the list of names or that of commands up to this many more than have a number.
pub fn fill(named: &mut Named, names: bool, past: usize) {
    let (list, most) = if names { (NAMES, 32) } else { (COMMANDS, 64) };
    for number in count(named, list)..most + past {
        let record = name_record(format!("more_{number}").as_bytes());
        lent(named, list).extend(record);
    }
}

/// Lends more names or commands than have a number.
fn too_many(random: &mut Random, named: &mut Named, names: bool) -> bool {
    let past = random.pick(&[1, 1, 1, 2, 9]);
    fill(named, names, past);
    true
}

/// A bit that has no name: just past the last, or any.
fn nameless_bit(random: &mut Random, sketch: &Sketch) -> Option<usize> {
    let names = sketch.names.len();
    (names < 32).then(|| usize::from(random.edge(names as u8, 31)))
}

/// Sets a bit without a name in a class, in the sheet and in the list.
fn bit_of_class(random: &mut Random, sketch: &mut Sketch) -> bool {
    let classes = sketch.bodies.count(CLASSES);
    let Some(bit) = nameless_bit(random, sketch).filter(|_| classes > 0) else { return false };
    sketch.bodies.record(CLASSES, random.below(classes))[bit / 8] |= 1 << (bit % 8);
    true
}

/// Sets a bit without a name in one of these guard records.
fn bit_of_guard(random: &mut Random, sketch: &mut Sketch, records: &BTreeSet<usize>) -> bool {
    let atoms: Vec<usize> = records.iter().copied().filter(|at| sketch.bodies.record(GUARDS, *at)[0] < 4).collect();
    let Some(bit) = nameless_bit(random, sketch).filter(|_| !atoms.is_empty()) else { return false };
    let at = random.pick(&atoms);
    sketch.bodies.record(GUARDS, at)[4 + bit / 8] |= 1 << (bit % 8);
    true
}

/// Sets a bit without a name in a guard record that is not written, which is no fault; there may be no such record before.
fn bit_of_unused(random: &mut Random, sketch: &mut Sketch) -> bool {
    let used: BTreeSet<usize> = [true, false].into_iter().flat_map(|whens| written_records(&sketch.bodies, whens)).collect();
    let mut unused: BTreeSet<usize> = (0..sketch.bodies.count(GUARDS)).filter(|at| !used.contains(at)).collect();
    if (unused.is_empty() || random.chance(50)) && sketch.bodies.count(GUARDS) < 1024 {
        unused.insert(sketch.bodies.count(GUARDS));
        sketch.bodies.push(GUARDS, &atom_record(&atom(random, &[])));
    }
    bit_of_guard(random, sketch, &unused)
}

/// How many ifs are round each statement.
fn depths(bodies: &Bodies) -> Vec<usize> {
    let statements: Vec<&[u8]> = bodies.0[STATEMENTS].chunks(8).collect();
    let mut ends: Vec<usize> = Vec::new();
    statements.iter().enumerate().map(|(at, record)| {
        ends.retain(|end| *end > at);
        let depth = ends.len();
        if record[0] == 2 {
            let length = |offset: usize| usize::from(u16::from_le_bytes([record[offset], record[offset + 1]]));
            ends.push(at + 1 + length(4) + length(6));
        }
        depth
    }).collect()
}

/// A command that has no name: just past the last, or any.
fn nameless_command(random: &mut Random, sketch: &Sketch) -> Option<u8> {
    let commands = sketch.commands.len();
    (commands < 64).then(|| random.edge(commands as u8, 63))
}

/// Gives an action clause a command without a name.
fn command_of_action(random: &mut Random, sketch: &mut Sketch) -> bool {
    let actions = sketch.bodies.count(ACTIONS);
    let Some(command) = nameless_command(random, sketch).filter(|_| actions > 0) else { return false };
    sketch.bodies.record(ACTIONS, random.below(actions))[0] = command;
    true
}

/// Gives a do statement a command without a name: one inside an if, or one that is inside none.
fn command_of_send(random: &mut Random, sketch: &mut Sketch, inside: bool) -> bool {
    let depths = depths(&sketch.bodies);
    let wanted = |at: &usize| sketch.bodies.0[STATEMENTS][at * 8] == 0 && (depths[*at] > 0) == inside;
    let sends: Vec<usize> = (0..depths.len()).filter(wanted).collect();
    let Some(command) = nameless_command(random, sketch).filter(|_| !sends.is_empty()) else { return false };
    sketch.bodies.record(STATEMENTS, random.pick(&sends))[1] = command;
    true
}

/// Damages what a sheet has of this kind; false where it has none.
fn damage_sheet(random: &mut Random, sketch: &mut Sketch, kind: usize) -> bool {
    match kind {
        0 => bit_of_class(random, sketch),
        1 | 2 => { let records = written_records(&sketch.bodies, true); bit_of_guard(random, sketch, &records) }
        3 | 4 => { let records = written_records(&sketch.bodies, false); bit_of_guard(random, sketch, &records) }
        5 | 6 => bit_of_unused(random, sketch),
        7 => command_of_action(random, sketch),
        8 => command_of_send(random, sketch, false),
        _ => command_of_send(random, sketch, true),
    }
}

/// Damages the names of this kind; false where there are none.
fn damage_lent(random: &mut Random, named: &mut Named, kind: usize) -> bool {
    match kind {
        0 | 1 => part_record(random, named),
        2 | 3 => title_length(random, named),
        4..=7 => ill_formed(random, named),
        8 | 9 => name_twice(random, named),
        10 => { let less = random.chance(50); other_count(random, named, TABLE, less) }
        11 | 12 => { let less = random.chance(40); other_count(random, named, KIN, less) }
        13 | 14 => other_set(random, named),
        15 => too_many(random, named, true),
        _ => too_many(random, named, false),
    }
}

/// Damages the names of a question in one way that they allow.
pub fn damage_names(random: &mut Random, named: &mut Named) {
    let before = named.clone();
    while *named == before {
        let kind = random.below(LENT_KINDS);
        damage_lent(random, named, kind);
    }
}

/// The question of a sketch with one kind of damage; none where the sketch has nothing for it.
pub fn damaged(random: &mut Random, mut sketch: Sketch) -> Option<Named> {
    let kind = random.below(SHEET_KINDS + LENT_KINDS);
    if kind < SHEET_KINDS {
        return damage_sheet(random, &mut sketch, kind).then(|| sketch.named());
    }
    let mut named = sketch.named();
    damage_lent(random, &mut named, kind - SHEET_KINDS).then_some(named)
}
