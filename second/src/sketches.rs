//! Sheets with names for all that they speak of: what writing questions are made from.

use crate::drafts::{class_record, name_record, shuffled};
use crate::limits::extent;
use crate::naming::{distinct, fresh, Naming};
use crate::random::Random;
use crate::text_writing::{write, Named};
use crate::writing::{Bodies, ACTIONS, CLASSES, GUARDS, STATEMENTS, STATES, WHENS};
use std::collections::BTreeSet;

const MOST_COMMANDS: usize = 64;

/// A sheet's bodies and its names: the class's own, those of its states, and those of the three lists.
#[derive(Clone)]
pub struct Sketch {
    pub bodies: Bodies,
    pub title: Vec<u8>,
    pub own: Vec<Vec<u8>>,
    pub names: Vec<Vec<u8>>,
    pub commands: Vec<Vec<u8>>,
    pub kin: Vec<Vec<u8>>,
}

/// Keeps the names in a set below a number.
fn fold_set(bytes: &mut [u8], count: usize) {
    let set = u32::from_le_bytes([bytes[0], bytes[1], bytes[2], bytes[3]]);
    let bits = (0..32).filter(|bit| set >> bit & 1 == 1).map(|bit| 1u32 << (bit % count));
    let folded = bits.fold(0, |folded, bit| folded | bit);
    bytes[..4].copy_from_slice(&folded.to_le_bytes());
}

/// Keeps the names of all sets of a sheet below a number.
fn fold_names(bodies: &mut Bodies, count: usize) {
    for at in 0..bodies.count(CLASSES) {
        fold_set(bodies.record(CLASSES, at), count);
    }
    for at in 0..bodies.count(GUARDS) {
        let record = bodies.record(GUARDS, at);
        if record[0] < 4 {
            fold_set(&mut record[4..], count);
        }
    }
}

/// Changes every command of a sheet.
fn change_commands(bodies: &mut Bodies, change: &mut dyn FnMut(&mut u8, bool)) {
    for at in 0..bodies.count(ACTIONS) {
        change(&mut bodies.record(ACTIONS, at)[0], true);
    }
    for at in 0..bodies.count(STATEMENTS) {
        let record = bodies.record(STATEMENTS, at);
        if record[0] == 0 {
            change(&mut record[1], false);
        }
    }
}

/// Gives the commands of a sheet the lowest numbers in some order, now and then with a few that are not used; gives how many there are.
fn fold_commands(random: &mut Random, bodies: &mut Bodies) -> usize {
    let few = random.pick(&[2, 3, 5, MOST_COMMANDS as u8]);
    let mut used = BTreeSet::new();
    change_commands(bodies, &mut |command, action| {
        *command %= if action { MOST_COMMANDS as u8 } else { few };
        used.insert(*command);
    });
    let used: Vec<u8> = used.into_iter().collect();
    let count = used.len() + random.pick(&[0, 0, 1, 2, 3]).min(MOST_COMMANDS - used.len());
    let numbers = shuffled(random, count);
    change_commands(bodies, &mut |command, _| *command = numbers[used.iter().position(|known| known == command).unwrap_or(0)]);
    count
}

/// Names for a sheet that is accepted; its names and commands are given the lowest numbers.
pub fn sketch(random: &mut Random, bodies: Bodies) -> Sketch {
    let names = if random.chance(6) { 32 } else { random.pick(&[1, 2, 3, 3, 4, 4, 5, 6, 7, 9]) };
    sketch_of_names(random, bodies, names)
}

/// Names for a sheet that is accepted, this many of them for the children's states.
pub fn sketch_of_names(random: &mut Random, mut bodies: Bodies, names: usize) -> Sketch {
    let large = bodies.count(STATEMENTS) + bodies.count(GUARDS) > 60;
    let namings = [Naming::Common, Naming::Common, Naming::Short, Naming::Mixed, Naming::Mixed, Naming::Long];
    let naming = if large { Naming::Short } else { random.pick(&namings) };
    fold_names(&mut bodies, names);
    let commands = fold_commands(random, &mut bodies);
    let unused = bodies.0[GUARDS].is_empty() && bodies.0[CLASSES].is_empty();
    let names = if unused && random.chance(50) { 0 } else { names };
    label(random, bodies, naming, names, commands)
}

/// Names of this naming for a sheet.
pub fn label(random: &mut Random, mut bodies: Bodies, naming: Naming, names: usize, commands: usize) -> Sketch {
    let plain = |count: usize| if count > 20 && naming != Naming::Long { Naming::Short } else { naming };
    let (states, classes) = (bodies.count(STATES), bodies.count(CLASSES));
    let mut sketch = Sketch {
        title: fresh(random, naming, &[]),
        own: distinct(random, plain(states), states),
        names: distinct(random, plain(names), names),
        commands: distinct(random, plain(commands), commands),
        kin: distinct(random, naming, classes),
        bodies: std::mem::take(&mut bodies),
    };
    if random.chance(15) {
        share_word(random, &mut sketch);
    }
    sketch
}

/// Gives one word to the class, a state, a child state, a command and a child class at once, where there are such.
fn share_word(random: &mut Random, sketch: &mut Sketch) {
    let word = sketch.title.clone();
    for list in [&mut sketch.own, &mut sketch.names, &mut sketch.commands, &mut sketch.kin] {
        if !list.is_empty() && !list.contains(&word) {
            let at = random.below(list.len());
            list[at] = word.clone();
        }
    }
}

/// Which guard records are written: those of the guards of when clauses, or those of the guards of ifs.
pub fn written_records(bodies: &Bodies, whens: bool) -> BTreeSet<usize> {
    let mut bodies = bodies.clone();
    let mut places = Vec::new();
    for at in (0..bodies.count(WHENS)).filter(|_| whens) {
        places.push(bodies.number(WHENS, at, 0));
    }
    for at in (0..bodies.count(STATEMENTS)).filter(|_| !whens) {
        if bodies.record(STATEMENTS, at)[0] == 2 {
            places.push(bodies.number(STATEMENTS, at, 2));
        }
    }
    let records = |place: u16| usize::from(place)..extent(&bodies.0[GUARDS], usize::from(place)).map_or(0, |extent| extent.0);
    places.into_iter().flat_map(records).collect()
}

impl Sketch {
    /// The question, without a buffer.
    pub fn named(&self) -> Named {
        let records = |names: &[Vec<u8>]| names.iter().flat_map(|name| name_record(name)).collect();
        let sets = self.bodies.0[CLASSES].chunks_exact(4).map(|set| [set[0], set[1], set[2], set[3]]);
        Named {
            sheet: self.bodies.sheet(),
            title: name_record(&self.title),
            table: records(&self.own),
            names: records(&self.names),
            commands: records(&self.commands),
            classes: self.kin.iter().zip(sets).flat_map(|(name, set)| class_record(name, set)).collect(),
            buffer: Vec::new(),
        }
    }

    /// How many bytes the text has; none where it is refused.
    pub fn room(&self) -> Option<usize> {
        write(&self.named()).ok().map(|text| text.len())
    }
}
