//! The lists that questions about texts lend: child state names, commands, child classes with their name sets.

use crate::words::is_name;
use std::collections::HashMap;

/// Bytes of a name record, and of a class record: a name record and a name set.
pub const NAME_RECORD: usize = 32;
pub const CLASS_RECORD: usize = 36;

/// A list of names, each of which is there once; and the number of each.
#[derive(Debug, Default)]
pub struct Known<'l> {
    numbers: HashMap<&'l [u8], usize>,
}

impl<'l> Known<'l> {
    /// How many names there are.
    pub fn count(&self) -> usize {
        self.numbers.len()
    }

    /// The number of a name, where it is in the list.
    pub fn number(&self, name: &[u8]) -> Option<usize> {
        self.numbers.get(name).copied()
    }

    /// Is the name in the list?
    pub fn has(&self, name: &[u8]) -> bool {
        self.numbers.contains_key(name)
    }

    /// Names in the order of their numbers; none where one is there twice.
    pub fn of(names: impl Iterator<Item = &'l [u8]>) -> Option<Known<'l>> {
        let mut known = Known::default();
        for (number, name) in names.enumerate() {
            if known.numbers.insert(name, number).is_some() {
                return None;
            }
        }
        Some(known)
    }
}

/// The three lists.
#[derive(Debug)]
pub struct Lists<'l> {
    pub names: Known<'l>,
    pub commands: Known<'l>,
    pub classes: Known<'l>,
    pub sets: Vec<u32>,
}

/// The name in a name record, where the record is well-formed.
fn name_in(record: &[u8]) -> Option<&[u8]> {
    let length = record.iter().position(|byte| *byte == 0)?;
    let (name, behind) = record.split_at(length);
    (is_name(name) && behind.iter().all(|byte| *byte == 0)).then_some(name)
}

/// The names of a list with records of this size; none where the list is ill-formed, or gives a name twice.
fn known(list: &[u8], size: usize) -> Option<Known<'_>> {
    if list.len() % size != 0 {
        return None;
    }
    let names: Option<Vec<&[u8]>> = list.chunks(size).map(|record| name_in(&record[..NAME_RECORD])).collect();
    Known::of(names?.into_iter())
}

/// The name sets of a list of classes.
fn sets(classes: &[u8]) -> Vec<u32> {
    let set = |record: &[u8]| record[NAME_RECORD..].iter().rev().fold(0, |set, byte| set << 8 | u32::from(*byte));
    classes.chunks_exact(CLASS_RECORD).map(set).collect()
}

/// Rule 17 for the lists alone: their records, names twice, and set bits without a name.
pub fn rule_17_lists<'l>(names: &'l [u8], commands: &'l [u8], classes: &'l [u8]) -> Result<Lists<'l>, u8> {
    let sets = sets(classes);
    let names = known(names, NAME_RECORD).ok_or(17)?;
    let commands = known(commands, NAME_RECORD).ok_or(17)?;
    let classes = known(classes, CLASS_RECORD).ok_or(17)?;
    let nameless = |set: &u32| (names.count()..32).any(|bit| set >> bit & 1 == 1);
    if sets.iter().any(nameless) {
        return Err(17);
    }
    Ok(Lists { names, commands, classes, sets })
}

/// The names of a list with records of this size, in the order of their numbers; none where the list is ill-formed, or gives a name twice.
pub fn ordered(list: &[u8], size: usize) -> Option<Vec<&[u8]>> {
    known(list, size)?;
    list.chunks(size).map(|record| name_in(&record[..NAME_RECORD])).collect()
}
