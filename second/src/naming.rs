//! Random names for class texts: usual ones, short and long ones, and such as are nearly words of the grammar.

use crate::random::Random;
use crate::words::{is_name, LONGEST_NAME};

const COMMON: [&str; 24] = [
    "ON", "OFF", "ERROR", "STANDBY", "READY", "HOLD", "COLD", "HOT", "FAULT", "TRIPPED", "RAMPING_UP", "RAMPING_DOWN", "RPC_HV", "RPC_LV",
    "RPC_T", "HEATER", "PUMP", "RESET", "GO", "STOP", "OK", "MIXED", "LVMIXED", "HVMIXED",
];

/// Names that are nearly words of the grammar, or are words of forms that are left out.
const NEARLY: [&str; 48] = [
    "When", "in_states", "do_", "classes", "any", "all", "empty", "wait", "sleep", "set", "Class", "CLASS", "class_", "states", "State",
    "actions", "Action", "Do", "DO", "If", "if_", "ifs", "Then", "els", "elsewhere", "Else", "end", "endi", "endif_", "END", "And", "AND",
    "or_", "xor", "nots", "Not", "in_stat", "In_State", "not_in_states", "not_in", "FwChildren", "FwCHILDREN_", "FWPART", "FWPART__",
    "Top", "TOPS", "stay_in_states", "move_to_",
];

const CHARACTERS: &[u8] = b"ABCXYZabcxyz0189_";

/// Which names a text has.
#[derive(Clone, Copy, PartialEq)]
pub enum Naming {
    /// The usual ones.
    Common,
    /// One or two characters, so that the same word stands in several lists.
    Short,
    /// Exactly 31 characters, of which few differ.
    Long,
    /// All kinds mixed.
    Mixed,
}

/// This many random name characters.
pub fn run(random: &mut Random, length: usize) -> Vec<u8> {
    (0..length).map(|_| random.pick(CHARACTERS)).collect()
}

/// A run of 31 characters that differs from others of its kind in few places.
fn long(random: &mut Random) -> Vec<u8> {
    let mut name = b"RAMPING_UP_TO_NOMINAL_VOLTAGE_1".to_vec();
    for at in [0, 15, LONGEST_NAME - 1] {
        if random.chance(60) {
            name[at] = random.pick(CHARACTERS);
        }
    }
    name
}

/// A run that is a name, or nearly one.
fn candidate(random: &mut Random, naming: Naming) -> Vec<u8> {
    match naming {
        Naming::Common => random.pick(&COMMON).as_bytes().to_vec(),
        Naming::Short => { let length = random.pick(&[1, 1, 1, 2]); run(random, length) }
        Naming::Long => long(random),
        Naming::Mixed => match random.below(8) {
            0 | 1 => random.pick(&COMMON).as_bytes().to_vec(),
            2 | 3 => random.pick(&NEARLY).as_bytes().to_vec(),
            4 => run(random, 1),
            5 => long(random),
            6 => [vec![random.byte(b'0', b'9')], { let length = random.below(8); run(random, length) }].concat(),
            _ => { let length = random.between(1, LONGEST_NAME); run(random, length) }
        },
    }
}

/// A name that is not among these.
pub fn fresh(random: &mut Random, naming: Naming, taken: &[Vec<u8>]) -> Vec<u8> {
    for _ in 0..20 {
        let name = candidate(random, naming);
        if is_name(&name) && !taken.contains(&name) {
            return name;
        }
    }
    loop {
        let name = run(random, 6);
        if is_name(&name) && !taken.contains(&name) {
            return name;
        }
    }
}

/// This many different names.
pub fn distinct(random: &mut Random, naming: Naming, count: usize) -> Vec<Vec<u8>> {
    let mut names = Vec::new();
    for _ in 0..count {
        let name = fresh(random, naming, &names);
        names.push(name);
    }
    names
}
