//! Damage aimed at each of the nine rules of a sheet. What a damaged sheet is refused with is for the judge to say.

use crate::limits::{counted, Counts};
use crate::random::Random;
use crate::shapes::atom;
use crate::tree::{Class, Names};
use crate::writing::{atom_record, Bodies, ACTIONS, ACTION_COUNT, CLASSES, GUARDS, STATEMENTS, STATES, WHENS, WHEN_COUNT};

/// Damages the records of a sheet so that it breaks rule 3, 4, 5, 6, 7, 8 or 9. Every body must have a record.
pub fn damage_records(random: &mut Random, rule: u8, class: &Class, bodies: &mut Bodies) {
    match rule {
        3 => damage_3(random, bodies),
        4 => damage_4(random, bodies),
        5 => damage_5(random, &class.children, bodies),
        6 => {
            let at = random.below(bodies.count(WHENS));
            let place = bad_guard(random, &class.children, bodies);
            bodies.set_number(WHENS, at, 0, place);
        }
        7 => damage_7(random, bodies),
        8 => damage_8(random, bodies),
        _ => damage_9(random, &class.children, bodies),
    }
}

/// Empties the set of a child class.
fn damage_3(random: &mut Random, bodies: &mut Bodies) {
    let at = random.below(bodies.count(CLASSES));
    bodies.record(CLASSES, at).fill(0);
}

/// Makes the counts of the states sum to something else.
fn damage_4(random: &mut Random, bodies: &mut Bodies) {
    let offset = random.pick(&[WHEN_COUNT, ACTION_COUNT]);
    if random.chance(30) {
        // two more counts, which come to 65,536 together: nothing, to one who keeps 16 bits
        let first = random.pick(&[32_768u16, 65_535, 1, 40_000]);
        for value in [first, first.wrapping_neg()] {
            bodies.push_state(0, 0);
            let at = bodies.count(STATES) - 1;
            bodies.set_number(STATES, at, offset, value);
        }
        return;
    }
    let at = random.below(bodies.count(STATES));
    let count = bodies.number(STATES, at, offset);
    let other = random.pick(&[count.wrapping_add(1), count.wrapping_sub(1), count.wrapping_add(256), 0, 65_535]);
    bodies.set_number(STATES, at, offset, if other == count { count.wrapping_add(1) } else { other });
}

/// Breaks the layout of a guard record: one in use, or one behind all others that nobody uses.
fn damage_5(random: &mut Random, children: &[Names], bodies: &mut Bodies) {
    if random.chance(50) {
        let record = if random.chance(50) { [random.byte(4, 6), 0, 0, 0, 0, 0, 0, 0] } else { atom_record(&atom(random, children)) };
        bodies.push(GUARDS, &record);
    }
    let last = bodies.count(GUARDS) - 1;
    let at = if random.chance(50) { last } else { random.below(last + 1) };
    let classes = children.len() as u8;
    let record = bodies.record(GUARDS, at);
    if random.chance(20) {
        record[0] = random.edge(7, 255);
    } else if record[0] > 3 {
        record[random.between(1, 7)] = random.byte(1, 255);
    } else {
        match random.below(3) {
            0 => record[1] = random.edge(classes, 254),
            1 => record[random.between(2, 3)] = random.byte(1, 255),
            _ => record[4..].fill(0),
        }
    }
}

/// Gives the place of a guard that breaks rule 6, and writes its records where it has some.
fn bad_guard(random: &mut Random, children: &[Names], bodies: &mut Bodies) -> u16 {
    let count = bodies.count(GUARDS) as u16;
    match random.below(5) {
        0 => random.pick(&[count, count + 1, 65_535, count + 256, 32_768]),
        1 => {
            bodies.push(GUARDS, &[random.byte(4, 6), 0, 0, 0, 0, 0, 0, 0]);
            count
        }
        2 => {
            bodies.push(GUARDS, &[random.byte(4, 5), 0, 0, 0, 0, 0, 0, 0]);
            bodies.push(GUARDS, &atom_record(&atom(random, children)));
            count
        }
        _ => {
            let depth = random.pick(&[17, 17, 17, 18, 20, 40]);
            too_deep(random, children, bodies, depth);
            count
        }
    }
}

/// Writes a guard with this many operators on one path, which bends left or right.
fn too_deep(random: &mut Random, children: &[Names], bodies: &mut Bodies, depth: usize) {
    let mut waiting = 0;
    for _ in 0..depth {
        let kind = random.byte(4, 6);
        bodies.push(GUARDS, &[kind, 0, 0, 0, 0, 0, 0, 0]);
        if kind < 6 && random.chance(50) {
            bodies.push(GUARDS, &atom_record(&atom(random, children)));
        } else if kind < 6 {
            waiting += 1;
        }
    }
    for _ in 0..waiting + 1 {
        bodies.push(GUARDS, &atom_record(&atom(random, children)));
    }
}

/// The state that a when clause belongs to has this many action clauses.
fn actions_of_clause(bodies: &mut Bodies, clause: usize) -> u8 {
    let mut before = 0;
    for at in 0..bodies.count(STATES) {
        before += usize::from(bodies.number(STATES, at, WHEN_COUNT));
        if clause < before {
            return bodies.number(STATES, at, ACTION_COUNT) as u8;
        }
    }
    0
}

/// Gives a when clause a wrong referrer or target.
fn damage_7(random: &mut Random, bodies: &mut Bodies) {
    let at = random.below(bodies.count(WHENS));
    let (states, actions) = (bodies.count(STATES) as u8, actions_of_clause(bodies, at));
    let record = bodies.record(WHENS, at);
    let (referrer, target) = match random.below(4) {
        0 => (random.edge(3, 255), random.byte(0, 1)),
        1 => (0, random.pick(&[states, states + 1, 255])),
        2 => (1, random.pick(&[actions, actions.saturating_add(1), 255])),
        _ => (2, random.edge(1, 255)),
    };
    record[2..].copy_from_slice(&[referrer, target]);
}

/// Breaks an action clause.
fn damage_8(random: &mut Random, bodies: &mut Bodies) {
    let at = random.below(bodies.count(ACTIONS));
    match random.below(5) {
        0 => bodies.record(ACTIONS, at)[0] = random.edge(64, 255),
        1 => bodies.record(ACTIONS, at)[1] = random.edge(1, 255),
        2 => repeat_command(random, bodies),
        3 => {
            let count = bodies.number(ACTIONS, at, 2);
            let other = random.pick(&[count.wrapping_add(1), count.wrapping_sub(1), count.wrapping_add(256), 65_535]);
            bodies.set_number(ACTIONS, at, 2, other);
        }
        _ => {
            // two clauses more, whose counts come to 65,536 together
            let first = random.pick(&[32_768u16, 65_535, 1, 40_000]);
            bodies.push_state(0, 2);
            for (command, value) in [(5, first), (6, first.wrapping_neg())] {
                let [low, high] = value.to_le_bytes();
                bodies.push(ACTIONS, &[command, 0, low, high]);
            }
        }
    }
}

/// Adds a state in which a command stands twice, next to each other or not.
fn repeat_command(random: &mut Random, bodies: &mut Bodies) {
    let command = random.byte(0, 63);
    let between: Vec<u8> = (0..64).filter(|other| *other != command).take(random.below(3)).collect();
    bodies.push_state(0, between.len() + 2);
    bodies.push(ACTIONS, &[command, 0, 0, 0]);
    for other in between {
        bodies.push(ACTIONS, &[other, 0, 0, 0]);
    }
    bodies.push(ACTIONS, &[command, 0, 0, 0]);
}

/// Breaks a statement: one that is there, or one of a new action clause.
fn damage_9(random: &mut Random, children: &[Names], bodies: &mut Bodies) {
    let classes = children.len() as u8;
    let states = bodies.count(STATES) as u8;
    let at = bodies.count(STATEMENTS);
    match random.below(10) {
        0 | 1 => {
            let at = random.below(at);
            damage_statement(random, bodies, at, classes, states);
        }
        2 => crossing(random, bodies),
        3..=6 => {
            let record = good_statement(random, states);
            add_clause(random, bodies, vec![record]);
            damage_statement(random, bodies, at, classes, states + 1);
        }
        _ => {
            let records = bad_branch(random, children, bodies);
            add_clause(random, bodies, records);
        }
    }
}

/// Adds a state with one action clause of these statements, and perhaps one more.
fn add_clause(random: &mut Random, bodies: &mut Bodies, mut records: Vec<[u8; 8]>) {
    if random.chance(50) {
        records.push(good_statement(random, bodies.count(STATES) as u8));
    }
    bodies.push_state(0, 1);
    bodies.push(ACTIONS, &[random.byte(0, 63), 0, records.len() as u8, 0]);
    for record in &records {
        bodies.push(STATEMENTS, record);
    }
}

/// Adds two action clauses; the if that the first one ends with has its part in the second.
fn crossing(random: &mut Random, bodies: &mut Bodies) {
    bodies.push_state(0, 2);
    bodies.push(ACTIONS, &[1, 0, 1, 0]);
    bodies.push(ACTIONS, &[2, 0, 1, 0]);
    let lengths = if random.chance(50) { [1, 0] } else { [0, 1] };
    bodies.push(STATEMENTS, &[2, 0, 0, 0, lengths[0], 0, lengths[1], 0]);
    bodies.push(STATEMENTS, &[0, random.byte(0, 63), 255, 0, 0, 0, 0, 0]);
}

/// A do to everyone, a move_to, or an if with nothing in it.
fn good_statement(random: &mut Random, states: u8) -> [u8; 8] {
    match random.below(3) {
        0 => [0, random.byte(0, 63), 255, 0, 0, 0, 0, 0],
        1 => [1, random.byte(0, states - 1), 0, 0, 0, 0, 0, 0],
        _ => [2, 0, 0, 0, 0, 0, 0, 0],
    }
}

/// Breaks the layout of one statement.
fn damage_statement(random: &mut Random, bodies: &mut Bodies, at: usize, classes: u8, states: u8) {
    let record = bodies.record(STATEMENTS, at);
    if random.chance(15) {
        record[0] = random.edge(3, 255);
        return;
    }
    match (record[0], random.below(3)) {
        (0, 0) => record[1] = random.edge(64, 255),
        (0, 1) => record[2] = random.edge(classes, 254),
        (0, _) => record[random.between(3, 7)] = random.byte(1, 255),
        (1, 0) => record[1] = random.edge(states, 255),
        (1, _) => record[random.between(2, 7)] = random.byte(1, 255),
        (_, 0) => record[1] = random.byte(1, 255),
        (_, 1) => record[random.pick(&[5, 7])] = random.byte(1, 255),
        (_, _) => record[3] = random.byte(4, 255),
    }
}

/// The records of an if that breaks rule 9.
fn bad_branch(random: &mut Random, children: &[Names], bodies: &mut Bodies) -> Vec<[u8; 8]> {
    let inner = [0, random.byte(0, 63), 255, 0, 0, 0, 0, 0];
    let branch = |then: u16, other: u16| {
        let ([a, b], [c, d]) = (then.to_le_bytes(), other.to_le_bytes());
        [2, 0, 0, 0, a, b, c, d]
    };
    match random.below(8) {
        0 => vec![branch(2, 0), inner],
        1 => vec![branch(0, 2), inner],
        2 => vec![branch(1, 1), inner],
        // lengths that come to 65,536 or to 65,537 together
        3 => vec![branch(65_535, 1)],
        4 => vec![branch(65_535, 2), inner],
        // an inner if that leaves the part around it, but not the clause
        5 if random.chance(50) => vec![branch(1, 0), branch(1, 0), inner],
        5 => vec![branch(1, 1), branch(0, 1), inner],
        6 => {
            let [low, high] = bad_guard(random, children, bodies).to_le_bytes();
            vec![[2, 0, low, high, 1, 0, 0, 0], inner]
        }
        _ => too_many_ifs(random),
    }
}

/// Nine ifs, each in a part of the one before; nothing else.
fn too_many_ifs(random: &mut Random) -> Vec<[u8; 8]> {
    let depth = random.pick(&[9, 9, 9, 10]);
    let mut records = Vec::new();
    for below in (0..depth).rev() {
        let side = if random.chance(50) { 4 } else { 6 };
        let mut record = [2, 0, 0, 0, 0, 0, 0, 0];
        record[side] = below;
        records.push(record);
    }
    records
}

/// Moves a part of a count to another record, or to the other part of an if; the sums stay. The sheet may still be good.
pub fn shift_counts(random: &mut Random, bodies: &mut Bodies) {
    let of_states = [(STATES, [WHEN_COUNT; 2]), (STATES, [ACTION_COUNT; 2])];
    let others = [(ACTIONS, [2, 2]), (STATEMENTS, [4, 6]), (STATEMENTS, [6, 4])];
    let (body, offsets) = random.pick(&[&of_states[..], &others[..]].concat());
    let branches: Vec<usize> = (0..bodies.count(STATEMENTS)).filter(|at| bodies.0[STATEMENTS][at * 8] == 2).collect();
    let (from, to) = match body {
        STATEMENTS if branches.is_empty() => return,
        STATEMENTS => { let at = random.pick(&branches); (at, at) }
        _ => (random.below(bodies.count(body)), random.below(bodies.count(body))),
    };
    let most = bodies.number(body, from, offsets[0]);
    if most > 0 {
        let part = random.between(1, usize::from(most)) as u16;
        bodies.set_number(body, from, offsets[0], most - part);
        let more = bodies.number(body, to, offsets[1]) + part;
        bodies.set_number(body, to, offsets[1], more);
    }
}

/// Damages the contents, or cuts or lengthens the sheet, so that it breaks rule 2.
pub fn damage_contents(random: &mut Random, bodies: &Bodies) -> Vec<u8> {
    let mut sheet = bodies.sheet();
    match random.below(10) {
        0 => sheet.truncate(random.between(24, sheet.len() - 1)),
        1 => sheet.extend(vec![0; random.between(1, 8)]),
        2 => nudge(random, &mut sheet, 0),
        3 => nudge(random, &mut sheet, 2),
        4 => return broken_record(random, bodies),
        5 => return gap(random, bodies),
        6 => sheet.truncate(24),
        _ => return bad_count(random, bodies),
    }
    sheet
}

/// Changes the start or the length of one contents entry.
fn nudge(random: &mut Random, sheet: &mut [u8], offset: usize) {
    let at = 4 * random.below(6) + offset;
    let value = u16::from_le_bytes([sheet[at], sheet[at + 1]]);
    let step = random.pick(&[1, 4, 8, 256, 65_535, 65_532, 32_768]);
    sheet[at..at + 2].copy_from_slice(&value.wrapping_add(step).to_le_bytes());
}

/// Adds some bytes, but no whole record, to a body; all starts fit.
fn broken_record(random: &mut Random, bodies: &Bodies) -> Vec<u8> {
    let mut bodies = bodies.clone();
    let body = random.below(6);
    let extra = if body == GUARDS || body == STATEMENTS { random.pick(&[1, 4, 7]) } else { random.between(1, 3) };
    bodies.0[body].extend(vec![0; extra]);
    if random.chance(30) {
        // a second body makes the total a multiple of four again
        bodies.0[random.pick(&[CLASSES, STATES, WHENS, ACTIONS])].extend(vec![0; 4 - extra % 4]);
    }
    bodies.sheet()
}

/// Leaves a gap before a body, or lets it overlap the one before; the last body ends with the sheet.
fn gap(random: &mut Random, bodies: &Bodies) -> Vec<u8> {
    let mut sheet = bodies.sheet();
    let first = random.below(6);
    let start = usize::from(sheet[4 * first]) + 256 * usize::from(sheet[4 * first + 1]);
    let step = if random.chance(70) { 4 } else { -4i32 };
    for at in (first..6).map(|entry| 4 * entry) {
        let value = i32::from(u16::from_le_bytes([sheet[at], sheet[at + 1]])) + step;
        sheet[at..at + 2].copy_from_slice(&(value as u16).to_le_bytes());
    }
    if step > 0 {
        sheet.splice(start..start, [0; 4]);
    } else {
        sheet.drain(start - 4..start);
    }
    sheet
}

/// One record more than the table allows in one body, or no state.
fn bad_count(random: &mut Random, bodies: &Bodies) -> Vec<u8> {
    let few = Counts { classes: 1, states: 5, whens: 2, guards: 2, actions: 1, statements: 1 };
    let counts = match random.below(20) {
        0..=4 => Counts { classes: random.pick(&[9, 9, 10]), ..few },
        5..=9 => Counts { states: random.pick(&[33, 33, 34]), ..few },
        10..=12 => return Bodies([vec![], vec![], vec![], bodies.0[GUARDS].clone(), vec![], vec![]]).sheet(),
        13 | 14 => Counts { whens: 257, ..few },
        15 | 16 => Counts { actions: 257, ..few },
        17 | 18 => Counts { guards: 1025, ..few },
        _ => Counts { statements: 1025, ..few },
    };
    counted(random, counts).sheet()
}

/// A sheet that is too short or too long for rule 1.
pub fn damage_length(random: &mut Random, bodies: &Bodies) -> Vec<u8> {
    let mut sheet = bodies.sheet();
    if random.chance(90) {
        sheet.truncate(usize::from(random.edge(0, 23)));
    } else {
        sheet.resize(random.pick(&[18_617, 18_617, 18_618, 19_000, 65_560]), random.byte(0, 255));
    }
    sheet
}
