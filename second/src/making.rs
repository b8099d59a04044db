//! The mix of random questions.

use crate::asking::{absent_class, bad_input, children_in, children_of, everyone, good, good_of_kind, list, phase_of, room_of_phase};
use crate::asking::{short_phase, state, NAMES_IN_PASSING};
use crate::behaviour::{phase, Child, Phase};
use crate::commanding::{request_on, short_command, telling_command};
use crate::damage::{damage_contents, damage_length, damage_records, shift_counts};
use crate::judging::judge;
use crate::limits::{guards_of_depth, ifs_of_depth, large, long_commands, many_names, pinned, shared};
use crate::lines::{Question, FORMER_LONGEST_LINE, LONGEST_LINE};
use crate::making_texts;
use crate::making_writes;
use crate::moving::{by_do, commanded_class, moving_class, Manner, ALL, DEEP, MIXED, SENDING};
use crate::random::Random;
use crate::shapes::{class, Shape, Style, BUSY, CROWD, LADDER, RING, ROUND, SMALL, TALL, WHOLE};
use crate::tree::{Class, Names};
use crate::writing::bodies_of;

/// So many of each hundred questions, those that have their turn left out, are reading questions.
const READING_IN_A_HUNDRED: usize = 20;
const READING_SEED: u64 = 0x4EAD_1000_0000_0000;

/// And so many are writing questions, or read what was written.
const WRITING_IN_A_HUNDRED: usize = 13;
const WRITING_SEED: u64 = 0x3817_1000_0000_0000;

/// Every so many questions comes one about a sheet that takes long to answer or to send, a long text to read, and one to write; and so
/// often a worked text.
const HEAVY_EVERY: u64 = 500;
const WORKED_EVERY: u64 = 150;

/// A buffer of so many bytes fits into a line beside a small sheet and the longest list.
const MOST_LENT: usize = 500_000;

/// The line of one question of a run.
pub fn make_line(seed: u64, index: u64) -> Vec<u8> {
    let random = &mut Random::for_question(seed, index);
    if index % HEAVY_EVERY == HEAVY_EVERY / 2 {
        return heavy(random, index / HEAVY_EVERY).line().into_bytes();
    }
    if index % HEAVY_EVERY == 0 {
        return making_texts::long_line(seed, index, index / HEAVY_EVERY);
    }
    if index % HEAVY_EVERY == HEAVY_EVERY / 4 {
        return making_writes::long_line(seed, index, index / HEAVY_EVERY);
    }
    if index % WORKED_EVERY == 75 {
        return making_texts::worked_line(seed, index, index / WORKED_EVERY);
    }
    if Random::for_question(seed ^ WRITING_SEED, index).chance(WRITING_IN_A_HUNDRED) {
        return making_writes::mixed_line(seed, index);
    }
    if Random::for_question(seed ^ READING_SEED, index).chance(READING_IN_A_HUNDRED) {
        return making_texts::mixed_line(seed, index);
    }
    let question = match random.below(200) {
        0..=15 => commanded(random),
        16..=69 => accepted(random),
        70..=75 => overlapping(random),
        76..=80 => near_limit(random),
        81..=123 => damaged(random),
        124..=139 => moving(random),
        141..=163 => wrongly_asked(random),
        164..=180 => many_faults(random),
        181..=188 => scattered(random),
        189..=193 => shifted(random),
        194 => big(random),
        195 => twelve_names(random),
        140 | 196 => one_configuration(random),
        _ => return bad_line(random),
    };
    question.line().into_bytes()
}

/// A question about a good sheet of some shape.
fn accepted(random: &mut Random) -> Question {
    let shape = random.pick(&[SMALL, SMALL, WHOLE, WHOLE, LADDER, LADDER, RING, RING, RING, RING, BUSY, BUSY, BUSY, CROWD, CROWD, TALL, ROUND]);
    let class = perhaps_moving(random, &shape);
    let sheet = bodies_of(&class, random.chance(50)).sheet();
    match shape.style {
        Style::Anywhere if shape.statements.1 > 4 => {
            let kind = random.pick(&[2, 3, 3, 3]);
            good_of_kind(random, kind, sheet, &class)
        }
        Style::Anywhere => good(random, sheet, &class),
        _ => {
            let kind = random.pick(&[1, 2, 2, 4, 4, 4]);
            good_of_kind(random, kind, sheet, &class)
        }
    }
}

/// A class of some shape; half of the time its moves are made by DOs.
fn perhaps_moving(random: &mut Random, shape: &Shape) -> Class {
    let manner = random.pick(&[ALL, MIXED]);
    if random.chance(50) { moving_class(random, shape, &manner) } else { class(random, shape) }
}

/// A phase or a loop question about a class whose moves are made by DOs.
fn moving(random: &mut Random) -> Question {
    let shape = random.pick(&[SMALL, WHOLE, BUSY, LADDER, LADDER, LADDER, RING, RING, RING, CROWD]);
    let manner = random.pick(&[ALL, ALL, MIXED, MIXED, DEEP, DEEP]);
    let shape = Shape { states: (shape.states.0, shape.states.1.min(7)), always: random.pick(&[0, 40, 80]), ..shape };
    let class = moving_class(random, &shape, &manner);
    let sheet = bodies_of(&class, random.chance(50)).sheet();
    match random.below(40) {
        0 => large_phase(random),
        1..=15 => telling_phase(random, sheet, &class),
        16..=23 => good_of_kind(random, 2, sheet, &class),
        24..=27 => short_phase(random, sheet, &class),
        _ => good_of_kind(random, 4, sheet, &class),
    }
}

/// A command in a class whose states have commands that send and move; now and then in a large sheet.
fn commanded(random: &mut Random) -> Question {
    if random.chance(2) {
        return large_command(random);
    }
    let classes: Vec<Class> = (0..4).map(|_| {
        let shape = random.pick(&[SMALL, WHOLE, WHOLE, BUSY, LADDER, LADDER, RING, RING, RING, CROWD]);
        let manner = random.pick(&[ALL, SENDING, SENDING, MIXED, DEEP]);
        let shape = Shape { states: (shape.states.0, shape.states.1.min(7)), always: random.pick(&[0, 40, 80]), ..shape };
        commanded_class(random, &shape, &manner)
    }).collect();
    if random.chance(30) { short_command(random, &classes) } else { telling_command(random, &classes) }
}

/// A command in a large sheet.
fn large_command(random: &mut Random) -> Question {
    let sheet = large(random).sheet();
    match judge(&sheet) {
        Ok(class) => good_of_kind(random, 3, sheet, &class),
        Err(_) => Question::Judge { sheet },
    }
}

/// A phase about a large sheet.
fn large_phase(random: &mut Random) -> Question {
    let sheet = large(random).sheet();
    match judge(&sheet) {
        Ok(class) => telling_phase(random, sheet, &class),
        Err(_) => Question::Judge { sheet },
    }
}

/// How much of a phase there is to be told; a loop counts as two moves.
fn telling(class: &Class, list: &[u8], state: u8) -> (usize, usize) {
    match phase(class, &children_in(list), state) {
        Phase::Settled { moves, sent, .. } => (moves, sent.len()),
        Phase::Loop { .. } => (2, 0),
    }
}

/// The phase that makes the most moves, of a few.
fn telling_phase(random: &mut Random, sheet: Vec<u8>, class: &Class) -> Question {
    let asked: Vec<(Vec<u8>, u8)> = (0..6).map(|_| (list(random, class), state(random, class))).collect();
    let most = asked.into_iter().max_by_key(|(list, state)| telling(class, list, *state));
    let (list, state) = most.unwrap_or_default();
    phase_of(random, sheet, class, list, state)
}

/// A question about a sheet whose guards share records.
fn overlapping(random: &mut Random) -> Question {
    let sheet = shared(random).sheet();
    match judge(&sheet) {
        Ok(class) => good(random, sheet, &class),
        Err(_) => Question::Judge { sheet },
    }
}

/// A question about a sheet with a guard or an if as deep as allowed, one less or one more.
fn near_limit(random: &mut Random) -> Question {
    let class = match random.below(2) {
        0 => { let depth = random.pick(&[15, 16, 16, 16, 17]); guards_of_depth(random, depth) }
        _ => { let depth = random.pick(&[7, 8, 8, 8, 9]); ifs_of_depth(random, depth) }
    };
    let sheet = bodies_of(&class, random.chance(50)).sheet();
    let kind = random.pick(&[0, 1, 2, 2, 3, 3, 4]);
    good_of_kind(random, kind, sheet, &class)
}

/// A question about a sheet with damage aimed at one rule.
fn damaged(random: &mut Random) -> Question {
    let rule = random.byte(1, 9);
    let class = class(random, &WHOLE);
    let mut bodies = bodies_of(&class, random.chance(50));
    let sheet = match rule {
        1 => damage_length(random, &bodies),
        2 => damage_contents(random, &bodies),
        _ => {
            damage_records(random, rule, &class, &mut bodies);
            bodies.sheet()
        }
    };
    good(random, sheet, &class)
}

/// A question about a sheet with damage aimed at several rules; the question may be wrong as well.
fn many_faults(random: &mut Random) -> Question {
    let class = class(random, &WHOLE);
    let mut bodies = bodies_of(&class, random.chance(50));
    for _ in 0..random.between(1, 4) {
        let rule = random.byte(3, 9);
        damage_records(random, rule, &class, &mut bodies);
    }
    let sheet = match random.below(10) {
        0 => damage_length(random, &bodies),
        1 => damage_contents(random, &bodies),
        _ => bodies.sheet(),
    };
    if random.chance(50) {
        let rules = random.pick(&[[10, 10], [10, 11], [11, 12], [12, 12]]);
        return bad_input(random, &rules, sheet, &class);
    }
    good(random, sheet, &class)
}

/// Changes a few bytes of a sheet at random.
pub fn scatter(random: &mut Random, sheet: &mut [u8]) {
    for _ in 0..random.pick(&[1, 1, 1, 2, 3]) {
        let at = random.below(sheet.len());
        sheet[at] = match random.below(4) {
            0 => sheet[at].wrapping_add(1),
            1 => sheet[at].wrapping_sub(1),
            2 => sheet[at] ^ (1 << random.below(8)),
            _ => random.byte(0, 255),
        };
    }
}

/// A question about a changed sheet: about the class it stands for now, or about the one it stood for.
fn about_changed(random: &mut Random, sheet: Vec<u8>, before: &Class) -> Question {
    match judge(&sheet) {
        Ok(changed) => good(random, sheet, &changed),
        Err(_) => good(random, sheet, before),
    }
}

/// A question about a sheet in which a few bytes were changed at random.
fn scattered(random: &mut Random) -> Question {
    let class = class(random, &WHOLE);
    let mut sheet = bodies_of(&class, random.chance(50)).sheet();
    scatter(random, &mut sheet);
    about_changed(random, sheet, &class)
}

/// A question about a sheet in which counts were moved from one record to another, so that every sum stays what it was.
fn shifted(random: &mut Random) -> Question {
    let class = class(random, &Shape { states: (2, 4), actions: (1, 2), statements: (1, 5), ..WHOLE });
    let mut bodies = bodies_of(&class, random.chance(50));
    shift_counts(random, &mut bodies);
    about_changed(random, bodies.sheet(), &class)
}

/// A good sheet, but a question that breaks one or more of the rules 10 to 15.
fn wrongly_asked(random: &mut Random) -> Question {
    let shape = random.pick(&[SMALL, WHOLE, BUSY]);
    let class = perhaps_moving(random, &shape);
    let sheet = bodies_of(&class, true).sheet();
    match random.below(14) {
        0 | 1 => bad_input(random, &[10], sheet, &class),
        2 => bad_input(random, &[11], sheet, &class),
        3 => bad_input(random, &[12], sheet, &class),
        4 => {
            let rules = random.pick(&[[10, 11], [11, 12], [10, 12]]);
            bad_input(random, &rules, sheet, &class)
        }
        5 | 6 => absent_class(random, sheet, &class, NAMES_IN_PASSING),
        7 | 8 => too_many_names(random),
        9 => everyone(random, sheet, &class, true),
        10 | 11 => short_phase(random, sheet, &class),
        _ => short_command(random, &[class]),
    }
}

/// A loop question on 21 names or more, now and then with an absent class or a short buffer besides.
fn too_many_names(random: &mut Random) -> Question {
    let total = random.pick(&[21, 21, 22, 25, 32, 52]);
    let class = many_names(random, total, &SMALL);
    let sheet = bodies_of(&class, true).sheet();
    match random.below(4) {
        0 => absent_class(random, sheet, &class, usize::MAX),
        1 => everyone(random, sheet, &class, true),
        _ => everyone(random, sheet, &class, false),
    }
}

/// A loop question on up to twelve names.
fn twelve_names(random: &mut Random) -> Question {
    let total = random.between(7, 12);
    let shape = random.pick(&[RING, LADDER]);
    on_names(random, total, &Shape { states: (1, 4), depth: 2, ..shape })
}

/// A loop question on a class in which one configuration alone makes a loop, or makes the most moves.
fn one_configuration(random: &mut Random) -> Question {
    let total = random.between(1, 12);
    let class = pinned(random, total);
    let sheet = bodies_of(&class, random.chance(50)).sheet();
    everyone(random, sheet, &class, false)
}

/// A question about a large sheet, good or changed.
fn big(random: &mut Random) -> Question {
    let mut bodies = large(random);
    let mut sheet = bodies.sheet();
    let Ok(class) = judge(&sheet) else { return Question::Judge { sheet } };
    match random.below(10) {
        0..=5 => return good(random, sheet, &class),
        6 | 7 => scatter(random, &mut sheet),
        8 => sheet = damage_contents(random, &bodies),
        _ => {
            shift_counts(random, &mut bodies);
            sheet = bodies.sheet();
        }
    }
    about_changed(random, sheet, &class)
}

/// One of the questions that take long: many names, or many children.
fn heavy(random: &mut Random, turn: u64) -> Question {
    let few = Shape { states: (1, 2), clauses: (1, 2), depth: 1, actions: (0, 0), ..RING };
    let steps = Shape { states: (2, 4), style: Style::Upwards, ..few };
    let plain = Shape { states: (2, 2), clauses: (1, 1), depth: 0, style: Style::Upwards, ..few };
    match turn % 40 {
        0 => on_names(random, 20, &plain),
        1 | 2 => on_names(random, 13, &few),
        3 => on_names(random, 13, &steps),
        4 | 5 => on_names(random, 14, &few),
        6 => on_names(random, 14, &steps),
        7 => on_names(random, 15, &few),
        8 => on_names(random, 15, &steps),
        9 => on_names(random, 16, &few),
        10 => on_names(random, 16, &steps),
        11 => on_names(random, 17, &steps),
        12 => on_names(random, 18, &steps),
        13 => on_names(random, 19, &few),
        14 => on_names(random, 20, &few),
        15..=17 => early_loop(random, 20),
        18 => early_loop(random, 19),
        19 => on_names(random, 21, &few),
        20 => brimful(random, LONGEST_LINE),
        21 => brimful(random, LONGEST_LINE + 1),
        22 => brimful(random, FORMER_LONGEST_LINE),
        23 => brimful(random, FORMER_LONGEST_LINE + 1),
        24 => brimful_phase(random, LONGEST_LINE),
        25 => brimful_phase(random, LONGEST_LINE + 1),
        26..=29 => long_phase(random),
        30..=34 => long_command(random, turn % 5),
        35 => brimful_command(random, LONGEST_LINE),
        36 => brimful_command(random, LONGEST_LINE + 1),
        _ => long_list(random),
    }
}

/// A loop question on exactly this many names.
fn on_names(random: &mut Random, total: usize, shape: &Shape) -> Question {
    let mut class = many_names(random, total, shape);
    if random.chance(50) {
        by_do(random, shape.style, &MIXED, &mut class);
    }
    let sheet = bodies_of(&class, true).sheet();
    everyone(random, sheet, &class, false)
}

/// A loop question on many names whose answer is a small configuration, if it is a loop at all.
fn early_loop(random: &mut Random, total: usize) -> Question {
    loop {
        let mut class = many_names(random, total, &Shape { states: (2, 3), clauses: (2, 4), depth: 1, ..RING });
        by_do(random, Style::Ring, &MIXED, &mut class);
        let first = |names: &Names| *names.iter().next().unwrap_or(&0);
        let lowest: Vec<Child> = class.children.iter().zip(0..).map(|(names, number)| (number, first(names))).collect();
        if matches!(phase(&class, &lowest, 0), Phase::Loop { .. }) {
            let sheet = bodies_of(&class, true).sheet();
            return everyone(random, sheet, &class, false);
        }
    }
}

/// A loop question on a line of this length; two digits for the present classes make it odd.
fn brimful(random: &mut Random, length: usize) -> Question {
    let class = class(random, &RING);
    let sheet = bodies_of(&class, true).sheet();
    let present = if length % 2 == 0 { 1 } else { 10 };
    let bare = Question::Loop { sheet: sheet.clone(), present, buffer: vec![0] }.line().len() - 2;
    let buffer = random.bytes((length - bare) / 2);
    Question::Loop { sheet, present, buffer }
}

/// A phase on a line of this length; the hyphen of an empty list makes it odd.
fn brimful_phase(random: &mut Random, length: usize) -> Question {
    let class = moving_class(random, &Shape { states: (2, 6), ..LADDER }, &ALL);
    let sheet = bodies_of(&class, true).sheet();
    let list = if length % 2 == 0 { children_of(random, &class, 9) } else { Vec::new() };
    let bare = Question::Phase { sheet: sheet.clone(), list: list.clone(), state: 0, buffer: vec![0] }.line().len() - 2;
    let buffer = random.bytes((length - bare) / 2);
    Question::Phase { sheet, list, state: 0, buffer }
}

/// A question with as many children as there may be, or with places of more than one byte.
fn long_list(random: &mut Random) -> Question {
    let class = class(random, &Shape { statements: (1, 3), actions: (1, 2), ..WHOLE });
    let sheet = bodies_of(&class, true).sheet();
    let length = random.pick(&[4096, 4096, 4095, 1000]);
    let list = children_of(random, &class, length);
    let state = random.below(class.states.len()) as u8;
    match random.below(5) {
        0 => long_phase_of(random, sheet, &class, list, state),
        _ => {
            let command = class.states[usize::from(state)].actions[0].command;
            long_command_of(random, sheet, &class, list, state, command)
        }
    }
}

/// A phase that sends much to many children, by many DOs: of a few, the one that sends most, or any.
fn long_phase(random: &mut Random) -> Question {
    let shape = random.pick(&[LADDER, LADDER, LADDER, RING]);
    let shape = Shape { classes: (1, 2), states: (4, 10), clauses: (1, 1), always: 90, actions: (0, 0), ..shape };
    let length = random.pick(&[4096, 4096, 4095, 1000]);
    let tries = random.pick(&[1, 8, 8]);
    let asked: Vec<(Class, Vec<u8>)> = (0..tries).map(|_| {
        let class = moving_class(random, &shape, &Manner { percent: 90, sends: 3, ..ALL });
        let list = children_of(random, &class, length);
        (class, list)
    }).collect();
    let most = asked.into_iter().max_by_key(|(class, list)| room_of_phase(class, list, 0));
    let Some((class, list)) = most else { return long_list(random) };
    let sheet = bodies_of(&class, true).sheet();
    long_phase_of(random, sheet, &class, list, 0)
}

/// A phase over many children, with just enough room for what it sends, now and then a byte less, or none.
fn long_phase_of(random: &mut Random, sheet: Vec<u8>, class: &Class, list: Vec<u8>, state: u8) -> Question {
    let room = room_of_phase(class, &list, state).unwrap_or(0);
    let length = match random.below(10) {
        0 => 0,
        1 => room.saturating_sub(1),
        _ => room,
    };
    Question::Phase { sheet, list, state, buffer: random.bytes(length.min(MOST_LENT)) }
}

/// A command to many children, of which it or the phase behind it sends to each many times.
fn long_command(random: &mut Random, turn: u64) -> Question {
    let (class, command) = long_commands(random, turn);
    let length = random.pick(&[4096, 4096, 4095]);
    let list = children_of(random, &class, length);
    let sheet = bodies_of(&class, true).sheet();
    long_command_of(random, sheet, &class, list, 0, command)
}

/// A command to many children, with just enough room for all that is written, now and then a byte less, or what 16 bits would make of it.
fn long_command_of(random: &mut Random, sheet: Vec<u8>, class: &Class, list: Vec<u8>, state: u8, command: u8) -> Question {
    let room = request_on(class, &list, state, command).map_or(0, |request| request.writes().len());
    let length = match random.below(5) {
        0 => room.saturating_sub(1),
        1 => room % 65_536,
        _ => room,
    };
    Question::Command { sheet, list, state, command, buffer: random.bytes(length.min(MOST_LENT)) }
}

/// A command on a line of this length; two digits for the command make it odd.
fn brimful_command(random: &mut Random, length: usize) -> Question {
    let class = commanded_class(random, &Shape { states: (2, 6), ..LADDER }, &ALL);
    let sheet = bodies_of(&class, true).sheet();
    let list = children_of(random, &class, 9);
    let command = if length % 2 == 0 { 1 } else { 10 };
    let bare = Question::Command { sheet: sheet.clone(), list: list.clone(), state: 0, command, buffer: vec![0] }.line().len() - 2;
    let buffer = random.bytes((length - bare) / 2);
    Question::Command { sheet, list, state: 0, command, buffer }
}

/// A line that is no question, or that is a different one by accident; or a phase without a buffer, as it once was asked.
fn bad_line(random: &mut Random) -> Vec<u8> {
    let class = class(random, &WHOLE);
    let sheet = bodies_of(&class, true).sheet();
    if random.chance(10) {
        let mut line = good_of_kind(random, 2, sheet, &class).line().into_bytes();
        line.truncate(line.iter().rposition(|byte| *byte == b' ').unwrap_or(0));
        return line;
    }
    let line = good(random, sheet, &class).line().into_bytes();
    spoil_line(random, line)
}

/// Spoils a line in one of the ways in which a line is no question.
pub fn spoil_line(random: &mut Random, mut line: Vec<u8>) -> Vec<u8> {
    let last = line.len() - 1;
    match random.below(12) {
        0 => line.clear(),
        1 => line.insert(0, b' '),
        2 => line.push(b' '),
        3 => line.push(random.pick(b"\r\t;")),
        4 => line[0] = random.pick(b"JxP\xff\x00"),
        5 => line.extend_from_slice(b" 1"),
        6 => line.truncate(line.iter().position(|byte| *byte == b' ').unwrap_or(0)),
        7 => line.extend_from_slice(b" 00"),
        8 => line[last] = random.pick(b"gA./:@`G\x80"),
        9 => line.retain(|byte| *byte != b' '),
        10 => line.truncate(random.below(line.len())),
        _ => {
            let at = random.below(line.len());
            line.insert(at, random.pick(b" -gZ"));
        }
    }
    line
}
