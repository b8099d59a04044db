//! Sheets at the limits of the tables, and guards that share records.

use crate::moving::{add_action, sends};
use crate::random::Random;
use crate::shapes::{atom, class, class_over, commands, deep_guard, names, pattern, statements, true_guard, Shape, LADDER, WHOLE};
use crate::tree::{Action, Atom, Clause, Class, Guard, Names, Pattern, Quantifier, Referrer, State, Statement};
use crate::writing::{atom_record, bodies_of, name_bytes, pattern_byte, Bodies, ACTIONS, CLASSES, GUARDS, STATEMENTS, STATES, WHENS};

/// A class with one when guard and one if guard whose longest path has this many operators.
pub fn guards_of_depth(random: &mut Random, depth: usize) -> Class {
    let mut class = class(random, &WHOLE);
    let children = class.children.clone();
    let at = random.below(class.states.len());
    let state = &mut class.states[at];
    let clause = random.below(state.clauses.len());
    state.clauses[clause].guard = deep_guard(random, &children, depth);
    let guard = deep_guard(random, &children, depth);
    let action = random.below(state.actions.len());
    state.actions[action].body.insert(0, Statement::If { guard, then: vec![], other: vec![] });
    class
}

/// An if inside an if, this many of them; each lies in a then-part or in an else-part.
pub fn nest(random: &mut Random, children: &[Names], depth: usize, states: usize) -> Vec<Statement> {
    let mut list = statements(random, children, states, (0, 1), 0);
    if depth > 0 {
        let guard = Guard::Atom(atom(random, children));
        let inner = nest(random, children, depth - 1, states);
        let beside = statements(random, children, states, (0, 1), 0);
        let (then, other) = if random.chance(50) { (inner, beside) } else { (beside, inner) };
        let at = random.below(list.len() + 1);
        list.insert(at, Statement::If { guard, then, other });
    }
    list
}

/// A class with ifs that nest this deep; often every phase in their state runs them.
pub fn ifs_of_depth(random: &mut Random, depth: usize) -> Class {
    let mut class = class(random, &WHOLE);
    let (children, states) = (class.children.clone(), class.states.len());
    let at = random.below(states);
    let body = nest(random, &children, depth, states);
    let state = &mut class.states[at];
    let action = random.below(state.actions.len());
    state.actions[action].body = body;
    if random.chance(50) {
        state.clauses.insert(0, Clause { guard: true_guard(random, &children), referrer: Referrer::Do(action as u8) });
    }
    class
}

/// One to four child classes with this many names in all (each has at most 32).
fn child_classes(random: &mut Random, total: usize) -> Vec<Names> {
    let parts = random.between(total.div_ceil(32), total.min(4));
    let mut children = Vec::new();
    let mut left = total;
    for rest in (0..parts).rev() {
        let least = left.saturating_sub(32 * rest).max(1);
        let most = (left - rest).min(32);
        let count = if rest == 0 { left } else { random.between(least, most) };
        children.push(names(random, count));
        left -= count;
    }
    children
}

/// A class with this many names in all.
pub fn many_names(random: &mut Random, total: usize, shape: &Shape) -> Class {
    let children = child_classes(random, total);
    class_over(random, shape, children)
}

/// A guard that says whether some child of the class has the name.
fn pin(random: &mut Random, class: u8, name: u8, occupied: bool) -> Guard {
    let quantifier = random.pick(&[Quantifier::Any, Quantifier::All]);
    let inside = quantifier == Quantifier::Any;
    let atom = Guard::Atom(Atom { quantifier, inside, pattern: Pattern::Class(class), names: Names::from([name]) });
    if occupied == inside { atom } else { Guard::Not(Box::new(atom)) }
}

/// All of the guards.
fn all_of(guards: &[Guard]) -> Guard {
    match guards {
        [one] => one.clone(),
        _ => {
            let (left, right) = guards.split_at(guards.len() / 2);
            Guard::And(Box::new(all_of(left)), Box::new(all_of(right)))
        }
    }
}

/// Guards that are all true of one configuration, and of no other.
fn pins(random: &mut Random, children: &[Names]) -> Vec<Guard> {
    let everything = random.chance(30);
    let mut pins = Vec::new();
    for (number, names) in children.iter().enumerate() {
        for name in names {
            let occupied = everything || random.chance(50);
            pins.push(pin(random, number as u8, *name, occupied));
        }
    }
    pins
}

/// A class in which one configuration alone makes every state move on; with a way back from the last state, or without.
pub fn pinned(random: &mut Random, total: usize) -> Class {
    let shape = Shape { states: (2, 4), clauses: (0, 2), depth: 1, actions: (0, 0), ..LADDER };
    let mut class = many_names(random, total, &shape);
    let pins = pins(random, &class.children);
    let (count, back, percent) = (class.states.len(), random.chance(50), random.pick(&[0, 50, 100]));
    for (number, state) in class.states.iter_mut().enumerate() {
        let target = ((number + 1) % count) as u8;
        if !back && target == 0 {
            continue;
        }
        if random.chance(percent) {
            pinned_do(random, state, &class.children, &pins, target);
        } else {
            state.clauses.insert(0, Clause { guard: all_of(&pins), referrer: Referrer::MoveTo(target) });
        }
    }
    class
}

/// Gives a state a DO that moves where all of the guards are true: its when clause asks for some of them, ifs for the others.
fn pinned_do(random: &mut Random, state: &mut State, children: &[Names], pins: &[Guard], target: u8) {
    let (mut asked, mut others) = (Vec::new(), Vec::new());
    for pin in pins {
        if random.chance(30) { asked.push(pin.clone()) } else { others.push(pin.clone()) }
    }
    let mut body = vec![Statement::MoveTo(target)];
    let size = others.len().div_ceil(8).max(random.between(1, 3));
    for part in others.chunks(size) {
        let (guard, beside) = (all_of(part), sends(random, children, 1));
        body = vec![match random.below(2) {
            0 => Statement::If { guard, then: body, other: beside },
            _ => Statement::If { guard: Guard::Not(Box::new(guard)), then: beside, other: body },
        }];
    }
    let guard = if asked.is_empty() { true_guard(random, children) } else { all_of(&asked) };
    let number = add_action(random, state, body);
    state.clauses.insert(0, Clause { guard, referrer: Referrer::Do(number) });
}

/// Statements that send more than 65,535 bytes to 4,095 children or more.
fn many_sends(random: &mut Random) -> Vec<Statement> {
    let count = random.between(6, 8);
    (0..count).map(|_| Statement::Send { command: random.byte(0, 63), pattern: Pattern::Everyone }).collect()
}

/// A class in which a command in state 0 and the phase behind it both send much, in one of five ways; and the command.
pub fn long_commands(random: &mut Random, way: u64) -> (Class, u8) {
    let children = child_classes(random, 3);
    let known = commands(random, 3);
    let (own, other, unknown) = (known[0], known[1], known[2]);
    let (mut run, mut done) = (many_sends(random), many_sends(random));
    let (here, there, asked) = match way {
        0 => (Referrer::Do(0), Referrer::Stay, own), // the phase runs the command's clause again
        1 => (Referrer::Do(1), Referrer::Stay, own), // it runs another one of the state
        2 => {
            run.push(Statement::MoveTo(1));
            (Referrer::Stay, Referrer::Do(0), own) // it runs one of the state that the command leaves
        }
        3 => {
            done.push(Statement::MoveTo(1));
            (Referrer::Do(1), Referrer::MoveTo(0), own) // it loops, and sends on the ring
        }
        _ => (Referrer::Do(1), Referrer::Stay, unknown), // the command is ignored
    };
    let mut clauses = |referrer| vec![Clause { guard: true_guard(random, &children), referrer }];
    let action = |command, body: &[Statement]| Action { command, body: body.to_vec() };
    let first = State { clauses: clauses(here), actions: vec![action(own, &run), action(other, &done)] };
    let second = State { clauses: clauses(there), actions: vec![action(own, &done)] };
    (Class { children, states: vec![first, second] }, asked)
}

/// Random guard records of which most begin a guard; operators and atoms are mixed, so guards overlap.
pub fn pool(random: &mut Random, children: &[Names], count: usize, operators: usize) -> Vec<u8> {
    let mut records = Vec::new();
    for _ in 0..count {
        if random.chance(operators) {
            records.extend_from_slice(&[random.byte(4, 6), 0, 0, 0, 0, 0, 0, 0]);
        } else {
            records.extend_from_slice(&atom_record(&atom(random, children)));
        }
    }
    records
}

/// Where the guard that begins at a record of a pool ends, and how many operators lie on its longest path.
pub fn extent(pool: &[u8], at: usize) -> Option<(usize, usize)> {
    let kind = *pool.get(at * 8)?;
    if kind < 4 {
        return Some((at + 1, 0));
    }
    let (end, depth) = extent(pool, at + 1)?;
    if kind == 6 {
        return Some((end, depth + 1));
    }
    let (last, other) = extent(pool, end)?;
    Some((last, depth.max(other) + 1))
}

/// The records of a pool at which a good guard begins.
fn beginnings(pool: &[u8]) -> Vec<u16> {
    let good = |at: &usize| extent(pool, *at).is_some_and(|(_, depth)| depth <= 16);
    (0..pool.len() / 8).filter(good).map(|at| at as u16).collect()
}

/// A small sheet whose guards begin anywhere in a common pool of records.
pub fn shared(random: &mut Random) -> Bodies {
    let class = class(random, &Shape { depth: 0, ..WHOLE });
    let mut bodies = bodies_of(&class, false);
    let (count, operators) = (random.between(3, 24), random.between(20, 60));
    bodies.0[GUARDS] = pool(random, &class.children, count, operators);
    if random.chance(50) {
        let last = atom_record(&atom(random, &class.children));
        bodies.push(GUARDS, &last);
    }
    let mut places = beginnings(&bodies.0[GUARDS]);
    if places.is_empty() {
        bodies.push(GUARDS, &[0, 255, 0, 0, 255, 255, 0, 0]);
        places.push(bodies.count(GUARDS) as u16 - 1);
    }
    if random.chance(20) {
        // one place more, at which perhaps no guard begins
        places.push(random.below(bodies.count(GUARDS)) as u16);
    }
    aim_guards(random, &mut bodies, &places);
    bodies
}

/// Gives every when clause and every if one of these guards.
fn aim_guards(random: &mut Random, bodies: &mut Bodies, places: &[u16]) {
    for at in 0..bodies.count(WHENS) {
        bodies.set_number(WHENS, at, 0, random.pick(places));
    }
    for at in 0..bodies.count(STATEMENTS) {
        if bodies.record(STATEMENTS, at)[0] == 2 {
            bodies.set_number(STATEMENTS, at, 2, random.pick(places));
        }
    }
}

/// How many records each body of a large sheet has.
#[derive(Clone, Copy)]
pub struct Counts {
    pub classes: usize,
    pub states: usize,
    pub whens: usize,
    pub guards: usize,
    pub actions: usize,
    pub statements: usize,
}

/// The counts of the longest sheet.
pub const MOST: Counts = Counts { classes: 8, states: 32, whens: 256, guards: 1024, actions: 256, statements: 1024 };

/// A sheet with exactly these counts, which may pass the table's. A clause needs a guard record, a statement an action clause.
pub fn counted(random: &mut Random, counts: Counts) -> Bodies {
    let mut bodies = Bodies::default();
    let mut children = Vec::new();
    for _ in 0..counts.classes {
        let count = random.between(1, 3);
        children.push(names(random, count));
        bodies.push(CLASSES, &name_bytes(&children[children.len() - 1]));
    }
    bodies.0[GUARDS] = pool(random, &children, counts.guards, 40);
    if counts.guards > 0 {
        let last = atom_record(&atom(random, &children));
        bodies.record(GUARDS, counts.guards - 1).copy_from_slice(&last);
    }
    let places = beginnings(&bodies.0[GUARDS]);
    let whens = share_out(random, counts.whens, counts.states, usize::MAX);
    let actions = share_out(random, counts.actions, counts.states, 64);
    for (whens, actions) in whens.into_iter().zip(actions) {
        bodies.push_state(whens, actions);
        for _ in 0..whens {
            let [low, high] = random.pick(&places).to_le_bytes();
            let (referrer, target) = when_target(random, counts.states, actions);
            bodies.push(WHENS, &[low, high, referrer, target]);
        }
        for command in commands(random, actions) {
            bodies.push(ACTIONS, &[command, 0, 0, 0]);
        }
    }
    let lengths = share_out(random, counts.statements, counts.actions, usize::MAX);
    for (action, length) in lengths.into_iter().enumerate() {
        bodies.set_number(ACTIONS, action, 2, length as u16);
        fill(random, &mut bodies, &places, length, 0);
    }
    bodies
}

/// Shares a total out over some parts, none of which takes more than the most.
fn share_out(random: &mut Random, total: usize, parts: usize, most: usize) -> Vec<usize> {
    let mut shares = vec![0; parts];
    let mut left = total;
    while left > 0 {
        let part = random.below(parts);
        if shares[part] < most {
            shares[part] += 1;
            left -= 1;
        }
    }
    shares
}

/// A referrer and a good target for it.
fn when_target(random: &mut Random, states: usize, actions: usize) -> (u8, u8) {
    match random.below(3) {
        0 if actions > 0 => (1, random.below(actions) as u8),
        1 if random.chance(50) => (2, 0),
        _ => (0, random.below(states) as u8),
    }
}

/// Writes statements that take exactly this many records, inside this many ifs.
fn fill(random: &mut Random, bodies: &mut Bodies, places: &[u16], length: usize, ifs: usize) {
    let (classes, states) = (bodies.count(CLASSES), bodies.count(STATES));
    let mut left = length;
    while left > 0 {
        left -= 1;
        if ifs < 8 && !places.is_empty() && random.chance(40) {
            let then = random.below(left + 1);
            let other = random.below(left - then + 1);
            let place = random.pick(places);
            bodies.push(STATEMENTS, &[2, 0, 0, 0, 0, 0, 0, 0]);
            let head = bodies.count(STATEMENTS) - 1;
            for (offset, value) in [(2, place), (4, then as u16), (6, other as u16)] {
                bodies.set_number(STATEMENTS, head, offset, value);
            }
            fill(random, bodies, places, then, ifs + 1);
            fill(random, bodies, places, other, ifs + 1);
            left -= then + other;
        } else if random.chance(15) {
            bodies.push(STATEMENTS, &[1, random.below(states) as u8, 0, 0, 0, 0, 0, 0]);
        } else {
            let pattern = pattern_byte(pattern(random, classes));
            bodies.push(STATEMENTS, &[0, random.byte(0, 63), pattern, 0, 0, 0, 0, 0]);
        }
    }
}

/// A large sheet: every count at its limit, or some of them far below.
pub fn large(random: &mut Random) -> Bodies {
    if random.chance(15) {
        return counted(random, MOST);
    }
    let mut some = |most: usize, least: usize| match random.below(4) {
        0 => most,
        1 => random.between(least, most),
        _ => random.between(least, least + most / 16),
    };
    let (classes, states, whens) = (some(8, 0), some(32, 5), some(256, 0));
    let counts = Counts { classes, states, whens, guards: some(1024, 1), actions: some(256, 1), statements: some(1024, 0) };
    counted(random, counts)
}
