//! Random classes of many shapes, as trees that keep every rule.

use crate::random::Random;
use crate::tree::{Action, Atom, Clause, Class, Guard, Names, Pattern, Quantifier, Referrer, State, Statement};

/// Where the moves of a class lead.
#[derive(Clone, Copy, PartialEq)]
pub enum Style {
    /// To any state.
    Anywhere,
    /// To higher states only: no loop, many moves.
    Upwards,
    /// To the next state, and now and then back: loops that few configurations make.
    Ring,
}

/// The sizes of a random class; pairs are the least and the most.
#[derive(Clone, Copy)]
pub struct Shape {
    pub classes: (usize, usize),
    pub names: (usize, usize),
    pub states: (usize, usize),
    pub clauses: (usize, usize),
    pub depth: usize,
    pub actions: (usize, usize),
    pub statements: (usize, usize),
    /// So many when guards in a hundred are true of every list.
    pub always: usize,
    pub style: Style,
}

/// A few small states and guards.
pub const SMALL: Shape = Shape {
    classes: (0, 3),
    names: (1, 4),
    states: (1, 5),
    clauses: (0, 4),
    depth: 3,
    actions: (0, 3),
    statements: (0, 4),
    always: 0,
    style: Style::Anywhere,
};

/// At least one record in each body, so that each can be damaged.
pub const WHOLE: Shape = Shape { classes: (1, 3), states: (1, 4), clauses: (1, 3), depth: 2, actions: (1, 3), statements: (1, 4), ..SMALL };

/// No loop, many states.
pub const LADDER: Shape = Shape { classes: (1, 3), states: (2, 12), clauses: (1, 3), actions: (0, 1), style: Style::Upwards, ..SMALL };

/// Loops in few configurations.
pub const RING: Shape = Shape { classes: (1, 2), names: (2, 5), states: (2, 6), clauses: (1, 3), actions: (0, 1), style: Style::Ring, ..SMALL };

/// Commands with much in them.
pub const BUSY: Shape = Shape { classes: (1, 4), states: (1, 3), clauses: (0, 2), actions: (1, 5), statements: (1, 7), ..SMALL };

/// Many states and long walks, with and without a way back.
pub const TALL: Shape = Shape { classes: (1, 2), names: (1, 3), states: (16, 32), clauses: (1, 2), depth: 1, always: 60, ..LADDER };
pub const ROUND: Shape = Shape { style: Style::Ring, always: 75, ..TALL };

/// Many child classes, few names each.
pub const CROWD: Shape = Shape { classes: (4, 8), names: (1, 2), states: (1, 4), clauses: (1, 3), ..SMALL };

/// This many names out of 32.
pub fn names(random: &mut Random, count: usize) -> Names {
    if random.chance(50) {
        return (0..count as u8).collect();
    }
    let mut names = Names::new();
    while names.len() < count {
        names.insert(random.byte(0, 31));
    }
    names
}

/// A name set for an atom: names of a class, names that it lacks, or anything.
fn atom_names(random: &mut Random, own: &Names) -> Names {
    let own: Vec<u8> = own.iter().copied().collect();
    let mut set: Names = match random.below(10) {
        0..=3 => own.iter().copied().filter(|_| random.chance(50)).collect(),
        4 | 5 => own.iter().copied().filter(|_| random.chance(80)).collect(),
        6 => own.iter().copied().collect(),
        7 => (0..32).filter(|name| !own.contains(name)).collect(),
        8 => (0..32).filter(|_| random.chance(50)).collect(),
        _ => Names::new(),
    };
    if set.is_empty() {
        set.insert(if own.is_empty() { random.byte(0, 31) } else { random.pick(&own) });
    }
    set
}

/// A pattern that the class knows.
pub fn pattern(random: &mut Random, classes: usize) -> Pattern {
    if classes == 0 || random.chance(25) { Pattern::Everyone } else { Pattern::Class(random.below(classes) as u8) }
}

/// A random atom.
pub fn atom(random: &mut Random, children: &[Names]) -> Atom {
    let pattern = pattern(random, children.len());
    let own = match pattern {
        Pattern::Class(class) => children[usize::from(class)].clone(),
        Pattern::Everyone if children.is_empty() => Names::new(),
        Pattern::Everyone => random.pick(children),
    };
    let names = atom_names(random, &own);
    Atom { quantifier: random.pick(&[Quantifier::Any, Quantifier::All]), inside: random.chance(50), pattern, names }
}

/// A random guard with at most this many operators on a path.
pub fn guard(random: &mut Random, children: &[Names], depth: usize) -> Guard {
    if depth == 0 || random.chance(45) {
        return Guard::Atom(atom(random, children));
    }
    let left = Box::new(guard(random, children, depth - 1));
    match random.below(3) {
        0 => Guard::And(left, Box::new(guard(random, children, depth - 1))),
        1 => Guard::Or(left, Box::new(guard(random, children, depth - 1))),
        _ => Guard::Not(left),
    }
}

/// A guard that is true of every list: all of the pattern's children are in names that they cannot but be in.
pub fn true_guard(random: &mut Random, children: &[Names]) -> Guard {
    let pattern = pattern(random, children.len());
    let names = match pattern {
        Pattern::Class(class) if random.chance(50) => children[usize::from(class)].clone(),
        _ => (0..32).collect(),
    };
    Guard::Atom(Atom { quantifier: Quantifier::All, inside: true, pattern, names })
}

/// A guard with exactly this many operators on its longest path.
pub fn deep_guard(random: &mut Random, children: &[Names], depth: usize) -> Guard {
    if depth == 0 {
        return Guard::Atom(atom(random, children));
    }
    let long = Box::new(deep_guard(random, children, depth - 1));
    let short = Box::new(guard(random, children, (depth - 1).min(2)));
    match random.below(5) {
        0 => Guard::And(long, short),
        1 => Guard::And(short, long),
        2 => Guard::Or(long, short),
        3 => Guard::Or(short, long),
        _ => Guard::Not(long),
    }
}

/// The target of a move from a state.
fn target(random: &mut Random, style: Style, from: usize, states: usize) -> Option<u8> {
    match style {
        Style::Anywhere => Some(random.below(states) as u8),
        Style::Upwards if from + 1 == states => None,
        Style::Upwards if random.chance(85) => Some(from as u8 + 1),
        Style::Upwards => Some(random.between(from + 1, states - 1) as u8),
        Style::Ring if random.chance(80) => Some(((from + 1) % states) as u8),
        Style::Ring => Some(random.below(states) as u8),
    }
}

/// What a when clause of a state leads to.
fn referrer(random: &mut Random, shape: &Shape, from: usize, states: usize, actions: usize) -> Referrer {
    let percent = if shape.style == Style::Anywhere { 55 } else { 85 + shape.always / 6 };
    if random.chance(percent) {
        if let Some(target) = target(random, shape.style, from, states) {
            return Referrer::MoveTo(target);
        }
    }
    if actions > 0 && random.chance(60) { Referrer::Do(random.below(actions) as u8) } else { Referrer::Stay }
}

/// Random statements, with ifs inside them that nest at most this deep.
pub fn statements(random: &mut Random, children: &[Names], states: usize, most: (usize, usize), ifs: usize) -> Vec<Statement> {
    let count = random.between(most.0, most.1);
    let mut list = Vec::new();
    for _ in 0..count {
        list.push(match random.below(10) {
            0 | 1 if random.chance(60) => Statement::MoveTo(random.below(states) as u8),
            2..=5 if ifs > 0 => Statement::If {
                guard: guard(random, children, 2),
                then: statements(random, children, states, (0, 2), ifs - 1),
                other: statements(random, children, states, (0, 2), ifs - 1),
            },
            _ => Statement::Send { command: random.byte(0, 63), pattern: pattern(random, children.len()) },
        });
    }
    list
}

/// This many different commands.
pub fn commands(random: &mut Random, count: usize) -> Vec<u8> {
    let mut all: Vec<u8> = (0..64).collect();
    (0..count).map(|_| all.remove(random.below(all.len()))).collect()
}

/// One own state of a class.
fn state(random: &mut Random, shape: &Shape, children: &[Names], number: usize, states: usize) -> State {
    let wanted = random.between(shape.actions.0, shape.actions.1);
    let bodies = commands(random, wanted).into_iter();
    let actions: Vec<Action> = bodies.map(|command| Action { command, body: statements(random, children, states, shape.statements, 3) }).collect();
    let wanted = random.between(shape.clauses.0, shape.clauses.1);
    let clauses = (0..wanted).map(|_| Clause {
        guard: if random.chance(shape.always) { true_guard(random, children) } else { guard(random, children, shape.depth) },
        referrer: referrer(random, shape, number, states, actions.len()),
    });
    let clauses = clauses.collect();
    State { clauses, actions }
}

/// A random class of a shape.
pub fn class(random: &mut Random, shape: &Shape) -> Class {
    let classes = random.between(shape.classes.0, shape.classes.1);
    let mut children = Vec::new();
    for _ in 0..classes {
        let count = random.between(shape.names.0, shape.names.1);
        children.push(names(random, count));
    }
    class_over(random, shape, children)
}

/// A random class of a shape over given child classes.
pub fn class_over(random: &mut Random, shape: &Shape, children: Vec<Names>) -> Class {
    let states = random.between(shape.states.0, shape.states.1);
    let states = (0..states).map(|number| state(random, shape, &children, number, states)).collect();
    Class { children, states }
}
