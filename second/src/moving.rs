//! Classes whose DOs move: what a MOVE_TO did is done by an action clause, on every list or only where its ifs lead there.

use crate::random::Random;
use crate::shapes::{class, guard, pattern, true_guard, Shape, Style};
use crate::tree::{Action, Class, Clause, Guard, Names, Referrer, State, Statement};

/// How the moves of a class are made.
#[derive(Clone, Copy)]
pub struct Manner {
    /// So many MOVE_TOs in a hundred become DOs.
    pub percent: usize,
    /// At most so many ifs lie round a move_to.
    pub ifs: usize,
    /// So many of these ifs in a hundred lead to it on every list.
    pub sure: usize,
    /// At most so many commands are sent before and behind a move_to, and before each if.
    pub sends: usize,
}

/// Nothing but DOs, or a mix; few ifs or many; DOs that send much on their way.
pub const ALL: Manner = Manner { percent: 100, ifs: 1, sure: 50, sends: 2 };
pub const MIXED: Manner = Manner { percent: 50, ifs: 2, sure: 50, sends: 2 };
pub const SENDING: Manner = Manner { percent: 90, ifs: 1, sure: 80, sends: 3 };
pub const DEEP: Manner = Manner { percent: 80, ifs: 8, sure: 80, sends: 1 };

/// What an action clause is made for.
struct Way<'a> {
    children: &'a [Names],
    target: u8,
    /// Where a move_to may lead that is not the one meant.
    astray: Vec<u8>,
    manner: &'a Manner,
}

/// Up to so many commands to some children.
pub fn sends(random: &mut Random, children: &[Names], most: usize) -> Vec<Statement> {
    let count = random.below(most + 1);
    let last = random.pick(&[7, 63]);
    (0..count).map(|_| Statement::Send { command: random.byte(0, last), pattern: pattern(random, children.len()) }).collect()
}

/// What stands in the other part of an if: nothing, commands, a move elsewhere, or the same move.
fn beside(random: &mut Random, way: &Way) -> Vec<Statement> {
    let mut list = sends(random, way.children, way.manner.sends);
    match random.below(10) {
        0..=3 => list.clear(),
        4..=6 => {}
        7 => list.push(Statement::MoveTo(random.pick(&way.astray))),
        _ => list.push(Statement::MoveTo(way.target)),
    }
    list
}

/// An if between two parts, in any order; often it takes the first of them on every list.
fn branch(random: &mut Random, way: &Way, meant: Vec<Statement>, beside: Vec<Statement>) -> Statement {
    let guard = if random.chance(way.manner.sure) { true_guard(random, way.children) } else { guard(random, way.children, 1) };
    match random.below(2) {
        0 => Statement::If { guard, then: meant, other: beside },
        _ => Statement::If { guard: Guard::Not(Box::new(guard)), then: beside, other: meant },
    }
}

/// Statements with a move_to inside so many ifs, commands before and behind it.
fn lead(random: &mut Random, way: &Way, ifs: usize) -> Vec<Statement> {
    let mut list = sends(random, way.children, way.manner.sends);
    if ifs == 0 {
        list.push(Statement::MoveTo(way.target));
    } else {
        let (inner, beside) = (lead(random, way, ifs - 1), beside(random, way));
        list.push(branch(random, way, inner, beside));
    }
    if random.chance(50) {
        list.extend(sends(random, way.children, way.manner.sends));
    }
    if random.chance(15) {
        list.push(Statement::MoveTo(random.pick(&way.astray)));
    }
    list
}

/// A command that the state has no clause for.
fn free_command(random: &mut Random, state: &State) -> u8 {
    let free: Vec<u8> = (0..64).filter(|command| state.actions.iter().all(|action| action.command != *command)).collect();
    random.pick(&free)
}

/// Adds an action clause to a state, at any place among the others; their numbers in the when clauses follow. Gives its own.
pub fn add_action(random: &mut Random, state: &mut State, body: Vec<Statement>) -> u8 {
    let action = Action { command: free_command(random, state), body };
    let at = random.below(state.actions.len() + 1);
    state.actions.insert(at, action);
    for clause in &mut state.clauses {
        if let Referrer::Do(number) = &mut clause.referrer {
            *number += u8::from(usize::from(*number) >= at);
        }
    }
    at as u8
}

/// The statements of an action clause that does what a MOVE_TO did; now and then it leads to the own state, but not where moves go upwards.
fn instead(random: &mut Random, style: Style, manner: &Manner, class: &Class, here: u8, target: u8) -> Vec<Statement> {
    let target = if style != Style::Upwards && random.chance(6) { here } else { target };
    let first = if style == Style::Upwards { target } else { 0 };
    let way = Way { children: &class.children, target, astray: (first..class.states.len() as u8).collect(), manner };
    let ifs = random.below(manner.ifs + 1);
    lead(random, &way, ifs)
}

/// Turns MOVE_TOs of a class into DOs, and some of its STAYs into DOs that close the phase; some of them run a clause that was there.
pub fn by_do(random: &mut Random, style: Style, manner: &Manner, class: &mut Class) {
    for here in 0..class.states.len() {
        for clause in 0..class.states[here].clauses.len() {
            let body = match class.states[here].clauses[clause].referrer {
                Referrer::MoveTo(target) if random.chance(manner.percent) => instead(random, style, manner, class, here as u8, target),
                Referrer::Stay if random.chance(40) => sends(random, &class.children, manner.sends),
                _ => continue,
            };
            let state = &mut class.states[here];
            let number = if !state.actions.is_empty() && random.chance(15) {
                random.below(state.actions.len()) as u8
            } else {
                add_action(random, state, body)
            };
            state.clauses[clause].referrer = Referrer::Do(number);
        }
    }
}

/// Gives some states a last clause that is true of every list: STAY, or a DO that moves nothing.
fn close(random: &mut Random, manner: &Manner, class: &mut Class) {
    for state in &mut class.states {
        if random.chance(70) {
            continue;
        }
        let referrer = if random.chance(60) {
            Referrer::Stay
        } else {
            let body = sends(random, &class.children, manner.sends);
            Referrer::Do(add_action(random, state, body))
        };
        state.clauses.push(Clause { guard: true_guard(random, &class.children), referrer });
    }
}

/// A class of a shape whose moves are made in this manner.
pub fn moving_class(random: &mut Random, shape: &Shape, manner: &Manner) -> Class {
    let mut class = class(random, shape);
    by_do(random, shape.style, manner, &mut class);
    close(random, manner, &mut class);
    class
}

/// A class of a shape whose moves are made in this manner, with commands in every state that send and move, to the own state too.
pub fn commanded_class(random: &mut Random, shape: &Shape, manner: &Manner) -> Class {
    let mut class = moving_class(random, shape, manner);
    let states: Vec<u8> = (0..class.states.len() as u8).collect();
    for here in 0..class.states.len() {
        for _ in 0..random.between(1, 2) {
            let target = if random.chance(20) { here as u8 } else { random.pick(&states) };
            let way = Way { children: &class.children, target, astray: states.clone(), manner };
            let ifs = random.below(manner.ifs + 1);
            let body = if random.chance(70) { lead(random, &way, ifs) } else { sends(random, &class.children, manner.sends + 1) };
            add_action(random, &mut class.states[here], body);
        }
    }
    class
}
