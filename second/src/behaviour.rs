//! How a node behaves on a real list of children.

use crate::tree::{Class, Guard, Pattern, Quantifier, Referrer, State, Statement};

/// A child: its class and the state name it is in.
pub type Child = (u8, u8);

/// What ends a when phase.
#[derive(Clone, Copy, Debug, PartialEq)]
pub enum Ending {
    NoClause,
    Stay,
    Do(u8),
}

/// A when phase: it settles, and has sent what its DOs sent, or goes round for ever (then the state is the one after as many moves as
/// there are states, and what was sent on the way does not count).
#[derive(Clone, Debug, PartialEq)]
pub enum Phase {
    Settled { ending: Ending, state: u8, moves: usize, sent: Vec<u8> },
    Loop { state: u8, moves: usize },
}

impl Phase {
    /// What a phase writes: the commands of one that settles, and none of one that loops.
    pub fn writes(&self) -> &[u8] {
        match self {
            Phase::Settled { sent, .. } => sent,
            Phase::Loop { .. } => &[],
        }
    }
}

/// What follows from one probe: a move, by MOVE_TO or by what a DO runs, or the end of the phase.
#[derive(Clone, Copy, Debug, PartialEq)]
pub enum Step {
    Move(u8),
    End(Ending),
}

/// Is the guard true of these children?
pub fn holds(guard: &Guard, children: &[Child]) -> bool {
    match guard {
        Guard::And(left, right) => holds(left, children) && holds(right, children),
        Guard::Or(left, right) => holds(left, children) || holds(right, children),
        Guard::Not(inner) => !holds(inner, children),
        Guard::Atom(atom) => {
            let spoken_of = children.iter().filter(|child| atom.pattern.speaks_of(child.0));
            let mut facts = spoken_of.map(|child| atom.names.contains(&child.1) == atom.inside);
            match atom.quantifier {
                Quantifier::Any => facts.any(|fact| fact),
                Quantifier::All => facts.all(|fact| fact),
            }
        }
    }
}

/// The number of the first clause of the state whose guard is true.
pub fn probe(state: &State, children: &[Child]) -> Option<usize> {
    state.clauses.iter().position(|clause| holds(&clause.guard, children))
}

/// Probes in a state. A DO runs its clause at once; what it sends comes behind what was sent before.
pub fn step(class: &Class, children: &[Child], here: u8, sent: &mut Vec<u8>) -> Step {
    let state = &class.states[usize::from(here)];
    match probe(state, children).map(|number| state.clauses[number].referrer) {
        Some(Referrer::MoveTo(target)) => Step::Move(target),
        Some(Referrer::Do(number)) => {
            let action = &state.actions[usize::from(number)];
            match run_list(&action.body, children, sent) {
                Some(target) => Step::Move(target),
                None => Step::End(Ending::Do(action.command)),
            }
        }
        Some(Referrer::Stay) => Step::End(Ending::Stay),
        None => Step::End(Ending::NoClause),
    }
}

/// The when phase from a state, walked until it ends or comes back to where it was.
pub fn phase(class: &Class, children: &[Child], start: u8) -> Phase {
    let (mut path, mut sent) = (vec![start], Vec::new());
    loop {
        let here = path[path.len() - 1];
        match step(class, children, here, &mut sent) {
            Step::Move(next) => {
                if let Some(entry) = path.iter().position(|visited| *visited == next) {
                    return round(&path, entry, class.states.len());
                }
                path.push(next);
            }
            Step::End(ending) => return Phase::Settled { ending, state: here, moves: path.len() - 1, sent },
        }
    }
}

/// A walk that comes back to the entry-th state of its path: where is it after this many moves?
fn round(path: &[u8], entry: usize, moves: usize) -> Phase {
    let ring = &path[entry..];
    Phase::Loop { state: ring[(moves - entry) % ring.len()], moves }
}

/// A command that has been run: was there a clause for it, the state after it, and what was sent, three bytes each.
#[derive(Clone, Debug, PartialEq)]
pub struct Run {
    pub handled: bool,
    pub state: u8,
    pub sent: Vec<u8>,
}

/// Runs a state's clause for a command, where there is one.
fn command(class: &Class, children: &[Child], state: u8, command: u8) -> Run {
    let mut run = Run { handled: false, state, sent: Vec::new() };
    let actions = &class.states[usize::from(state)].actions;
    if let Some(action) = actions.iter().find(|action| action.command == command) {
        run.handled = true;
        run.state = run_list(&action.body, children, &mut run.sent).unwrap_or(state);
    }
    run
}

/// A command request: the command as it was run, and the when phase from the state that it leaves.
#[derive(Clone, Debug, PartialEq)]
pub struct Request {
    pub run: Run,
    pub phase: Phase,
}

impl Request {
    /// What a request writes: what the command itself sends, and directly behind it what the phase writes.
    pub fn writes(&self) -> Vec<u8> {
        [&self.run.sent, self.phase.writes()].concat()
    }
}

/// Gives a command to a node in a state; handled or ignored, it is followed by the when phase.
pub fn request(class: &Class, children: &[Child], state: u8, asked: u8) -> Request {
    let run = command(class, children, state, asked);
    let phase = phase(class, children, run.state);
    Request { run, phase }
}

/// Runs statements in turn, up to the first move_to that is reached, whose state it gives; what they send comes behind what was sent before.
fn run_list(statements: &[Statement], children: &[Child], sent: &mut Vec<u8>) -> Option<u8> {
    for statement in statements {
        let reached = match statement {
            Statement::Send { command, pattern } => {
                send(*command, *pattern, children, sent);
                None
            }
            Statement::MoveTo(state) => Some(*state),
            Statement::If { guard, then, other } => run_list(if holds(guard, children) { then } else { other }, children, sent),
        };
        if reached.is_some() {
            return reached;
        }
    }
    None
}

/// Sends a command to each child of the pattern, in list order.
fn send(command: u8, pattern: Pattern, children: &[Child], sent: &mut Vec<u8>) {
    for (place, child) in children.iter().enumerate() {
        if pattern.speaks_of(child.0) {
            sent.extend_from_slice(&(place as u16).to_le_bytes());
            sent.push(command);
        }
    }
}
