//! Counts what phases and loop questions ask: how their moves are made, what is sent, and how much room there is.

use crate::answering::{children, MOST_NAMES};
use crate::behaviour::{holds, phase, probe, step, Child, Phase};
use crate::commanding::ending;
use crate::judging::judge;
use crate::loops::{ask, pairs, Answer};
use crate::tree::{Class, Referrer, State, Statement};

/// A move_to that a DO reaches: its state, how many ifs are round it, and whether a statement stands behind it.
pub struct Reached {
    pub target: u8,
    ifs: usize,
    behind: bool,
}

/// The move_to that statements reach.
pub fn reached(list: &[Statement], children: &[Child]) -> Option<Reached> {
    list.iter().enumerate().find_map(|(at, statement)| {
        let more = at + 1 < list.len();
        match statement {
            Statement::Send { .. } => None,
            Statement::MoveTo(target) => Some(Reached { target: *target, ifs: 0, behind: more }),
            Statement::If { guard, then, other } => {
                let inner = reached(if holds(guard, children) { then } else { other }, children)?;
                Some(Reached { ifs: inner.ifs + 1, behind: inner.behind || more, ..inner })
            }
        }
    })
}

/// What a walk is made of, up to where it ends or comes back.
#[derive(Default)]
struct Walk {
    path: Vec<u8>,
    /// Move by move: was it made by a DO?
    by_do: Vec<bool>,
    ifs: Option<usize>,
    own: bool,
    behind: bool,
    /// What each DO sent, the closing one's too.
    sent: Vec<usize>,
    entry: usize,
}

/// Walks from a state.
fn walk(class: &Class, children: &[Child], start: u8) -> Walk {
    let mut walk = Walk { path: vec![start], ..Walk::default() };
    loop {
        let here = walk.path[walk.path.len() - 1];
        let state = &class.states[usize::from(here)];
        let next = match probe(state, children).map(|number| state.clauses[number].referrer) {
            Some(Referrer::MoveTo(target)) => target,
            Some(Referrer::Do(number)) => {
                let mut sent = Vec::new();
                step(class, children, here, &mut sent);
                walk.sent.push(sent.len());
                let Some(reached) = reached(&state.actions[usize::from(number)].body, children) else { return walk };
                walk.ifs = walk.ifs.max(Some(reached.ifs));
                walk.own |= reached.target == here;
                walk.behind |= reached.behind;
                walk.by_do.push(true);
                reached.target
            }
            _ => return walk,
        };
        walk.by_do.resize(walk.path.len(), false);
        if let Some(entry) = walk.path.iter().position(|visited| *visited == next) {
            walk.entry = entry;
            return walk;
        }
        walk.path.push(next);
    }
}

/// How moves were made.
fn makers(by_do: &[bool]) -> &'static str {
    match (by_do.contains(&false), by_do.contains(&true)) {
        (false, false) => "no move",
        (true, false) => "moves by MOVE_TO",
        (false, true) => "moves by DO",
        (true, true) => "moves by both",
    }
}

/// Do two when clauses of the state run the same action clause?
fn runs_twice(state: &State) -> bool {
    let numbers: Vec<u8> = state.clauses.iter().filter_map(|clause| if let Referrer::Do(number) = clause.referrer { Some(number) } else { None }).collect();
    numbers.iter().enumerate().any(|(at, number)| numbers[..at].contains(number))
}

/// What is told of every walk.
fn of_walk(class: &Class, walk: &Walk) -> Vec<String> {
    let mut labels = Vec::new();
    labels.extend(walk.ifs.map(|ifs| format!("phase, a DO moves: move_to inside {ifs} ifs")));
    let sending = walk.sent.iter().filter(|sent| **sent > 0).count();
    labels.push(format!("phase, {} DOs send", if sending > 3 { "more than 3".to_string() } else { sending.to_string() }));
    let visited = |state: &u8| runs_twice(&class.states[usize::from(*state)]);
    let facts = [
        (walk.own, "a DO moves to the own state"),
        (walk.behind, "a statement behind a reached move_to"),
        (walk.path.iter().any(visited), "two when clauses run one action clause"),
        (walk.sent.iter().sum::<usize>() > 65_535, "more than 65,535 bytes sent"),
    ];
    labels.extend(facts.into_iter().filter(|fact| fact.0).map(|fact| format!("phase, {}", fact.1)));
    labels
}

/// How much room a buffer has for what is sent.
pub fn room(buffer: usize, needed: usize) -> &'static str {
    match buffer {
        _ if buffer == needed => "just enough room",
        0 => "no room",
        _ if buffer + 1 == needed => "a byte too little room",
        _ if buffer < needed => "too little room",
        _ => "more room",
    }
}

/// What a DO that closes a phase has done.
fn closing(class: &Class, children: &[Child], walk: &Walk) -> &'static str {
    let state = &class.states[usize::from(walk.path[walk.path.len() - 1])];
    let referrer = probe(state, children).map(|number| state.clauses[number].referrer);
    match (referrer, walk.sent.last()) {
        (Some(Referrer::Do(number)), _) if state.actions[usize::from(number)].body.is_empty() => "no statement",
        (_, Some(0)) => "nothing sent",
        _ => "something sent",
    }
}

/// What a when phase asks.
pub fn of_phase(sheet: &[u8], list: &[u8], state: u8, buffer: &[u8]) -> Vec<String> {
    let Ok(class) = judge(sheet) else { return Vec::new() };
    let Ok(children) = children(&class, list) else { return Vec::new() };
    if usize::from(state) >= class.states.len() {
        return Vec::new();
    }
    let walk = walk(&class, &children, state);
    let mut labels = of_walk(&class, &walk);
    let phase = phase(&class, &children, state);
    match &phase {
        Phase::Settled { sent, .. } => {
            let word = ending(&phase);
            labels.push(format!("phase, {word}: {}", makers(&walk.by_do)));
            if !sent.is_empty() {
                labels.push(format!("phase, something sent: {}", room(buffer.len(), sent.len())));
            }
            if word == "do" {
                labels.push(format!("phase, closing DO: {}", closing(&class, &children, &walk)));
            }
        }
        Phase::Loop { .. } => {
            labels.push(format!("phase, loop: {} on the ring", makers(&walk.by_do[walk.entry..])));
            let sent = walk.sent.iter().sum::<usize>();
            labels.push(match sent {
                0 => "phase, loop: nothing sent on the way".to_string(),
                _ => format!("phase, loop: something sent on the way, {}", room(buffer.len(), sent)),
            });
        }
    }
    labels
}

/// The class with nothing in its action clauses.
fn emptied(class: &Class) -> Class {
    let mut class = class.clone();
    class.states.iter_mut().flat_map(|state| &mut state.actions).for_each(|action| action.body.clear());
    class
}

/// What a loop question asks that is answered.
pub fn of_loop(sheet: &[u8], present: u8, buffer: &[u8]) -> Vec<String> {
    let Ok(class) = judge(sheet) else { return Vec::new() };
    let pairs = pairs(&class, present);
    if u32::from(present) >> class.children.len() > 0 || pairs.len() > MOST_NAMES || buffer.len() < 2 * pairs.len() {
        return Vec::new();
    }
    let answer = ask(&class, &pairs);
    let matter = if answer == ask(&emptied(&class), &pairs) { "no DO matters" } else { "DOs matter" };
    match answer {
        Answer::Free { .. } => vec![format!("loop question, free: {matter}")],
        Answer::Loop { state, children, .. } => {
            let walk = walk(&class, &children, state as u8);
            let mut labels = vec![format!("loop question, loop: {matter}"), format!("loop question, loop: {}", makers(&walk.by_do))];
            labels.extend(walk.ifs.map(|ifs| format!("loop question, loop: move_to inside {ifs} ifs")));
            labels
        }
    }
}
