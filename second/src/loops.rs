//! The loop question: can a node of this class go round for ever in its when phase?

use crate::behaviour::{step, Child, Step};
use crate::tree::Class;
use std::collections::BTreeSet;

/// Up to this many names, lists with repeated children are tried as well.
const FEW: usize = 8;

/// The loop question's answer.
#[derive(Clone, Debug, PartialEq)]
pub enum Answer {
    Loop { configuration: usize, state: usize, children: Vec<Child> },
    Free { moves: usize },
}

/// Every name that a child of a present class can be in, in the order of the configuration's bits.
pub fn pairs(class: &Class, present: u8) -> Vec<Child> {
    let mut pairs = Vec::new();
    for (number, names) in class.children.iter().enumerate() {
        if present >> number & 1 == 1 {
            pairs.extend(names.iter().map(|name| (number as u8, *name)));
        }
    }
    pairs
}

/// What one child list makes of the own states.
struct Study {
    returning: Option<usize>,
    longest: usize,
}

/// The state that one move leads to from each state, by MOVE_TO or by a DO; what a DO sends is not kept.
fn targets(class: &Class, children: &[Child]) -> Vec<Option<usize>> {
    (0..class.states.len()).map(|here| match step(class, children, here as u8, &mut Vec::new()) {
        Step::Move(target) => Some(usize::from(target)),
        Step::End(_) => None,
    }).collect()
}

/// Walks from every state: the smallest one that returns to itself, and the longest walk that ends.
fn study(class: &Class, children: &[Child]) -> Study {
    let next = targets(class, children);
    let mut result = Study { returning: None, longest: 0 };
    for start in 0..next.len() {
        let mut visited = BTreeSet::new();
        let mut here = start;
        let ended = loop {
            match next[here] {
                None => break true,
                Some(target) if !visited.insert(target) => break false,
                Some(target) => here = target,
            }
        };
        if visited.contains(&start) && result.returning.is_none() {
            result.returning = Some(start);
        }
        if ended {
            result.longest = result.longest.max(visited.len());
        }
    }
    result
}

/// Does a child of each present class occur?
fn complete(children: &[Child], pairs: &[Child]) -> bool {
    pairs.iter().all(|pair| children.iter().any(|child| child.0 == pair.0))
}

/// The configuration that a child list makes: bit by bit, does some child have that name?
fn configuration_of(children: &[Child], pairs: &[Child]) -> usize {
    pairs.iter().enumerate().filter(|(_, pair)| children.contains(pair)).map(|(bit, _)| 1 << bit).sum()
}

/// One child for each set bit, in bit order.
fn single_list(configuration: usize, pairs: &[Child]) -> Vec<Child> {
    pairs.iter().enumerate().filter(|(bit, _)| configuration >> bit & 1 == 1).map(|(_, pair)| *pair).collect()
}

/// Answers for the names of the present classes.
pub fn ask(class: &Class, pairs: &[Child]) -> Answer {
    if pairs.len() <= FEW { over_lists(class, pairs) } else { over_configurations(class, pairs) }
}

/// The list with each pair as often as the digits of a number to base three say; every second one runs backwards.
fn list_of(mut digits: usize, pairs: &[Child]) -> Vec<Child> {
    let backwards = digits % 2 == 1;
    let mut children = Vec::new();
    for pair in pairs {
        children.extend(std::iter::repeat(*pair).take(digits % 3));
        digits /= 3;
    }
    if backwards {
        children.reverse();
    }
    children
}

/// Tries every list in which each name occurs not at all, once or twice.
fn over_lists(class: &Class, pairs: &[Child]) -> Answer {
    let mut worst: Option<(usize, usize)> = None;
    let mut moves = 0;
    for digits in 0..3usize.pow(pairs.len() as u32) {
        let children = list_of(digits, pairs);
        if !complete(&children, pairs) {
            continue;
        }
        let found = study(class, &children);
        moves = moves.max(found.longest);
        if let Some(state) = found.returning {
            let this = (configuration_of(&children, pairs), state);
            worst = Some(worst.map_or(this, |other| other.min(this)));
        }
    }
    match worst {
        Some((configuration, state)) => Answer::Loop { configuration, state, children: single_list(configuration, pairs) },
        None => Answer::Free { moves },
    }
}

/// Tries one list for each configuration, in rising order.
fn over_configurations(class: &Class, pairs: &[Child]) -> Answer {
    let mut moves = 0;
    for configuration in 0..1usize << pairs.len() {
        let children = single_list(configuration, pairs);
        if !complete(&children, pairs) {
            continue;
        }
        let found = study(class, &children);
        if let Some(state) = found.returning {
            return Answer::Loop { configuration, state, children };
        }
        moves = moves.max(found.longest);
    }
    Answer::Free { moves }
}
