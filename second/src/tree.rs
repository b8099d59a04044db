//! A node class as a tree: what an accepted sheet stands for.

use std::collections::BTreeSet;

/// A set of child state names.
pub type Names = BTreeSet<u8>;

/// Which children an atom or a do speaks of.
#[derive(Clone, Copy, Debug, PartialEq)]
pub enum Pattern {
    Everyone,
    Class(u8),
}

impl Pattern {
    /// Does the pattern speak of a child of this class?
    pub fn speaks_of(self, class: u8) -> bool {
        match self {
            Pattern::Everyone => true,
            Pattern::Class(own) => own == class,
        }
    }
}

/// Some child of the pattern, or every one.
#[derive(Clone, Copy, Debug, PartialEq)]
pub enum Quantifier {
    Any,
    All,
}

/// An atom: "any child of the pattern is in the set" and its three kin.
#[derive(Clone, Debug, PartialEq)]
pub struct Atom {
    pub quantifier: Quantifier,
    pub inside: bool,
    pub pattern: Pattern,
    pub names: Names,
}

/// A condition on the children.
#[derive(Clone, Debug, PartialEq)]
pub enum Guard {
    Atom(Atom),
    And(Box<Guard>, Box<Guard>),
    Or(Box<Guard>, Box<Guard>),
    Not(Box<Guard>),
}

/// What a when clause leads to; Do holds the number of an action clause of the state.
#[derive(Clone, Copy, Debug, PartialEq)]
pub enum Referrer {
    MoveTo(u8),
    Do(u8),
    Stay,
}

/// A when clause.
#[derive(Clone, Debug, PartialEq)]
pub struct Clause {
    pub guard: Guard,
    pub referrer: Referrer,
}

/// A statement of an action clause.
#[derive(Clone, Debug, PartialEq)]
pub enum Statement {
    Send { command: u8, pattern: Pattern },
    MoveTo(u8),
    If { guard: Guard, then: Vec<Statement>, other: Vec<Statement> },
}

/// An action clause: what the state does on a command.
#[derive(Clone, Debug, PartialEq)]
pub struct Action {
    pub command: u8,
    pub body: Vec<Statement>,
}

/// An own state of the node.
#[derive(Clone, Debug, PartialEq)]
pub struct State {
    pub clauses: Vec<Clause>,
    pub actions: Vec<Action>,
}

/// A node class: the names of each child class, and the own states.
#[derive(Clone, Debug, PartialEq)]
pub struct Class {
    pub children: Vec<Names>,
    pub states: Vec<State>,
}
