//! A class text as a tree, with names as they are written. Guards and statements stand in flat lists, parts before what holds them, so
//! that nothing here calls itself, however deep a text is.

use crate::chart::{Chart, Step};
use crate::grammar::{grammar, Make};
use crate::tree::Quantifier;
use crate::words::{words_of, NAME};

pub type Name<'t> = &'t [u8];

/// Which children an atom or a do speaks of.
#[derive(Clone, Copy, Debug, PartialEq)]
pub enum Kin<'t> {
    Everyone,
    Class(Name<'t>),
}

/// A guard; its operands are places in the list of guards.
#[derive(Clone, Debug, PartialEq)]
pub enum Guard<'t> {
    Atom { quantifier: Quantifier, inside: bool, kin: Kin<'t>, set: Vec<Name<'t>> },
    And(usize, usize),
    Or(usize, usize),
    Not(usize),
}

/// What a when clause leads to.
#[derive(Clone, Copy, Debug, PartialEq)]
pub enum Referrer<'t> {
    MoveTo(Name<'t>),
    Do(Name<'t>),
    Stay(Option<Name<'t>>),
}

/// A when clause.
#[derive(Clone, Debug, PartialEq)]
pub struct When<'t> {
    pub guard: usize,
    pub referrer: Referrer<'t>,
}

/// A statement; its guard and its parts are places in the lists.
#[derive(Clone, Debug, PartialEq)]
pub enum Statement<'t> {
    Send { command: Name<'t>, kin: Kin<'t> },
    MoveTo(Name<'t>),
    If { guard: usize, then: Vec<usize>, other: Vec<usize> },
}

/// An action clause.
#[derive(Clone, Debug, PartialEq)]
pub struct Action<'t> {
    pub command: Name<'t>,
    pub body: Vec<usize>,
}

/// A state with its clauses.
#[derive(Clone, Debug, PartialEq)]
pub struct State<'t> {
    pub name: Name<'t>,
    pub whens: Vec<When<'t>>,
    pub actions: Vec<Action<'t>>,
}

/// A whole text.
#[derive(Clone, Debug, Default, PartialEq)]
pub struct Text<'t> {
    pub guards: Vec<Guard<'t>>,
    pub statements: Vec<Statement<'t>>,
    pub states: Vec<State<'t>>,
}

/// A text under construction: what was made and is not yet part of anything.
struct Builder<'t> {
    text: Text<'t>,
    names: Vec<Name<'t>>,
    quantifier: Quantifier,
    inside: bool,
    kin: Kin<'t>,
    set: Vec<Name<'t>>,
    guards: Vec<usize>,
    referrer: Referrer<'t>,
    whens: Vec<When<'t>>,
    lists: Vec<Vec<usize>>,
    actions: Vec<Action<'t>>,
}

/// Takes what was made last; the chart's steps leave it there.
fn last<T>(made: &mut Vec<T>) -> T {
    made.pop().expect("every part is built before the rule that it is a part of")
}

impl<'t> Builder<'t> {
    /// Nothing has been made.
    fn new() -> Builder<'t> {
        Builder {
            text: Text::default(),
            names: Vec::new(),
            quantifier: Quantifier::Any,
            inside: true,
            kin: Kin::Everyone,
            set: Vec::new(),
            guards: Vec::new(),
            referrer: Referrer::Stay(None),
            whens: Vec::new(),
            lists: Vec::new(),
            actions: Vec::new(),
        }
    }

    /// Adds a guard.
    fn guard(&mut self, guard: Guard<'t>) {
        self.guards.push(self.text.guards.len());
        self.text.guards.push(guard);
    }

    /// Adds a statement to the list that is open.
    fn statement(&mut self, statement: Statement<'t>) {
        let mut list = last(&mut self.lists);
        list.push(self.text.statements.len());
        self.lists.push(list);
        self.text.statements.push(statement);
    }

    /// Does what a rule says.
    fn make(&mut self, make: Make) {
        match make {
            Make::Same => {}
            Make::Any => self.quantifier = Quantifier::Any,
            Make::All => self.quantifier = Quantifier::All,
            Make::In => self.inside = true,
            Make::NotIn => self.inside = false,
            Make::Everyone => self.kin = Kin::Everyone,
            Make::OneClass => self.kin = Kin::Class(last(&mut self.names)),
            Make::FirstName => self.set = vec![last(&mut self.names)],
            Make::NextName => self.set.push(last(&mut self.names)),
            Make::MoveTo => self.referrer = Referrer::MoveTo(last(&mut self.names)),
            Make::Do => self.referrer = Referrer::Do(last(&mut self.names)),
            Make::Stay => self.referrer = Referrer::Stay(None),
            Make::StayIn => self.referrer = Referrer::Stay(Some(last(&mut self.names))),
            Make::Atom | Make::And | Make::Or | Make::Not => self.make_guard(make),
            Make::NoStatement => self.lists.push(Vec::new()),
            Make::Send | Make::Move | Make::If | Make::IfElse => self.make_statement(make),
            Make::When | Make::Action | Make::State => self.make_clause(make),
        }
    }

    /// Makes a guard of those that were made last.
    fn make_guard(&mut self, make: Make) {
        if make == Make::Atom {
            let set = std::mem::take(&mut self.set);
            return self.guard(Guard::Atom { quantifier: self.quantifier, inside: self.inside, kin: self.kin, set });
        }
        let right = last(&mut self.guards);
        let guard = match make {
            Make::Not => Guard::Not(right),
            Make::And => Guard::And(last(&mut self.guards), right),
            _ => Guard::Or(last(&mut self.guards), right),
        };
        self.guard(guard);
    }

    /// Makes a statement.
    fn make_statement(&mut self, make: Make) {
        let statement = match make {
            Make::Send => Statement::Send { command: last(&mut self.names), kin: self.kin },
            Make::Move => Statement::MoveTo(last(&mut self.names)),
            _ => {
                let other = if make == Make::IfElse { last(&mut self.lists) } else { Vec::new() };
                let then = last(&mut self.lists);
                Statement::If { guard: last(&mut self.guards), then, other }
            }
        };
        self.statement(statement);
    }

    /// Makes a clause or a state.
    fn make_clause(&mut self, make: Make) {
        match make {
            Make::When => self.whens.push(When { guard: last(&mut self.guards), referrer: self.referrer }),
            Make::Action => self.actions.push(Action { command: last(&mut self.names), body: last(&mut self.lists) }),
            _ => {
                let (whens, actions) = (std::mem::take(&mut self.whens), std::mem::take(&mut self.actions));
                self.text.states.push(State { name: last(&mut self.names), whens, actions });
            }
        }
    }
}

/// Rule 16: the tree of a text of the grammar; for any other the start of the first word that cannot stand where it does.
pub fn rule_16(bytes: &[u8]) -> Result<Text<'_>, usize> {
    let words = words_of(bytes);
    let chart = Chart::of(&words).map_err(|number| words[number].start)?;
    let mut builder = Builder::new();
    for step in chart.steps() {
        match step {
            Step::Word(number) if words[number].kind == NAME => builder.names.push(&bytes[words[number].start..words[number].end]),
            Step::Word(_) => {}
            Step::Rule(rule) => builder.make(grammar().rules[usize::from(rule)].make),
        }
    }
    Ok(builder.text)
}
