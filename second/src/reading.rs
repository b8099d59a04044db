//! Reading a class text: the rules 16, 17, 18 and 15, one after the other, each over the whole text and all lists; then the sheet.

use crate::lists::{rule_17_lists, Known, Lists, NAME_RECORD};
use crate::text::{rule_16, Guard, Kin, Name, Referrer, State, Statement, Text};
use crate::tree;
use crate::writing::{bodies_of, RECORD};
use std::collections::HashSet;

const MOST_NAMES: usize = 32;
const MOST_COMMANDS: usize = 64;
const MOST_CLASSES: usize = 8;
const MOST_STATES: usize = 32;
const MOST_CLAUSES: usize = 256;
const MOST_RECORDS: usize = 1024;
const OPERATORS_ON_A_PATH: usize = 16;
const DEEPEST_IF: usize = 8;

/// What a reading question lends.
#[derive(Clone, Debug, PartialEq)]
pub struct Lent {
    pub text: Vec<u8>,
    pub names: Vec<u8>,
    pub commands: Vec<u8>,
    pub classes: Vec<u8>,
    pub sheet: Vec<u8>,
    pub table: Vec<u8>,
}

/// A refusal: its number, and for 16 the place in the text.
#[derive(Clone, Copy, Debug, PartialEq)]
pub struct Refusal {
    pub number: u8,
    pub place: Option<usize>,
}

impl From<u8> for Refusal {
    /// The refusal with this number, which has no place.
    fn from(number: u8) -> Refusal {
        Refusal { number, place: None }
    }
}

/// What was read: the sheet, and the table of the own states' names.
#[derive(Clone, Debug, PartialEq)]
pub struct Read {
    pub sheet: Vec<u8>,
    pub table: Vec<u8>,
}

/// Is one there twice?
fn twice<'n>(names: impl Iterator<Item = Name<'n>>) -> bool {
    let mut seen = HashSet::new();
    names.into_iter().any(|name| !seen.insert(name))
}

/// Is this kin all children, or a lent class?
fn kin_known(lists: &Lists, kin: &Kin) -> bool {
    match kin {
        Kin::Everyone => true,
        Kin::Class(name) => lists.classes.has(name),
    }
}

/// Does a guard speak of lent names alone?
fn guard_known(lists: &Lists, guard: &Guard) -> bool {
    match guard {
        Guard::Atom { kin, set, .. } => kin_known(lists, kin) && set.iter().all(|name| lists.names.has(name)),
        _ => true,
    }
}

/// Does a statement speak of lent names and own states alone?
fn statement_known(lists: &Lists, own: &HashSet<Name>, statement: &Statement) -> bool {
    match statement {
        Statement::Send { command, kin } => lists.commands.has(command) && kin_known(lists, kin),
        Statement::MoveTo(state) => own.contains(state),
        Statement::If { .. } => true,
    }
}

/// Does a referrer speak of an own state, or of a lent command?
fn referrer_known(lists: &Lists, own: &HashSet<Name>, referrer: &Referrer) -> bool {
    match referrer {
        Referrer::MoveTo(state) | Referrer::Stay(Some(state)) => own.contains(state),
        Referrer::Do(command) => lists.commands.has(command),
        Referrer::Stay(None) => true,
    }
}

/// Are all names of the text known?
fn names_known(text: &Text, lists: &Lists) -> bool {
    let own: HashSet<Name> = text.states.iter().map(|state| state.name).collect();
    let clauses = |state: &State| {
        let whens = state.whens.iter().all(|when| referrer_known(lists, &own, &when.referrer));
        whens && state.actions.iter().all(|action| lists.commands.has(action.command))
    };
    text.guards.iter().all(|guard| guard_known(lists, guard))
        && text.statements.iter().all(|statement| statement_known(lists, &own, statement))
        && text.states.iter().all(clauses)
}

/// Does every do referrer have its action in its state?
fn referrers_have_actions(state: &State) -> bool {
    let actions: HashSet<Name> = state.actions.iter().map(|action| action.command).collect();
    state.whens.iter().all(|when| !matches!(when.referrer, Referrer::Do(command) if !actions.contains(command)))
}

/// Rule 17 for the text: names that are not known, states and actions twice, do referrers without an action.
fn rule_17(text: &Text, lists: &Lists) -> Result<(), u8> {
    let actions_once = |state: &State| !twice(state.actions.iter().map(|action| action.command));
    let good = names_known(text, lists)
        && !twice(text.states.iter().map(|state| state.name))
        && text.states.iter().all(actions_once)
        && text.states.iter().all(referrers_have_actions);
    if good { Ok(()) } else { Err(17) }
}

/// The most operators on a path of any guard; operands stand before their operators.
pub fn operators_on_a_path(guards: &[Guard]) -> usize {
    let mut longest: Vec<usize> = Vec::new();
    for guard in guards {
        longest.push(match guard {
            Guard::Atom { .. } => 0,
            Guard::Not(inner) => longest[*inner] + 1,
            Guard::And(left, right) | Guard::Or(left, right) => longest[*left].max(longest[*right]) + 1,
        });
    }
    longest.into_iter().max().unwrap_or(0)
}

/// How deep the ifs lie in each other; the statements of an if stand before it.
pub fn deepest_if(statements: &[Statement]) -> usize {
    let mut depths: Vec<usize> = Vec::new();
    for statement in statements {
        let inner = |part: &Vec<usize>| part.iter().map(|at| depths[*at]).max().unwrap_or(0);
        depths.push(match statement {
            Statement::If { then, other, .. } => inner(then).max(inner(other)) + 1,
            _ => 0,
        });
    }
    depths.into_iter().max().unwrap_or(0)
}

/// How many records of each body but the first the text makes, in the order of the contents.
pub fn counts_of_text(text: &Text) -> [usize; 5] {
    let whens = text.states.iter().map(|state| state.whens.len()).sum();
    let actions = text.states.iter().map(|state| state.actions.len()).sum();
    [text.states.len(), whens, text.guards.len(), actions, text.statements.len()]
}

/// How many records each body has.
fn counts(text: &Text, lists: &Lists) -> [usize; 6] {
    let [states, whens, guards, actions, statements] = counts_of_text(text);
    [lists.sets.len(), states, whens, guards, actions, statements]
}

/// Rule 18: the limits of the lists and of the text, and empty name sets.
fn rule_18(text: &Text, lists: &Lists) -> Result<(), u8> {
    let most = [MOST_CLASSES, MOST_STATES, MOST_CLAUSES, MOST_RECORDS, MOST_CLAUSES, MOST_RECORDS];
    let good = lists.names.count() <= MOST_NAMES
        && lists.commands.count() <= MOST_COMMANDS
        && lists.sets.iter().all(|set| *set != 0)
        && counts(text, lists).iter().zip(most).all(|(count, most)| *count <= most)
        && operators_on_a_path(&text.guards) <= OPERATORS_ON_A_PATH
        && deepest_if(&text.statements) <= DEEPEST_IF;
    if good { Ok(()) } else { Err(18) }
}

/// Rule 15: both buffers have the room.
fn rule_15(text: &Text, lists: &Lists, lent: &Lent) -> Result<(), u8> {
    let length = 24 + counts(text, lists).iter().zip(RECORD).map(|(count, size)| count * size).sum::<usize>();
    let good = lent.sheet.len() >= length && lent.table.len() >= NAME_RECORD * text.states.len();
    if good { Ok(()) } else { Err(15) }
}

/// A text whose names are known and which keeps the limits, as a class.
struct Meaning<'r> {
    text: &'r Text<'r>,
    lists: &'r Lists<'r>,
    own: Known<'r>,
}

/// The number of a name that is known; the rules before see to that.
fn number(known: &Known, name: Name) -> u8 {
    known.number(name).unwrap_or(0) as u8
}

impl Meaning<'_> {
    /// The pattern of a kin.
    fn pattern(&self, kin: &Kin) -> tree::Pattern {
        match kin {
            Kin::Everyone => tree::Pattern::Everyone,
            Kin::Class(name) => tree::Pattern::Class(number(&self.lists.classes, name)),
        }
    }

    /// A guard; it is no deeper than the limit.
    fn guard(&self, at: usize) -> tree::Guard {
        let inner = |at: &usize| Box::new(self.guard(*at));
        match &self.text.guards[at] {
            Guard::And(left, right) => tree::Guard::And(inner(left), inner(right)),
            Guard::Or(left, right) => tree::Guard::Or(inner(left), inner(right)),
            Guard::Not(operand) => tree::Guard::Not(inner(operand)),
            Guard::Atom { quantifier, inside, kin, set } => {
                let names = set.iter().map(|name| number(&self.lists.names, name)).collect();
                tree::Guard::Atom(tree::Atom { quantifier: *quantifier, inside: *inside, pattern: self.pattern(kin), names })
            }
        }
    }

    /// A list of statements; ifs are no deeper than the limit.
    fn statements(&self, list: &[usize]) -> Vec<tree::Statement> {
        let statement = |at: &usize| match &self.text.statements[*at] {
            Statement::Send { command, kin } => {
                tree::Statement::Send { command: number(&self.lists.commands, command), pattern: self.pattern(kin) }
            }
            Statement::MoveTo(state) => tree::Statement::MoveTo(number(&self.own, state)),
            Statement::If { guard, then, other } => {
                tree::Statement::If { guard: self.guard(*guard), then: self.statements(then), other: self.statements(other) }
            }
        };
        list.iter().map(statement).collect()
    }

    /// A referrer in its state.
    fn referrer(&self, state: &State, referrer: &Referrer) -> tree::Referrer {
        match referrer {
            Referrer::MoveTo(target) => tree::Referrer::MoveTo(number(&self.own, target)),
            Referrer::Stay(_) => tree::Referrer::Stay,
            Referrer::Do(command) => {
                let place = state.actions.iter().position(|action| action.command == *command);
                tree::Referrer::Do(place.unwrap_or(0) as u8)
            }
        }
    }

    /// A state.
    fn state(&self, state: &State) -> tree::State {
        let clauses = state.whens.iter().map(|when| tree::Clause { guard: self.guard(when.guard), referrer: self.referrer(state, &when.referrer) });
        let actions = state.actions.iter().map(|action| tree::Action {
            command: number(&self.lists.commands, action.command),
            body: self.statements(&action.body),
        });
        tree::State { clauses: clauses.collect(), actions: actions.collect() }
    }

    /// The class.
    fn class(&self) -> tree::Class {
        let names = |set: &u32| (0..32).filter(|name| set >> name & 1 == 1).collect();
        let states = self.text.states.iter().map(|state| self.state(state)).collect();
        tree::Class { children: self.lists.sets.iter().map(names).collect(), states }
    }
}

/// The table of the own states' names.
fn table(text: &Text) -> Vec<u8> {
    let mut table = Vec::new();
    for state in &text.states {
        table.extend_from_slice(state.name);
        table.resize(table.len().next_multiple_of(NAME_RECORD), 0);
    }
    table
}

/// Reads a text.
pub fn read(lent: &Lent) -> Result<Read, Refusal> {
    let text = rule_16(&lent.text).map_err(|place| Refusal { number: 16, place: Some(place) })?;
    let lists = rule_17_lists(&lent.names, &lent.commands, &lent.classes)?;
    rule_17(&text, &lists)?;
    rule_18(&text, &lists)?;
    rule_15(&text, &lists, lent)?;
    let own = Known::of(text.states.iter().map(|state| state.name)).unwrap_or_default();
    let class = Meaning { text: &text, lists: &lists, own }.class();
    Ok(Read { sheet: bodies_of(&class, false).sheet(), table: table(&text) })
}
