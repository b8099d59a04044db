//! From trees to sheets: the records of the six bodies, then the bytes.

use crate::tree::{Atom, Class, Guard, Names, Pattern, Quantifier, Referrer, Statement};

/// Bytes of one record, body by body.
pub const RECORD: [usize; 6] = [4, 4, 4, 8, 4, 8];

pub const CLASSES: usize = 0;
pub const STATES: usize = 1;
pub const WHENS: usize = 2;
pub const GUARDS: usize = 3;
pub const ACTIONS: usize = 4;
pub const STATEMENTS: usize = 5;

/// Where a state record has the numbers of its clauses; `push_state` alone knows the rest of its form.
pub const WHEN_COUNT: usize = 0;
pub const ACTION_COUNT: usize = 2;

/// The six bodies of a sheet before their contents are written; they may be as wrong as one likes.
#[derive(Clone, Debug, Default)]
pub struct Bodies(pub [Vec<u8>; 6]);

impl Bodies {
    /// How many whole records a body holds.
    pub fn count(&self, body: usize) -> usize {
        self.0[body].len() / RECORD[body]
    }

    /// One record, to be changed.
    pub fn record(&mut self, body: usize, at: usize) -> &mut [u8] {
        let size = RECORD[body];
        &mut self.0[body][at * size..(at + 1) * size]
    }

    /// A two-byte number inside a record.
    pub fn number(&mut self, body: usize, at: usize, offset: usize) -> u16 {
        let record = self.record(body, at);
        u16::from_le_bytes([record[offset], record[offset + 1]])
    }

    /// Sets a two-byte number inside a record.
    pub fn set_number(&mut self, body: usize, at: usize, offset: usize, value: u16) {
        self.record(body, at)[offset..offset + 2].copy_from_slice(&value.to_le_bytes());
    }

    /// Adds a record behind the others.
    pub fn push(&mut self, body: usize, record: &[u8]) {
        assert_eq!(record.len(), RECORD[body]);
        self.0[body].extend_from_slice(record);
    }

    /// Adds the record of a state with these numbers of clauses, whose own records come next.
    pub fn push_state(&mut self, whens: usize, actions: usize) {
        let at = self.count(STATES);
        self.push(STATES, &[0; RECORD[STATES]]);
        self.set_number(STATES, at, WHEN_COUNT, whens as u16);
        self.set_number(STATES, at, ACTION_COUNT, actions as u16);
    }

    /// The sheet: contents, then the bodies one behind the other.
    pub fn sheet(&self) -> Vec<u8> {
        let mut sheet = Vec::new();
        let mut start = 24;
        for body in &self.0 {
            sheet.extend_from_slice(&(start as u16).to_le_bytes());
            sheet.extend_from_slice(&(body.len() as u16).to_le_bytes());
            start += body.len();
        }
        for body in &self.0 {
            sheet.extend_from_slice(body);
        }
        sheet
    }
}

/// A name set as four bytes.
pub fn name_bytes(names: &Names) -> [u8; 4] {
    let mut bytes = [0; 4];
    for name in names {
        bytes[usize::from(name / 8)] |= 1 << (name % 8);
    }
    bytes
}

/// A pattern as one byte.
pub fn pattern_byte(pattern: Pattern) -> u8 {
    match pattern {
        Pattern::Everyone => 255,
        Pattern::Class(class) => class,
    }
}

/// An atom as a guard record.
pub fn atom_record(atom: &Atom) -> [u8; 8] {
    let kind = match (atom.quantifier, atom.inside) {
        (Quantifier::Any, true) => 0,
        (Quantifier::Any, false) => 1,
        (Quantifier::All, true) => 2,
        (Quantifier::All, false) => 3,
    };
    let [a, b, c, d] = name_bytes(&atom.names);
    [kind, pattern_byte(atom.pattern), 0, 0, a, b, c, d]
}

/// The records of a guard, operators before their operands.
fn guard_records(guard: &Guard, records: &mut Vec<u8>) {
    match guard {
        Guard::Atom(atom) => records.extend_from_slice(&atom_record(atom)),
        Guard::And(left, right) | Guard::Or(left, right) => {
            let kind = if matches!(guard, Guard::And(..)) { 4 } else { 5 };
            records.extend_from_slice(&[kind, 0, 0, 0, 0, 0, 0, 0]);
            guard_records(left, records);
            guard_records(right, records);
        }
        Guard::Not(inner) => {
            records.extend_from_slice(&[6, 0, 0, 0, 0, 0, 0, 0]);
            guard_records(inner, records);
        }
    }
}

/// Finds or makes room for a guard, and gives its place. Where sharing is wanted, records that stand there already are used again.
fn place(guard: &Guard, share: bool, bodies: &mut Bodies) -> [u8; 2] {
    let mut records = Vec::new();
    guard_records(guard, &mut records);
    let pool = &mut bodies.0[GUARDS];
    let mut found = (0..pool.len() / 8).filter(|at| share && pool[at * 8..].starts_with(&records));
    let at = match found.next() {
        Some(at) => at,
        _ => {
            pool.extend_from_slice(&records);
            (pool.len() - records.len()) / 8
        }
    };
    (at as u16).to_le_bytes()
}

/// Writes statements, nested ones too.
fn write_statements(list: &[Statement], share: bool, bodies: &mut Bodies) {
    for statement in list {
        match statement {
            Statement::Send { command, pattern } => bodies.push(STATEMENTS, &[0, *command, pattern_byte(*pattern), 0, 0, 0, 0, 0]),
            Statement::MoveTo(state) => bodies.push(STATEMENTS, &[1, *state, 0, 0, 0, 0, 0, 0]),
            Statement::If { guard, then, other } => {
                let [low, high] = place(guard, share, bodies);
                let head = bodies.count(STATEMENTS);
                bodies.push(STATEMENTS, &[2, 0, low, high, 0, 0, 0, 0]);
                write_statements(then, share, bodies);
                let middle = bodies.count(STATEMENTS);
                write_statements(other, share, bodies);
                let end = bodies.count(STATEMENTS);
                bodies.set_number(STATEMENTS, head, 4, (middle - head - 1) as u16);
                bodies.set_number(STATEMENTS, head, 6, (end - middle) as u16);
            }
        }
    }
}

/// The bodies that stand for a class.
pub fn bodies_of(class: &Class, share: bool) -> Bodies {
    let mut bodies = Bodies::default();
    for names in &class.children {
        bodies.push(CLASSES, &name_bytes(names));
    }
    for state in &class.states {
        bodies.push_state(state.clauses.len(), state.actions.len());
        for clause in &state.clauses {
            let [low, high] = place(&clause.guard, share, &mut bodies);
            let (referrer, target) = match clause.referrer {
                Referrer::MoveTo(target) => (0, target),
                Referrer::Do(number) => (1, number),
                Referrer::Stay => (2, 0),
            };
            bodies.push(WHENS, &[low, high, referrer, target]);
        }
        for action in &state.actions {
            let before = bodies.count(STATEMENTS);
            write_statements(&action.body, share, &mut bodies);
            let [low, high] = ((bodies.count(STATEMENTS) - before) as u16).to_le_bytes();
            bodies.push(ACTIONS, &[action.command, 0, low, high]);
        }
    }
    bodies
}
