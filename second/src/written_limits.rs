//! Sheets at the limits of what is written: so many guard records with each use counted, sets of many names, and long texts.

use crate::drafts::{change_class, class_record, name_record};
use crate::lines::{Question, LONGEST_LINE};
use crate::naming::Naming;
use crate::random::Random;
use crate::shapes::{class, Shape, BUSY, SMALL, WHOLE};
use crate::sketches::{label, sketch_of_names, Sketch};
use crate::text_limits::{guard_of_size, largest, near_limit};
use crate::text_writing::{size, write, Named};
use crate::tree::{Action, Atom, Class, Clause, Guard, Names, Pattern, Quantifier, Referrer, State, Statement};
use crate::writing::bodies_of;

/// So many when clauses a sheet may have, and so many operators lie on a path.
const MOST_WHENS: usize = 256;
const OPERATORS_ON_A_PATH: usize = 16;

/// A guard of this size; a small one may be nots alone.
fn guard(random: &mut Random, children: &[Names], size: usize) -> Guard {
    if size > OPERATORS_ON_A_PATH + 1 || random.chance(50) {
        return guard_of_size(random, children, size);
    }
    (1..size).fold(guard_of_size(random, children, 1), |inner, _| Guard::Not(Box::new(inner)))
}

/// How deep the ifs of a list lie.
fn deepest(list: &[Statement]) -> usize {
    let depth = |statement: &Statement| match statement {
        Statement::If { then, other, .. } => 1 + deepest(then).max(deepest(other)),
        _ => 0,
    };
    list.iter().map(depth).max().unwrap_or(0)
}

/// Puts a guard to use in a class: in a when clause, in an if, or in an if round the last one.
fn put_to_use(random: &mut Random, class: &mut Class, guard: Guard) {
    let whens: usize = class.states.iter().map(|state| state.clauses.len()).sum();
    let at = random.below(class.states.len());
    if whens < MOST_WHENS && random.chance(60) {
        return class.states[at].clauses.push(Clause { guard, referrer: Referrer::Stay });
    }
    let body = &mut class.states[at].actions[0].body;
    let inner: Vec<Statement> = if random.chance(40) && deepest(body) < 8 { body.pop().into_iter().collect() } else { Vec::new() };
    let (then, other) = if random.chance(50) { (inner, Vec::new()) } else { (Vec::new(), inner) };
    body.push(Statement::If { guard, then, other });
}

/// A few different guards, one of which is an atom, and one of which is large.
fn some_guards(random: &mut Random, children: &[Names], total: usize) -> Vec<Guard> {
    let large = random.pick(&[17, 17, 40, 100, 300, 600]).max(total / 200);
    let mut guards = vec![guard(random, children, 1), guard(random, children, large)];
    for _ in 0..random.below(3) {
        let size = random.between(2, 60);
        guards.push(guard(random, children, size));
    }
    guards
}

/// A sheet whose guards have this many records in all when each is counted as often as it is used; it holds few of them itself.
pub fn counted_records(random: &mut Random, total: usize) -> Sketch {
    let shape = Shape { classes: (0, 2), names: (1, 2), states: (1, 3), clauses: (0, 0), actions: (1, 1), statements: (0, 0), ..WHOLE };
    let mut class = class(random, &shape);
    let guards = some_guards(random, &class.children, total);
    let mut left = total;
    while left > 0 {
        let most = guards.iter().map(size).filter(|size| *size <= left).max().unwrap_or(1);
        let fit: Vec<&Guard> = guards.iter().filter(|guard| (most.div_ceil(8)..=most).contains(&size(guard))).collect();
        let guard = random.pick(&fit).clone();
        left -= size(&guard);
        put_to_use(random, &mut class, guard);
    }
    let names = random.pick(&[1, 1, 2, 3]);
    sketch_of_names(random, bodies_of(&class, true), names)
}

/// A sheet over 32 names, with sets that hold all of them, all but one, the first, the last, or some other one.
pub fn wide_sets(random: &mut Random) -> Sketch {
    let shape = random.pick(&[SMALL, WHOLE, BUSY]);
    let mut class = class(random, &Shape { states: (1, 2), ..shape });
    let all: Names = (0..32).collect();
    change_class(&mut class, &mut |atom| {
        let one = random.edge(0, 31);
        atom.names = match random.below(4) {
            0 => all.clone(),
            1 => all.iter().copied().filter(|name| *name != one).collect(),
            _ => Names::from([one]),
        };
    }, &mut |_| {});
    if random.chance(50) {
        class.children.iter_mut().for_each(|names| *names = all.clone());
    }
    sketch_of_names(random, bodies_of(&class, true), 32)
}

/// A guard about all 32 names.
fn wide_atom(random: &mut Random) -> Guard {
    let quantifier = random.pick(&[Quantifier::Any, Quantifier::All]);
    Guard::Atom(Atom { quantifier, inside: random.chance(50), pattern: Pattern::Class(0), names: (0..32).collect() })
}

/// A sheet with this many guards about 32 long names each: in when clauses alone, where there is no command, or in ifs as well.
fn wide_sketch(random: &mut Random, guards: usize, commands: bool) -> Sketch {
    let action = Action { command: 0, body: Vec::new() };
    let state = State { clauses: Vec::new(), actions: if commands { vec![action] } else { Vec::new() } };
    let mut class = Class { children: vec![(0..32).collect()], states: vec![state; random.between(1, 4)] };
    for number in 0..guards {
        let guard = wide_atom(random);
        let at = number % class.states.len();
        if commands {
            put_to_use(random, &mut class, guard);
        } else {
            class.states[at].clauses.push(Clause { guard, referrer: Referrer::Stay });
        }
    }
    label(random, bodies_of(&class, true), Naming::Long, 32, usize::from(commands))
}

/// A question on a line of at most this length, with just enough room, and how many bytes more of room would fit.
fn filling_line(random: &mut Random, length: usize) -> (Named, usize) {
    let odd = length % 2 == 1;
    let mut guards = if odd { MOST_WHENS } else { length / 2 / 1_000 };
    loop {
        let named = wide_sketch(random, guards, !odd).named();
        let room = write(&named).map_or(0, |text| text.len());
        let bare = Question::Write(Named { buffer: vec![0], ..named.clone() }).line().len() - 2;
        if bare + 2 * room <= length {
            return (Named { buffer: random.bytes(room), ..named }, (length - bare) / 2 - room);
        }
        guards -= guards.div_ceil(100);
    }
}

/// A question on a line of exactly this length.
fn brimful(random: &mut Random, length: usize) -> Named {
    let (mut named, more) = filling_line(random, length);
    named.buffer.extend(random.bytes(more));
    named
}

/// A question with a long text that has just enough room, or a byte less.
fn long(random: &mut Random, less: usize) -> Named {
    let (mut named, _) = filling_line(random, LONGEST_LINE);
    named.buffer.truncate(named.buffer.len() - less);
    named
}

/// A name of 31 characters.
fn long_name(kind: &str, number: usize) -> Vec<u8> {
    format!("{kind:_<29}{number:02}").into_bytes()
}

/// An if at a depth with the next one in its else-part, and so on; a do stands in the deepest.
fn else_chain(depth: usize, guard: &Guard) -> Statement {
    let inner = if depth == 7 { Statement::Send { command: 0, pattern: Pattern::Class(0) } } else { else_chain(depth + 1, guard) };
    Statement::If { guard: guard.clone(), then: Vec::new(), other: vec![inner] }
}

/// The statements that take the most bytes: 768 ifs with an else-part each, as deep as 256 dos allow, the dos in the deepest of them.
fn longest_statements(guard: &Guard) -> Vec<Statement> {
    let mut inner: Vec<Statement> = (0..251).map(|_| else_chain(5, guard)).collect();
    for chain in inner.iter_mut().take(5) {
        if let Statement::If { other, .. } = chain {
            other.push(else_chain(6, guard));
        }
    }
    (0..5).fold(inner, |inner, _| vec![Statement::If { guard: guard.clone(), then: Vec::new(), other: inner }])
}

/// The sheet and the names with the longest text of all, without a buffer: 1,024 guards of one record, each about all of 32 names.
pub fn longest() -> Named {
    let atom = Atom { quantifier: Quantifier::All, inside: false, pattern: Pattern::Class(0), names: (0..32).collect() };
    let guard = Guard::Atom(atom);
    let clause = Clause { guard: guard.clone(), referrer: Referrer::Stay };
    let actions: Vec<Action> = (0..8).map(|command| Action { command, body: Vec::new() }).collect();
    let mut class = Class { children: vec![(0..32).collect()], states: vec![State { clauses: vec![clause; 8], actions }; 32] };
    class.states[0].actions[0].body = longest_statements(&guard);
    let records = |kind: &str, count: usize| (0..count).flat_map(|number| name_record(&long_name(kind, number))).collect();
    Named {
        sheet: bodies_of(&class, true).sheet(),
        title: name_record(&long_name("class", 0)),
        table: records("own", 32),
        names: records("child", 32),
        commands: records("command", 64),
        classes: class_record(&long_name("kin", 0), [255; 4]),
        buffer: Vec::new(),
    }
}

/// A question about a class at a limit, or about the largest, with room for its text.
fn at_limit(random: &mut Random) -> Named {
    let tree = if random.chance(30) { largest(random, 0) } else { near_limit(random, 0) };
    let (names, share) = (random.pick(&[2, 4, 32]), random.chance(50));
    let named = sketch_of_names(random, bodies_of(&tree, share), names).named();
    let room = write(&named).map_or(0, |text| text.len());
    Named { buffer: random.bytes(room), ..named }
}

/// The long question of this turn.
pub fn long_write(random: &mut Random, turn: u64) -> Named {
    match turn % 40 {
        3 => brimful(random, LONGEST_LINE),
        13 => brimful(random, LONGEST_LINE + 1),
        18 => long(random, 0),
        23 => long(random, 1),
        28 => Named { buffer: random.bytes(400_000), ..longest() },
        number if number % 3 == 0 => {
            let length = random.between(40_000, 200_000) * 2;
            brimful(random, length)
        }
        _ => at_limit(random),
    }
}
