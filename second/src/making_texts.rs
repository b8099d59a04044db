//! The mix of reading questions.

use crate::drafts::{draft, lists};
use crate::examples::worked;
use crate::fault_pairs::fault_pair;
use crate::lines::Question;
use crate::long_texts::long_text;
use crate::making::spoil_line;
use crate::name_damage::damage_names;
use crate::printing::{fixed_words, layout, manner, pieces, white, Piece, Role};
use crate::random::Random;
use crate::reading::Lent;
use crate::shapes::{class, Shape, SMALL, WHOLE};
use crate::text_damage::{damage_bytes, damage_words, random_words};
use crate::text_limits::{empty_set, fill_lists, largest, near_limit, states};
use crate::tree::Class;
use crate::writing::{bodies_of, CLASSES, RECORD};

/// Reading questions have their own random numbers.
const TEXT_SEED: u64 = 0x7E87_0000_0000_0000;

/// Where reading questions are alone, every so many of them comes a long one, and so often a worked example.
const LONG_EVERY: u64 = 125;
const WORKED_EVERY: u64 = 40;

/// Classes whose texts are short: with a state or two and little in them, with something of everything, with guards, with statements,
/// with several states.
const TINY: Shape = Shape { states: (1, 2), clauses: (0, 2), depth: 2, actions: (0, 1), statements: (0, 2), ..SMALL };
const MIDDLING: Shape = Shape { states: (1, 3), clauses: (1, 2), depth: 2, actions: (1, 2), statements: (0, 2), ..WHOLE };
const GUARDED: Shape = Shape { states: (1, 2), clauses: (1, 2), depth: 4, actions: (0, 1), statements: (0, 1), ..SMALL };
const ACTIVE: Shape = Shape { classes: (0, 4), states: (1, 1), clauses: (0, 1), depth: 2, actions: (1, 3), statements: (0, 4), ..SMALL };
const SEVERAL: Shape = Shape { states: (2, 9), clauses: (0, 1), depth: 1, actions: (0, 2), statements: (0, 1), ..SMALL };

/// A reading question that is being made: the words, the lists, and the class that they stand for.
struct Asked {
    class: Class,
    pieces: Vec<Piece>,
    lists: [Vec<u8>; 3],
}

/// Which faults a question is to have; 15 is a buffer that is too short.
#[derive(Clone, Copy, PartialEq)]
struct Faults {
    text: bool,
    names: bool,
    limits: bool,
    room: bool,
}

const NONE: Faults = Faults { text: false, names: false, limits: false, room: false };

/// The line of one question of a run of reading questions alone.
pub fn make_line(seed: u64, index: u64) -> Vec<u8> {
    if index % LONG_EVERY == 0 {
        return long_line(seed, index, index / LONG_EVERY);
    }
    if index % WORKED_EVERY == 21 {
        return worked_line(seed, index, index / WORKED_EVERY);
    }
    mixed_line(seed, index)
}

/// The line of the long text of this turn.
pub fn long_line(seed: u64, index: u64, turn: u64) -> Vec<u8> {
    Question::Read(long_text(&mut Random::for_question(seed ^ TEXT_SEED, index), turn)).line().into_bytes()
}

/// The line of the worked example of this turn.
pub fn worked_line(seed: u64, index: u64, turn: u64) -> Vec<u8> {
    Question::Read(worked(&mut Random::for_question(seed ^ TEXT_SEED, index), turn)).line().into_bytes()
}

/// The line of a reading question of any other kind.
pub fn mixed_line(seed: u64, index: u64) -> Vec<u8> {
    let random = &mut Random::for_question(seed ^ TEXT_SEED, index);
    let lent = match random.below(200) {
        0..=48 => good(random),
        49..=55 => fault_pair(random),
        56..=67 => at_limit(random),
        68..=92 => faulty(random, Faults { room: true, ..NONE }),
        93..=130 => faulty(random, Faults { text: true, ..NONE }),
        131..=157 => faulty(random, Faults { names: true, ..NONE }),
        158..=177 => faulty(random, Faults { limits: true, ..NONE }),
        178..=189 => two_faults(random),
        190..=193 => late_fault(random),
        194 | 195 => noise(random),
        196 if random.chance(40) => large(random),
        196 => good(random),
        _ => return bad_line(random),
    };
    Question::Read(lent).line().into_bytes()
}

/// A line that asks to read, but is no question.
fn bad_line(random: &mut Random) -> Vec<u8> {
    let line = Question::Read(good(random)).line().into_bytes();
    let spoiled = spoil_line(random, line.clone());
    if spoiled.starts_with(b"read ") { spoiled } else { line }
}

/// The words and lists of a class with random names.
fn asked(random: &mut Random, class: Class) -> Asked {
    let draft = draft(random, class);
    let manner = manner(random);
    let pieces = pieces(random, &draft, manner);
    let lists = lists(&draft);
    Asked { class: draft.class, pieces, lists }
}

/// A random class that keeps the limits.
fn some_class(random: &mut Random) -> Class {
    let shape = random.pick(&[TINY, TINY, TINY, TINY, MIDDLING, GUARDED, GUARDED, ACTIVE, ACTIVE, SEVERAL, SEVERAL]);
    let classes = if random.chance(10) { (5, 8) } else { shape.classes };
    class(random, &Shape { classes, ..shape })
}

/// A length that is enough for this room.
pub fn enough(random: &mut Random, room: usize) -> usize {
    match random.below(10) {
        0..=4 => room,
        5..=8 => room + random.between(1, 9),
        _ => room + random.between(10, 60),
    }
}

/// A length that is too short for this room.
pub fn short(random: &mut Random, room: usize) -> usize {
    match random.below(8) {
        0..=3 => room - 1,
        4 => room.saturating_sub(random.pick(&[2, 4, 8, 32])),
        5 => 0,
        _ => random.below(room),
    }
}

/// How long the two buffers are: long enough, or one of them, or both, too short.
fn lengths(random: &mut Random, asked: &Asked, too_short: bool) -> (usize, usize) {
    let more = asked.lists[2].len() / 36 * RECORD[CLASSES];
    let sheet = bodies_of(&asked.class, false).sheet().len() + more - RECORD[CLASSES] * asked.class.children.len();
    let table = 32 * asked.class.states.len();
    match random.below(if too_short { 7 } else { 1 }) {
        0 if !too_short => (enough(random, sheet), enough(random, table)),
        0..=2 => (short(random, sheet), enough(random, table)),
        3..=5 => (enough(random, sheet), short(random, table)),
        _ => (short(random, sheet), short(random, table)),
    }
}

/// The question, in a random layout.
fn lent(random: &mut Random, asked: Asked, too_short: bool) -> Lent {
    let white = white(random, asked.pieces.len());
    let text = layout(random, white, &asked.pieces);
    let (sheet, table) = lengths(random, &asked, too_short);
    let (sheet, table) = (random.bytes(sheet), random.bytes(table));
    let [names, commands, classes] = asked.lists;
    Lent { text, names, commands, classes, sheet, table }
}

/// A question that is read.
pub fn good(random: &mut Random) -> Lent {
    let class = some_class(random);
    let asked = asked(random, class);
    lent(random, asked, false)
}

/// A question that is just within a limit.
fn at_limit(random: &mut Random) -> Lent {
    let lists_only = random.chance(30);
    let class = if lists_only { some_class(random) } else { near_limit(random, 0) };
    let mut asked = asked(random, class);
    if lists_only {
        fill_lists(random, &mut asked.lists, 0);
    }
    lent(random, asked, false)
}

/// Words and lists that pass a limit: of the text, of the lists, or by an empty name set.
fn past_limit(random: &mut Random) -> Asked {
    let kind = random.below(10);
    let past = random.pick(&[1, 1, 1, 1, 1, 2]);
    let class = if kind < 5 { near_limit(random, past) } else { some_class(random) };
    let mut asked = asked(random, class);
    match kind {
        0..=4 => {}
        5..=7 => fill_lists(random, &mut asked.lists, past),
        _ => empty_set(random, &mut asked.lists),
    }
    asked
}

/// A question with these faults.
fn faulty(random: &mut Random, faults: Faults) -> Lent {
    let mut asked = if faults.limits {
        past_limit(random)
    } else {
        let class = some_class(random);
        asked(random, class)
    };
    if faults.names {
        damage_names(random, &mut asked.pieces, &mut asked.lists);
    }
    let in_bytes = random.chance(35);
    if faults.text && !in_bytes {
        for _ in 0..random.pick(&[1, 1, 1, 1, 1, 2]) {
            damage_words(random, &mut asked.pieces);
        }
    }
    let mut lent = lent(random, asked, faults.room);
    if faults.text && in_bytes {
        damage_bytes(random, &mut lent.text);
    }
    lent
}

/// A question with two faults of different numbers, now and then with more.
fn two_faults(random: &mut Random) -> Lent {
    let mut faults = match random.below(6) {
        0 => Faults { text: true, names: true, ..NONE },
        1 => Faults { text: true, limits: true, ..NONE },
        2 => Faults { text: true, room: true, ..NONE },
        3 => Faults { names: true, limits: true, ..NONE },
        4 => Faults { names: true, room: true, ..NONE },
        _ => Faults { limits: true, room: true, ..NONE },
    };
    if random.chance(20) {
        faults.room = true;
    }
    faulty(random, faults)
}

/// More states than there may be, with an earlier number's fault behind the last of them, or within it.
fn late_fault(random: &mut Random) -> Lent {
    let count = random.pick(&[33, 33, 34, 40]);
    let class = states(random, count);
    let mut asked = asked(random, class);
    let own: Vec<Piece> = asked.pieces.iter().filter(|piece| piece.role == Role::Own).cloned().collect();
    match random.below(6) {
        0 => {
            asked.pieces.extend(fixed_words("state:"));
            asked.pieces.push(random.pick(&own));
        }
        1 => asked.pieces.extend(fixed_words("action: no_such_command")),
        2 => asked.pieces.extend(fixed_words("state: one_more action: no_such_command if")),
        3 => asked.pieces.extend(fixed_words("state: one_more when $ANY$ FwCHILDREN in_state no_such_name stay_in_state no_such_state")),
        4 => damage_names(random, &mut asked.pieces, &mut asked.lists),
        _ => damage_words(random, &mut asked.pieces),
    }
    let too_short = random.chance(20);
    lent(random, asked, too_short)
}

/// Random bytes, or random words behind the beginning of a text.
fn noise(random: &mut Random) -> Lent {
    let class = some_class(random);
    let mut asked = asked(random, class);
    if random.chance(70) {
        random_words(random, &mut asked.pieces);
        return lent(random, asked, false);
    }
    let mut lent = lent(random, asked, false);
    let length = random.pick(&[0, 0, 1, 2, 20, 60]);
    lent.text = random.bytes(length);
    if random.chance(50) {
        let length = random.below(100);
        let list = random.bytes(length);
        match random.below(3) {
            0 => lent.names = list,
            1 => lent.commands = list,
            _ => lent.classes = list,
        }
    }
    lent
}

/// The largest class, or one that has one more of something.
fn large(random: &mut Random) -> Lent {
    let more = if random.chance(40) { 0 } else { random.between(1, 5) };
    let class = largest(random, more);
    let asked = asked(random, class);
    lent(random, asked, false)
}
