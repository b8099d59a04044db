//! Command requests: commands with the when phase behind them, and buffers that suit what both write.

use crate::answering::children;
use crate::asking::{any_command, children_in, list, state};
use crate::behaviour::{phase, request, step, Child, Ending, Phase, Request, Step};
use crate::lines::Question;
use crate::random::Random;
use crate::tallying_phases::reached;
use crate::tree::Class;
use crate::writing::bodies_of;

/// How a phase ends, in a word.
pub fn ending(phase: &Phase) -> &'static str {
    match phase {
        Phase::Settled { ending: Ending::NoClause, .. } => "none",
        Phase::Settled { ending: Ending::Stay, .. } => "stay",
        Phase::Settled { ending: Ending::Do(_), .. } => "do",
        Phase::Loop { .. } => "loop",
    }
}

/// What the DOs of a phase send in S moves, those of a phase that loops too.
pub fn sent_on_the_way(class: &Class, children: &[Child], start: u8) -> Vec<u8> {
    let (mut here, mut sent) = (start, Vec::new());
    for _ in 0..class.states.len() {
        match step(class, children, here, &mut sent) {
            Step::Move(next) => here = next,
            Step::End(_) => break,
        }
    }
    sent
}

/// What a request comes to on good input; nothing where the input is wrong.
pub fn request_on(class: &Class, list: &[u8], state: u8, asked: u8) -> Option<Request> {
    let children = children(class, list).ok().filter(|_| usize::from(state) < class.states.len())?;
    Some(request(class, &children, state, asked))
}

/// What a command does: there is no clause for it, its clause reaches no move_to, or one to the own state or to another.
#[derive(Clone, Copy, Debug, PartialEq)]
pub enum Does {
    Nothing,
    NoMove,
    OwnState,
    OtherState,
}

/// Which of these a command does.
pub fn does(class: &Class, children: &[Child], state: u8, asked: u8) -> Does {
    let clause = class.states[usize::from(state)].actions.iter().find(|action| action.command == asked);
    match clause.map(|action| reached(&action.body, children)) {
        None => Does::Nothing,
        Some(None) => Does::NoMove,
        Some(Some(reached)) if reached.target == state => Does::OwnState,
        Some(Some(_)) => Does::OtherState,
    }
}

/// A length for a buffer: just enough for what is written, more, or now and then less; the bytes of the command alone, those of the phase
/// alone, and what there would be if a loop wrote what it sends, are among them.
fn length_for(random: &mut Random, request: &Request, on_the_way: usize) -> usize {
    let (own, sum) = (request.run.sent.len(), request.writes().len());
    if own + on_the_way > sum && random.chance(30) {
        return own + on_the_way - 1 + random.pick(&[0, 1, 1, 2, 9]);
    }
    match random.below(20) {
        0..=6 => sum,
        7..=11 => sum + random.between(1, 9),
        12 | 13 => sum.saturating_sub(1),
        14 | 15 => own,
        16 => own.saturating_sub(1),
        17 => sum - own,
        18 => 0,
        _ => random.below(sum + 1),
    }
}

/// A command with a buffer that suits what it and the phase behind it write.
pub fn command_of(random: &mut Random, sheet: Vec<u8>, class: &Class, list: Vec<u8>, state: u8, command: u8) -> Question {
    let length = match request_on(class, &list, state, command) {
        Some(request) => {
            let on_the_way = sent_on_the_way(class, &children_in(&list), request.run.state).len();
            length_for(random, &request, on_the_way)
        }
        None => random.below(30),
    };
    Question::Command { sheet, list, state, command, buffer: random.bytes(length) }
}

/// What is asked of a request: a list, a state and a command.
type Asked = (Vec<u8>, u8, u8);

/// What a request should come to.
struct Wish {
    does: Does,
    ending: &'static str,
    /// Should something be written?
    writes: bool,
}

/// Any wish; a loop behind an ignored command writes nothing.
fn wish(random: &mut Random, writes: bool) -> Wish {
    let does = random.pick(&[Does::Nothing, Does::Nothing, Does::NoMove, Does::OwnState, Does::OwnState, Does::OtherState, Does::OtherState]);
    let endings = if writes && does == Does::Nothing { 4 } else { 5 };
    Wish { does, ending: random.pick(&["none", "stay", "stay", "do", "loop"][..endings]), writes }
}

/// How much of a wish a request fulfils; where that is as much, one of which more can be seen is worth more.
fn worth(class: &Class, asked: &Asked, wish: &Wish) -> usize {
    let (list, state, command) = asked;
    let Some(request) = request_on(class, list, *state, *command) else { return 0 };
    let children = children_in(list);
    let points = [
        (32, !wish.writes || !request.writes().is_empty()),
        (9, does(class, &children, *state, *command) == wish.does),
        (8, ending(&request.phase) == wish.ending),
        (2, !request.run.sent.is_empty()),
        (3, !sent_on_the_way(class, &children, request.run.state).is_empty()),
        (1, phase(class, &children, *state) != request.phase),
    ];
    points.iter().filter(|point| point.1).map(|point| point.0).sum()
}

/// A command that the state has a clause for, or one that it has none for; where there is no such one, any.
fn known_or_not(random: &mut Random, class: &Class, state: u8, known: bool) -> u8 {
    let has = |command: &u8| class.states[usize::from(state)].actions.iter().any(|action| action.command == *command);
    let fitting: Vec<u8> = (0..64).filter(|command| has(command) == known).collect();
    if fitting.is_empty() { any_command(random, class, state) } else { random.pick(&fitting) }
}

/// Of some classes, and a few lists, states and commands in each, those that fulfil most of a wish.
fn wished<'c>(random: &mut Random, classes: &'c [Class], wish: &Wish) -> (&'c Class, Asked) {
    let few = classes.iter().flat_map(|class| [class; 12]).map(|class| {
        let (list, state) = (list(random, class), state(random, class));
        let command = known_or_not(random, class, state, wish.does != Does::Nothing);
        (class, (list, state, command))
    });
    few.max_by_key(|(class, asked)| worth(class, asked, wish)).expect("there is a class")
}

/// A command in one of these classes of which there is much to be told.
pub fn telling_command(random: &mut Random, classes: &[Class]) -> Question {
    let wish = wish(random, false);
    let (class, (list, state, command)) = wished(random, classes, &wish);
    let sheet = bodies_of(class, random.chance(50)).sheet();
    command_of(random, sheet, class, list, state, command)
}

/// A length that is too short for a request, where something is written at all: a byte less, none, the bytes of the command alone, any.
fn short_length(random: &mut Random, request: &Request) -> usize {
    let (own, sum) = (request.run.sent.len(), request.writes().len());
    match random.below(10) {
        0..=3 => sum.saturating_sub(1),
        4 | 5 => 0,
        6 if own < sum => own,
        7 | 8 => own.saturating_sub(1),
        _ => random.below(sum.max(1)),
    }
}

/// A command in one of these classes with too short a buffer; now and then a child, the state or the command is wrong as well.
pub fn short_command(random: &mut Random, classes: &[Class]) -> Question {
    let wish = wish(random, true);
    let (class, (mut list, mut state, mut command)) = wished(random, classes, &wish);
    let length = request_on(class, &list, state, command).map_or(0, |request| short_length(random, &request));
    let (kinds, states) = (class.children.len() as u8, class.states.len() as u8);
    match random.below(16) {
        0 => list.extend_from_slice(random.pick(&[&[kinds, 0][..], &[0, 32], &[0]])),
        1 => state += states * random.byte(1, 7),
        2..=4 => command += 64 * random.byte(1, 3),
        _ => {}
    }
    let sheet = bodies_of(class, random.chance(50)).sheet();
    Question::Command { sheet, list, state, command, buffer: random.bytes(length) }
}
