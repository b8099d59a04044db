//! Questions about a sheet: child lists, states, commands, present classes and buffers, good ones and wrong ones.

use crate::answering::children;
use crate::behaviour::{phase, Child, Phase};
use crate::commanding::command_of;
use crate::lines::Question;
use crate::loops::pairs;
use crate::random::Random;
use crate::tree::Class;

/// How many names the loop question may have where it is asked in passing.
pub const NAMES_IN_PASSING: usize = 11;

/// A child list in which every child's name is in its class.
pub fn list(random: &mut Random, class: &Class) -> Vec<u8> {
    if class.children.is_empty() {
        return Vec::new();
    }
    let length = match random.below(200) {
        0..=19 => 0,
        20..=139 => random.between(1, 4),
        140..=195 => random.between(5, 16),
        196..=198 => random.between(17, 60),
        _ => random.between(250, 300),
    };
    children_of(random, class, length)
}

/// This many children; sometimes all of one class, sometimes few different ones.
pub fn children_of(random: &mut Random, class: &Class, length: usize) -> Vec<u8> {
    let mut kinds = Vec::new();
    let only = random.chance(30).then(|| random.below(class.children.len()));
    for _ in 0..random.pick(&[1, 2, 3, 50]) {
        let number = only.unwrap_or_else(|| random.below(class.children.len()));
        let names: Vec<u8> = class.children[number].iter().copied().collect();
        kinds.push([number as u8, random.pick(&names)]);
    }
    (0..length).flat_map(|_| random.pick(&kinds)).collect()
}

/// The children of a good list.
pub fn children_in(list: &[u8]) -> Vec<Child> {
    list.chunks(2).map(|pair| (pair[0], pair[1])).collect()
}

/// A state of the class.
pub fn state(random: &mut Random, class: &Class) -> u8 {
    random.below(class.states.len()) as u8
}

/// A command, most often one that the state has a clause for.
pub fn any_command(random: &mut Random, class: &Class, state: u8) -> u8 {
    let known: Vec<u8> = class.states[usize::from(state)].actions.iter().map(|action| action.command).collect();
    if known.is_empty() || random.chance(20) { random.byte(0, 63) } else { random.pick(&known) }
}

/// A buffer for an answer that needs this much room: just enough, more, or now and then less.
fn buffer(random: &mut Random, room: usize) -> Vec<u8> {
    let length = match random.below(20) {
        0..=8 => room,
        9..=17 => room + random.between(1, 9),
        18 => room.saturating_sub(1),
        _ => random.below(room + 1),
    };
    random.bytes(length)
}

/// The bytes that a when phase sends on good input; none where it loops, or where the input is wrong.
pub fn room_of_phase(class: &Class, list: &[u8], state: u8) -> Option<usize> {
    let children = children(class, list).ok().filter(|_| usize::from(state) < class.states.len())?;
    match phase(class, &children, state) {
        Phase::Settled { sent, .. } => Some(sent.len()),
        Phase::Loop { .. } => None,
    }
}

/// A when phase with a buffer that suits it; where no room is needed, none or any.
pub fn phase_of(random: &mut Random, sheet: Vec<u8>, class: &Class, list: Vec<u8>, state: u8) -> Question {
    let buffer = match room_of_phase(class, &list, state) {
        Some(room) => buffer(random, room),
        None if random.chance(40) => Vec::new(),
        None => { let length = random.below(40); random.bytes(length) }
    };
    Question::Phase { sheet, list, state, buffer }
}

/// Present classes that make no more names than this.
fn present(random: &mut Random, class: &Class, most: usize) -> u8 {
    let all = ((1u16 << class.children.len()) - 1) as u8;
    let mut present = if random.chance(50) { all } else { all & random.byte(0, 255) };
    while pairs(class, present).len() > most {
        present &= !(1 << random.below(8));
    }
    present
}

/// One of the five questions with good input.
pub fn good(random: &mut Random, sheet: Vec<u8>, class: &Class) -> Question {
    let kind = random.below(5);
    good_of_kind(random, kind, sheet, class)
}

/// The question of this kind, from judge to loop, with good input.
pub fn good_of_kind(random: &mut Random, kind: usize, sheet: Vec<u8>, class: &Class) -> Question {
    let (list, state) = (list(random, class), state(random, class));
    match kind {
        0 => Question::Judge { sheet },
        1 => Question::Probe { sheet, list, state },
        2 => phase_of(random, sheet, class, list, state),
        3 => {
            let command = any_command(random, class, state);
            command_of(random, sheet, class, list, state, command)
        }
        _ => {
            let most = if class.states.len() > 12 { 5 } else { NAMES_IN_PASSING };
            let present = present(random, class, most);
            let buffer = buffer(random, 2 * pairs(class, present).len());
            Question::Loop { sheet, present, buffer }
        }
    }
}

/// A child list that breaks rule 10.
fn bad_list(random: &mut Random, class: &Class) -> Vec<u8> {
    let mut bytes = list(random, class);
    let classes = class.children.len() as u8;
    if random.chance(20) {
        bytes.push(random.byte(0, 1));
        return bytes;
    }
    if random.chance(10) && classes > 0 {
        let length = random.pick(&[4097, 4097, 4098]);
        return children_of(random, class, length);
    }
    let child = if classes == 0 || random.chance(30) {
        [random.edge(classes, 255), random.byte(0, 31)]
    } else {
        let number = random.below(class.children.len());
        let names = &class.children[number];
        let known = *names.iter().next().unwrap_or(&0);
        let name = match random.below(4) {
            0 => known + 32 * random.byte(1, 7),
            1 => random.edge(32, 255),
            _ => (0..32).filter(|name| !names.contains(name)).nth(random.below(8)).unwrap_or(32),
        };
        [number as u8, name]
    };
    let at = 2 * random.below(bytes.len() / 2 + 1);
    bytes.splice(at..at, child);
    bytes
}

/// A state that breaks rule 11.
fn bad_state(random: &mut Random, class: &Class) -> u8 {
    let states = class.states.len() as u8;
    random.edge(states, 255)
}

/// A command that breaks rule 12; it may look like a known one to who keeps six bits.
fn bad_command(random: &mut Random, class: &Class, state: u8) -> u8 {
    let state = state.min(class.states.len() as u8 - 1);
    if random.chance(30) {
        return random.edge(64, 255);
    }
    any_command(random, class, state) + 64 * random.byte(1, 3)
}

/// A question in which some of the parts named by these rules (10 to 12) are wrong.
pub fn bad_input(random: &mut Random, rules: &[u8], sheet: Vec<u8>, class: &Class) -> Question {
    let list = if rules.contains(&10) { bad_list(random, class) } else { list(random, class) };
    let state = if rules.contains(&11) { bad_state(random, class) } else { state(random, class) };
    let kind = random.below(3);
    if kind == 0 && !rules.contains(&12) {
        return Question::Probe { sheet, list, state };
    }
    if kind == 1 && !rules.contains(&12) {
        return phase_of(random, sheet, class, list, state);
    }
    let command = if rules.contains(&12) {
        bad_command(random, class, state)
    } else {
        any_command(random, class, state.min(class.states.len() as u8 - 1))
    };
    let length = random.below(30);
    Question::Command { sheet, list, state, command, buffer: random.bytes(length) }
}

/// The list, the state and too short a buffer of a when phase that sends something, where there is one.
fn short_of_room(random: &mut Random, class: &Class) -> (Vec<u8>, u8, Vec<u8>) {
    let mut asked = (Vec::new(), 0, 0);
    for _ in 0..20 {
        let (list, state) = (list(random, class), state(random, class));
        let room = room_of_phase(class, &list, state).unwrap_or(0);
        asked = (list, state, room);
        if room > 0 {
            break;
        }
    }
    let (list, state, room) = asked;
    let length = match random.below(10) {
        0..=4 => room.saturating_sub(1),
        5 | 6 => 0,
        _ => random.below(room.max(1)),
    };
    (list, state, random.bytes(length))
}

/// A when phase with too short a buffer for what it sends; now and then with a wrong child behind the others, or a wrong state, as well.
pub fn short_phase(random: &mut Random, sheet: Vec<u8>, class: &Class) -> Question {
    let (mut list, mut state, buffer) = short_of_room(random, class);
    let (classes, states) = (class.children.len() as u8, class.states.len() as u8);
    let fault = random.below(12);
    if fault < 2 {
        list.extend_from_slice(random.pick(&[&[classes, 0][..], &[0, 32], &[0]]));
    }
    if fault == 1 || fault == 2 {
        state += states * random.byte(1, 7);
    }
    Question::Phase { sheet, list, state, buffer }
}

/// A loop question with a present bit too many, where there is one, and no more names than this.
pub fn absent_class(random: &mut Random, sheet: Vec<u8>, class: &Class, most: usize) -> Question {
    let classes = class.children.len();
    let extra = if classes < 8 { 1u8 << random.between(classes, 7) } else { 0 };
    let present = present(random, class, most) | extra;
    let room = 2 * pairs(class, present).len();
    let buffer = buffer(random, room);
    Question::Loop { sheet, present, buffer }
}

/// A loop question with all classes present, and a buffer that is right or one byte short.
pub fn everyone(random: &mut Random, sheet: Vec<u8>, class: &Class, short: bool) -> Question {
    let present = ((1u16 << class.children.len()) - 1) as u8;
    let room = 2 * pairs(class, present).len();
    let length = if short { room.saturating_sub(1) } else { room + random.below(3) };
    Question::Loop { sheet, present, buffer: random.bytes(length) }
}
