//! Texts with faults of different numbers, each in a state of its own, in every order of place.

use crate::examples::short;
use crate::random::Random;
use crate::reading::Lent;

/// States that are not of the grammar, or after which no state can stand.
const WRONG: [&str; 12] = [
    "state: F when $ANY$K in_state P move_to",
    "state: F when ( $ANY$K in_state P stay_in_state",
    "state: F when $ANY$K in_state P ) stay_in_state",
    "state: F when $any$K in_state P stay_in_state",
    "state: F when $ANY$K in_state {P,} stay_in_state",
    "state: F action: go if $ANY$K in_state P then",
    "state: F action: go else endif",
    "state: F action: go do stop $ANY$K",
    "state: F action: go when $ANY$K in_state P stay_in_state",
    "state: F -",
    "state: when",
    "class: $FWPART_$TOP$Y state: F",
];

/// States with a fault of 17.
const UNKNOWN: [&str; 12] = [
    "state: U when $ANY$K in_state Z stay_in_state",
    "state: U when $ANY$Z in_state P stay_in_state",
    "state: U when $ANY$K in_state P move_to Z",
    "state: U when $ANY$K in_state P stay_in_state Z",
    "state: U when $ANY$K in_state P do zap",
    "state: U when $ANY$K in_state P do go",
    "state: U action: zap",
    "state: U action: go do zap $ALL$K",
    "state: U action: go do stop $ALL$Z",
    "state: U action: go move_to Z",
    "state: A",
    "state: U action: go action: go",
];

/// States that pass a limit: of operators, of ifs, of states; now and then of clauses.
fn past_limit(random: &mut Random) -> String {
    let atom = "$ANY$K in_state P";
    match random.below(13) {
        0..=2 => format!("state: D when {}{atom} stay_in_state", "not ".repeat(17)),
        3..=5 => format!("state: D when {} stay_in_state", vec![atom; 18].join(" or ")),
        6..=8 => format!("state: D action: go {}{}", format!("if {atom} then ").repeat(9), "endif ".repeat(9)),
        9..=11 => (0..33).map(|number| format!("state: D{number} ")).collect(),
        _ => format!("state: D {}", format!("when {atom} stay_in_state ").repeat(257)),
    }
}

/// A state with a fault of this number.
fn fault(random: &mut Random, number: u8) -> String {
    match number {
        16 => random.pick(&WRONG).to_string(),
        17 => random.pick(&UNKNOWN).to_string(),
        _ => past_limit(random),
    }
}

/// Two or three numbers in every order.
const ORDERS: [&[u8]; 12] = [
    &[16, 17], &[17, 16], &[16, 18], &[18, 16], &[17, 18], &[18, 17], &[16, 17, 18], &[16, 18, 17], &[17, 16, 18], &[17, 18, 16],
    &[18, 16, 17], &[18, 17, 16],
];

/// A text with two or three faults, good states between them; the buffers may be too short besides.
pub fn fault_pair(random: &mut Random) -> Lent {
    let numbers = random.pick(&ORDERS);
    let mut text = "H".to_string();
    for (place, number) in numbers.iter().enumerate() {
        for between in 0..random.below(3) {
            text += &format!(" state: G{place}{between} when $ALL$L in_state {{Q, R}} move_to A");
        }
        text += " ";
        text += &fault(random, *number);
    }
    let mut lent = short(&(text + random.pick(&["", "\n", " state: E"])));
    let room = if random.chance(40) { (0, 0) } else { (300, 200) };
    (lent.sheet, lent.table) = (random.bytes(room.0), random.bytes(room.1));
    lent
}
