//! Texts that are long or deep: brackets, braces, ifs and chains by the thousand, and lines as long as a line may be.

use crate::drafts::{class_record, name_record};
use crate::lines::{Question, FORMER_LONGEST_LINE, LONGEST_LINE};
use crate::naming::{distinct, Naming};
use crate::printing::some_white;
use crate::random::Random;
use crate::reading::Lent;

const HEAD: &str = "class: $FWPART_$TOP$X state: A ";
const ATOM: &str = "$ANY$K in_state P";

/// A question about a text over few names, with more room than any such text needs.
fn about(random: &mut Random, text: String) -> Lent {
    let names = [name_record(b"P"), name_record(b"Q")].concat();
    let commands = [name_record(b"go"), name_record(b"stop")].concat();
    let classes = class_record(b"K", [3, 0, 0, 0]);
    let (sheet, table) = (random.bytes(400), random.bytes(100));
    Lent { text: text.into_bytes(), names, commands, classes, sheet, table }
}

/// Brackets thousands deep: closed, one too few, or one too many.
fn brackets(random: &mut Random, closed: i64) -> Lent {
    let depth = random.between(3_000, 12_000);
    let close = (depth as i64 + closed) as usize;
    let text = format!("{HEAD}when {}{ATOM}{}move_to A", "(".repeat(depth), ")".repeat(close));
    about(random, text)
}

/// A set of thousands of names, or of two.
fn braces(random: &mut Random) -> Lent {
    let count = random.between(2_000, 10_000);
    let names: Vec<&str> = (0..count).map(|_| random.pick(&["P", "Q"])).collect();
    let text = format!("{HEAD}when $ALL$FwCHILDREN not_in_state{{{}}}stay_in_state", names.join(","));
    about(random, text)
}

/// A chain of thousands of operators, in one of five ways: not, and from the left, or to the right, mixed with brackets.
fn chain(random: &mut Random, way: u64) -> Lent {
    let count = random.between(1_000, 2_000);
    let guard = match way {
        0 => format!("{}{ATOM}", "not ".repeat(count)),
        1 => vec![ATOM; count].join(" and "),
        2 => format!("{}{ATOM}{}", format!("{ATOM} or(").repeat(count), ")".repeat(count)),
        3 => format!("{}{ATOM}{}", "(not(".repeat(count), "))".repeat(count)),
        _ => vec![ATOM; count].join(" or not "),
    };
    let text = format!("{HEAD}when {guard} move_to A");
    about(random, text)
}

/// Ifs thousands deep, in then-parts and else-parts; one of them may have an else too many, or an unknown name.
fn ifs(random: &mut Random, fault: &str) -> Lent {
    let count = random.between(300, 1_000);
    let wrong = random.below(count);
    let mut text = format!("{HEAD}action: go ");
    let mut behind = Vec::new();
    for number in 0..count {
        let other = random.chance(50);
        text.push_str(if other { "if $ANY$K in_state P then move_to A else " } else { "if $ALL$K in_state Q then " });
        let fault = if number == wrong { fault } else { "" };
        behind.push(if other { format!("{fault} endif ") } else { format!("else {fault} endif ") });
    }
    behind.reverse();
    about(random, text + &behind.concat())
}

/// Hundreds of states and more, with something behind the last of them.
fn states(random: &mut Random, last: &str) -> Lent {
    let count = random.between(300, 1_000);
    let states: Vec<String> = (0..count).map(|number| format!("state: S{number} when {ATOM} move_to S{}", random.below(count))).collect();
    let text = format!("{HEAD}{} {last}", states.join("\n"));
    about(random, text)
}

/// Long white space, or a long run, before a word.
fn stretch(random: &mut Random) -> Lent {
    let length = random.between(5_000, 30_000);
    let filling = if random.chance(70) { some_white(random, length, length) } else { vec![b'A'; length] };
    let mut lent = about(random, format!("{HEAD}when {ATOM} stay_in_state"));
    let at = random.pick(&[0, 6, 7, 21, 22, 30, lent.text.len()]);
    lent.text.splice(at..at, filling);
    lent
}

/// A list of hundreds of names, good, or with a name twice, far apart.
fn long_list(random: &mut Random, twice: bool) -> Lent {
    let mut lent = about(random, format!("{HEAD}when {ATOM} move_to A"));
    let count = random.between(100, 1_000);
    let mut names = distinct(random, Naming::Long, 20);
    names.extend((names.len()..count).map(|number| format!("name_{number}").into_bytes()));
    if twice {
        names[count - 1] = random.pick(&names[..count / 2]);
    }
    names.insert(0, b"P".to_vec());
    lent.names.extend(names[1..].iter().flat_map(|name| name_record(name)));
    lent
}

/// What fills a line up to its length.
#[derive(Clone, Copy, PartialEq)]
enum Filling {
    /// One of the two buffers, or both.
    Sheet,
    Table,
    Both,
    /// White space at the end of the text, or brackets round its guard.
    White,
    Brackets,
}

/// Fills a question up with this many bytes.
fn fill(random: &mut Random, lent: &mut Lent, filling: Filling, count: usize) {
    let half = count / 2;
    match filling {
        Filling::Sheet => lent.sheet.extend(random.bytes(count)),
        Filling::Table => lent.table.extend(random.bytes(count)),
        Filling::Both => {
            lent.sheet.extend(random.bytes(half));
            lent.table.extend(random.bytes(count - half));
        }
        Filling::White => lent.text.extend(some_white(random, count, count)),
        Filling::Brackets => {
            let (open, close) = (HEAD.len() + "when ".len(), HEAD.len() + "when ".len() + ATOM.len());
            lent.text.splice(close..close, vec![b')'; half]);
            lent.text.splice(open..open, vec![b'('; half]);
            lent.text.extend(vec![b' '; count - 2 * half]);
        }
    }
}

/// A question on a line of exactly this length.
fn brimful(random: &mut Random, length: usize, filling: Filling) -> Lent {
    let mut lent = about(random, format!("{HEAD}when {ATOM} move_to A"));
    if length % 2 == 1 {
        // an empty field is one byte, so that the line's length comes out odd
        lent.commands.clear();
    }
    let missing = length - Question::Read(lent.clone()).line().len();
    fill(random, &mut lent, filling, missing / 2);
    lent
}

/// A question on a line of exactly this length, whose answer is as long: nothing is lent but the buffers.
fn buffers_alone(random: &mut Random, length: usize) -> Lent {
    let bytes = (length - "read - - - -  ".len()) / 2;
    let (sheet, table) = (random.bytes(bytes / 2), random.bytes(bytes - bytes / 2));
    Lent { text: Vec::new(), names: Vec::new(), commands: Vec::new(), classes: Vec::new(), sheet, table }
}

/// The long question of this turn.
pub fn long_text(random: &mut Random, turn: u64) -> Lent {
    match turn % 25 {
        way @ 0..=4 => chain(random, way),
        5 => brackets(random, 0),
        6 => brackets(random, -1),
        7 => brackets(random, 1),
        8 => braces(random),
        9 => ifs(random, ""),
        10 => ifs(random, "else"),
        11 => ifs(random, "move_to B"),
        12 => states(random, ""),
        13 => states(random, "state: A"),
        14 => states(random, "when $ANY$K in_state P do"),
        15 | 16 => stretch(random),
        17 => long_list(random, false),
        18 => long_list(random, true),
        19 => brimful(random, FORMER_LONGEST_LINE, Filling::Sheet),
        20 => brimful(random, FORMER_LONGEST_LINE + 1, Filling::Table),
        21 => { let filling = random.pick(&[Filling::Sheet, Filling::Table, Filling::Both]); brimful(random, LONGEST_LINE, filling) }
        22 => { let filling = random.pick(&[Filling::White, Filling::Brackets]); brimful(random, LONGEST_LINE, filling) }
        23 => buffers_alone(random, LONGEST_LINE),
        _ => { let filling = random.pick(&[Filling::Sheet, Filling::Both, Filling::White]); brimful(random, LONGEST_LINE + 1, filling) }
    }
}
