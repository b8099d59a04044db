//! Classes as words in many forms, and words as texts in many layouts.

use crate::drafts::Draft;
use crate::random::Random;
use crate::tree::{Atom, Guard, Pattern, Quantifier, Referrer, Statement};
use crate::words::is_name_character;

/// What a word of a text stands for.
#[derive(Clone, Copy, Debug, PartialEq)]
pub enum Role {
    Fixed,
    /// The class's own name.
    Title,
    /// An own state behind `state:`, and one that is moved to or stayed in.
    Own,
    Target,
    /// A child's state, a class, and a command behind `action:`, behind the do of a referrer and behind that of a statement.
    Child,
    Kin,
    Action,
    Do,
    Send,
}

/// A word of a text that is being made.
#[derive(Clone, Debug, PartialEq)]
pub struct Piece {
    pub bytes: Vec<u8>,
    pub role: Role,
}

/// A fixed word, or any other bytes.
pub fn fixed(bytes: &[u8]) -> Piece {
    Piece { bytes: bytes.to_vec(), role: Role::Fixed }
}

/// Some fixed words, parted by blanks.
pub fn fixed_words(words: &str) -> Vec<Piece> {
    words.split_whitespace().map(|word| fixed(word.as_bytes())).collect()
}

/// How often in a hundred something is written that need not be.
#[derive(Clone, Copy)]
pub struct Manner {
    pub brackets: usize,
    pub braces: usize,
    pub repeats: usize,
    pub empty_else: usize,
    pub stay_names: usize,
}

/// A random manner.
pub fn manner(random: &mut Random) -> Manner {
    Manner {
        brackets: random.pick(&[0, 0, 10, 40, 100]),
        braces: random.pick(&[0, 50]),
        repeats: random.pick(&[0, 10, 40]),
        empty_else: random.pick(&[0, 50]),
        stay_names: random.pick(&[0, 50, 100]),
    }
}

/// The words of a draft that is being printed.
struct Printer<'d> {
    draft: &'d Draft,
    manner: Manner,
    pieces: Vec<Piece>,
}

/// How tightly a place binds: a whole guard, an operand of and, a unit.
const GUARD: usize = 0;
const CONJ: usize = 1;
const UNIT: usize = 2;

impl Printer<'_> {
    /// Writes a fixed word.
    fn word(&mut self, word: &str) {
        self.pieces.push(fixed(word.as_bytes()));
    }

    /// Writes a name in a role.
    fn name(&mut self, role: Role, name: &[u8]) {
        self.pieces.push(Piece { bytes: name.to_vec(), role });
    }

    /// Writes a pattern without its quantifier.
    fn kin(&mut self, pattern: Pattern) {
        match pattern {
            Pattern::Everyone => self.word("FwCHILDREN"),
            Pattern::Class(class) => self.name(Role::Kin, &self.draft.kin[usize::from(class)]),
        }
    }

    /// Writes the names of an atom: one alone, or some in braces in any order, now and then twice.
    fn set(&mut self, random: &mut Random, atom: &Atom) {
        let mut numbers: Vec<u8> = atom.names.iter().copied().collect();
        if random.chance(self.manner.repeats) {
            numbers.push(random.pick(&numbers));
        }
        for _ in 0..random.below(3) {
            let (one, other) = (random.below(numbers.len()), random.below(numbers.len()));
            numbers.swap(one, other);
        }
        let braces = numbers.len() > 1 || random.chance(self.manner.braces);
        if braces {
            self.word("{");
        }
        for (place, number) in numbers.iter().enumerate() {
            if place > 0 {
                self.word(",");
            }
            self.name(Role::Child, &self.draft.names[usize::from(*number)]);
        }
        if braces {
            self.word("}");
        }
    }

    /// Writes an atom.
    fn atom(&mut self, random: &mut Random, atom: &Atom) {
        self.word(if atom.quantifier == Quantifier::Any { "$ANY$" } else { "$ALL$" });
        self.kin(atom.pattern);
        self.word(if atom.inside { "in_state" } else { "not_in_state" });
        self.set(random, atom);
    }

    /// Writes a guard where the place binds so tightly, with brackets where they are needed and now and then where they are not.
    fn guard(&mut self, random: &mut Random, guard: &Guard, place: usize) {
        let binds = match guard {
            Guard::Or(..) => GUARD,
            Guard::And(..) => CONJ,
            _ => UNIT,
        };
        let mut brackets = usize::from(binds < place);
        while random.chance(self.manner.brackets) && brackets < 3 {
            brackets += 1;
        }
        self.pieces.extend(vec![fixed(b"("); brackets]);
        match guard {
            Guard::Atom(atom) => self.atom(random, atom),
            Guard::And(left, right) => self.operator(random, (left, CONJ), "and", (right, UNIT)),
            Guard::Or(left, right) => self.operator(random, (left, GUARD), "or", (right, CONJ)),
            Guard::Not(inner) => {
                self.word("not");
                self.guard(random, inner, UNIT);
            }
        }
        self.pieces.extend(vec![fixed(b")"); brackets]);
    }

    /// Writes an operator between its operands.
    fn operator(&mut self, random: &mut Random, left: (&Guard, usize), word: &str, right: (&Guard, usize)) {
        self.guard(random, left.0, left.1);
        self.word(word);
        self.guard(random, right.0, right.1);
    }

    /// Writes a referrer of a state.
    fn referrer(&mut self, random: &mut Random, state: usize, referrer: Referrer) {
        let draft = self.draft;
        match referrer {
            Referrer::MoveTo(target) => {
                self.word("move_to");
                self.name(Role::Target, &draft.own[usize::from(target)]);
            }
            Referrer::Do(number) => {
                let command = draft.class.states[state].actions[usize::from(number)].command;
                self.word("do");
                self.name(Role::Do, &draft.commands[usize::from(command)]);
            }
            Referrer::Stay => {
                self.word("stay_in_state");
                if random.chance(self.manner.stay_names) {
                    let stayed = if random.chance(70) { state } else { random.below(draft.own.len()) };
                    self.name(Role::Target, &draft.own[stayed]);
                }
            }
        }
    }

    /// Writes statements.
    fn statements(&mut self, random: &mut Random, list: &[Statement]) {
        for statement in list {
            match statement {
                Statement::Send { command, pattern } => {
                    self.word("do");
                    self.name(Role::Send, &self.draft.commands[usize::from(*command)]);
                    self.word("$ALL$");
                    self.kin(*pattern);
                }
                Statement::MoveTo(state) => {
                    self.word("move_to");
                    self.name(Role::Target, &self.draft.own[usize::from(*state)]);
                }
                Statement::If { guard, then, other } => {
                    self.word("if");
                    self.guard(random, guard, GUARD);
                    self.word("then");
                    self.statements(random, then);
                    if !other.is_empty() || random.chance(self.manner.empty_else) {
                        self.word("else");
                        self.statements(random, other);
                    }
                    self.word("endif");
                }
            }
        }
    }

    /// Writes a state.
    fn state(&mut self, random: &mut Random, number: usize) {
        let state = &self.draft.class.states[number];
        self.word("state:");
        self.name(Role::Own, &self.draft.own[number]);
        for clause in &state.clauses {
            self.word("when");
            self.guard(random, &clause.guard, GUARD);
            self.referrer(random, number, clause.referrer);
        }
        for action in &state.actions {
            self.word("action:");
            self.name(Role::Action, &self.draft.commands[usize::from(action.command)]);
            self.statements(random, &action.body);
        }
    }
}

/// The words of a draft.
pub fn pieces(random: &mut Random, draft: &Draft, manner: Manner) -> Vec<Piece> {
    let mut printer = Printer { draft, manner, pieces: fixed_words("class: $FWPART_$TOP$") };
    printer.name(Role::Title, &draft.title);
    for number in 0..draft.class.states.len() {
        printer.state(random, number);
    }
    printer.pieces
}

/// How words are parted.
#[derive(Clone, Copy, PartialEq)]
pub enum White {
    /// Only where they would run together.
    Tight,
    /// By one blank.
    Blank,
    /// By any white space, or by none where none is needed.
    Any,
    /// By any white space, at the text's ends too.
    Wide,
    /// In lines, as one writes them.
    Lines,
}

/// A random layout; of many words one that is not wide.
pub fn white(random: &mut Random, words: usize) -> White {
    if words > 300 {
        return random.pick(&[White::Tight, White::Tight, White::Blank, White::Any]);
    }
    random.pick(&[White::Tight, White::Blank, White::Any, White::Any, White::Wide, White::Lines])
}

/// Some white space, of any kind.
pub fn some_white(random: &mut Random, least: usize, most: usize) -> Vec<u8> {
    (0..random.between(least, most)).map(|_| random.pick(b"  \t\n\r")).collect()
}

/// What parts two words.
fn gap(random: &mut Random, white: White, left: &[u8], right: &[u8]) -> Vec<u8> {
    let side = |byte: Option<&u8>| byte.is_some_and(|byte| is_name_character(*byte));
    let needed = usize::from(side(left.last()) && side(right.first()));
    match white {
        White::Tight => vec![b' '; needed],
        White::Blank => vec![b' '],
        White::Any => some_white(random, needed, 2),
        White::Wide => some_white(random, 1, 4),
        White::Lines if matches!(right, b"class:" | b"state:" | b"when" | b"action:" | b"if" | b"else" | b"endif" | b"do") => b"\r\n    ".to_vec(),
        White::Lines => vec![b' '],
    }
}

/// The text of some words.
pub fn layout(random: &mut Random, white: White, pieces: &[Piece]) -> Vec<u8> {
    let mut text = if white == White::Wide { some_white(random, 0, 3) } else { Vec::new() };
    for (place, piece) in pieces.iter().enumerate() {
        if place > 0 {
            text.extend(gap(random, white, &pieces[place - 1].bytes, &piece.bytes));
        }
        text.extend_from_slice(&piece.bytes);
    }
    match white {
        White::Wide => text.extend(some_white(random, 0, 3)),
        White::Lines => text.push(b'\n'),
        _ => {}
    }
    text
}
