//! Writing a class text: the sheet's own rules, then 17 and 19, one after the other; then the text, as lines of words at a level.

use crate::judging::judge;
use crate::lists::{ordered, rule_17_lists, CLASS_RECORD, NAME_RECORD};
use crate::tree::{Action, Atom, Class, Clause, Guard, Names, Pattern, Quantifier, Referrer, State, Statement};

const MOST_NAMES: usize = 32;
const MOST_COMMANDS: usize = 64;
const MOST_RECORDS: usize = 1024;

/// What one level is indented by.
const INDENT: &str = "  ";

/// What a writing question lends: a sheet, the class's own name, the table of its states' names, the three lists, and a buffer.
#[derive(Clone, Debug, PartialEq)]
pub struct Named {
    pub sheet: Vec<u8>,
    pub title: Vec<u8>,
    pub table: Vec<u8>,
    pub names: Vec<u8>,
    pub commands: Vec<u8>,
    pub classes: Vec<u8>,
    pub buffer: Vec<u8>,
}

/// The names of all that a class speaks of, each list in the order of its numbers.
struct Labels {
    title: String,
    own: Vec<String>,
    names: Vec<String>,
    commands: Vec<String>,
    kin: Vec<String>,
}

/// All statements of a list, nested ones too, as they would stand in a text.
fn all_statements(list: &[Statement]) -> Vec<&Statement> {
    let mut all = Vec::new();
    for statement in list {
        all.push(statement);
        if let Statement::If { then, other, .. } = statement {
            all.extend(all_statements(then));
            all.extend(all_statements(other));
        }
    }
    all
}

/// All statements of a class.
fn statements_of(class: &Class) -> Vec<&Statement> {
    class.states.iter().flat_map(|state| &state.actions).flat_map(|action| all_statements(&action.body)).collect()
}

/// The guards of a class: those of the when clauses and those of the ifs, each as often as it is used.
pub fn guards_of(class: &Class) -> Vec<&Guard> {
    let whens = class.states.iter().flat_map(|state| &state.clauses).map(|clause| &clause.guard);
    let ifs = statements_of(class).into_iter().filter_map(|statement| match statement {
        Statement::If { guard, .. } => Some(guard),
        _ => None,
    });
    whens.chain(ifs).collect()
}

/// The commands of a class: those of the action clauses and those of the do statements.
pub fn commands_of(class: &Class) -> Vec<u8> {
    let actions = class.states.iter().flat_map(|state| &state.actions).map(|action| action.command);
    let sends = statements_of(class).into_iter().filter_map(|statement| match statement {
        Statement::Send { command, .. } => Some(*command),
        _ => None,
    });
    actions.chain(sends).collect()
}

/// How many records a guard has.
pub fn size(guard: &Guard) -> usize {
    match guard {
        Guard::Atom(_) => 1,
        Guard::Not(inner) => 1 + size(inner),
        Guard::And(left, right) | Guard::Or(left, right) => 1 + size(left) + size(right),
    }
}

/// Does a guard speak of the first so many names alone?
fn guard_named(guard: &Guard, count: usize) -> bool {
    match guard {
        Guard::Atom(atom) => atom.names.iter().all(|name| usize::from(*name) < count),
        Guard::Not(inner) => guard_named(inner, count),
        Guard::And(left, right) | Guard::Or(left, right) => guard_named(left, count) && guard_named(right, count),
    }
}

/// The names of a list as words; 17 where the list is ill-formed, or gives one twice.
fn labels(list: &[u8], size: usize) -> Result<Vec<String>, u8> {
    let names = ordered(list, size).ok_or(17)?;
    Ok(names.into_iter().map(|name| String::from_utf8_lossy(name).into_owned()).collect())
}

/// A name set as a number.
fn set_number(names: &Names) -> u32 {
    names.iter().map(|name| 1 << name).sum()
}

/// Rule 17 for what is lent: lists, table and own name, and whether there are as many of each as the sheet has, with its sets.
fn rule_17_lent(named: &Named, class: &Class) -> Result<Labels, u8> {
    let sets = rule_17_lists(&named.names, &named.commands, &named.classes)?.sets;
    let mut title = labels(&named.title, NAME_RECORD)?;
    let (names, commands) = (labels(&named.names, NAME_RECORD)?, labels(&named.commands, NAME_RECORD)?);
    let (own, kin) = (labels(&named.table, NAME_RECORD)?, labels(&named.classes, CLASS_RECORD)?);
    let good = title.len() == 1
        && own.len() == class.states.len()
        && sets == class.children.iter().map(set_number).collect::<Vec<u32>>()
        && names.len() <= MOST_NAMES
        && commands.len() <= MOST_COMMANDS;
    if good { Ok(Labels { title: title.remove(0), own, names, commands, kin }) } else { Err(17) }
}

/// Rule 17 for what is written: every command has a name, and every name in a guard that is used.
fn rule_17_used(class: &Class, labels: &Labels) -> Result<(), u8> {
    let commands = commands_of(class).into_iter().all(|command| usize::from(command) < labels.commands.len());
    let names = guards_of(class).into_iter().all(|guard| guard_named(guard, labels.names.len()));
    if commands && names { Ok(()) } else { Err(17) }
}

/// Rule 19: the guards, each counted as often as it is used, have no more records than a sheet.
fn rule_19(class: &Class) -> Result<(), u8> {
    let records: usize = guards_of(class).into_iter().map(size).sum();
    if records <= MOST_RECORDS { Ok(()) } else { Err(19) }
}

/// A text under construction: each line has its level and its words.
struct Page<'n> {
    labels: &'n Labels,
    lines: Vec<(usize, Vec<String>)>,
}

/// The label of a number; the rules before see to it that there is one.
fn label(labels: &[String], number: u8) -> &str {
    &labels[usize::from(number)]
}

impl Page<'_> {
    /// Adds a line of these words.
    fn line(&mut self, level: usize, words: &[&str]) {
        self.lines.push((level, words.iter().map(|word| word.to_string()).collect()));
    }

    /// The children that a pattern speaks of.
    fn kin(&self, pattern: Pattern) -> &str {
        match pattern {
            Pattern::Everyone => "FwCHILDREN",
            Pattern::Class(class) => label(&self.labels.kin, class),
        }
    }

    /// A set of names: the name itself where there is one, else all in braces.
    fn set(&self, names: &Names) -> String {
        let names: Vec<&str> = names.iter().map(|name| label(&self.labels.names, *name)).collect();
        if names.len() == 1 { names[0].to_string() } else { format!("{{{}}}", names.join(", ")) }
    }

    /// The words of an atom between its brackets.
    fn atom(&self, atom: &Atom) -> Vec<String> {
        let quantifier = match atom.quantifier {
            Quantifier::Any => "$ANY$",
            Quantifier::All => "$ALL$",
        };
        let inside = if atom.inside { "in_state" } else { "not_in_state" };
        vec![format!("{quantifier}{}", self.kin(atom.pattern)), inside.to_string(), self.set(&atom.names)]
    }

    /// The words of a guard; brackets are round every atom and every operator.
    fn guard(&self, guard: &Guard) -> Vec<String> {
        let word = |word: &str| vec![word.to_string()];
        let inner = match guard {
            Guard::Atom(atom) => self.atom(atom),
            Guard::Not(inner) => [word("not"), self.guard(inner)].concat(),
            Guard::And(left, right) => [self.guard(left), word("and"), self.guard(right)].concat(),
            Guard::Or(left, right) => [self.guard(left), word("or"), self.guard(right)].concat(),
        };
        [word("("), inner, word(")")].concat()
    }

    /// A when clause of a state with this number.
    fn clause(&mut self, clause: &Clause, state: &State, number: usize) {
        let referrer = match clause.referrer {
            Referrer::MoveTo(target) => ["move_to", label(&self.labels.own, target)],
            Referrer::Do(action) => ["do", label(&self.labels.commands, state.actions[usize::from(action)].command)],
            Referrer::Stay => ["stay_in_state", &self.labels.own[number]],
        };
        let words = [vec!["when".to_string()], self.guard(&clause.guard), referrer.map(str::to_string).to_vec()].concat();
        self.lines.push((2, words));
    }

    /// A list of statements at a level, each part of an if one level deeper.
    fn statements(&mut self, list: &[Statement], level: usize) {
        for statement in list {
            match statement {
                Statement::Send { command, pattern } => {
                    let children = format!("$ALL${}", self.kin(*pattern));
                    self.line(level, &["do", label(&self.labels.commands, *command), &children]);
                }
                Statement::MoveTo(target) => self.line(level, &["move_to", label(&self.labels.own, *target)]),
                Statement::If { guard, then, other } => {
                    let words = [vec!["if".to_string()], self.guard(guard), vec!["then".to_string()]].concat();
                    self.lines.push((level, words));
                    self.statements(then, level + 1);
                    if !other.is_empty() {
                        self.line(level, &["else"]);
                        self.statements(other, level + 1);
                    }
                    self.line(level, &["endif"]);
                }
            }
        }
    }

    /// An action clause.
    fn action(&mut self, action: &Action) {
        self.line(2, &["action:", label(&self.labels.commands, action.command)]);
        self.statements(&action.body, 3);
    }

    /// The whole class.
    fn class(&mut self, class: &Class) {
        self.line(0, &["class:", &format!("$FWPART_$TOP${}", self.labels.title)]);
        for (number, state) in class.states.iter().enumerate() {
            self.line(1, &["state:", &self.labels.own[number]]);
            for clause in &state.clauses {
                self.clause(clause, state, number);
            }
            for action in &state.actions {
                self.action(action);
            }
        }
    }

    /// The lines as bytes, each ended by a line feed.
    fn text(&self) -> Vec<u8> {
        let mut text = String::new();
        for (level, words) in &self.lines {
            text += &INDENT.repeat(*level);
            text += &words.join(" ");
            text += "\n";
        }
        text.into_bytes()
    }
}

/// The text of a class over labels that are enough for it.
fn text_of(class: &Class, labels: &Labels) -> Vec<u8> {
    let mut page = Page { labels, lines: Vec::new() };
    page.class(class);
    page.text()
}

/// The text of a sheet with its names; what is left is the room for it.
pub fn write(named: &Named) -> Result<Vec<u8>, u8> {
    let class = judge(&named.sheet)?;
    let labels = rule_17_lent(named, &class)?;
    rule_17_used(&class, &labels)?;
    rule_19(&class)?;
    Ok(text_of(&class, &labels))
}
