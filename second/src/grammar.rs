//! The grammar of a class text as plain data: one row a rule, repetition to the left, and what each rule makes.

use crate::words::{END, FIXED, NAME};
use std::sync::OnceLock;

/// What a rule makes of the parts that it is read from; Same makes nothing of its own.
#[derive(Clone, Copy, Debug, PartialEq)]
pub enum Make {
    Same,
    State,
    When,
    MoveTo,
    Do,
    Stay,
    StayIn,
    Or,
    And,
    Not,
    Any,
    All,
    In,
    NotIn,
    Atom,
    Everyone,
    OneClass,
    FirstName,
    NextName,
    Action,
    NoStatement,
    Send,
    Move,
    If,
    IfElse,
}

/// The rules. A symbol that stands on the left of a rule is a form; `name` and `end` are the words that have no fixed bytes.
const RULES: &[(&str, &str, Make)] = &[
    ("Text", "class: $FWPART_$TOP$ name States end", Make::Same),
    ("States", "State", Make::Same),
    ("States", "States State", Make::Same),
    ("State", "state: name Whens Actions", Make::State),
    ("Whens", "", Make::Same),
    ("Whens", "Whens When", Make::Same),
    ("When", "when Guard Referrer", Make::When),
    ("Referrer", "move_to name", Make::MoveTo),
    ("Referrer", "do name", Make::Do),
    ("Referrer", "stay_in_state", Make::Stay),
    ("Referrer", "stay_in_state name", Make::StayIn),
    ("Guard", "Conj", Make::Same),
    ("Guard", "Guard or Conj", Make::Or),
    ("Conj", "Unit", Make::Same),
    ("Conj", "Conj and Unit", Make::And),
    ("Unit", "not Unit", Make::Not),
    ("Unit", "( Guard )", Make::Same),
    ("Unit", "Quantifier Kin Test Set", Make::Atom),
    ("Quantifier", "$ANY$", Make::Any),
    ("Quantifier", "$ALL$", Make::All),
    ("Test", "in_state", Make::In),
    ("Test", "not_in_state", Make::NotIn),
    ("Kin", "FwCHILDREN", Make::Everyone),
    ("Kin", "name", Make::OneClass),
    ("Set", "First", Make::Same),
    ("Set", "{ Names }", Make::Same),
    ("Names", "First", Make::Same),
    ("Names", "Names , name", Make::NextName),
    ("First", "name", Make::FirstName),
    ("Actions", "", Make::Same),
    ("Actions", "Actions Action", Make::Same),
    ("Action", "action: name Statements", Make::Action),
    ("Statements", "", Make::NoStatement),
    ("Statements", "Statements Statement", Make::Same),
    ("Statement", "Send", Make::Same),
    ("Statement", "Move", Make::Same),
    ("Statement", "If", Make::Same),
    ("Send", "do name $ALL$ Kin", Make::Send),
    ("Move", "move_to name", Make::Move),
    ("If", "if Guard then Statements endif", Make::If),
    ("If", "if Guard then Statements else Statements endif", Make::IfElse),
];

/// A symbol of a rule: a word of a kind, or a form by its number.
#[derive(Clone, Copy, Debug, PartialEq)]
pub enum Symbol {
    Word(u8),
    Form(u8),
}

/// A rule in numbers.
#[derive(Debug)]
pub struct Rule {
    pub form: u8,
    pub symbols: Vec<Symbol>,
    pub make: Make,
}

/// The rules in numbers, and for each form the numbers of its rules. Form 0 and rule 0 are the whole text.
#[derive(Debug)]
pub struct Grammar {
    pub rules: Vec<Rule>,
    pub of_form: Vec<Vec<u8>>,
}

/// The forms in the order of their first rules.
fn forms() -> Vec<&'static str> {
    let mut forms: Vec<&str> = RULES.iter().map(|row| row.0).collect();
    forms.dedup();
    forms
}

/// The symbol that is written so.
fn symbol(forms: &[&str], written: &str) -> Symbol {
    let fixed = || FIXED.iter().position(|word| *word == written);
    match forms.iter().position(|form| *form == written) {
        Some(form) => Symbol::Form(form as u8),
        None if written == "name" => Symbol::Word(NAME),
        None if written == "end" => Symbol::Word(END),
        None => Symbol::Word(fixed().expect("a rule speaks of forms and words alone") as u8),
    }
}

/// The grammar in numbers.
pub fn grammar() -> &'static Grammar {
    static GRAMMAR: OnceLock<Grammar> = OnceLock::new();
    GRAMMAR.get_or_init(|| {
        let forms = forms();
        let mut of_form = vec![Vec::new(); forms.len()];
        let mut rules = Vec::new();
        for (number, (form, symbols, make)) in RULES.iter().enumerate() {
            let form = forms.iter().position(|known| known == form).unwrap_or(0);
            of_form[form].push(number as u8);
            let symbols = symbols.split_whitespace().map(|written| symbol(&forms, written)).collect();
            rules.push(Rule { form: form as u8, symbols, make: *make });
        }
        Grammar { rules, of_form }
    })
}
