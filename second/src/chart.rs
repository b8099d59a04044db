//! A chart of all that the words read so far can be part of (Earley's method): no lookahead, no order among the rules. The rules are
//! taken as they stand; a form with no words is carried over as soon as it is asked for.

use crate::grammar::{grammar, Grammar, Symbol};
use crate::words::Word;

/// A rule that was read up to a point of its symbols, beginning at a word. What it was before its last symbol, and that symbol's part
/// (a finished item, or a word), say how it was read.
#[derive(Clone, Copy, Debug, PartialEq)]
pub struct Item {
    pub rule: u8,
    pub read: u8,
    pub origin: u32,
    before: u32,
    part: u32,
}

/// A step of building: the next word, or a rule over the parts that were built last.
#[derive(Clone, Copy, Debug, PartialEq)]
pub enum Step {
    Word(usize),
    Rule(u8),
}

/// The items, set by set; set n is what stands before word n.
pub struct Chart {
    grammar: &'static Grammar,
    pub items: Vec<Item>,
    pub sets: Vec<usize>,
    /// The items that wait for a form, set by set.
    waiting: Vec<(u8, u32)>,
    waiting_sets: Vec<usize>,
}

/// What is known of the set that is being filled: for each form whether it was asked for, and its item without words.
struct Present {
    asked: Vec<bool>,
    empty: Vec<Option<u32>>,
}

impl Chart {
    /// The chart before the first word.
    fn new() -> Chart {
        let grammar = grammar();
        let items = vec![Item { rule: 0, read: 0, origin: 0, before: 0, part: 0 }];
        Chart { grammar, items, sets: Vec::new(), waiting: Vec::new(), waiting_sets: Vec::new() }
    }

    /// The item behind one more symbol.
    fn onward(&self, at: u32, part: u32) -> Item {
        let item = self.items[at as usize];
        Item { read: item.read + 1, before: at, part, ..item }
    }

    /// An item asks for a form: its rules begin here.
    fn ask(&mut self, form: u8, at: u32, present: &mut Present) {
        self.waiting.push((form, at));
        let here = self.sets.len() as u32 - 1;
        if !present.asked[usize::from(form)] {
            present.asked[usize::from(form)] = true;
            for rule in &self.grammar.of_form[usize::from(form)] {
                self.items.push(Item { rule: *rule, read: 0, origin: here, before: 0, part: 0 });
            }
        }
        if let Some(part) = present.empty[usize::from(form)] {
            self.items.push(self.onward(at, part));
        }
    }

    /// An item is finished: those that waited for its form where it began go on.
    fn finish(&mut self, at: u32, present: &mut Present) {
        let item = self.items[at as usize];
        let (form, origin) = (self.grammar.rules[usize::from(item.rule)].form, item.origin as usize);
        let until = self.waiting_sets.get(origin + 1).copied().unwrap_or(self.waiting.len());
        for place in self.waiting_sets[origin]..until {
            let (wanted, waiter) = self.waiting[place];
            if wanted == form {
                self.items.push(self.onward(waiter, at));
            }
        }
        if origin + 1 == self.sets.len() {
            present.empty[usize::from(form)] = Some(at);
        }
    }

    /// Fills the set whose first items stand there, and gives the items that take the word behind it.
    fn fill(&mut self, number: usize, kind: u8, first: usize) -> Vec<Item> {
        self.sets.push(first);
        self.waiting_sets.push(self.waiting.len());
        let forms = self.grammar.of_form.len();
        let mut present = Present { asked: vec![false; forms], empty: vec![None; forms] };
        let mut takers = Vec::new();
        let mut at = first;
        while at < self.items.len() {
            let item = self.items[at];
            match self.grammar.rules[usize::from(item.rule)].symbols.get(usize::from(item.read)) {
                None => self.finish(at as u32, &mut present),
                Some(Symbol::Form(form)) => self.ask(*form, at as u32, &mut present),
                Some(Symbol::Word(wanted)) if *wanted == kind => takers.push(self.onward(at as u32, number as u32)),
                Some(Symbol::Word(_)) => {}
            }
            at += 1;
        }
        takers
    }

    /// The chart of all words; where no item takes a word, that word's number.
    pub fn of(words: &[Word]) -> Result<Chart, usize> {
        let mut chart = Chart::new();
        let mut first = 0;
        for (number, word) in words.iter().enumerate() {
            let takers = chart.fill(number, word.kind, first);
            if takers.is_empty() {
                return Err(number);
            }
            first = chart.items.len();
            chart.items.extend(takers);
        }
        Ok(chart)
    }

    /// The parts of a finished item, the last one first.
    fn parts(&self, at: u32) -> Vec<(Symbol, u32)> {
        let mut parts = Vec::new();
        let mut item = self.items[at as usize];
        let symbols = &self.grammar.rules[usize::from(item.rule)].symbols;
        while item.read > 0 {
            parts.push((symbols[usize::from(item.read) - 1], item.part));
            item = self.items[item.before as usize];
        }
        parts
    }

    /// The steps that build the text, from the chart of all its words: every part before the rule that it is a part of.
    pub fn steps(&self) -> Vec<Step> {
        let mut steps = Vec::new();
        let mut left = vec![(Symbol::Form(0), self.items.len() as u32 - 1)];
        while let Some((symbol, part)) = left.pop() {
            match symbol {
                Symbol::Word(_) => steps.push(Step::Word(part as usize)),
                Symbol::Form(_) => {
                    steps.push(Step::Rule(self.items[part as usize].rule));
                    let mut parts = self.parts(part);
                    parts.reverse();
                    left.extend(parts);
                }
            }
        }
        steps.reverse();
        steps
    }
}
