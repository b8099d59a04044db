//! Compares the answers of the program `questions` with our own, and counts what was compared.

use crate::answering::answer_line;
use crate::commanding::request_on;
use crate::judging::judge;
use crate::lines::Question;
use crate::round_trips::{round_trip, text_in};
use std::collections::BTreeMap;

/// In a run of so many questions every refusal number must be hit this often: 1 to 15 by questions about sheets, 15 by phases alone, by
/// commands alone and by ignored ones as well, 15 to 18 by reading questions; 15, 17 and 19 by writing questions.
const FLOOR: usize = 50;
const FULL_RUN: usize = 20_000;
const LAST_NUMBER: usize = 19;
const OF_READING: [usize; 4] = [15, 16, 17, 18];
const OF_WRITING: [usize; 3] = [15, 17, 19];

/// How many differences are printed, and how much of a line.
const SHOWN: usize = 5;
const SHOWN_BYTES: usize = 600;

/// What has been compared.
#[derive(Default)]
struct Tally {
    questions: BTreeMap<String, usize>,
    answers: BTreeMap<String, usize>,
    refusals: [usize; LAST_NUMBER + 1],
    reading_refusals: [usize; LAST_NUMBER + 1],
    writing_refusals: [usize; LAST_NUMBER + 1],
    short_phases: usize,
    short_commands: usize,
    short_ignored: usize,
    differ: usize,
    round_trips: usize,
    failed_trips: usize,
}

/// The lines of a file, without their line feeds.
fn lines(bytes: &[u8]) -> Vec<&[u8]> {
    let mut lines: Vec<&[u8]> = bytes.split(|byte| *byte == b'\n').collect();
    if lines.last().is_some_and(|line| line.is_empty()) {
        lines.pop();
    }
    lines
}

/// A line for the eye: its beginning, if it is long.
fn shown(line: &[u8]) -> String {
    let text = String::from_utf8_lossy(&line[..line.len().min(SHOWN_BYTES)]).into_owned();
    if line.len() > SHOWN_BYTES { format!("{text}... ({} bytes)", line.len()) } else { text }
}

/// The kind of a question line.
fn question_kind(line: &[u8]) -> String {
    let word = line.split(|byte| *byte == b' ').next().unwrap_or(&[]);
    let known = ["judge", "probe", "phase", "command", "loop", "read", "write"];
    known.iter().find(|kind| kind.as_bytes() == word).map_or("other".to_string(), |kind| kind.to_string())
}

/// The kind of an answer to a question of a kind.
fn answer_kind(question: &str, answer: &str) -> String {
    let words: Vec<&str> = answer.split(' ').collect();
    match (words[0], words.get(2)) {
        ("bad", _) => "bad line".to_string(),
        ("clause", Some(&"0")) => "probe: clause, move_to".to_string(),
        ("clause", Some(&"1")) => "probe: clause, do".to_string(),
        ("clause", _) => "probe: clause, stay".to_string(),
        (word @ ("handled" | "ignored"), _) => format!("command: {word}, then {}", words[3]),
        (word @ ("none" | "stay" | "do"), _) if question == "phase" => {
            format!("phase: {word}, {} sent", if words[3] == "0" { "nothing" } else { "something" })
        }
        (word, _) => format!("{question}: {word}"),
    }
}

/// Is this a command that its state has no clause for?
fn is_ignored(question: &[u8]) -> bool {
    let Some(Question::Command { sheet, list, state, command, .. }) = Question::read(question) else { return false };
    let request = judge(&sheet).ok().and_then(|class| request_on(&class, &list, state, command));
    request.is_some_and(|request| !request.run.handled)
}

impl Tally {
    /// Counts a question with its answer.
    fn count(&mut self, question: &[u8], answer: &str) {
        let kind = question_kind(question);
        *self.answers.entry(answer_kind(&kind, answer)).or_default() += 1;
        if let Some(rest) = answer.strip_prefix("refused ") {
            let number = rest.split(' ').next().and_then(|word| word.parse().ok()).unwrap_or(0);
            let refusals = match kind.as_str() {
                "read" => &mut self.reading_refusals,
                "write" => &mut self.writing_refusals,
                _ => &mut self.refusals,
            };
            refusals[number] += 1;
            self.short_phases += usize::from(kind == "phase" && number == 15);
            self.short_commands += usize::from(kind == "command" && number == 15);
            self.short_ignored += usize::from(kind == "command" && number == 15 && is_ignored(question));
        }
        *self.questions.entry(kind).or_default() += 1;
    }

    /// Reads a text back that the compared program has written, and shows the first few with which that goes wrong.
    fn read_back(&mut self, number: usize, question: &[u8], got: &[u8]) {
        let Some(text) = text_in(got) else { return };
        let Some(Question::Write(named)) = Question::read(question) else { return };
        self.round_trips += 1;
        if let Err(fault) = round_trip(&named, text) {
            self.failed_trips += 1;
            if self.failed_trips <= SHOWN {
                println!("line {number}: {fault}\n  question {}\n  got      {}", shown(question), shown(got));
            }
        }
    }

    /// Compares one answer, and shows the first few that differ.
    fn compare(&mut self, number: usize, question: &[u8], got: &[u8]) {
        let expected = answer_line(question);
        self.count(question, &expected);
        if expected.as_bytes() != got {
            self.differ += 1;
            if self.differ <= SHOWN {
                println!("line {number} differs\n  question {}", shown(question));
                println!("  expected {}\n  got      {}", shown(expected.as_bytes()), shown(got));
            }
        }
    }

    /// Prints the counts.
    fn print(&self) {
        for (title, counts) in [("questions", &self.questions), ("answers", &self.answers)] {
            println!("{title}");
            for (kind, count) in counts {
                println!("  {kind:<34}{count:>8}");
            }
        }
        println!("refusal numbers");
        for number in 1..=15 {
            println!("  {number:<34}{:>8}", self.refusals[number]);
        }
        for (whose, count) in [("phases", self.short_phases), ("commands", self.short_commands), ("ignored commands", self.short_ignored)] {
            println!("  15 of {whose:<28}{count:>8}");
        }
        for number in OF_READING {
            println!("  {number:<2} of reading questions{:>19}", self.reading_refusals[number]);
        }
        for number in (1..=9).chain(OF_WRITING) {
            println!("  {number:<2} of writing questions{:>19}", self.writing_refusals[number]);
        }
        println!("round trips\n  {:<34}{:>8}", "texts read back", self.round_trips);
    }

    /// The refusal numbers that were hit too seldom.
    fn seldom(&self) -> Vec<usize> {
        let short = [self.short_phases, self.short_commands, self.short_ignored];
        let few = (1..16).filter(|number| self.refusals[*number] < FLOOR || *number == 15 && short.iter().any(|count| *count < FLOOR));
        let few_of_texts = OF_READING.into_iter().filter(|number| self.reading_refusals[*number] < FLOOR);
        few.chain(few_of_texts).chain(OF_WRITING.into_iter().filter(|number| self.writing_refusals[*number] < FLOOR)).collect()
    }
}

/// Compares all answers; true when they agree and every refusal number was hit often enough.
pub fn check(questions: &[u8], answers: &[u8]) -> bool {
    let (questions, answers) = (lines(questions), lines(answers));
    let mut tally = Tally::default();
    for (at, (question, got)) in questions.iter().zip(&answers).enumerate() {
        tally.compare(at + 1, question, got);
        tally.read_back(at + 1, question, got);
    }
    tally.print();
    let mut good = tally.differ == 0 && tally.failed_trips == 0;
    if questions.len() != answers.len() {
        println!("second: {} questions, but {} answers", questions.len(), answers.len());
        good = false;
    }
    let full = questions.len().min(answers.len()) >= FULL_RUN;
    if !full {
        println!("second: fewer than {FULL_RUN} questions, so nothing is asked of the refusal numbers");
    }
    if full && !tally.seldom().is_empty() {
        println!("second: hit fewer than {FLOOR} times: refusal numbers {:?}", tally.seldom());
        good = false;
    }
    println!("second: {} texts read back, {} not as they must be", tally.round_trips, tally.failed_trips);
    println!("second: {} questions compared, {} differ", questions.len().min(answers.len()), tally.differ);
    good
}
