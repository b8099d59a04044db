//! The second program: random questions about class sheets and class texts, and their answers, from the rules alone.

mod answering;
mod asking;
mod behaviour;
mod chart;
mod checking;
#[cfg(test)]
mod command_tests;
mod commanding;
mod damage;
mod drafts;
mod examples;
mod fault_pairs;
mod grammar;
mod judging;
mod limits;
mod lines;
mod lists;
mod loops;
mod long_texts;
mod making;
mod making_texts;
mod making_writes;
mod moving;
mod name_damage;
mod naming;
mod printing;
mod random;
mod reading;
mod round_trips;
mod shapes;
mod sketches;
mod tallying;
mod tallying_commands;
mod tallying_phases;
mod tallying_writes;
#[cfg(test)]
mod tests;
mod text;
mod text_damage;
mod text_limits;
#[cfg(test)]
mod text_tests;
mod text_writing;
mod tree;
mod words;
#[cfg(test)]
mod write_tests;
mod writing;
mod writing_damage;
mod written_limits;

use std::io::{BufRead, BufWriter, Error, Write};
use std::process::ExitCode;

const USAGE: &str = "usage: second make SEED COUNT            writes question lines
       second make-texts SEED COUNT      writes lines of reading questions alone
       second make-writes SEED COUNT     writes lines of writing questions alone
       second answer                     reads question lines, writes the answers
       second check QUESTIONS ANSWERS    compares the answers in a file with its own
       second tally QUESTIONS            counts what the questions in a file ask";

/// Writes the questions of a run, each made from the seed and its number.
fn make(one: fn(u64, u64) -> Vec<u8>, seed: &str, count: &str) -> Result<ExitCode, Error> {
    let (Ok(seed), Ok(count)) = (seed.parse(), count.parse()) else { return Err(Error::other("SEED and COUNT are numbers")) };
    let mut out = BufWriter::new(std::io::stdout().lock());
    for index in 0..count {
        let mut line = one(seed, index);
        line.push(b'\n');
        out.write_all(&line)?;
    }
    out.flush()?;
    Ok(ExitCode::SUCCESS)
}

/// Answers the questions on standard input.
fn answer() -> Result<ExitCode, Error> {
    let mut out = BufWriter::new(std::io::stdout().lock());
    for line in std::io::stdin().lock().split(b'\n') {
        writeln!(out, "{}", answering::answer_line(&line?))?;
    }
    out.flush()?;
    Ok(ExitCode::SUCCESS)
}

/// Compares the answers in a file with our own.
fn check(questions: &str, answers: &str) -> Result<ExitCode, Error> {
    let good = checking::check(&std::fs::read(questions)?, &std::fs::read(answers)?);
    Ok(if good { ExitCode::SUCCESS } else { ExitCode::from(1) })
}

/// Counts what the questions in a file ask.
fn tally(questions: &str) -> Result<ExitCode, Error> {
    tallying::tally(&std::fs::read(questions)?);
    Ok(ExitCode::SUCCESS)
}

/// Does what the words of the command line ask.
fn main() -> ExitCode {
    let words: Vec<String> = std::env::args().skip(1).collect();
    let words: Vec<&str> = words.iter().map(String::as_str).collect();
    let done = match words[..] {
        ["make", seed, count] => make(making::make_line, seed, count),
        ["make-texts", seed, count] => make(making_texts::make_line, seed, count),
        ["make-writes", seed, count] => make(making_writes::make_line, seed, count),
        ["answer"] => answer(),
        ["check", questions, answers] => check(questions, answers),
        ["tally", questions] => tally(questions),
        _ => Err(Error::other(USAGE)),
    };
    done.unwrap_or_else(|error| {
        eprintln!("second: {error}");
        ExitCode::from(2)
    })
}
