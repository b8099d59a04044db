//! The answer line to a question line, with the refusals that belong to the questions (10 to 19).

use crate::behaviour::{phase, probe, request, Child, Ending, Phase};
use crate::judging::judge;
use crate::lines::{hex, Question};
use crate::lists::NAME_RECORD;
use crate::loops::{ask, pairs, Answer};
use crate::reading::{read, Lent};
use crate::text_writing::{write, Named};
use crate::tree::{Class, Referrer};

const MOST_CHILDREN: usize = 4096;
pub const MOST_NAMES: usize = 20;

/// The answer to a line, whatever it is.
pub fn answer_line(line: &[u8]) -> String {
    match Question::read(line) {
        Some(question) => answer(&question),
        None => "bad line".to_string(),
    }
}

/// The answer to a question; a refused one tells its number, and the lent buffer as it was.
fn answer(question: &Question) -> String {
    let result = match question {
        Question::Judge { sheet } => judge(sheet).map(|_| "accepted".to_string()),
        Question::Probe { sheet, list, state } => answer_probe(sheet, list, *state),
        Question::Phase { sheet, list, state, buffer } => answer_phase(sheet, list, *state, buffer),
        Question::Command { sheet, list, state, command, buffer } => answer_command(sheet, list, *state, *command, buffer),
        Question::Loop { sheet, present, buffer } => answer_loop(sheet, *present, buffer),
        Question::Read(lent) => Ok(answer_read(lent)),
        Question::Write(named) => answer_write(named),
    };
    let lent = match question {
        Question::Phase { buffer, .. } | Question::Command { buffer, .. } | Question::Loop { buffer, .. } => format!(" {}", hex(buffer)),
        Question::Write(named) => format!(" {}", hex(&named.buffer)),
        _ => String::new(),
    };
    result.unwrap_or_else(|number| format!("refused {number}{lent}"))
}

/// Rule 10: the children of a list.
pub fn children(class: &Class, list: &[u8]) -> Result<Vec<Child>, u8> {
    if list.len() % 2 == 1 || list.len() / 2 > MOST_CHILDREN {
        return Err(10);
    }
    let children: Vec<Child> = list.chunks(2).map(|pair| (pair[0], pair[1])).collect();
    let known = |child: &Child| class.children.get(usize::from(child.0)).is_some_and(|names| names.contains(&child.1));
    if children.iter().all(known) { Ok(children) } else { Err(10) }
}

/// Rule 11: the asked state.
fn rule_11(class: &Class, state: u8) -> Result<(), u8> {
    if usize::from(state) < class.states.len() { Ok(()) } else { Err(11) }
}

/// The probe's answer.
fn answer_probe(sheet: &[u8], list: &[u8], state: u8) -> Result<String, u8> {
    let class = judge(sheet)?;
    let children = children(&class, list)?;
    rule_11(&class, state)?;
    let asked = &class.states[usize::from(state)];
    Ok(match probe(asked, &children) {
        None => "none".to_string(),
        Some(number) => match asked.clauses[number].referrer {
            Referrer::MoveTo(target) => format!("clause {number} 0 {target}"),
            Referrer::Do(target) => format!("clause {number} 1 {target}"),
            Referrer::Stay => format!("clause {number} 2 0"),
        },
    })
}

/// The when phase's answer; 15 comes last, and a phase that loops needs no room.
fn answer_phase(sheet: &[u8], list: &[u8], state: u8, buffer: &[u8]) -> Result<String, u8> {
    let class = judge(sheet)?;
    let children = children(&class, list)?;
    rule_11(&class, state)?;
    let phase = phase(&class, &children, state);
    let after = written(buffer, phase.writes())?;
    Ok(format!("{} {}", phase_fields(&phase), hex(&after)))
}

/// The five fields of a phase: how it ended, the state, the moves, the bytes of its commands, and the command of the DO that closed it.
fn phase_fields(phase: &Phase) -> String {
    match phase {
        Phase::Settled { ending, state, moves, sent } => {
            let (word, command) = ending_words(*ending);
            format!("{word} {state} {moves} {} {command}", sent.len())
        }
        Phase::Loop { state, moves } => format!("loop {state} {moves} 0 -"),
    }
}

/// How a phase ended, in a word, and the command of the DO that closed it.
fn ending_words(ending: Ending) -> (&'static str, String) {
    match ending {
        Ending::NoClause => ("none", "-".to_string()),
        Ending::Stay => ("stay", "-".to_string()),
        Ending::Do(command) => ("do", command.to_string()),
    }
}

/// The buffer after bytes were written at its beginning; 15 where they have no room.
fn written(buffer: &[u8], bytes: &[u8]) -> Result<Vec<u8>, u8> {
    let behind = buffer.get(bytes.len()..).ok_or(15)?;
    Ok([bytes, behind].concat())
}

/// The command's answer, and behind it that of the when phase; 15 comes last, for what both write.
fn answer_command(sheet: &[u8], list: &[u8], state: u8, asked: u8, buffer: &[u8]) -> Result<String, u8> {
    let class = judge(sheet)?;
    let children = children(&class, list)?;
    rule_11(&class, state)?;
    if asked > 63 {
        return Err(12);
    }
    let request = request(&class, &children, state, asked);
    let after = written(buffer, &request.writes())?;
    let word = if request.run.handled { "handled" } else { "ignored" };
    let (left, own) = (request.run.state, request.run.sent.len());
    Ok(format!("{word} {left} {own} {} {}", phase_fields(&request.phase), hex(&after)))
}

/// The loop question's answer.
fn answer_loop(sheet: &[u8], present: u8, buffer: &[u8]) -> Result<String, u8> {
    let class = judge(sheet)?;
    if (class.children.len()..8).any(|bit| present >> bit & 1 == 1) {
        return Err(13);
    }
    let pairs = pairs(&class, present);
    if pairs.len() > MOST_NAMES {
        return Err(14);
    }
    if buffer.len() < 2 * pairs.len() {
        return Err(15);
    }
    Ok(match ask(&class, &pairs) {
        Answer::Free { moves } => format!("free {moves} {}", hex(buffer)),
        Answer::Loop { configuration, state, children } => {
            let list: Vec<u8> = children.iter().flat_map(|child| [child.0, child.1]).collect();
            format!("loop {configuration} {state} {}", hex(&written(buffer, &list)?))
        }
    })
}

/// The reading question's answer; a refusal tells both buffers as they were.
fn answer_read(lent: &Lent) -> String {
    let done = read(lent).and_then(|read| {
        let sheet = written(&lent.sheet, &read.sheet)?;
        Ok((read.sheet.len(), read.table.len() / NAME_RECORD, sheet, written(&lent.table, &read.table)?))
    });
    match done {
        Ok((length, states, sheet, table)) => format!("read {length} {states} {} {}", hex(&sheet), hex(&table)),
        Err(refusal) => {
            let place = refusal.place.map_or(String::new(), |place| format!(" {place}"));
            format!("refused {}{place} {} {}", refusal.number, hex(&lent.sheet), hex(&lent.table))
        }
    }
}

/// The writing question's answer; 15 comes last.
fn answer_write(named: &Named) -> Result<String, u8> {
    let text = write(named)?;
    Ok(format!("written {} {}", text.len(), hex(&written(&named.buffer, &text)?)))
}
