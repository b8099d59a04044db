//! Question lines: one question in words, bytes as hex, numbers in decimal.

use crate::reading::Lent;
use crate::text_writing::Named;

/// The longest line that can be a question; and what it once was: lines about as long must still be taken.
pub const LONGEST_LINE: usize = 1_048_576;
pub const FORMER_LONGEST_LINE: usize = 262_144;

/// One of the seven questions, with what it is asked about.
#[derive(Clone, Debug, PartialEq)]
pub enum Question {
    Judge { sheet: Vec<u8> },
    Probe { sheet: Vec<u8>, list: Vec<u8>, state: u8 },
    Phase { sheet: Vec<u8>, list: Vec<u8>, state: u8, buffer: Vec<u8> },
    Command { sheet: Vec<u8>, list: Vec<u8>, state: u8, command: u8, buffer: Vec<u8> },
    Loop { sheet: Vec<u8>, present: u8, buffer: Vec<u8> },
    Read(Lent),
    Write(Named),
}

/// Bytes as lower-case hex; none at all as a hyphen.
pub fn hex(bytes: &[u8]) -> String {
    const DIGITS: &[u8; 16] = b"0123456789abcdef";
    if bytes.is_empty() {
        return "-".to_string();
    }
    let digit = |half: u8| char::from(DIGITS[usize::from(half)]);
    bytes.iter().flat_map(|byte| [digit(byte / 16), digit(byte % 16)]).collect()
}

/// The value of a lower-case hex digit.
fn digit(byte: u8) -> Option<u8> {
    match byte {
        b'0'..=b'9' => Some(byte - b'0'),
        b'a'..=b'f' => Some(byte - b'a' + 10),
        _ => None,
    }
}

/// Reads bytes written as hex.
fn unhex(text: &[u8]) -> Option<Vec<u8>> {
    if text == b"-" {
        return Some(Vec::new());
    }
    if text.is_empty() || text.len() % 2 == 1 {
        return None;
    }
    text.chunks(2).map(|pair| Some(16 * digit(pair[0])? + digit(pair[1])?)).collect()
}

/// Reads a number from 0 to 255.
fn decimal(text: &[u8]) -> Option<u8> {
    let plain = text.iter().all(u8::is_ascii_digit) && (text.len() == 1 || text.first() != Some(&b'0'));
    if plain { std::str::from_utf8(text).ok()?.parse().ok() } else { None }
}

impl Question {
    /// The question as a line, without its line feed.
    pub fn line(&self) -> String {
        match self {
            Question::Judge { sheet } => format!("judge {}", hex(sheet)),
            Question::Probe { sheet, list, state } => format!("probe {} {} {state}", hex(sheet), hex(list)),
            Question::Phase { sheet, list, state, buffer } => format!("phase {} {} {state} {}", hex(sheet), hex(list), hex(buffer)),
            Question::Command { sheet, list, state, command, buffer } => {
                format!("command {} {} {state} {command} {}", hex(sheet), hex(list), hex(buffer))
            }
            Question::Loop { sheet, present, buffer } => format!("loop {} {present} {}", hex(sheet), hex(buffer)),
            Question::Read(lent) => {
                let fields = [&lent.text, &lent.names, &lent.commands, &lent.classes, &lent.sheet, &lent.table];
                format!("read {}", fields.map(|bytes| hex(bytes)).join(" "))
            }
            Question::Write(named) => {
                let names = [&named.title, &named.table, &named.names, &named.commands, &named.classes].map(|bytes| hex(bytes));
                format!("write {} {} {}", hex(&named.sheet), names.join(" "), hex(&named.buffer))
            }
        }
    }

    /// Reads a question from a line; none where the line is no question.
    pub fn read(line: &[u8]) -> Option<Question> {
        if line.len() > LONGEST_LINE {
            return None;
        }
        let fields: Vec<&[u8]> = line.split(|byte| *byte == b' ').collect();
        let sheet = unhex(fields.get(1)?)?;
        match (fields[0], &fields[2..]) {
            (b"judge", []) => Some(Question::Judge { sheet }),
            (b"probe", [list, state]) => Some(Question::Probe { sheet, list: unhex(list)?, state: decimal(state)? }),
            (b"phase", [list, state, buffer]) => {
                Some(Question::Phase { sheet, list: unhex(list)?, state: decimal(state)?, buffer: unhex(buffer)? })
            }
            (b"command", [list, state, command, buffer]) => {
                let (state, command) = (decimal(state)?, decimal(command)?);
                Some(Question::Command { sheet, list: unhex(list)?, state, command, buffer: unhex(buffer)? })
            }
            (b"loop", [present, buffer]) => Some(Question::Loop { sheet, present: decimal(present)?, buffer: unhex(buffer)? }),
            (b"read", [names, commands, classes, buffer, table]) => {
                let (names, commands, classes) = (unhex(names)?, unhex(commands)?, unhex(classes)?);
                Some(Question::Read(Lent { text: sheet, names, commands, classes, sheet: unhex(buffer)?, table: unhex(table)? }))
            }
            (b"write", [title, table, names, commands, classes, buffer]) => {
                let (title, table, names) = (unhex(title)?, unhex(table)?, unhex(names)?);
                let (commands, classes, buffer) = (unhex(commands)?, unhex(classes)?, unhex(buffer)?);
                Some(Question::Write(Named { sheet, title, table, names, commands, classes, buffer }))
            }
            _ => None,
        }
    }
}
