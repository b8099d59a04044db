//! A class text cut into words, without regard to the grammar.

/// The words that are what they are; the number of a word's kind is its place here.
pub const FIXED: [&str; 25] = [
    "class:", "state:", "action:", "$FWPART_$TOP$", "$ANY$", "$ALL$", "when", "move_to", "do", "stay_in_state", "if", "then", "else",
    "endif", "and", "or", "not", "in_state", "not_in_state", "FwCHILDREN", "(", ")", "{", "}", ",",
];

/// The kinds of the other words: a name, the end of the text, and what stands nowhere.
pub const NAME: u8 = 25;
pub const END: u8 = 26;
pub const NOWHERE: u8 = 27;

/// The runs that no name may be.
pub const RESERVED: [&str; 21] = [
    "class", "state", "action", "when", "move_to", "do", "stay_in_state", "if", "then", "else", "endif", "and", "or", "not", "in_state",
    "not_in_state", "FwCHILDREN", "FWPART_", "TOP", "ANY", "ALL",
];

pub const LONGEST_NAME: usize = 31;

/// The words that begin with a dollar sign, and the runs that a colon belongs to.
const WITH_DOLLAR: [&[u8]; 3] = [b"$FWPART_$TOP$", b"$ANY$", b"$ALL$"];
const WITH_COLON: [&[u8]; 3] = [b"class", b"state", b"action"];

/// A word of a text: its kind, and its bytes from start to end.
#[derive(Clone, Copy, Debug, PartialEq)]
pub struct Word {
    pub kind: u8,
    pub start: usize,
    pub end: usize,
}

/// Blank, tab, line feed and carriage return.
pub fn is_white(byte: u8) -> bool {
    matches!(byte, b' ' | b'\t' | b'\n' | b'\r')
}

/// A letter, a digit or an underscore.
pub fn is_name_character(byte: u8) -> bool {
    byte.is_ascii_alphanumeric() || byte == b'_'
}

/// Is this a name: 1 to 31 name characters, and no word of the grammar?
pub fn is_name(bytes: &[u8]) -> bool {
    let length = (1..=LONGEST_NAME).contains(&bytes.len());
    length && bytes.iter().all(|byte| is_name_character(*byte)) && !RESERVED.iter().any(|run| run.as_bytes() == bytes)
}

/// How many bytes the word at the beginning of these has; there is a byte, and it is not white.
fn word_length(rest: &[u8]) -> usize {
    let run = rest.iter().take_while(|byte| is_name_character(**byte)).count();
    if run > 0 {
        let colon = rest.get(run) == Some(&b':') && WITH_COLON.contains(&&rest[..run]);
        return run + usize::from(colon);
    }
    WITH_DOLLAR.iter().find(|word| rest.starts_with(word)).map_or(1, |word| word.len())
}

/// The kind of a word with these bytes.
fn kind_of(bytes: &[u8]) -> u8 {
    match FIXED.iter().position(|word| word.as_bytes() == bytes) {
        Some(number) => number as u8,
        None if is_name(bytes) => NAME,
        None => NOWHERE,
    }
}

/// The words of a text; the last one is its end.
pub fn words_of(text: &[u8]) -> Vec<Word> {
    let mut words = Vec::new();
    let mut start = 0;
    while start < text.len() {
        if is_white(text[start]) {
            start += 1;
            continue;
        }
        let end = start + word_length(&text[start..]);
        words.push(Word { kind: kind_of(&text[start..end]), start, end });
        start = end;
    }
    words.push(Word { kind: END, start: text.len(), end: text.len() });
    words
}
