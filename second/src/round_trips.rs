//! Written texts read back: what must come of it whatever the sheet and its names are.

use crate::judging::judge;
use crate::reading::{read, Lent};
use crate::text_writing::{write, Named};
use crate::writing::bodies_of;

/// The longest sheet and the largest table that a text can have.
const SHEET_ROOM: usize = 18_616;
const TABLE_ROOM: usize = 1_024;

/// The text that an answer line says was written; none where it says something else.
pub fn text_in(answer: &[u8]) -> Option<Vec<u8>> {
    let fields: Vec<&[u8]> = answer.split(|byte| *byte == b' ').collect();
    let [b"written", length, buffer] = fields[..] else { return None };
    let length: usize = std::str::from_utf8(length).ok()?.parse().ok()?;
    let digits = std::str::from_utf8(buffer.get(..2 * length)?).ok()?;
    (0..length).map(|at| u8::from_str_radix(&digits[2 * at..2 * at + 2], 16).ok()).collect()
}

/// Reads a text that was written for a sheet with its names; tells what is not as it must be.
pub fn round_trip(named: &Named, text: Vec<u8>) -> Result<(), &'static str> {
    let Ok(class) = judge(&named.sheet) else { return Err("a sheet was written that is refused") };
    let Named { names, commands, classes, .. } = named.clone();
    let lent = Lent { text, names, commands, classes, sheet: vec![0; SHEET_ROOM], table: vec![0; TABLE_ROOM] };
    let Ok(done) = read(&lent) else { return Err("the text is not read") };
    if done.table != named.table {
        return Err("the table does not come back");
    }
    if judge(&done.sheet) != Ok(class.clone()) {
        return Err("the sheet comes back with another tree");
    }
    if named.sheet == bodies_of(&class, false).sheet() && done.sheet != named.sheet {
        return Err("a sheet that came from a text does not come back byte for byte");
    }
    if write(&Named { sheet: done.sheet, ..named.clone() }) != Ok(lent.text) {
        return Err("what was read is not written as the same text");
    }
    Ok(())
}
