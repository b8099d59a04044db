//! Damage to the words and the bytes of a text, aimed at 16. What a damaged text is refused with is for the reader to say.

use crate::naming::{fresh, run, Naming};
use crate::printing::{fixed, fixed_words, some_white, Piece, Role};
use crate::random::Random;
use crate::words::{FIXED, LONGEST_NAME, RESERVED};

/// Bytes that are no word of the grammar, or nearly one.
const ODD: [&[u8]; 44] = [
    b":", b"$", b"!", b"-", b"&", b".", b"\"", b"=", b"\0", b"\x0b", b"\x0c", b"\x80", b"\xff", b"\xc2\xa0", b"\xef\xbb\xbf", b"$any$",
    b"$all$", b"$FWPART_$", b"$TOP$", b"$ANY", b"ANY$", b"$$", b"::", b"class :", b"state :", b"action :", b"$ ANY$", b"$ANY $",
    b"$FWPART_ $TOP$", b"[", b"]", b";", b"WHEN", b"Move_to", b"! comment\n", b"$ALL", b"$FWPART_$TOP", b"$FWPART_$ANY$", b"class::",
    b"when:", b"\x7f", b"@", b"'", b"/",
];

/// A word of any kind.
pub fn any_word(random: &mut Random) -> Vec<u8> {
    match random.below(10) {
        0..=4 => random.pick(&FIXED).as_bytes().to_vec(),
        5 => random.pick(&RESERVED).as_bytes().to_vec(),
        6 | 7 => random.pick(&ODD).to_vec(),
        8 => fresh(random, Naming::Mixed, &[]),
        _ => too_long(random),
    }
}

/// A run that is too long for a name, most often just so.
fn too_long(random: &mut Random) -> Vec<u8> {
    let length = LONGEST_NAME + random.pick(&[1, 1, 1, 1, 2, 33]);
    run(random, length)
}

/// The places of the words in these roles.
pub fn places(pieces: &[Piece], wanted: impl Fn(&Piece) -> bool) -> Vec<usize> {
    (0..pieces.len()).filter(|at| wanted(&pieces[*at])).collect()
}

/// The places of a fixed word.
pub fn places_of(pieces: &[Piece], word: &str) -> Vec<usize> {
    places(pieces, |piece| piece.role == Role::Fixed && piece.bytes == word.as_bytes())
}

/// One of the places, or any other where there is none.
fn some_place(random: &mut Random, pieces: &[Piece], places: &[usize]) -> usize {
    if places.is_empty() { random.below(pieces.len()) } else { random.pick(places) }
}

/// The place of a word: every kind of word as often as the others.
fn kindly_place(random: &mut Random, pieces: &[Piece]) -> usize {
    let mut there: Vec<&Piece> = Vec::new();
    for piece in pieces {
        if !there.iter().any(|known| known.role == piece.role && (piece.role != Role::Fixed || known.bytes == piece.bytes)) {
            there.push(piece);
        }
    }
    let like = random.pick(&there);
    random.pick(&places(pieces, |piece| piece.role == like.role && (piece.role != Role::Fixed || piece.bytes == like.bytes)))
}

/// Drops, doubles, swaps, replaces or inserts a word.
fn disturb(random: &mut Random, pieces: &mut Vec<Piece>) {
    let at = if random.chance(40) { random.below(pieces.len()) } else { kindly_place(random, pieces) };
    match random.below(9) {
        0 => { pieces.remove(at); }
        1 => pieces.insert(at, pieces[at].clone()),
        2 => {
            let other = (at + 1).min(pieces.len() - 1);
            pieces.swap(at, other);
        }
        3 => {
            let other = random.below(pieces.len());
            pieces.swap(at, other);
        }
        4..=6 => pieces[at] = fixed(&any_word(random)),
        _ => pieces.insert(at + random.below(2), fixed(&any_word(random))),
    }
}

/// Spoils a name: makes it a reserved run, too long, or drops it.
fn spoil_name(random: &mut Random, pieces: &mut Vec<Piece>) {
    let names = places(pieces, |piece| piece.role != Role::Fixed);
    let at = some_place(random, pieces, &names);
    match random.below(6) {
        0 | 1 => pieces[at].bytes = random.pick(&RESERVED).as_bytes().to_vec(),
        2 | 3 => {
            let mut name = pieces[at].bytes.clone();
            name.resize(LONGEST_NAME + 1, b'x');
            pieces[at].bytes = name;
        }
        4 => pieces[at].bytes.insert(0, random.pick(b"$-.&:\x0b")),
        _ => { pieces.remove(at); }
    }
}

/// Spoils a fixed word: its case, a character of it, a blank inside it.
fn spoil_fixed(random: &mut Random, pieces: &mut [Piece]) {
    let words = places(pieces, |piece| piece.role == Role::Fixed && piece.bytes.len() > 1);
    let at = some_place(random, pieces, &words);
    let bytes = &mut pieces[at].bytes;
    let place = random.below(bytes.len());
    match random.below(6) {
        0 => *bytes = bytes.to_ascii_uppercase(),
        1 => *bytes = bytes.to_ascii_lowercase(),
        2 => { bytes.remove(place); }
        3 => bytes.insert(place, random.pick(b" \n_x$:")),
        4 => bytes.push(random.pick(b"_s0:$")),
        _ => { bytes.pop(); }
    }
}

/// Puts white space into a word that has a colon or dollar signs, where its parts meet.
fn part_word(random: &mut Random, pieces: &mut [Piece]) {
    let whole = places(pieces, |piece| piece.role == Role::Fixed && piece.bytes.iter().any(|byte| b":$".contains(byte)));
    let at = some_place(random, pieces, &whole);
    let bytes = &mut pieces[at].bytes;
    let meets: Vec<usize> = (1..bytes.len()).filter(|place| [bytes[place - 1], bytes[*place]].iter().any(|byte| b":$".contains(byte))).collect();
    if !meets.is_empty() {
        bytes.insert(random.pick(&meets), random.pick(b" \t\n\r"));
    }
}

/// Drops a word, or a name: every kind of word as often as the others.
fn drop_word(random: &mut Random, pieces: &mut Vec<Piece>) {
    let at = kindly_place(random, pieces);
    pieces.remove(at);
}

/// Empties the braces of a set.
fn empty_braces(random: &mut Random, pieces: &mut Vec<Piece>) {
    let open = places_of(pieces, "{");
    let Some(open) = open.get(random.below(open.len().max(1))).copied() else { return disturb(random, pieces) };
    let close = pieces[open..].iter().position(|piece| piece.bytes == b"}").map_or(pieces.len(), |place| open + place);
    pieces.drain(open + 1..close.max(open + 1));
}

/// Words that belong to forms that are left out, or that stand where they may not.
const OUT: [(&str, &str); 22] = [
    ("state:", "class: $FWPART_$TOP$ X"), ("state:", "class: X"), ("state:", "state"), ("when", "action: GO"), ("when", "when"),
    ("action:", "endif"), ("action:", "else"), ("action:", "when $ANY$ FwCHILDREN in_state ON"), ("endif", "else"), ("endif", "else else"),
    ("endif", "endif"), ("then", ")"), ("then", "then"), ("else", "else"), ("move_to", ")"), ("move_to", "("), ("in_state", "empty"), ("}", ","),
    ("}", "{ }"), ("{", "{"), (",", ","), ("and", "or"),
];

/// Puts words before a fixed word that they may not stand before.
fn put_out(random: &mut Random, pieces: &mut Vec<Piece>) {
    let fits: Vec<&(&str, &str)> = OUT.iter().filter(|(before, _)| !places_of(pieces, before).is_empty()).collect();
    if let Some((before, words)) = fits.get(random.below(fits.len().max(1))) {
        let at = random.pick(&places_of(pieces, before));
        pieces.splice(at..at, fixed_words(words));
    }
}

/// Gives a do statement a pattern that begins with $ANY$.
fn send_to_any(random: &mut Random, pieces: &mut [Piece]) {
    let sends = places(pieces, |piece| piece.role == Role::Send);
    if let Some(quantifier) = sends.get(random.below(sends.len().max(1))).and_then(|at| pieces.get_mut(at + 1)) {
        *quantifier = fixed(b"$ANY$");
    }
}

/// Spoils what comes in pairs: brackets, braces, the words of an if, the two parts of a pattern.
fn spoil_pair(random: &mut Random, pieces: &mut Vec<Piece>) {
    let words = ["(", ")", "{", "}", ",", "if", "then", "else", "endif", "$ANY$", "$ALL$", "in_state", "not_in_state", "stay_in_state", "not"];
    let there: Vec<&str> = words.iter().copied().filter(|word| !places_of(pieces, word).is_empty()).collect();
    if there.is_empty() {
        return disturb(random, pieces);
    }
    let word = random.pick(&there);
    let at = random.pick(&places_of(pieces, word));
    match random.below(4) {
        0 => { pieces.remove(at); }
        1 => pieces.insert(at, pieces[at].clone()),
        2 => pieces[at] = fixed(random.pick(&words).as_bytes()),
        _ if word == "$ALL$" => pieces[at] = fixed(b"$ANY$"),
        _ => pieces.insert(at + 1, fixed(random.pick(&words).as_bytes())),
    }
}

/// Damages the words of a text, where it has any.
pub fn damage_words(random: &mut Random, pieces: &mut Vec<Piece>) {
    if pieces.is_empty() {
        return;
    }
    match random.below(20) {
        0..=4 => disturb(random, pieces),
        5..=7 => spoil_name(random, pieces),
        8 | 9 => spoil_fixed(random, pieces),
        10..=12 => put_out(random, pieces),
        13 => spoil_pair(random, pieces),
        14 => send_to_any(random, pieces),
        15 | 16 => drop_word(random, pieces),
        17 => part_word(random, pieces),
        18 => empty_braces(random, pieces),
        _ => {
            // now and then a class without a state is left
            let length = if random.chance(15) { 3 } else { random.below(pieces.len()) };
            pieces.truncate(length);
        }
    }
}

/// Puts any words behind the beginning of a text.
pub fn random_words(random: &mut Random, pieces: &mut Vec<Piece>) {
    let start = if random.chance(30) { 0 } else { random.below(pieces.len()) };
    pieces.truncate(start);
    for _ in 0..random.between(1, 12) {
        pieces.push(fixed(&any_word(random)));
    }
}

/// Damages the bytes of a text: cuts it, or changes, drops or adds a byte, or adds a comment.
pub fn damage_bytes(random: &mut Random, text: &mut Vec<u8>) {
    if text.is_empty() {
        return;
    }
    let at = random.below(text.len());
    match random.below(20) {
        0..=3 => text.truncate(at),
        4..=7 => {
            text.truncate(at);
            text.extend(some_white(random, 1, 4));
        }
        8 | 9 => text[at] ^= 1 << random.below(8),
        10 | 11 => text[at] = random.byte(0, 255),
        12 | 13 => { text.remove(at); }
        14..=16 => text.insert(at, random.pick(b"\x00\x0b\x0c\x1f!-.:$\x7f\x80\xa0\xff")),
        17 => { text.splice(at..at, b" ! a comment\n".iter().copied()); }
        _ => text.extend(random.pick(&ODD)),
    }
}
