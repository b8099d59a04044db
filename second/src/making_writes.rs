//! The mix of writing questions, and of reading questions about texts that were written.

use crate::damage::{damage_contents, damage_length, damage_records};
use crate::drafts::name_record;
use crate::examples::examples;
use crate::judging::judge;
use crate::limits::{guards_of_depth, ifs_of_depth, large, shared};
use crate::lines::Question;
use crate::making::{scatter, spoil_line};
use crate::making_texts;
use crate::naming::{fresh, Naming};
use crate::random::Random;
use crate::reading::{read, Lent};
use crate::shapes::{atom, class, Shape, BUSY, CROWD, LADDER, RING, SMALL, TALL, WHOLE};
use crate::sketches::{sketch, sketch_of_names, Sketch};
use crate::text_limits::near_limit;
use crate::text_writing::{write, Named};
use crate::tree::Class;
use crate::writing::{atom_record, bodies_of, Bodies, GUARDS};
use crate::writing_damage::{damage_names, damaged, fill};
use crate::written_limits::{counted_records, long_write, wide_sets};

/// Writing questions have their own random numbers.
const WRITE_SEED: u64 = 0x3817_E000_0000_0000;

/// Where writing questions are alone, every so many of them comes a long one.
const LONG_EVERY: u64 = 125;

/// Shapes with little in their states: no when clause, no action clause, neither; and with no class.
const NO_WHENS: Shape = Shape { clauses: (0, 0), actions: (1, 2), ..SMALL };
const NO_ACTIONS: Shape = Shape { clauses: (1, 3), actions: (0, 0), ..SMALL };
const NEITHER: Shape = Shape { clauses: (0, 0), actions: (0, 0), ..SMALL };
const NO_CLASS: Shape = Shape { classes: (0, 0), ..SMALL };

/// The line of one question of a run of writing questions alone.
pub fn make_line(seed: u64, index: u64) -> Vec<u8> {
    if index % LONG_EVERY == 0 { long_line(seed, index, index / LONG_EVERY) } else { mixed_line(seed, index) }
}

/// The line of the long writing question of this turn.
pub fn long_line(seed: u64, index: u64, turn: u64) -> Vec<u8> {
    Question::Write(long_write(&mut Random::for_question(seed ^ WRITE_SEED, index), turn)).line().into_bytes()
}

/// The line of a writing question of any other kind, or of a reading question about what was written.
pub fn mixed_line(seed: u64, index: u64) -> Vec<u8> {
    let random = &mut Random::for_question(seed ^ WRITE_SEED, index);
    let named = match random.below(200) {
        0..=52 => good(random),
        53..=60 => at_limit(random),
        61..=74 => short_of_room(random),
        75..=117 => faulty_names(random),
        118..=128 => many_records(random),
        129..=167 => damaged_sheet(random),
        168..=178 => two_faults(random),
        179..=181 => scattered(random),
        182 | 183 => noise(random),
        184..=189 => came_from_text(random),
        190..=196 => return Question::Read(written_text(random)).line().into_bytes(),
        _ => return bad_line(random),
    };
    Question::Write(named).line().into_bytes()
}

/// A line that asks to write, but is no question.
fn bad_line(random: &mut Random) -> Vec<u8> {
    let line = Question::Write(good(random)).line().into_bytes();
    let spoiled = spoil_line(random, line.clone());
    if spoiled.starts_with(b"write ") { spoiled } else { line }
}

/// A random class that keeps the limits.
fn some_class(random: &mut Random) -> Class {
    let shapes = [SMALL, SMALL, WHOLE, WHOLE, BUSY, BUSY, CROWD, LADDER, RING, TALL, NO_WHENS, NO_ACTIONS, NEITHER, NO_CLASS];
    match random.below(20) {
        0 => ifs_of_depth(random, 8),
        1 => guards_of_depth(random, 16),
        _ => { let shape = random.pick(&shapes); class(random, &shape) }
    }
}

/// Adds guard records that nothing uses.
fn add_unused(random: &mut Random, bodies: &mut Bodies) {
    for _ in 0..random.between(1, 4) {
        let record = if random.chance(40) { [random.byte(4, 6), 0, 0, 0, 0, 0, 0, 0] } else { atom_record(&atom(random, &[])) };
        bodies.push(GUARDS, &record);
    }
}

/// The bodies of an accepted sheet: guards shared or not, with records that nothing uses, or beginning anywhere in a common pool.
fn some_bodies(random: &mut Random) -> Bodies {
    loop {
        let bodies = match random.below(10) {
            0..=2 => shared(random),
            3 | 4 => {
                let mut bodies = bodies_of(&some_class(random), random.chance(70));
                add_unused(random, &mut bodies);
                bodies
            }
            5 | 6 => bodies_of(&some_class(random), false),
            _ => bodies_of(&some_class(random), true),
        };
        if judge(&bodies.sheet()).is_ok() {
            return bodies;
        }
    }
}

/// An accepted sheet with its names.
fn some_sketch(random: &mut Random) -> Sketch {
    if random.chance(6) {
        return wide_sets(random);
    }
    let bodies = some_bodies(random);
    sketch(random, bodies)
}

/// A question with a buffer that is long enough, where the text is written.
fn roomy(random: &mut Random, named: Named) -> Named {
    let room = write(&named).map_or(random.below(400), |text| text.len());
    let length = making_texts::enough(random, room);
    Named { buffer: random.bytes(length), ..named }
}

/// A question whose text is written; now and then a list has as many records as it may have.
fn good(random: &mut Random) -> Named {
    let mut named = some_sketch(random).named();
    if random.chance(5) {
        fill(&mut named, random.chance(50), 0);
    }
    roomy(random, named)
}

/// A question just within a limit.
fn at_limit(random: &mut Random) -> Named {
    let share = random.chance(50);
    let bodies = match random.below(12) {
        0 => large(random),
        _ => bodies_of(&near_limit(random, 0), share),
    };
    let names = random.pick(&[1, 2, 3, 4]);
    let sketch = sketch_of_names(random, bodies, names);
    roomy(random, sketch.named())
}

/// A question whose text has no room.
fn short_of_room(random: &mut Random) -> Named {
    let named = some_sketch(random).named();
    let room = write(&named).map_or(1, |text| text.len());
    let length = making_texts::short(random, room);
    Named { buffer: random.bytes(length), ..named }
}

/// The question of a sketch with one kind of damage that it has something for.
fn faulty(random: &mut Random, sketch: Sketch) -> Named {
    loop {
        if let Some(named) = damaged(random, sketch.clone()) {
            return named;
        }
    }
}

/// A question whose names have one fault; a few have none, though a set bit or the like has no name.
fn faulty_names(random: &mut Random) -> Named {
    let shape = random.pick(&[WHOLE, WHOLE, BUSY, BUSY, CROWD, SMALL]);
    let bodies = if random.chance(20) { some_bodies(random) } else { bodies_of(&class(random, &shape), random.chance(50)) };
    let sketch = sketch(random, bodies);
    let room = sketch.room().unwrap_or(0) + 40;
    let length = making_texts::enough(random, room);
    Named { buffer: random.bytes(length), ..faulty(random, sketch) }
}

/// A question whose guards have 1,024 records when each is counted as often as it is used, or one more, or many more.
fn many_records(random: &mut Random) -> Named {
    let total = random.pick(&[1023, 1024, 1024, 1025, 1025, 1025, 1025, 1026, 1100, 2048, 5000]);
    let named = counted_records(random, total).named();
    match total {
        0..=1024 => roomy(random, named),
        _ => { let length = random.pick(&[0, 100, 400, 20_000]); Named { buffer: random.bytes(length), ..named } }
    }
}

/// The bytes of a sheet with damage aimed at one rule.
fn damaged_bytes(random: &mut Random, rule: u8, class: &Class, bodies: &Bodies) -> Vec<u8> {
    let mut bodies = bodies.clone();
    match rule {
        1 => damage_length(random, &bodies),
        2 => damage_contents(random, &bodies),
        _ => {
            damage_records(random, rule, class, &mut bodies);
            bodies.sheet()
        }
    }
}

/// A question about a sheet with damage aimed at one rule, or at two; now and then the names are wrong as well.
fn damaged_sheet(random: &mut Random) -> Named {
    let tree = class(random, &WHOLE);
    let sketch = { let bodies = bodies_of(&tree, random.chance(50)); sketch(random, bodies) };
    let tree = judge(&sketch.bodies.sheet()).unwrap_or(tree);
    let mut bodies = sketch.bodies.clone();
    if random.chance(25) {
        let rule = random.byte(3, 9);
        damage_records(random, rule, &tree, &mut bodies);
    }
    let rule = random.byte(1, 9);
    let sheet = damaged_bytes(random, rule, &tree, &bodies);
    let length = sketch.room().unwrap_or(0) + random.below(40);
    let mut named = Named { sheet, buffer: random.bytes(length), ..sketch.named() };
    if random.chance(20) {
        damage_names(random, &mut named);
    }
    named
}

/// A question with two faults of different numbers out of 17, 19 and 15, or with all three.
fn two_faults(random: &mut Random) -> Named {
    let (names, records, room) = random.pick(&[(true, true, false), (false, true, true), (true, false, true), (true, true, true)]);
    let sketch = if records {
        let total = random.pick(&[1025, 1025, 1030, 2048]);
        counted_records(random, total)
    } else {
        some_sketch(random)
    };
    let length = sketch.room().unwrap_or(20_000);
    let length = if room { making_texts::short(random, length) / random.pick(&[1, 2, 40]) } else { length + 40 };
    let named = if names { faulty(random, sketch) } else { sketch.named() };
    Named { buffer: random.bytes(length), ..named }
}

/// A question about a sheet in which a few bytes were changed at random.
fn scattered(random: &mut Random) -> Named {
    let sketch = some_sketch(random);
    let mut named = sketch.named();
    scatter(random, &mut named.sheet);
    let length = sketch.room().unwrap_or(0) + 20;
    Named { buffer: random.bytes(length), ..named }
}

/// A question in which one of the fields is random bytes, or nothing.
fn noise(random: &mut Random) -> Named {
    let mut named = good(random);
    let length = random.pick(&[0, 0, 32, 36, 64, 72, 100]);
    let bytes = random.bytes(length);
    match random.below(6) {
        0 => named.sheet = bytes,
        1 => named.title = bytes,
        2 => named.table = bytes,
        3 => named.names = bytes,
        4 => named.commands = bytes,
        _ => named.classes = bytes,
    }
    named
}

/// A question about the sheet that came from a text; nothing is shared in it.
fn came_from_text(random: &mut Random) -> Named {
    loop {
        let lent = if random.chance(30) { random.pick(&examples()) } else { making_texts::good(random) };
        let lent = Lent { sheet: vec![0; 20_000], table: vec![0; 1_024], ..lent };
        if let Ok(done) = read(&lent) {
            let title = name_record(&fresh(random, Naming::Mixed, &[]));
            let Lent { names, commands, classes, .. } = lent;
            let named = Named { sheet: done.sheet, title, table: done.table, names, commands, classes, buffer: Vec::new() };
            return roomy(random, named);
        }
    }
}

/// A reading question about a text that was written: with the same lists, with just enough room, more or less.
fn written_text(random: &mut Random) -> Lent {
    loop {
        let named = if random.chance(10) { at_limit(random) } else { good(random) };
        let Ok(text) = write(&named) else { continue };
        let Named { table, names, commands, classes, .. } = named;
        let lent = Lent { text, names, commands, classes, sheet: vec![0; 20_000], table: vec![0; table.len()] };
        let Ok(done) = read(&lent) else { continue };
        let (sheet, table) = (making_texts::enough(random, done.sheet.len()), making_texts::enough(random, table.len()));
        return Lent { sheet: random.bytes(sheet), table: random.bytes(table), ..lent };
    }
}
