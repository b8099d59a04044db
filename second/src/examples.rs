//! The worked examples of the class text: listings, what is read and what is not, each with its lists.

use crate::drafts::{class_record, name_record};
use crate::random::Random;
use crate::reading::{read, Lent};

/// Sheet A's text.
pub const PRESS: &str = "class: $FWPART_$TOP$PRESS
  state: READY
    when ( $ANY$HEATER not_in_state HOT ) move_to HOLD
  state: HOLD
    when ( $ANY$HEATER in_state HOT ) move_to READY
";

/// Listing 1 of the thesis.
pub const RPC: &str = "class: $FWPART_$TOP$RPC
  state: ON
    when ( $ANY$FwCHILDREN in_state ERROR ) move_to ERROR
    action: RESET
      do OFF $ALL$FwCHILDREN
  state: ERROR
    when ( $ANY$FwCHILDREN in_state ON ) move_to ON
";

/// Listing 1 of the article, and the states that it moves to.
pub const CHAMBER: &str = "class: $FWPART_$TOP$RPC_Chamber_CLASS
  state: OFF
    when ( ( $ANY$FwCHILDREN in_state ERROR ) or
           ( $ANY$FwCHILDREN in_state TRIPPED ) ) move_to ERROR

    when ( $ANY$RPC_HV in_state {RAMPING_UP,
                                RAMPING_DOWN} ) move_to RAMPING
  when ( ( $ALL$RPC_LV in_state ON ) and
         ( $ALL$RPC_HV in_state STANDBY ) ) move_to STANDBY

  when ( ( $ALL$RPC_HV in_state ON ) and
         ( $ALL$RPC_LV in_state ON ) ) move_to ON

  when ( ( $ALL$FwCHILDREN in_state ON ) and
         ( $ALL$RPC_T in_state OK ) ) move_to ON

  action: STANDBY
    do STANDBY $ALL$RPC_HV
    do ON $ALL$RPC_LV
  action: OFF
    do OFF $ALL$FwCHILDREN
  action: ON
    do ON $ALL$FwCHILDREN
";
pub const CHAMBER_NAMES: &str = "ERROR TRIPPED RAMPING_UP RAMPING_DOWN ON STANDBY OK";
pub const CHAMBER_STATES: &str = "state: ERROR state: RAMPING state: STANDBY state: ON";

/// Listing 2 of the article.
pub const STANDBY: &str = "action: STANDBY
  do STANDBY $ALL$RPC_HV
  do ON $ALL$RPC_LV
  if ( $ALL$RPC_LV in_state ON ) then
    do ON $ALL$RPC_HV
    if ( $ALL$RPC_HV in_state ON ) then
      move_to ON
    endif
  else
    do STANDBY $ALL$RPC_LV
    do STANDBY $ALL$RPC_HV
    do STANDBY $ALL$FwCHILDREN
  endif
";

/// Listing 3 of the article.
pub const EXCERPT: &str = "state: ANALOG_ON_RED
...
when ( $ANY$TkPowerGroup not_in_state DIGITAL_ON_RED ) move_to LVMIXED
...

state: LVMIXED
...
when ( $ANY$TkPowerGroup in_state {ON, HVMIXED} ) move_to HVMIXED
when ( $ALL$FwCaenChannelCtrl in_state ON and
      $ALL$TkPowerGroup in_state ANALOG_ON_RED ) move_to ANALOG_ON_RED
...
";
pub const EXCERPT_NAMES: &str = "ANALOG_ON_RED ON HVMIXED DIGITAL_ON_RED";
pub const EXCERPT_KIN: &str = "TkPowerGroup FwCaenChannelCtrl";

/// Texts that are not of the grammar; a caret marks the place. H stands for a class with one state A.
pub const PLACES: [&str; 36] = [
    "^",
    "class: $FWPART_$TOP$X ^",
    "class: $FWPART_$TOP$X ^sta",
    "class: $FWPART_$TOP$X ^state A",
    "class: ^$FWPART_$TOP X state: A",
    "class: $FWPART_$TOP$X state: ^when",
    "class: $FWPART_$TOP$X state: A^-B",
    "H ^class: $FWPART_$TOP$Y state: B",
    "H when ^$any$K in_state P",
    "H when $ANY$K in_state {P,^}",
    "H when ( $ANY$K in_state P ^move_to A",
    "H when $ANY$K in_state P ^) move_to A",
    "H action: go ^when $ANY$K in_state P move_to A",
    "H action: go do stop ^$ANY$K",
    "H action: go if $ANY$K in_state P then else ^else endif",
    "H when $ANY$K in_state P and ^",
    "H when $ANY$K in_state {^",
    "H when $ANY$K in_state P stay_in_state A ^A",
    "class: $FWPART_$TOP$X ^state : A",
    "class: ^$FWPART_ $TOP$X state: A",
    "class: ^X state: A",
    "^class : $FWPART_$TOP$X state: A",
    "H when ^$ ANY$K in_state P",
    "H when $ANY$K ^empty stay_in_state",
    "H action: go ^wait",
    "H action: go ^abcdefghijklmnopqrstuvwxyzabcdef",
    "class: $FWPART_$TOP$X state: ^abcdefghijklmnopqrstuvwxyzabcdef",
    "class: $FWPART_$TOP$^TOP state: A",
    "class: $FWPART_$TOP$X state: ^ALL",
    "H ^! a comment",
    "H ^\u{b}",
    "H when $ANY$K in_state {^}",
    "H when $ANY$Z in_state Z move_to Z action: zap if $ANY$K in_state P then ^",
    "H ^WHEN $ANY$K in_state P",
    "H action: go if $ANY$K in_state P then move_to A else  \n\t^",
    "class: $FWPART_$TOP$^",
];

/// Texts that are read, over the lists below.
pub const READ: [&str; 25] = [
    "H",
    "class:$FWPART_$TOP$X state:A",
    "class: $FWPART_$TOP$ When state: any state: classes state: empty state: wait state: 7 state: in_states state: do_",
    "class: $FWPART_$TOP$K state: K state: P state: go",
    "H when $ANY$K in_state P move_to A",
    "H when $ANY$ K in_state{P,Q}move_to A",
    "H when $ALL$FwCHILDREN not_in_state{Q}stay_in_state",
    "H when $ANY$K in_state P and $ALL$K in_state Q and $ANY$L in_state R stay_in_state",
    "H when $ANY$K in_state P or $ALL$K in_state Q or $ANY$L in_state R stay_in_state",
    "H when $ANY$K in_state P and ( $ALL$K in_state Q and $ANY$L in_state R ) stay_in_state",
    "H when not $ANY$K in_state P and $ALL$K in_state Q or $ANY$L in_state R stay_in_state",
    "H when $ANY$K in_state P or $ALL$K in_state Q and not $ANY$L in_state R stay_in_state",
    "H when not ( $ANY$K in_state P or $ALL$K in_state Q ) and $ANY$L in_state R stay_in_state",
    "H when not not $ANY$K in_state P stay_in_state A",
    "H when ((((($ANY$K in_state P))))) stay_in_state",
    "H when $ANY$K in_state {P, P, P} stay_in_state",
    "H when $ANY$K in_state R stay_in_state",
    "H when $ANY$K in_state P stay_in_state B state: B",
    "H when $ANY$K in_state P stay_in_state when $ANY$K in_state P move_to B state: B when $ANY$K in_state P move_to A",
    "H action: go",
    "H action: go if $ANY$K in_state P then endif",
    "H action: go if $ANY$K in_state P then else endif",
    "H action: go move_to B do stop $ALL$L do go $ALL$FwCHILDREN state: B action: go",
    "H when $ANY$K in_state P do stop when $ANY$K in_state P do go action: go action: stop",
    "H when $ALL$K in_state P do go action: go if $ANY$K in_state Q then if $ANY$L in_state R then move_to A endif \
     else if $ALL$L in_state P then endif endif action: stop if $ALL$K in_state R then endif \
     state: B when $ANY$L in_state Q move_to A",
];

/// Texts with a name that is not known, a state or an action twice, or a do without its action.
pub const REFUSED_17: [&str; 14] = [
    "H when $ANY$K in_state Z stay_in_state",
    "H when $ANY$K in_state {P, Q, Z} stay_in_state",
    "H when $ANY$Z in_state P stay_in_state",
    "H when $ANY$K in_state P move_to Z",
    "H when $ANY$K in_state P stay_in_state Z",
    "H when $ANY$K in_state P do zap",
    "H when $ANY$K in_state P do go",
    "H when $ANY$K in_state P do go state: B action: go",
    "H action: zap",
    "H action: go do zap $ALL$K",
    "H action: go do stop $ALL$Z",
    "H action: go if $ANY$K in_state P then move_to Z endif",
    "H state: B state: A",
    "H action: go action: stop action: go",
];

/// The lists of the texts above; the classes have the first two names.
pub const NAMES: &str = "P Q R";
pub const COMMANDS: &str = "go stop";
pub const KIN: &str = "K L";
const SET: u32 = 3;

/// The names of a list, which are parted by blanks, as records.
pub fn list(names: &str) -> Vec<u8> {
    names.split_whitespace().flat_map(|name| name_record(name.as_bytes())).collect()
}

/// A text with its lists, all classes having the same name set, and without buffers.
pub fn about(text: &str, names: &str, commands: &str, kin: &str, set: u32) -> Lent {
    let classes = kin.split_whitespace().flat_map(|name| class_record(name.as_bytes(), set.to_le_bytes())).collect();
    let text = text.as_bytes().to_vec();
    Lent { text, names: list(names), commands: list(commands), classes, sheet: Vec::new(), table: Vec::new() }
}

/// A text over the lists above, H written out.
pub fn short(text: &str) -> Lent {
    let text = text.replacen("H", "class: $FWPART_$TOP$X state: A", usize::from(text.starts_with('H')));
    about(&text, NAMES, COMMANDS, KIN, SET)
}

/// The text of a place, and the place.
pub fn placed(marked: &str) -> (Lent, usize) {
    let mut lent = short(marked);
    let place = lent.text.iter().position(|byte| *byte == b'^').unwrap_or(0);
    lent.text.retain(|byte| *byte != b'^');
    (lent, place)
}

/// So many operators on one path: nots, a chain of and, and one to the right.
fn paths(count: usize) -> [String; 3] {
    let atom = "$ANY$K in_state P";
    [
        format!("H when {}{atom} stay_in_state", "not ".repeat(count)),
        format!("H when {} stay_in_state", vec![atom; count + 1].join(" and ")),
        format!("H when {}{atom}{} stay_in_state", format!("{atom} or ( ").repeat(count), " )".repeat(count)),
    ]
}

/// So many ifs in each other, in then-parts and else-parts by turns.
fn nested(count: usize) -> String {
    let (mut front, mut back) = ("H action: go ".to_string(), String::new());
    for number in 0..count {
        front += "if $ANY$K in_state P then ";
        front += if number % 2 == 1 { "else " } else { "" };
        back += "endif ";
    }
    front + &back
}

/// Every limit on one path from both sides: 16 and 17 operators, 8 and 9 ifs.
pub fn depths(past: usize) -> Vec<Lent> {
    let [nots, ands, ors] = paths(16 + past);
    [nots, ands, ors, nested(8 + past)].iter().map(|text| short(text)).collect()
}

/// The listings: sheet A, the thesis, the article's three, as they stand and as they are read.
fn listings() -> Vec<Lent> {
    let chamber = format!("{CHAMBER} {CHAMBER_STATES}");
    let standby = format!("class: $FWPART_$TOP$C state: OFF {STANDBY} state: ON");
    let excerpt = format!("class: $FWPART_$TOP$C {EXCERPT}");
    let whole = format!("{} state: HVMIXED", excerpt.replace('.', ""));
    vec![
        about(PRESS, "COLD HOT FAULT", "", "HEATER", 7),
        about(RPC, "ON ERROR", "RESET OFF", "", 0),
        about(CHAMBER, CHAMBER_NAMES, "STANDBY OFF ON", "RPC_HV RPC_LV RPC_T", 127),
        about(&chamber, CHAMBER_NAMES, "STANDBY OFF ON", "RPC_HV RPC_LV RPC_T", 127),
        about(&standby, "ON", "STANDBY ON", "RPC_HV RPC_LV", 1),
        about(&excerpt, EXCERPT_NAMES, "", EXCERPT_KIN, 15),
        about(&whole, EXCERPT_NAMES, "", EXCERPT_KIN, 15),
    ]
}

/// One more record for each of the lists that makes it ill-formed, or has a name that is there; the last one is a part of a record.
fn wrong_records(known: &str) -> [Vec<u8>; 7] {
    let names: [&[u8]; 6] = [b"", &[b'A'; 32], b"A-B", b"A\0B", b"when", known.as_bytes()];
    let [zeros, no_zero, odd, behind, reserved, twice] = names.map(name_record);
    [zeros, no_zero, odd, behind, reserved, twice, name_record(b"A")[..31].to_vec()]
}

/// Every list with every wrong record, under a text that uses no list and one that uses all.
pub fn wrong_lists() -> Vec<Lent> {
    let texts = ["H", "H when $ANY$K in_state P do go action: go do stop $ALL$L"];
    let mut asked = Vec::new();
    for (list, known) in ["P", "go", "K"].into_iter().enumerate() {
        for (number, record) in wrong_records(known).into_iter().enumerate() {
            let mut lent = short(texts[number % 2]);
            let set: &[u8] = if list == 2 && record.len() == 32 { &[1, 0, 0, 0] } else { &[] };
            [&mut lent.names, &mut lent.commands, &mut lent.classes][list].extend([&record, set].concat());
            asked.push(lent);
        }
    }
    asked
}

/// A text under no list at all, under one more class with this set, and under one whose set has a bit without a name.
fn other_lists() -> [Lent; 3] {
    let with = |set: u8| {
        let mut lent = short("H when $ANY$K in_state P stay_in_state");
        lent.classes.extend(class_record(b"M", [set, 0, 0, 0]));
        lent
    };
    [about("class: $FWPART_$TOP$X state: A state: B", "", "", "", 0), with(0), with(8)]
}

/// All worked examples, without buffers.
pub fn examples() -> Vec<Lent> {
    let places = PLACES.iter().map(|marked| placed(marked).0);
    let others = READ.iter().chain(&REFUSED_17).map(|text| short(text));
    let texts = listings().into_iter().chain(places).chain(others).chain(depths(0)).chain(depths(1));
    texts.chain(wrong_lists()).chain(other_lists()).collect()
}

/// The worked example of this turn, with buffers that are just long enough, longer, or one of them a byte too short.
pub fn worked(random: &mut Random, turn: u64) -> Lent {
    let examples = examples();
    let mut lent = examples[turn as usize % examples.len()].clone();
    let whole = Lent { sheet: vec![0; 2_000], table: vec![0; 400], ..lent.clone() };
    let (sheet, table) = read(&whole).map_or((60, 64), |done| (done.sheet.len(), done.table.len()));
    let (sheet, table) = match random.below(6) {
        0 | 1 => (sheet, table),
        2 => (sheet - 1, table),
        3 => (sheet, table - 1),
        _ => (sheet + random.between(1, 9), table + random.between(1, 40)),
    };
    (lent.sheet, lent.table) = (random.bytes(sheet), random.bytes(table));
    lent
}
