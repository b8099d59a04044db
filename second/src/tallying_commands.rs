//! Counts what command requests ask: handled or ignored, what the phase behind comes to, what is sent, and how much room there is.

use crate::answering::children;
use crate::behaviour::{phase, probe, request, Child, Request};
use crate::commanding::{does, ending, request_on, sent_on_the_way, Does};
use crate::judging::judge;
use crate::tallying_phases::room;
use crate::tree::{Class, Referrer};

/// More bytes than these do not fit into 16 bits.
const SIXTEEN_BITS: usize = 65_535;

/// Does the phase behind a command that moves nothing run the same clause at once?
fn runs_again(class: &Class, children: &[Child], state: u8, asked: u8) -> bool {
    let here = &class.states[usize::from(state)];
    match probe(here, children).map(|number| here.clauses[number].referrer) {
        Some(Referrer::Do(number)) => here.actions[usize::from(number)].command == asked,
        _ => false,
    }
}

/// How much room there is beside what the command sends and what the phase sends, or would send if it did not loop.
fn of_room(request: &Request, on_the_way: usize, buffer: usize) -> Vec<String> {
    let (own, sum) = (request.run.sent.len(), request.writes().len());
    let word = if request.run.handled { "handled" } else { "ignored" };
    let behind = if ending(&request.phase) == "loop" { "a loop" } else { "a settled phase" };
    let mut labels = Vec::new();
    if sum > 0 {
        labels.push(format!("command, {word}, {behind} behind: {}", room(buffer, sum)));
    }
    if own > 0 && sum > own {
        labels.push(format!("command, both send: room for the own bytes: {}", room(buffer, own)));
    }
    if behind == "a loop" && on_the_way > 0 {
        labels.push(format!("command, {word}, the loop sends on its way: {} for all", room(buffer, own + on_the_way)));
    }
    labels
}

/// What is sent, and how often.
fn of_sends(request: &Request, on_the_way: usize) -> Vec<String> {
    let (own, behind) = (request.run.sent.len(), request.phase.writes().len());
    let word = |bytes: usize| if bytes > 0 { "something" } else { "nothing" };
    let mut labels = vec![format!("command, {}: own sends {}, the phase {}", ending(&request.phase), word(own), word(on_the_way))];
    let facts = [(own, "the command sends more than 65,535 bytes"), (behind, "the phase behind sends more than 65,535 bytes")];
    labels.extend(facts.iter().filter(|fact| fact.0 > SIXTEEN_BITS).map(|fact| format!("command, {}", fact.1)));
    labels
}

/// What is asked by a command over 63: would there be a clause for its six low bits, and room for what is written then?
fn of_wrong_command(class: &Class, children: &[Child], state: u8, asked: u8, buffer: usize) -> String {
    let known = if does(class, children, state, asked % 64) == Does::Nothing { "no clause" } else { "a clause" };
    let short = buffer < request(class, children, state, asked % 64).writes().len();
    format!("command, 12: {known} for the six low bits, {}", if short { "too little room" } else { "room enough" })
}

/// What a command request asks.
pub fn of_command(sheet: &[u8], list: &[u8], state: u8, asked: u8, buffer: &[u8]) -> Vec<String> {
    let Ok(class) = judge(sheet) else { return Vec::new() };
    let Some(request) = request_on(&class, list, state, asked) else { return Vec::new() };
    let children = children(&class, list).unwrap_or_default();
    if asked > 63 {
        return vec![of_wrong_command(&class, &children, state, asked, buffer.len())];
    }
    let short = buffer.len() < request.writes().len();
    let on_the_way = sent_on_the_way(&class, &children, request.run.state).len();
    let words = match does(&class, &children, state, asked) {
        Does::Nothing => "ignored",
        Does::NoMove => "handled, no move_to",
        Does::OwnState => "handled, move_to to the own state",
        Does::OtherState => "handled, move_to to another state",
    };
    let answer = if short { "15" } else { "answered" };
    let mut labels = vec![format!("command, {words}, {}: {answer}", ending(&request.phase))];
    labels.extend(of_room(&request, on_the_way, buffer.len()));
    labels.extend(of_sends(&request, on_the_way));
    let facts = [
        (phase(&class, &children, state) != request.phase, "the phase from the asked state would be another"),
        (phase(&class, &children, 0) != request.phase, "the phase from state 0 would be another"),
        (request.run.handled && request.run.state == state && runs_again(&class, &children, state, asked), "the phase runs the same clause"),
    ];
    labels.extend(facts.into_iter().filter(|fact| fact.0).map(|fact| format!("command, {}", fact.1)));
    labels
}
