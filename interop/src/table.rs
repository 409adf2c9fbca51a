//! The report at the end: cases, seed, and the count for each number.

use crate::edges::{BOUNDARIES, TRUNCATED};
use crate::functions::{number, FUNCTIONS, NUMBERS};
use crate::sets::SETS;
use crate::tally::{Tally, MARKS};
use std::fmt::Write;

/// What each number means, in a few words.
const MEANINGS: [&str; NUMBERS] = [
    "accepted",
    "descriptor not 16 dwords, which C can't lend",
    "N not allowed",
    "state doesn't fit",
    "message malformed",
    "output below 256",
    "STATUS not 0",
    "offset at least N",
    "own offset differs",
    "L exceeds used",
    "L exceeds free",
    "nothing pending",
    "publish or move out of turn",
    "received malformed",
    "field, name or reply dwords",
    "too short for its header",
    "CSS sizes disagree",
    "CSS part beyond",
    "CPD marker or header length",
    "CPD entries beyond",
    "no entry of that name",
    "entry's part beyond",
    "more than one entry of that name",
    "every record open",
    "no request to send, or no reply to an open one",
    "too little room for the answer",
    "a bad number of a record, or a message not whole",
    "too little room for a record",
    "table's length, or a fence open twice",
    "destination too short",
    "no such type or component",
];

/// 1234567 as 1,234,567.
pub fn grouped(value: u64) -> String {
    let digits = value.to_string();
    let mut text = String::new();
    for (index, digit) in digits.chars().enumerate() {
        if index > 0 && (digits.len() - index) % 3 == 0 {
            text.push(',');
        }
        text.push(digit);
    }
    text
}

/// Counts for each number, over all functions.
pub fn by_number(tally: &Tally) -> String {
    let mut text = String::from("number   answers         meaning\n");
    for (place, meaning) in MEANINGS.iter().enumerate() {
        let code = number(place);
        let count = grouped(tally.total(code));
        writeln!(text, "{code:>6}   {count:>12}    {meaning}").expect("a string takes it");
    }
    text
}

/// Counts for each function.
pub fn by_function(tally: &Tally) -> String {
    let mut text = String::from("function                   calls          number x times\n");
    for (fun, name, numbers) in FUNCTIONS {
        let each: Vec<String> =
            numbers.iter().map(|code| format!("{code} x {}", tally.count(fun, *code))).collect();
        let calls = grouped(tally.calls(fun));
        writeln!(text, "{name:<25}{calls:>12}    {}", each.join(", ")).expect("a string takes it");
    }
    text
}

/// Counts of the marks.
pub fn by_mark(tally: &Tally) -> String {
    let mut text = String::new();
    for name in MARKS {
        let count = grouped(tally.marked(name));
        writeln!(text, "{count:>12}   {name}").expect("a string takes it");
    }
    text
}

/// Counts of both sides of the boundaries, over all functions that have them.
pub fn by_boundary(tally: &Tally) -> String {
    let mut text =
        String::from("boundary                          side [refused by] x times, of functions\n");
    for row in &BOUNDARIES {
        let counts = tally.both_sides(row.edge);
        let said = |side: usize| match row.number {
            _ if side != row.refused => String::new(),
            TRUNCATED => " [truncated]".to_string(),
            number => format!(" [{number}]"),
        };
        let each = [0, 1]
            .map(|side| format!("{}{} x {}", row.sides[side], said(side), grouped(counts[side])));
        let line = format!("{:<34}{}, of {}", row.name, each.join(", "), row.funs.len());
        writeln!(text, "{line}").expect("a string takes it");
    }
    text
}

/// Counts of the members of sets; of types and of faults each count.
pub fn by_set(tally: &Tally) -> String {
    let mut text = String::from("members   each at least    set\n");
    for (set, name, members) in SETS {
        let least = grouped(tally.members.least(set));
        write!(text, "{members:>7}   {least:>13}    {name}").expect("a string takes it");
        if set.of_types() || set.of_faults() {
            let each = tally.members.counts(set).iter().enumerate();
            let each: Vec<String> = each
                .map(|(at, count)| format!("{} x {}", set.member(at), grouped(*count)))
                .collect();
            write!(text, ": {}", each.join(", ")).expect("a string takes it");
        }
        text.push('\n');
    }
    text
}
