//! A record to mail home: the words for what must come up, and what a bad message and
//! a sound one stand at. At which boundaries a call stands, and what it must answer, a
//! second opinion beside the model's, is in `mail_runs.rs` and `mail_files.rs`.

use super::{Edge, Stands};
use crate::guc::constants::*;
use crate::sets::Set;

/// The calls that judge messages, by place.
pub const CALLS: [&str; 3] = ["add", "write", "read"];
pub(super) const ADD: usize = 0;
pub(super) const WRITE: usize = 1;
pub(super) const READ: usize = 2;

/// What is wrong beside a 29 of each call.
pub const ADD_FAULTS: [&str; 3] = ["direction", "L", "header"];
pub const WRITE_FAULTS: [&str; 6] =
    ["direction", "L", "header", "L missing", "header missing", "another missing"];
pub const READ_FAULTS: [&str; 18] = [
    "direction unfinished",
    "L unfinished",
    "header unfinished",
    "another unfinished",
    "L missing",
    "header missing",
    "another missing",
    "direction too long",
    "L too long",
    "header too long",
    "another too long",
    "direction too wide",
    "L too wide",
    "header too wide",
    "another too wide",
    "direction",
    "L",
    "header",
];

/// The faults by number, 1 to 7, behind what has none.
pub const FAULTS: [&str; 8] =
    ["none", "unfinished", "missing", "too long", "too wide", "direction", "L", "header"];

/// L that are none, and directions that are none.
pub const LENGTHS: [u32; 6] = [0, 257, 258, 300, 512, 513];
pub const DIRECTIONS: [u32; 7] = [2, 3, 128, 256, 257, 1 << 31, u32::MAX];

/// Numbers at which forms become longer, and their neighbours.
pub const NUMBERS: [u32; 18] = [
    0,
    1,
    2,
    127,
    128,
    129,
    16_383,
    16_384,
    16_385,
    2_097_151,
    2_097_152,
    2_097_153,
    268_435_455,
    268_435_456,
    268_435_457,
    1 << 31,
    u32::MAX - 1,
    u32::MAX,
];

/// Places at which a message is added that is not bad.
pub const PLACES: [&str; 9] = [
    "0, and it fits",
    "it just fits",
    "one too far",
    "the run's end",
    "one past the run's end",
    "fits in its low 32 bits",
    "SIZE_MAX",
    "its end wraps to 0",
    "its end wraps into the run",
];

/// Room for a file of bytes, and for a run of dwords.
pub const WRITE_ROOMS: [&str; 8] = [
    "none, for nothing",
    "none, for something",
    "half",
    "one too little",
    "just enough",
    "one more",
    "some, for nothing",
    "five for each dword",
];
pub const READ_ROOMS: [&str; 8] = [
    "none, for nothing",
    "none, for something",
    "half",
    "one too little",
    "just enough",
    "one more",
    "some, for nothing",
    "one for each byte",
];

/// Dwords whose bytes are asked for.
pub const BOUNDS: [(&str, usize); 12] = [
    ("0", 0),
    ("1", 1),
    ("2^32 / 5 and a part", 858_993_460),
    ("2^32", 1 << 32),
    ("2^61", 1 << 61),
    ("SIZE_MAX / 5 - 1", usize::MAX / 5 - 1),
    ("SIZE_MAX / 5", usize::MAX / 5),
    ("SIZE_MAX / 5 + 1", usize::MAX / 5 + 1),
    ("2^62", 1 << 62),
    ("2^63", 1 << 63),
    ("SIZE_MAX - 1", usize::MAX - 1),
    ("SIZE_MAX", usize::MAX),
];

/// Code, fault and place that must be answered.
pub type Expected = (u32, u32, usize);

/// Notes a bad direction, L or header: the number, or how a header disagrees with L.
pub(super) fn of_bad(stands: &mut Stands, call: usize, fault: u32, number: u32, length: u32) {
    let which = |of: &[u32]| of.iter().position(|one| *one == number);
    match fault {
        GUC_FAULT_DIRECTION => {
            stands.at(Edge::RecordDirection, number as u64, [1, 2]);
            if let Some(at) = which(&DIRECTIONS) {
                stands.member(Set::WrongDirection, DIRECTIONS.len() * call + at);
            }
        }
        GUC_FAULT_LENGTH => {
            stands.at(Edge::RecordNone, number as u64, [0, 1]);
            stands.at(Edge::RecordMost, number as u64, [256, 257]);
            if let Some(at) = which(&LENGTHS) {
                stands.member(Set::WrongLength, LENGTHS.len() * call + at);
            }
        }
        GUC_FAULT_HEADER => {
            let (says, length) = (1 + (number & 0xFF) as u64, length as u64);
            stands.at(Edge::RecordBelow, says + 1, [length, length + 1]);
            stands.at(Edge::RecordAbove, says, [length, length + 1]);
            let differs = (says - 1) ^ (length - 1);
            if differs.count_ones() == 1 {
                let bit = differs.trailing_zeros() as usize;
                stands.member(Set::DisagreeingBit, 8 * call + bit);
            }
        }
        _ => {}
    }
}

/// Notes what messages that are not bad are, in a run of them.
pub(super) fn of_sound(stands: &mut Stands, call: usize, run: &[u32]) {
    let mut rest = run;
    while let [direction, length, dwords @ ..] = rest {
        let (message, behind) = dwords.split_at(*length as usize);
        stands.at(Edge::RecordDirection, *direction as u64, [1, 2]);
        stands.at(Edge::RecordNone, *length as u64, [0, 1]);
        stands.at(Edge::RecordMost, *length as u64, [256, 257]);
        stands.sides.extend([(Edge::RecordBelow, 1), (Edge::RecordAbove, 0)]);
        stands.member(Set::KeptLength, 256 * call + *length as usize - 1);
        let upper = message[0] >> 8;
        if upper.count_ones() == 1 {
            stands.member(Set::UpperBit, 24 * call + upper.trailing_zeros() as usize);
        }
        if let Some(word) = message.get(1) {
            stands.member(Set::KeptKind, 8 * call + (word >> 28 & 7) as usize);
        }
        for number in message.iter().filter(|_| call != ADD) {
            if let Ok(at) = NUMBERS.binary_search(number) {
                stands.member(Set::KeptNumber, NUMBERS.len() * (call - WRITE) + at);
            }
        }
        rest = behind;
    }
}

/// A place of the words for rooms.
pub(super) fn of_room(room: usize, needed: usize, most: usize) -> Vec<usize> {
    let all = [
        needed == 0 && room == 0,
        needed > 0 && room == 0,
        needed > 3 && room == needed / 2,
        needed > 0 && room + 1 == needed,
        needed > 0 && room == needed,
        needed > 0 && room == needed + 1,
        needed == 0 && room > 0,
        needed > 0 && room == most,
    ];
    (0..all.len()).filter(|at| all[*at]).collect()
}
