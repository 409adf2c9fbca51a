//! At which boundaries a message that is added and a run that is written stand, worked
//! out from what the call is lent, and what it must answer.

use super::mail::{of_bad, of_room, of_sound, Expected, ADD, WRITE};
use super::{Edge, Stands};
use crate::guc::constants::*;
use crate::sets::Set;

/// What is wrong with the front of a run: the fault, and the member of `WRITE_FAULTS`.
/// Or the dwords of the message that it is.
fn front(run: &[u32]) -> Result<usize, (u32, usize)> {
    match run {
        [2..=u32::MAX, ..] => Err((GUC_FAULT_DIRECTION, 0)),
        [] | [_] => Err((GUC_FAULT_MISSING, 3)),
        [_, 0 | 257..=u32::MAX, ..] => Err((GUC_FAULT_LENGTH, 1)),
        [_, _] => Err((GUC_FAULT_MISSING, 4)),
        [_, length, header, ..] if header & 0xFF != length - 1 => Err((GUC_FAULT_HEADER, 2)),
        [_, length, dwords @ ..] if dwords.len() < *length as usize => Err((GUC_FAULT_MISSING, 5)),
        [_, length, ..] => Ok(2 + *length as usize),
    }
}

/// How many bytes a number has in a file.
fn form_bytes(number: u32) -> usize {
    match number {
        0..=0x7F => 1,
        0x80..=0x3FFF => 2,
        0x4000..=0x001F_FFFF => 3,
        0x0020_0000..=0x0FFF_FFFF => 4,
        0x1000_0000.. => 5,
    }
}

/// Where an adding stands, and what it must answer, the place for the next among it.
pub fn of_add(run: usize, place: usize, direction: u32, message: &[u32]) -> (Stands, Expected) {
    let mut stands = Stands::default();
    let length = message.len();
    let (left, end) = (run.checked_sub(place), length + 2);
    let fits = left.map_or(false, |left| left >= end);
    let wrong = match (direction, message) {
        (2.., _) => Some((GUC_FAULT_DIRECTION, direction)),
        (_, []) => Some((GUC_FAULT_LENGTH, 0)),
        (_, _) if length > 256 => Some((GUC_FAULT_LENGTH, length as u32)),
        (_, [header, ..]) if (header & 0xFF) as usize != length - 1 => {
            Some((GUC_FAULT_HEADER, *header))
        }
        _ => None,
    };
    if let Some((fault, number)) = wrong {
        of_bad(&mut stands, ADD, fault, number, length as u32);
        let member = (fault - GUC_FAULT_DIRECTION) as usize;
        stands.member(Set::AddFault, member);
        if !fits {
            stands.member(Set::ShortAdd, member);
        }
        return (stands, (GUC_BAD_RECORD, fault, place));
    }
    of_sound(&mut stands, ADD, &[&[direction, length as u32], message].concat());
    if let Some(left) = left {
        stands.up_to(Edge::AddRoom, left as u64, end as u64);
    }
    of_place(&mut stands, run, place, end);
    let next = if fits { place + end } else { place };
    (stands, (if fits { GUC_OK } else { GUC_SHORT_ROOM }, 0, next))
}

/// The places of a message that is not bad, with the dwords that it takes.
fn of_place(stands: &mut Stands, run: usize, place: usize, end: usize) {
    let (exact, wrapped) = (place as u128 + end as u128, place.wrapping_add(end));
    let wraps = exact > usize::MAX as u128;
    let low = (place & 0xFFFF_FFFF) + end;
    let all = [
        place == 0 && end <= run,
        exact == run as u128,
        exact == run as u128 + 1,
        place == run,
        place == run + 1,
        place >> 32 > 0 && low <= run,
        place == usize::MAX,
        wraps && wrapped == 0,
        wraps && (1..=run).contains(&wrapped),
    ];
    for at in (0..all.len()).filter(|at| all[*at]) {
        stands.member(Set::AddedPlace, at);
    }
}

/// Notes a bad message of a run, and all behind it; `short` where the room would not
/// hold the messages before it.
fn of_bad_front(stands: &mut Stands, rest: &[u32], (fault, member): (u32, usize), short: bool) {
    stands.member(Set::WriteFault, member);
    if short {
        stands.member(Set::ShortWrite, member);
    }
    // Direction, L and header lie in the order of their faults.
    let number = rest[fault.saturating_sub(GUC_FAULT_DIRECTION) as usize];
    let length = rest.get(1).copied().unwrap_or(0);
    of_bad(stands, WRITE, fault, number, length);
    if [4, 5].contains(&member) && rest.len() + 1 == 2 + length as usize {
        stands.sides.push((Edge::RunEnd, 0));
    }
}

/// Where a write stands, and what it must answer.
pub fn of_write(run: &[u32], room: usize) -> (Stands, Expected) {
    let (mut stands, mut place, mut bytes) = (Stands::default(), 0, 0);
    while place < run.len() {
        let rest = &run[place..];
        match front(rest) {
            Ok(dwords) => {
                bytes += rest[..dwords].iter().map(|number| form_bytes(*number)).sum::<usize>();
                place += dwords;
            }
            Err(wrong) => {
                of_bad_front(&mut stands, rest, wrong, room < bytes);
                return (stands, (GUC_BAD_RECORD, wrong.0, place));
            }
        }
    }
    of_sound(&mut stands, WRITE, run);
    if !run.is_empty() {
        stands.sides.push((Edge::RunEnd, 1));
        stands.up_to(Edge::WriteRoom, room as u64, bytes as u64);
    }
    for at in of_room(room, bytes, 5 * run.len()) {
        stands.member(Set::WriteRoom, at);
    }
    (stands, (if room < bytes { GUC_SHORT_ROOM } else { GUC_OK }, 0, 0))
}
