//! At which boundaries a file that is read back stands, worked out from its bytes and
//! the room, and what must be answered and laid.

use super::mail::{of_bad, of_room, of_sound, Expected, READ, READ_ROOMS};
use super::{Edge, Stands};
use crate::guc::constants::*;
use crate::sets::Set;

/// What a file has: the numbers of its whole messages, where each of their forms lies,
/// the bytes that they take, and what is wrong behind them.
#[derive(Debug, Default)]
pub struct Walked {
    pub laid: Vec<u32>,
    forms: Vec<(usize, usize)>,
    pub took: usize,
    wrong: Option<Bad>,
}

/// The first bad number: where it starts, what is wrong with it, its place in its
/// message, L of that, and the number where it has one.
#[derive(Debug)]
struct Bad {
    at: usize,
    fault: u32,
    which: usize,
    length: u32,
    number: u32,
}

/// The form at the front of these bytes, its bytes and its number; or what is wrong.
fn form(bytes: &[u8]) -> Result<(usize, u32), u32> {
    let more = bytes.iter().take(5).take_while(|byte| **byte & 0x80 != 0).count();
    match (more, bytes.get(more)) {
        (5, _) | (4, Some(16..)) => Err(GUC_FAULT_TOO_WIDE),
        (0, None) => Err(GUC_FAULT_MISSING),
        (_, None) => Err(GUC_FAULT_UNFINISHED),
        (1.., Some(0)) => Err(GUC_FAULT_TOO_LONG),
        _ => {
            let groups = bytes[..=more].iter().rev();
            Ok((more + 1, groups.fold(0, |number, byte| number << 7 | (byte & 0x7F) as u32)))
        }
    }
}

/// Goes through a file, number by number. `which` is the number's place in its message:
/// 0 the direction, 1 L, 2 the header.
fn walk(file: &[u8]) -> Walked {
    let (mut walked, mut at, mut which, mut length) = (Walked::default(), 0, 0, 0);
    while at < file.len() || which > 0 {
        let (bytes, number, fault) = match (form(&file[at..]), which) {
            (Err(fault), _) => (0, 0, fault),
            (Ok((_, number @ 2..)), 0) => (0, number, GUC_FAULT_DIRECTION),
            (Ok((_, number @ (0 | 257..))), 1) => (0, number, GUC_FAULT_LENGTH),
            (Ok((_, number)), 2) if number & 0xFF != length - 1 => (0, number, GUC_FAULT_HEADER),
            (Ok((bytes, number)), _) => (bytes, number, 0),
        };
        if fault > 0 {
            let whole = walked.laid.len() - which;
            walked.laid.truncate(whole);
            walked.forms.truncate(whole);
            walked.wrong = Some(Bad { at, fault, which, length, number });
            return walked;
        }
        length = if which == 1 { number } else { length };
        walked.laid.push(number);
        walked.forms.push((at, bytes));
        (at, which) = (at + bytes, which + 1);
        if which > 2 && which == 2 + length as usize {
            (walked.took, which) = (at, 0);
        }
    }
    walked
}

/// Notes the forms of a file that is not bad.
fn of_forms(stands: &mut Stands, file: &[u8], forms: &[(usize, usize)]) {
    for (at, bytes) in forms {
        let last = file[at + bytes - 1];
        if *bytes > 1 {
            stands.at(Edge::FormEnd, last as u64, [0, 1]);
        }
        if *bytes == 5 {
            stands.at(Edge::FormTop, last as u64, [15, 16]);
            stands.sides.push((Edge::FormBytes, 0));
            stands.member(Set::FifthByte, last as usize);
        }
    }
}

/// Notes a form that is none: these bytes begin with it.
fn of_bad_form(stands: &mut Stands, bytes: &[u8], fault: u32) {
    let more = bytes.iter().take_while(|byte| **byte & 0x80 != 0).count();
    let (count, end) = (more + 1, bytes.get(more).copied());
    match (fault, end) {
        (GUC_FAULT_UNFINISHED, _) => stands.member(Set::UnfinishedBytes, more - 1),
        (GUC_FAULT_TOO_LONG, _) => stands.sides.push((Edge::FormEnd, 0)),
        (GUC_FAULT_TOO_WIDE, Some(last)) if count == 5 => {
            stands.at(Edge::FormTop, last as u64, [15, 16])
        }
        (GUC_FAULT_TOO_WIDE, Some(_)) => {
            stands.at(Edge::FormBytes, count as u64, [5, 6]);
        }
        _ => {}
    }
    if let Some(fifth) = bytes.get(4).filter(|_| more >= 4) {
        stands.member(Set::FifthByte, *fifth as usize);
    }
    match end {
        Some(0) if (2..=10).contains(&count) => stands.member(Set::LongerForm, count - 2),
        Some(1..) if (5..=10).contains(&count) => stands.member(Set::WideForm, count - 5),
        _ => {}
    }
}

/// The member of `READ_FAULTS`. A direction is never missing.
fn read_fault(fault: u32, which: usize) -> usize {
    let which = which.min(3);
    match fault {
        GUC_FAULT_UNFINISHED => which,
        GUC_FAULT_MISSING => 3 + which,
        GUC_FAULT_TOO_LONG => 7 + which,
        GUC_FAULT_TOO_WIDE => 11 + which,
        _ => 15 + (fault - GUC_FAULT_DIRECTION) as usize,
    }
}

/// Notes the first bad number of a file.
fn of_wrong(stands: &mut Stands, file: &[u8], bad: &Bad, laid: bool) {
    let Bad { at, fault, which, length, number } = *bad;
    stands.member(Set::ReadFault, read_fault(fault, which));
    stands.member(Set::LaidBefore, 2 * (fault as usize - 1) + laid as usize);
    of_bad(stands, READ, fault, number, length);
    if fault < GUC_FAULT_DIRECTION {
        of_bad_form(stands, &file[at..], fault);
    }
    let ends = [GUC_FAULT_UNFINISHED, GUC_FAULT_MISSING].contains(&fault);
    if ends && which >= 2 && which + 1 == 2 + length as usize {
        stands.sides.push((Edge::FileEnd, 0));
    }
}

/// Where a read stands, what it must answer, and what it must lay.
pub fn of_read(file: &[u8], room: usize) -> (Stands, Expected, Walked) {
    let (mut stands, walked) = (Stands::default(), walk(file));
    let needed = walked.laid.len();
    if needed > 0 {
        stands.up_to(Edge::ReadRoom, room as u64, needed as u64);
    }
    for at in of_room(room, needed, file.len()) {
        let bad = walked.wrong.is_some() as usize;
        stands.member(Set::ReadRoom, READ_ROOMS.len() * bad + at);
    }
    if room < needed {
        let fault = walked.wrong.as_ref().map_or(0, |bad| bad.fault);
        stands.member(Set::ShortRead, fault as usize);
        return (stands, (GUC_SHORT_ROOM, 0, 0), Walked::default());
    }
    if let Some(bad) = &walked.wrong {
        of_wrong(&mut stands, file, bad, needed > 0);
        let expected = (GUC_BAD_RECORD, bad.fault, bad.at);
        return (stands, expected, walked);
    }
    of_sound(&mut stands, READ, &walked.laid);
    of_forms(&mut stands, file, &walked.forms);
    if needed > 0 {
        stands.sides.push((Edge::FileEnd, 1));
    }
    (stands, (GUC_OK, 0, 0), walked)
}
