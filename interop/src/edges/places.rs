//! How the dwords that a call moves lie against the end of the buffer: a whole
//! send or receive, or all moves that are left. They are copied in one straight
//! run or in two, and the end may fall on either side of a dword that is judged.

use super::Stands;
use crate::sets::Set;
use model::run::Op;

/// Where the end falls. Dwords of which there is one have the first two of these,
/// two have the first three, and so on.
const ENDS: [&str; 6] = [
    "ends before the end",
    "ends at the end",
    "end behind the first dword",
    "end behind the second",
    "end before the last",
    "end in the middle",
];

/// Lengths that are looked at apart; all others stand together, under 0.
pub type Lengths = [usize; 6];

/// Of a message's dwords, of those that a send has left and a receive.
pub const WHOLE: Lengths = [2, 3, 4, 17, 256, 0];
pub const STORED: Lengths = [1, 2, 3, 17, 256, 0];
pub const COPIED: Lengths = [1, 2, 3, 17, 255, 0];

/// How many of `ENDS` so many dwords have.
const fn ends(length: usize) -> usize {
    if length == 0 || length > 4 {
        ENDS.len()
    } else {
        length + 1
    }
}

/// All members that these lengths have.
pub const fn places(of: &Lengths) -> usize {
    ends(of[0]) + ends(of[1]) + ends(of[2]) + ends(of[3]) + ends(of[4]) + ends(of[5])
}

/// The place in `ENDS` of dwords with so many places left before the end.
fn end(length: usize, left: usize) -> usize {
    match left {
        _ if left > length => 0,
        _ if left == length => 1,
        1 | 2 => left + 1,
        _ if left + 1 == length => 4,
        _ => 5,
    }
}

/// The member with which a length's own begin; so many of `lengths` come before.
fn first(lengths: &Lengths, length: usize) -> usize {
    let at = lengths.iter().position(|of| *of == length).unwrap_or(lengths.len() - 1);
    lengths[..at].iter().map(|of| ends(*of)).sum()
}

/// A member by name.
pub fn place_name(lengths: &Lengths, index: usize) -> String {
    let at = (1..lengths.len()).filter(|at| first(lengths, lengths[*at]) <= index).count();
    let length = match lengths[at] {
        0 => "others".to_string(),
        length => length.to_string(),
    };
    format!("{length}: {}", ENDS[index - first(lengths, lengths[at])])
}

/// Notes the members of an accepted whole call, with so many places from its
/// message's first dword to the end of the buffer.
pub fn of_place(stands: &mut Stands, op: Op, length: usize, left: usize) {
    let (place, of_left, around) = match op {
        Op::SendWhole => (Set::SendPlace, Set::SendLeft, Set::SendAround),
        Op::SendTwo => (Set::WholeSendPlace, Set::WholeSendLeft, Set::WholeSendAround),
        Op::ReceiveWhole => (Set::ReceivePlace, Set::ReceiveLeft, Set::ReceiveAround),
        Op::ReceiveTwo => (Set::WholeReceivePlace, Set::WholeReceiveLeft, Set::WholeReceiveAround),
        _ => return,
    };
    stands.member(place, first(&WHOLE, length) + end(length, left));
    if length == 256 {
        stands.member(of_left, left.min(257) - 1);
    }
    if left < length {
        stands.member(around, length - 2);
    }
}

/// Notes the members of a call that makes all moves that are left, so many, with so
/// many places from the first of them to the end of the buffer. It is accepted, also
/// where none is left.
pub fn of_left(stands: &mut Stands, op: Op, length: usize, to_end: usize) {
    let (lengths, left, place) = match op {
        Op::SendMoveAll => (&STORED, Set::StoreLeft, Set::StorePlace),
        _ => (&COPIED, Set::CopyLeft, Set::CopyPlace),
    };
    stands.member(left, length);
    if length > 0 {
        stands.member(place, first(lengths, length) + end(length, to_end));
    }
}
