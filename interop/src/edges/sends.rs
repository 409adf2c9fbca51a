//! At which boundaries a wall's send stands, beside those of its table: the reply
//! dwords, the message, what is set aside, and the whole send by the ring; one counts
//! only where no number that is tested before applies.

use super::calls::of_call;
use super::messages::of_message;
use super::orders::{of_sending, RING};
use super::walls::Seen;
use super::{Edge, Stands};
use crate::sets::Set;
use model::run::{Case, Channel, Op, Side};

/// Reply dwords that are asked for.
pub const ASKED: [u32; 9] = [0, 1, 255, 256, 257, 65_535, 65_536, 65_792, u32::MAX];

/// Sums with a request's own, for each N that is allowed.
pub const SUMS: [&str; 3] = ["N - 1", "N", "N + 1"];

/// How a sum comes to be, or only looks so.
pub const SUM_WAYS: [&str; 6] = [
    "28: one record holds more than 256",
    "28: no record holds more than 256",
    "28: small in its low 16 bits",
    "28: 255 records of 65,535",
    "0: a record holds more than 256",
    "0: free records hold too much",
];

/// Notes the boundaries of a send whose table is judged good, and whether nothing at
/// all is wrong with it.
pub(super) fn of_send(
    stands: &mut Stands,
    seen: &Seen,
    (channel, message, room): (&Channel, &[u32], u32),
) -> bool {
    let wrong = of_sending(seen, channel, message, room);
    let passed = wrong.iter().take_while(|wrong| !**wrong).count();
    if passed >= 3 {
        stands.at(Edge::AskedRoom, room as u64, [256, 257]);
        if let Some(asked) = ASKED.iter().position(|asked| *asked == room) {
            stands.member(Set::AskedRoom, asked);
        }
    }
    if passed >= 4 {
        of_request(stands, message);
    }
    if passed >= 6 {
        stands.at(Edge::FreeRecords, seen.free.len() as u64, [0, 1]);
    }
    if passed >= 7 {
        of_sum(stands, seen, room);
    }
    if passed >= RING {
        of_ring(stands, channel, message);
    }
    passed == wrong.len()
}

/// Number 27: the form decides where the type is right, and the other way round.
fn of_request(stands: &mut Stands, message: &[u32]) {
    let (of_message, well_formed) = of_message(message);
    let kind = message.get(1).map(|word| word >> 28 & 7);
    let agrees = |header: u32| header & 0xFFFF == message.len() as u32 - 1;
    if let [header, word, ..] = message {
        if agrees(*header) {
            stands.member(Set::RequestKind, 2 * (word >> 28 & 7) as usize + (word >> 31) as usize);
        }
    }
    if well_formed {
        stands.at(Edge::RequestType, (kind != Some(0)) as u64, [0, 1]);
    }
    if ![None, Some(0)].contains(&kind) {
        return;
    }
    for (edge, side) in of_message.sides {
        match edge {
            Edge::MessageBelow => stands.sides.push((Edge::RequestBelow, side)),
            Edge::MessageAbove => stands.sides.push((Edge::RequestAbove, side)),
            Edge::NumDwords => stands.sides.push((Edge::RequestNone, side)),
            _ => {}
        }
    }
    let bits = of_message.members.iter().filter(|(set, _)| *set == Set::HeaderBit);
    bits.for_each(|(_, bit)| stands.member(Set::RequestBit, *bit));
}

/// Number 28, of an N that is allowed.
fn of_sum(stands: &mut Stands, seen: &Seen, room: u32) {
    let (n, held) = (seen.n as u64, seen.set_aside());
    let sum = held + room as u64;
    stands.at(Edge::SetAside, sum, [n - 1, n]);
    if (n - 1..=n + 1).contains(&sum) {
        let times = (n / 1024 - 1) as usize;
        stands.member(Set::Sum, SUMS.len() * times + (sum + 1 - n) as usize);
    }
    let open = || seen.records.iter().filter(|record| record.open != 0);
    let (refused, above) = (sum >= n, open().any(|record| record.room > 256));
    let most = open().filter(|record| record.room == 65_535).count();
    let free: u64 = seen.free.iter().map(|free| seen.records[*free].room as u64).sum();
    let ways = [
        refused && above,
        refused && !above,
        refused && (sum & 0xFFFF) < n,
        refused && most == 255,
        !refused && above,
        !refused && sum + free >= n,
    ];
    for way in (0..ways.len()).filter(|way| ways[*way]) {
        stands.member(Set::SumWay, way);
    }
}

/// The ring's own numbers and the message's place, as of a whole send.
fn of_ring(stands: &mut Stands, channel: &Channel, message: &[u32]) {
    let state = match channel.sender {
        Side::Steps(state) => state,
        Side::Two(_) => unreachable!("a wall sends by a side of 260 words"),
    };
    let Channel { desc, buf, .. } = channel.clone();
    let (msg, out) = (message.to_vec(), Vec::new());
    let ring = of_call(&Case { op: Op::SendWhole, state, desc, buf, msg, out });
    stands.sides.extend(ring.sides);
    for (set, index) in ring.members {
        match set {
            Set::SendPlace => stands.member(Set::WallSendPlace, index),
            Set::SendLeft => stands.member(Set::WallSendLeft, index),
            Set::SendAround => stands.member(Set::WallSendAround, index),
            Set::SendLength => stands.member(Set::WallSendLength, index),
            Set::StatusBit => stands.member(Set::WallStatusBit, index),
            _ => {}
        }
    }
}
