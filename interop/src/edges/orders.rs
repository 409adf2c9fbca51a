//! What is wrong with a call of a wall, in the order in which the papers test it: a
//! second opinion beside the model's. The first that applies is the answer, and each
//! two that can apply together, and are told apart by their numbers, must come up.

use super::messages::of_message;
use super::walls::Seen;
use super::Stands;
use crate::sets::Set;
use model::run::{Channel, Side};
use model::wall::Call;

/// Things that can be wrong, each with the number that it is answered by.
pub type Order = [(&'static str, u32)];

/// Of making a wall fresh, of a send, of a reply: "The order is 35, 2, 14, 27, 26,
/// 28, the ring's own."
pub const FRESH: [(&str, u32); 2] = [("35", 35), ("2", 2)];
pub const SEND: [(&str, u32); 14] = [
    ("35 by length", 35),
    ("35 by a fence", 35),
    ("2 of the wall", 2),
    ("14", 14),
    ("27 by form", 27),
    ("27 by type", 27),
    ("26", 26),
    ("28", 28),
    ("2 of the ring", 2),
    ("3", 3),
    ("6", 6),
    ("7", 7),
    ("8", 8),
    ("10", 10),
];
pub const REPLY: [(&str, u32); 6] = [
    ("35 by length", 35),
    ("35 by a fence", 35),
    ("2", 2),
    ("4", 4),
    ("27 by fence", 27),
    ("27 by type", 27),
];

/// Where in `SEND` the ring begins.
pub(super) const RING: usize = 8;

/// How many pairs of other numbers there are.
pub const fn pairs(of: &Order) -> usize {
    let (mut one, mut count) = (0, 0);
    while one < of.len() {
        let mut other = one + 1;
        while other < of.len() {
            count += (of[one].1 != of[other].1) as usize;
            other += 1;
        }
        one += 1;
    }
    count
}

/// All of them, by their places.
fn each_pair(of: &Order) -> Vec<(usize, usize)> {
    let all = (0..of.len()).flat_map(|one| (one + 1..of.len()).map(move |other| (one, other)));
    all.filter(|(one, other)| of[*one].1 != of[*other].1).collect()
}

/// A pair by name.
pub fn pair_name(of: &Order, index: usize) -> String {
    let (one, other) = each_pair(of)[index];
    format!("{} and {}", of[one].0, of[other].0)
}

/// N of a ring or of a reply buffer. Not the model's words for it.
fn allowed(n: u64) -> bool {
    n & 1023 == 0 && n >> 10 >= 1 && n >> 10 <= 16
}

/// What is wrong with a send.
pub(super) fn of_sending(
    seen: &Seen,
    channel: &Channel,
    message: &[u32],
    room: u32,
) -> [bool; SEND.len()] {
    let (_, well_formed) = of_message(message);
    let another = message.get(1).map_or(false, |word| ![0, 4].contains(&((word >> 28) % 8)));
    let state = match &channel.sender {
        Side::Steps(state) => state,
        Side::Two(_) => unreachable!("a wall sends by a side of 260 words"),
    };
    let (n, own) = (channel.buf.len() as u64, state.own as u64);
    let [head, tail, status] = [0, 1, 2].map(|at| channel.desc[at] as u64);
    let idle = state.len == 0 && state.moved == 0 && state.copy == [0; 256];
    let used = if n == 0 { 0 } else { (tail + n - head % n) % n };
    [
        !seen.length_fits(),
        seen.twice(),
        !allowed(seen.n as u64),
        room > 256,
        !well_formed,
        another,
        !seen.records.is_empty() && seen.free.is_empty(),
        seen.set_aside() + room as u64 + 1 > seen.n as u64,
        !allowed(n),
        !idle || state.n as u64 != n || own >= n,
        status != 0,
        head >= n || tail >= n,
        own != tail,
        n > 0 && message.len() as u64 + used + 1 > n,
    ]
}

/// What is wrong with a reply. Of a message without a second dword only the first of
/// the message's own is asked.
pub(super) fn of_replying(seen: &Seen, message: &[u32]) -> [bool; REPLY.len()] {
    let (_, well_formed) = of_message(message);
    let (no_fence, another) = match message {
        [header, word, ..] => (
            !seen.open.contains_key(&((header >> 16) as u16)),
            [0, 1, 2].contains(&((word >> 28) % 8)),
        ),
        _ => (false, false),
    };
    let (length, n) = (!seen.length_fits(), !allowed(seen.n as u64));
    [length, seen.twice(), n, !well_formed, no_fence, another]
}

/// Notes the pair where two apply and no others, and what the answer must be.
fn note(stands: &mut Stands, set: Set, of: &Order, wrong: &[bool]) -> u32 {
    let found: Vec<usize> = (0..of.len()).filter(|at| wrong[*at]).collect();
    if let [one, other] = found[..] {
        if let Some(pair) = each_pair(of).iter().position(|pair| *pair == (one, other)) {
            stands.member(set, pair);
        }
    }
    found.first().map_or(0, |first| of[*first].1)
}

/// What a call must answer, with the pair of numbers that it is.
pub(super) fn of_order(stands: &mut Stands, seen: &Seen, channel: &Channel, call: &Call) -> u32 {
    match call {
        Call::Fresh(n) => {
            let wrong = [!seen.length_fits(), !allowed(*n as u64)];
            note(stands, Set::FreshOrders, &FRESH, &wrong)
        }
        Call::Send(message, room) => {
            let wrong = of_sending(seen, channel, message, *room);
            note(stands, Set::SendOrders, &SEND, &wrong)
        }
        Call::Reply(message) => note(stands, Set::ReplyOrders, &REPLY, &of_replying(seen, message)),
    }
}
