//! At which boundaries a call of a wall stands, worked out from the table, the last
//! fence, the reply buffer's N, the channel and the message it is lent; one counts
//! only where no number that is tested before applies (`orders.rs`).

use super::orders::of_order;
use super::records::{of_near, of_opening, of_reply};
use super::sends::of_send;
use super::{Edge, Stands};
use crate::sets::Set;
use model::run::Channel;
use model::wall::table::{Record, Table};
use model::wall::Call;
use std::collections::HashMap;

/// Kinds of replies, and their types. Not the model's list.
pub const KINDS: [&str; 4] = ["busy", "retry", "failure", "success"];
pub const KIND_TYPES: [u32; 4] = [3, 5, 6, 7];

/// Ways in which a fence is open twice.
pub const TWICE: [&str; 9] = [
    "next to each other",
    "the first and the last of 256",
    "a free record between them",
    "alike in all",
    "their numbers in `open` differ",
    "three or more",
    "their fence is 0",
    "their fence is 65,535",
    "in a full table",
];

/// What is no fence open twice.
pub const NEAR: [&str; 6] = [
    "a free record before an open one with its fence",
    "a free record behind an open one with its fence",
    "two free records with one fence",
    "open fences alike in their low eight bits",
    "open fences alike in their high eight bits",
    "open records alike in all but the fence",
];

/// What free records hold: the one that an opening takes, or any.
pub const DIRT: [&str; 9] = [
    "taken: a fence",
    "taken: an action",
    "taken: a count",
    "taken: the fence of an open one",
    "any: the fence that an opening gives",
    "any: the fence of a reply that no open one has",
    "before the record replied to: its fence",
    "behind the record replied to: its fence",
    "taken: reply dwords",
];

/// Where a number with one bit stands in `open`.
pub const FLAGGED: [&str; 5] = [
    "before the record that an opening takes",
    "all of a full table",
    "a fence open twice",
    "a busy reply",
    "a reply that closes",
];

/// Last fences, and counts before a reply.
pub const LASTS: [u16; 10] = [0, 1, 254, 255, 256, 32_767, 32_768, 65_533, 65_534, 65_535];
pub const COUNTS: [u16; 9] = [0, 1, 254, 255, 256, 32_767, 65_533, 65_534, 65_535];

/// Reply dwords of a record that is replied to.
pub const HELD: [u16; 6] = [0, 1, 255, 256, 257, 65_535];

/// N of the reply buffer.
pub const REPLY_NS: [u16; 8] = [0, 1, 1023, 1024, 1025, 16_384, 17_408, 65_535];

/// Ages that both a fence above the newest and one below it have; 0 is alone.
pub const AGES: [&str; 13] = [
    "0",
    "-32,768, fence below",
    "-32,768, fence above",
    "-32,767, fence below",
    "-32,767, fence above",
    "-1, fence below",
    "-1, fence above",
    "1, fence below",
    "1, fence above",
    "32,766, fence below",
    "32,766, fence above",
    "32,767, fence below",
    "32,767, fence above",
];
const AGE_FIGURES: [i32; 6] = [-32_768, -32_767, -1, 1, 32_766, 32_767];

/// The member of `Age` that a pair with this age is.
pub fn age_member(fence: u16, newest: u16, age: i32) -> Option<usize> {
    if age == 0 {
        return Some(0);
    }
    let place = AGE_FIGURES.iter().position(|figure| *figure == age)?;
    Some(1 + 2 * place + (fence > newest) as usize)
}

/// A table, with the place of the first open record of each fence, the places of all
/// that share one, and those of free records.
pub(super) struct Seen<'a> {
    pub records: &'a [Record],
    pub last: u16,
    pub n: u16,
    pub open: HashMap<u16, usize>,
    pub free: Vec<usize>,
    shared: HashMap<u16, Vec<usize>>,
}

impl<'a> Seen<'a> {
    fn of(table: &'a Table) -> Seen<'a> {
        let Table { records, last, n } = table;
        let (mut open, mut shared) = (HashMap::new(), HashMap::new());
        for (place, record) in records.iter().enumerate().filter(|(_, record)| record.open != 0) {
            let first = *open.entry(record.fence).or_insert(place);
            if first != place {
                shared.entry(record.fence).or_insert_with(|| vec![first]).push(place);
            }
        }
        let free = (0..records.len()).filter(|place| records[*place].open == 0).collect();
        Seen { records, last: *last, n: *n, open, free, shared }
    }

    pub fn length_fits(&self) -> bool {
        self.records.len() == 256 || matches!(self.records.len(), 1..=255)
    }

    /// Whether a fence is open twice.
    pub fn twice(&self) -> bool {
        !self.shared.is_empty()
    }

    /// The reply dwords of all open records.
    pub fn set_aside(&self) -> u64 {
        let rooms = self.records.iter().filter(|record| record.open != 0);
        rooms.map(|record| u64::from(record.room)).sum()
    }
}

/// Where a call stands, and the number that it must answer.
pub fn of_wall(table: &Table, channel: &Channel, call: &Call) -> (Stands, u32) {
    let (mut stands, seen) = (Stands::default(), Seen::of(table));
    let (count, alone) = (seen.records.len(), seen.shared.is_empty());
    let (which, n) = match call {
        Call::Fresh(n) => (0, *n as u64),
        Call::Send(..) => (1, u64::from(seen.n)),
        Call::Reply(_) => (2, u64::from(seen.n)),
    };
    if which == 0 || alone {
        stands.at(Edge::RecordsNone, count as u64, [0, 1]);
        stands.at(Edge::RecordsMost, count as u64, [256, 257]);
    }
    let expected = of_order(&mut stands, &seen, channel, call);
    if which > 0 && seen.length_fits() {
        of_fences(&mut stands, &seen, which - 1);
    }
    if !seen.length_fits() || (which > 0 && !alone) {
        return (stands, expected);
    }
    stands.member(Set::Records, 256 * which + count - 1);
    if let Some(place) = REPLY_NS.iter().position(|one| u64::from(*one) == n) {
        stands.member(Set::ReplyN, REPLY_NS.len() * which + place);
    }
    of_reply_n(&mut stands, n, (which == 1).then(|| channel.buf.len()));
    match call {
        Call::Fresh(_) => {}
        Call::Send(message, room) => {
            let accepted = of_send(&mut stands, &seen, (channel, message, *room));
            of_opening(&mut stands, &seen, expected, accepted);
        }
        Call::Reply(message) if expected != 2 => of_reply(&mut stands, &seen, message),
        Call::Reply(_) => {}
    }
    (stands, expected)
}

/// Number 2, by the reply buffer. Where a ring's N is not allowed either, 2 says
/// nothing of this one.
fn of_reply_n(stands: &mut Stands, n: u64, ring: Option<usize>) {
    if ring.map_or(true, |ring| ring % 1024 == 0 && (1..=16).contains(&(ring / 1024))) {
        stands.at(Edge::LeastReplyN, n, [1023, 1024]);
        stands.at(Edge::MostReplyN, n, [16_384, 16_385]);
        stands.at(Edge::NextReplyN, n, [16_384, 17_408]);
    }
}

/// Number 35 by a fence, of a table of an allowed length.
fn of_fences(stands: &mut Stands, seen: &Seen, which: usize) {
    // Each fence decides only where no other is open twice.
    let shared: Vec<(&u16, &Vec<usize>)> = seen.shared.iter().collect();
    match shared[..] {
        [] => {
            if !seen.open.is_empty() {
                stands.sides.push((Edge::FenceTwice, 0));
            }
            of_near(stands, seen, which);
        }
        [(fence, places)] => {
            if places.len() == 2 {
                stands.sides.push((Edge::FenceTwice, 1));
            }
            of_twice(stands, seen, (*fence, places), which);
        }
        _ => {}
    }
}

/// A fence that is open twice, and no other is.
fn of_twice(stands: &mut Stands, seen: &Seen, (fence, places): (u16, &[usize]), which: usize) {
    let (first, last, two) = (places[0], places[places.len() - 1], places.len() == 2);
    let (one, other) = (&seen.records[first], &seen.records[last]);
    let ways = [
        two && last == first + 1,
        two && (first, last) == (0, 255),
        two && seen.free.iter().any(|free| (first..last).contains(free)),
        two && one == other,
        two && one.open != other.open,
        !two,
        fence == 0,
        fence == 65_535,
        seen.free.is_empty(),
    ];
    for way in (0..TWICE.len()).filter(|way| ways[*way]) {
        stands.member(Set::TableTwice, TWICE.len() * which + way);
    }
    if two {
        for open in [one.open, other.open].iter().filter(|open| open.count_ones() == 1) {
            stands.member(Set::FlagBit, 2 * 16 + open.trailing_zeros() as usize);
        }
    }
}
