//! Of a table of requests that is judged good: what an opening takes and skips,
//! which record a reply finds, and what only looks like a fence open twice.

use super::messages::of_message;
use super::walls::{Seen, COUNTS, HELD, KIND_TYPES, LASTS, NEAR};
use super::{Edge, Stands};
use crate::sets::Set;
use model::wall::table::Record;

/// Notes a number that has one bit, for a place of `FLAGGED`.
fn of_flag(stands: &mut Stands, place: usize, open: u16) {
    if open.count_ones() == 1 {
        stands.member(Set::FlagBit, 16 * place + open.trailing_zeros() as usize);
    }
}

/// What is no fence open twice. Of open records only two that are alone are
/// compared.
pub(super) fn of_near(stands: &mut Stands, seen: &Seen, which: usize) {
    let mut near = [false; NEAR.len()];
    for free in &seen.free {
        if let Some(place) = seen.open.get(&seen.records[*free].fence) {
            near[(place < free) as usize] = true;
        }
    }
    if let [one, other] = seen.free[..] {
        let fences = [one, other].map(|place| seen.records[place].fence);
        near[2] = fences[0] == fences[1] && fences[0] != 0;
    }
    let open: Vec<usize> = seen.open.values().take(3).copied().collect();
    if let [one, other] = open[..] {
        let (one, other) = (seen.records[one], seen.records[other]);
        let differs = one.fence ^ other.fence;
        near[3] = differs & 0x00FF == 0;
        near[4] = differs & 0xFF00 == 0;
        let rest = |r: &Record| [r.open, r.action, r.count, r.room];
        near[5] = rest(&one) == rest(&other);
        if near[5] && differs.count_ones() == 1 {
            stands.member(Set::FenceBit, 16 * which + differs.trailing_zeros() as usize);
        }
    }
    for way in (0..NEAR.len()).filter(|way| near[*way]) {
        stands.member(Set::TableNear, NEAR.len() * which + way);
    }
}

/// What a full table holds, and what an opening that is accepted takes and skips.
pub(super) fn of_opening(stands: &mut Stands, seen: &Seen, expected: u32, accepted: bool) {
    if expected == 26 {
        seen.records.iter().for_each(|record| of_flag(stands, 1, record.open));
    }
    let place = match seen.free.first() {
        Some(place) if accepted => *place,
        _ => return,
    };
    stands.member(Set::FreePlace, place);
    seen.records[..place].iter().for_each(|record| of_flag(stands, 0, record.open));
    let mut after = (1..=256u32).map(|k| ((seen.last as u32 + k) & 0xFFFF) as u16);
    let skipped = after.clone().take_while(|fence| seen.open.contains_key(fence)).count();
    let given = after.nth(skipped).expect("at most 255 are open");
    let around = given < seen.last;
    stands.member(Set::Skipped, 256 * around as usize + skipped);
    if let Some(last) = LASTS.iter().position(|last| *last == seen.last) {
        stands.member(Set::LastFence, last);
    }
    let taken = &seen.records[place];
    let dirt = [
        taken.fence != 0,
        taken.action != 0,
        taken.count != 0,
        seen.open.contains_key(&taken.fence),
        given != 0 && seen.free.iter().any(|free| seen.records[*free].fence == given),
    ];
    for held in (0..dirt.len()).filter(|held| dirt[*held]) {
        stands.member(Set::Dirt, held);
    }
    if taken.room != 0 {
        stands.member(Set::Dirt, 8);
    }
}

/// Numbers 4 and 27, then the record that is replied to.
pub(super) fn of_reply(stands: &mut Stands, seen: &Seen, message: &[u32]) {
    // Its members are those of messages to send and unpack.
    let (of_message, well_formed) = of_message(message);
    stands.sides.extend(of_message.sides);
    if !well_formed {
        return;
    }
    let (fence, word) = ((message[0] >> 16) as u16, message[1]);
    let (origin, kind) = ((word >> 31) as usize, (word >> 28) % 8);
    let reply = KIND_TYPES.iter().position(|reply| *reply == kind);
    let place = seen.open.get(&fence).copied();
    if reply.is_some() {
        stands.at(Edge::ReplyFence, place.is_some() as u64, [0, 1]);
        of_holders(stands, seen, fence, place);
    }
    if place.is_some() {
        stands.at(Edge::ReplyType, reply.is_none() as u64, [0, 1]);
    }
    match (place, reply) {
        (Some(place), Some(reply)) => {
            stands.member(Set::ReplyOrigin, 2 * reply + origin);
            stands.member(Set::ReplyPlace, 256 * reply + place);
            let record = &seen.records[place];
            if let Some(count) = COUNTS.iter().position(|count| *count == record.count) {
                stands.member(Set::ReplyCount, COUNTS.len() * reply + count);
            }
            if let Some(held) = HELD.iter().position(|held| *held == record.room) {
                stands.member(Set::ReplyHeld, HELD.len() * reply + held);
            }
            of_flag(stands, if reply == 0 { 3 } else { 4 }, record.open);
        }
        (Some(_), None) => stands.member(Set::NoReply, 2 * kind as usize + origin),
        (None, _) => {}
    }
}

/// Free records that hold a reply's fence, beside the open one or without it.
fn of_holders(stands: &mut Stands, seen: &Seen, fence: u16, place: Option<usize>) {
    for free in seen.free.iter().filter(|free| seen.records[**free].fence == fence) {
        match place {
            // Zeros hold fence 0 anyway.
            None if fence == 0 => {}
            None => stands.member(Set::Dirt, 5),
            Some(place) => stands.member(Set::Dirt, 6 + (place < *free) as usize),
        }
    }
}
