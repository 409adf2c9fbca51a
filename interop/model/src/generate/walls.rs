//! Tables of requests, sound ones and hostile ones, and calls on them.

use super::message::{malformed, well_formed_of, with_type};
use super::requests::{request, wall_channel};
use super::rooms::{any_rooms, asked_room, fresh_n, reply_n};
use super::Rng;
use crate::run::Channel;
use crate::wall::table::{Record, Table};
use crate::wall::Call;

/// A call with the table, the last fence and the reply buffer's N that it is lent,
/// and the channel, which only a send is lent.
#[derive(Clone, Debug)]
pub struct WallCase {
    pub table: Table,
    pub channel: Channel,
    pub call: Call,
}

/// A number of 16 bits, the ends more often.
pub fn half(rng: &mut Rng) -> u16 {
    match rng.below(3) {
        0 => rng.pick(&[0, 1, 255, 256, 32_767, 32_768, 65_533, 65_534, 65_535]),
        _ => rng.word() as u16,
    }
}

/// A number that is not 0: mostly 1.
fn flag(rng: &mut Rng) -> u16 {
    match rng.below(8) {
        0 => 1 << rng.below(16),
        1 => rng.pick(&[2, 3, 255, 256, 32_768, 65_534, 65_535]),
        2 => rng.between(1, 65_535) as u16,
        _ => 1,
    }
}

/// An open record with this fence. Of 255 such the reply dwords leave room for one
/// more request in the largest reply buffer.
pub(super) fn open_record(rng: &mut Rng, fence: u16) -> Record {
    let few = rng.below(4) as u16;
    let count = rng.pick(&[0, 0, few, 254, 255, 65_533, 65_534, 65_535]);
    let room = rng.pick(&[0, 0, 1, few, 63]);
    Record { open: flag(rng), fence, action: half(rng), count, room }
}

/// A free record that holds what a free one may: anything.
pub(super) fn dirty_record(rng: &mut Rng) -> Record {
    Record { open: 0, fence: half(rng), action: half(rng), count: half(rng), room: half(rng) }
}

/// How many records: mostly an allowed number, one of the ends or 16.
fn record_count(rng: &mut Rng) -> usize {
    match rng.below(24) {
        0 => 0,
        1 => rng.pick(&[257, 257, 258, 300, 511, 512, 513]),
        2..=5 => rng.between(1, 256) as usize,
        _ => rng.pick(&[1, 1, 2, 2, 3, 16, 16, 255, 256]),
    }
}

/// So many fences from this one on, no two of the first 256 alike: a run, those that
/// share their low eight bits, or any.
fn fences(rng: &mut Rng, base: u16, count: usize) -> Vec<u16> {
    let any = rng.word() as u16 | 1;
    let step = rng.pick(&[1, 1, 1, 2, 65_535, 256, 255, 257, any]);
    (0..count).map(|k| base.wrapping_add((k as u16).wrapping_mul(step))).collect()
}

pub(super) fn shuffle<T>(rng: &mut Rng, items: &mut [T]) {
    for at in (1..items.len()).rev() {
        items.swap(at, rng.below(at as u64 + 1) as usize);
    }
}

/// A last fence: near the wrap, just before these records' run, one of theirs, any.
fn last_fence(rng: &mut Rng, records: &[Record], base: u16) -> u16 {
    match rng.below(6) {
        0 => rng.pick(&[65_533, 65_534, 65_535, 0, 1]),
        1 | 2 => base.wrapping_sub(1),
        3 if !records.is_empty() => rng.pick(records).fence.wrapping_sub(rng.below(2) as u16),
        _ => half(rng),
    }
}

/// A table of so many records, none open, a few, most or all. No fence is open twice
/// where there are at most 256.
pub fn sound_table(rng: &mut Rng, count: usize) -> Table {
    let (near_wrap, any) = ((65_536 - rng.between(0, 256)) as u16, rng.word() as u16);
    let base = rng.pick(&[0, near_wrap, near_wrap, any]);
    let (opened, dirty) = (rng.pick(&[0, 1, 4, 7, 8, 8]), rng.chance(1, 2));
    let fences = fences(rng, base, count);
    let mut records: Vec<Record> = Vec::with_capacity(count);
    for fence in fences {
        records.push(match (rng.chance(opened, 8), dirty) {
            (true, _) => open_record(rng, fence),
            (false, true) => dirty_record(rng),
            (false, false) => Record::default(),
        });
    }
    let last = last_fence(rng, &records, base);
    if rng.chance(1, 2) {
        shuffle(rng, &mut records);
    }
    if opened == 8 && count > 0 && rng.chance(1, 2) {
        let free = rng.below(count as u64) as usize;
        records[free] = if dirty { dirty_record(rng) } else { Record::default() };
    }
    let n = reply_n(rng);
    Table { records, last, n }
}

/// Any two places of a table, or two next to each other, or the ends.
fn two_places(rng: &mut Rng, count: usize) -> [usize; 2] {
    let place = rng.below(count as u64 - 1) as usize;
    match rng.below(3) {
        0 => [place, place + 1],
        1 => [0, count - 1],
        _ => [place, rng.between(place as u64 + 1, count as u64 - 1) as usize],
    }
}

/// Any table: with another number of records, with a fence that is open twice, with
/// free records that hold the fences of open ones, or sound.
pub fn any_table(rng: &mut Rng) -> Table {
    let count = record_count(rng);
    let mut table = sound_table(rng, count);
    if count < 2 {
        return table;
    }
    let [one, other] = two_places(rng, count);
    let fence = table.records[one].fence;
    match rng.below(8) {
        0 => {
            table.records[one].open = flag(rng);
            table.records[other] = open_record(rng, fence);
        }
        1 => table.records.iter_mut().for_each(|record| record.fence = fence),
        2 => table.records[other] = Record { fence, ..dirty_record(rng) },
        3 => {
            table.records[one] = Record { open: 0, ..table.records[one] };
            table.records[other] = open_record(rng, fence);
        }
        _ => {}
    }
    table
}

/// The message gets this fence, if it has a header.
pub(super) fn set_fence(message: &mut [u32], fence: u16) {
    if let Some(header) = message.first_mut() {
        *header = (*header & 0xFFFF) | (fence as u32) << 16;
    }
}

/// A message of this type with this fence, well formed unless the type is unknown.
pub fn wall_reply(rng: &mut Rng, fence: u16, kind: u32) -> Vec<u32> {
    let length = match rng.below(16) {
        0 => 256,
        1 => rng.between(2, 256) as usize,
        _ => rng.between(2, 4) as usize,
    };
    let mut message = well_formed_of(rng, length);
    set_fence(&mut message, fence);
    message[1] = with_type(message[1], kind);
    message
}

/// A fence to reply to: mostly an open one, or one that comes near it.
fn asked_fence(rng: &mut Rng, table: &Table) -> u16 {
    let (start, count) = (rng.below(table.records.len().max(1) as u64), table.records.len());
    let from = table.records.iter().cycle().skip(start as usize).take(count);
    let open = from.filter(|record| record.is_open()).map(|record| record.fence).next();
    let near = open.unwrap_or(table.last);
    match rng.below(24) {
        0 => near ^ 1 << rng.below(16),
        1 => near.wrapping_add((rng.word() as u16) << 8),
        2 => near.wrapping_add(1),
        3 if count > 0 => rng.pick(&table.records).fence,
        4 => half(rng),
        5 => table.last,
        _ => near,
    }
}

/// A reply to a fence of this table; now and then one that is malformed, or of a
/// type that is none.
fn any_reply(rng: &mut Rng, table: &Table) -> Call {
    let fence = asked_fence(rng, table);
    let message = match rng.below(16) {
        0 => {
            let mut message = malformed(rng);
            set_fence(&mut message, fence);
            message
        }
        1 | 2 => {
            let kind = rng.below(8) as u32;
            wall_reply(rng, fence, kind)
        }
        _ => {
            let kind = rng.pick(&[3, 3, 3, 3, 5, 6, 7, 7]);
            wall_reply(rng, fence, kind)
        }
    };
    Call::Reply(message)
}

/// The next call of a list: a send `openings` times in eight, or a reply.
pub fn wall_call(rng: &mut Rng, table: &Table, openings: u64) -> Call {
    if rng.chance(openings, 8) {
        return Call::Send(request(rng), asked_room(rng));
    }
    any_reply(rng, table)
}

/// Any call on any table, with a channel that is as it should be, or is not.
pub fn wall_case(rng: &mut Rng) -> WallCase {
    let mut table = any_table(rng);
    let (channel, message) = wall_channel(rng);
    let call = match rng.below(12) {
        0 => Call::Fresh(fresh_n(rng)),
        1..=5 => any_reply(rng, &table),
        _ => {
            let room = asked_room(rng);
            any_rooms(rng, &mut table, room);
            Call::Send(message, room)
        }
    };
    WallCase { table, channel, call }
}
