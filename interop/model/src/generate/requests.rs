//! Requests to send through a wall: the messages, the channels that they go out by,
//! and sends made on purpose: what is set aside at its line and around it, every
//! type, length and place, and every trouble of the ring.

use super::calls::{every_descriptor, every_empty, every_size, every_state, with_used};
use super::case::{buffer_length, case_for, sound};
use super::fields::every_message;
use super::message::{malformed, well_formed, well_formed_of, with_type};
use super::places::every_place;
use super::rooms::spread;
use super::walls::{dirty_record, half, open_record, shuffle, wall_reply, WallCase};
use super::Rng;
use crate::channel::State;
use crate::run::{Case, Channel, Op, Side};
use crate::wall::table::{Record, Table};
use crate::wall::Call;

/// A message to open: mostly a request, now and then malformed or of another type.
pub fn request(rng: &mut Rng) -> Vec<u32> {
    let mut message = match rng.below(24) {
        0 => malformed(rng),
        _ => well_formed(rng),
    };
    if message.len() > 20 && rng.chance(1, 2) {
        message.truncate(2 + rng.below(6) as usize);
        message[0] = (message[0] & 0xFFFF_FF00) | (message.len() as u32 - 1);
    }
    let kind = if rng.chance(1, 16) { rng.below(8) as u32 } else { 0 };
    if let Some(word) = message.get_mut(1) {
        *word = with_type(*word, kind);
    }
    message
}

/// A request of this length, 2 to 256.
pub fn request_of(rng: &mut Rng, length: usize) -> Vec<u32> {
    let mut message = well_formed_of(rng, length);
    message[1] = with_type(message[1], 0);
    message
}

/// The channel of a case, for a wall's send by its sender.
pub(super) fn channel_of(case: Case) -> Channel {
    let Case { state, desc, buf, .. } = case;
    let receiver = Side::idle(false, buf.len() as u32, desc[0]);
    Channel { desc, buf, sender: Side::Steps(state), receiver }
}

/// What a call that is lent no channel has.
pub fn no_channel() -> Channel {
    let idle = Side::Steps(State::ZERO);
    Channel { desc: vec![0; 16], buf: Vec::new(), sender: idle, receiver: idle }
}

/// A channel with a message that fits it or does not, which is mostly a request.
pub fn wall_channel(rng: &mut Rng) -> (Channel, Vec<u32>) {
    let n = buffer_length(rng);
    let mut case = match rng.below(2) {
        0 => sound(rng, Op::SendWhole, n),
        _ => case_for(rng, Op::SendWhole),
    };
    let mut message = std::mem::take(&mut case.msg);
    let kind = if rng.chance(1, 16) { rng.below(8) as u32 } else { 0 };
    if let Some(word) = message.get_mut(1) {
        *word = with_type(*word, kind);
    }
    (channel_of(case), message)
}

/// A channel and a request that nothing is wrong with.
pub(super) fn good_channel(rng: &mut Rng) -> (Channel, Vec<u32>) {
    let length = rng.between(2, 9) as usize;
    let used = rng.below(1000) as usize;
    let mut case = with_used(rng, Op::SendWhole, length, used);
    let mut message = std::mem::take(&mut case.msg);
    message[1] = with_type(message[1], 0);
    (channel_of(case), message)
}

/// A table with so many open records and one that is free, for this N.
pub(super) fn good_table(rng: &mut Rng, open: usize, n: u16) -> Table {
    let from = half(rng);
    let fences = (0..open).map(|k| from.wrapping_add(3 * k as u16));
    let mut records: Vec<Record> = fences.map(|fence| open_record(rng, fence)).collect();
    records.iter_mut().for_each(|record| record.room = 0);
    records.push(if rng.chance(1, 2) { Record::default() } else { dirty_record(rng) });
    shuffle(rng, &mut records);
    Table { records, last: half(rng), n }
}

/// A send that nothing is wrong with but what its table and its room bring.
fn with_table(rng: &mut Rng, table: Table, room: u32) -> WallCase {
    let (channel, message) = good_channel(rng);
    WallCase { table, channel, call: Call::Send(message, room) }
}

/// The sum set aside at what is allowed, one and two more and one less, for every N,
/// by few records and by many; by one alone, which then holds more than any opening
/// writes; and with free records that hold much.
pub fn every_sum(rng: &mut Rng) -> Vec<WallCase> {
    let mut cases = Vec::new();
    for n in (1..=16u16).map(|times| 1024 * times) {
        for (room, open) in [(0, 1), (1, 3), (255, 15), (256, 255), (256, 1), (0, 64)] {
            for more in 0..4 {
                let mut table = good_table(rng, open, n);
                let sum = n as u64 + more - 2 - room as u64;
                assert!(spread(rng, &mut table, sum));
                cases.push(with_table(rng, table, room));
            }
        }
    }
    cases
}

/// Sums that are small in their low 16 bits alone, up to 255 records of 65,535.
pub fn every_wrapped_sum(rng: &mut Rng) -> Vec<WallCase> {
    let mut cases = Vec::new();
    for sum in [65_536u64, 65_537, 65_536 + 1022, 2 << 16, 3 << 16, 16 << 16, 200 << 16] {
        for less in [0, 1, 256] {
            let open = (sum / 65_535 + 1).max(2) + rng.below(20);
            let mut table = good_table(rng, open as usize, 16_384);
            assert!(spread(rng, &mut table, sum - less));
            cases.push(with_table(rng, table, less as u32));
        }
    }
    for open in [1, 2, 16, 255] {
        let mut table = good_table(rng, open, 16_384);
        table.records.iter_mut().for_each(|record| record.room = 65_535);
        cases.push(with_table(rng, table.clone(), 0));
        // All open as well: full, whatever the sum.
        let mut full = table.clone();
        full.records.iter_mut().filter(|record| !record.is_open()).for_each(|record| {
            (record.open, record.fence) = (1, table.last);
        });
        cases.push(with_table(rng, full, 0));
        // As much in free records is none of it.
        table.records.iter_mut().for_each(|record| record.open = 0);
        cases.push(with_table(rng, table, 256));
    }
    cases
}

/// Reply dwords at their ends, beside nothing and beside a full reply buffer.
pub fn every_asked_room(rng: &mut Rng) -> Vec<WallCase> {
    let mut cases = Vec::new();
    let bits = (0..32).map(|bit| 1u32 << bit);
    for room in bits.chain([0, 1, 255, 256, 257, 65_535, 65_536, 65_792, u32::MAX]) {
        for sum in [0, 1023] {
            let mut table = good_table(rng, 5, 1024);
            assert!(spread(rng, &mut table, sum));
            cases.push(with_table(rng, table, room));
        }
    }
    cases
}

/// N of the reply buffer, for each call.
pub fn every_reply_n(rng: &mut Rng) -> Vec<WallCase> {
    let mut cases = Vec::new();
    let bad = [0u16, 1, 1023, 1025, 2047, 16_383, 16_385, 17_408, 32_768, 64_512, 65_535];
    for n in (1..=16).map(|times| 1024 * times).chain(bad) {
        let table = good_table(rng, 4, n);
        let fence = table.open_records().next().expect("four are open").fence;
        let call = Call::Reply(wall_reply(rng, fence, 7));
        cases.push(WallCase { table: table.clone(), channel: no_channel(), call });
        let call = Call::Fresh(n as usize);
        cases.push(WallCase { table: table.clone(), channel: no_channel(), call });
        let call = Call::Fresh(n as usize + 65_536);
        cases.push(WallCase { table: table.clone(), channel: no_channel(), call });
        cases.push(with_table(rng, table, 0));
    }
    cases
}

/// Every message of `every_message` as a request, and each type of either origin.
pub fn every_request(rng: &mut Rng) -> Vec<WallCase> {
    let mut cases = Vec::new();
    let mut push = |rng: &mut Rng, message| {
        let (channel, _) = good_channel(rng);
        let (open, room) = (rng.below(3) as usize, rng.between(0, 256) as u32);
        let table = good_table(rng, open, 1024);
        cases.push(WallCase { table, channel, call: Call::Send(message, room) });
    };
    for mut message in every_message(rng) {
        if message.len() > 1 && (message[1] >> 28) % 8 != 4 {
            message[1] = with_type(message[1], 0);
        }
        push(rng, message);
    }
    for (kind, origin) in (0..8).flat_map(|kind| [(kind, 0), (kind, 1 << 31)]) {
        let (_, mut message) = good_channel(rng);
        message[1] = with_type(message[1], kind) << 1 >> 1 | origin;
        push(rng, message);
    }
    cases
}

/// A whole send's case through a wall.
fn through_wall(rng: &mut Rng, mut case: Case) -> WallCase {
    let mut message = std::mem::take(&mut case.msg);
    if let Some(word) = message.get_mut(1) {
        *word = with_type(*word, 0);
    }
    let (open, room) = (rng.below(4) as usize, rng.between(0, 256) as u32);
    let table = good_table(rng, open, 2048);
    WallCase { table, channel: channel_of(case), call: Call::Send(message, room) }
}

/// Every ring, descriptor, state and place of a whole send's sweeps, and every L at
/// what is free and one more than that.
pub fn every_ring(rng: &mut Rng) -> Vec<WallCase> {
    let mut all = every_size(rng);
    all.extend(every_descriptor(rng));
    all.extend(every_state(rng));
    all.extend(every_empty(rng));
    all.extend(every_place(rng));
    for (length, more) in (2..=256).flat_map(|length| [(length, 0), (length, 1)]) {
        all.push(with_used(rng, Op::SendWhole, length, 1023 - length + more));
    }
    let sends = all.into_iter().filter(|case| case.op == Op::SendWhole);
    sends.map(|case| through_wall(rng, case)).collect()
}
