//! Calls of a wall made on purpose: every number of records, every place, every
//! run of open fences to skip, every way in which a fence is open twice or only
//! looks so, every type, and numbers that apply together.

use super::fields::every_message;
use super::requests::{good_channel, no_channel};
use super::walls::{dirty_record, half, open_record, set_fence, shuffle, wall_reply, WallCase};
use super::Rng;
use crate::wall::table::{Record, Table};
use crate::wall::Call;

/// Types that are replies.
const REPLIES: [u32; 4] = [3, 5, 6, 7];

/// The largest reply buffer: 255 records of `open_record` leave room for one more.
const N: u16 = 16_384;

/// These records, with any last fence.
fn table(rng: &mut Rng, records: Vec<Record>) -> Table {
    Table { records, last: half(rng), n: N }
}

/// A send on this table that nothing else is wrong with.
fn sent(rng: &mut Rng, table: Table) -> WallCase {
    let (channel, message) = good_channel(rng);
    let room = rng.pick(&[0, 1, 255, 256]);
    WallCase { table, channel, call: Call::Send(message, room) }
}

/// A call that is lent no channel.
fn alone(table: Table, call: Call) -> WallCase {
    WallCase { table, channel: no_channel(), call }
}

/// So many open records, their fences a run from this one on.
fn run(rng: &mut Rng, from: u16, count: usize) -> Vec<Record> {
    (0..count).map(|k| open_record(rng, from.wrapping_add(k as u16))).collect()
}

/// The table with an opening, and with a reply of any kind to this fence.
fn push_both(rng: &mut Rng, cases: &mut Vec<WallCase>, table: &Table, fence: u16) {
    cases.push(sent(rng, table.clone()));
    let kind = rng.pick(&REPLIES);
    cases.push(alone(table.clone(), Call::Reply(wall_reply(rng, fence, kind))));
}

/// Every number of records up to 260, and others whose low bits are an allowed one;
/// all calls.
pub fn every_record_count(rng: &mut Rng) -> Vec<WallCase> {
    let mut cases = Vec::new();
    for count in (0..=260).chain([511, 512, 513, 768, 1024, 4096, 65_537, 65_792]) {
        let fence = half(rng);
        let mut records = run(rng, fence, count.min(200));
        records.resize(count, Record::default());
        let table = table(rng, records);
        push_both(rng, &mut cases, &table, fence);
        cases.push(alone(table, Call::Fresh(N as usize)));
    }
    cases
}

/// Every number of open fences behind the last one, 0 to 255, before 65,535 and
/// around it; behind the first free one there are more. The last ones of a full
/// table, and one with a single free record, too.
pub fn every_skip(rng: &mut Rng) -> Vec<WallCase> {
    let mut cases = Vec::new();
    for (skipped, around) in (0..=255u16).flat_map(|skipped| [(skipped, false), (skipped, true)]) {
        let last = if around {
            65_535 - rng.below(skipped as u64 + 1) as u16
        } else {
            rng.below(65_535 - skipped as u64) as u16
        };
        let more = rng.below(256 - skipped as u64) as usize;
        let mut records = run(rng, last.wrapping_add(1), skipped as usize);
        records.extend(run(rng, last.wrapping_add(skipped).wrapping_add(2), more));
        let free = if rng.chance(1, 2) { Record::default() } else { dirty_record(rng) };
        records.push(free);
        shuffle(rng, &mut records);
        cases.push(sent(rng, Table { records, last, n: N }));
    }
    cases
}

/// Last fences at their ends, with a run of open ones behind them or none.
pub fn every_last(rng: &mut Rng) -> Vec<WallCase> {
    let mut cases = Vec::new();
    for last in [0, 1, 254, 255, 256, 32_767, 32_768, 65_533, 65_534, 65_535] {
        for open in [0, 1, 2, 3, 9] {
            let mut records = run(rng, u16::wrapping_add(last, 1), open);
            records.insert(rng.below(open as u64 + 1) as usize, dirty_record(rng));
            cases.push(sent(rng, Table { records, last, n: N }));
        }
    }
    cases
}

/// Every place of the lowest free record, which holds something in one of its words
/// or in all, or the fence of an open one, or the fence that is given.
pub fn every_free_place(rng: &mut Rng) -> Vec<WallCase> {
    let mut cases = Vec::new();
    for place in 0..256 {
        let from = half(rng);
        let mut records = run(rng, from, place);
        let any = dirty_record(rng);
        let theirs = from.wrapping_add(rng.below(place as u64 + 1) as u16);
        let next = from.wrapping_add(place as u16);
        records.push(match place % 8 {
            0 => Record { fence: any.fence, ..Record::default() },
            1 => Record { action: any.action, ..Record::default() },
            2 => Record { count: any.count, ..Record::default() },
            3 => Record { fence: theirs, ..any },
            4 => Record { fence: next, ..any },
            5 => Record::default(),
            6 => Record { room: 65_535, ..Record::default() },
            _ => any,
        });
        while records.len() < 256 && rng.chance(7, 8) {
            let fence = from.wrapping_add(300 + records.len() as u16);
            records.push(if rng.chance(1, 2) { open_record(rng, fence) } else { any });
        }
        cases.push(sent(rng, Table { records, last: from.wrapping_sub(1), n: N }));
    }
    cases
}

/// Every place of the record that is replied to, by two of the four kinds.
pub fn every_reply_place(rng: &mut Rng) -> Vec<WallCase> {
    let mut cases = Vec::new();
    for (place, which) in (0..256u16).flat_map(|place| [(place, 0), (place, 2)]) {
        let kind = REPLIES[which + rng.below(2) as usize];
        let (from, count) = (half(rng), rng.between(place as u64 + 1, 256) as usize);
        let fence = from.wrapping_add(place);
        let mut records = run(rng, from, count);
        if rng.chance(1, 2) {
            let free = rng.below(count as u64) as usize;
            let holds = Record { fence, ..dirty_record(rng) };
            records[free] = if free == place as usize { records[free] } else { holds };
        }
        let call = Call::Reply(wall_reply(rng, fence, kind));
        cases.push(alone(table(rng, records), call));
    }
    cases
}

/// Every type of either origin with an open fence and with none, and each kind of
/// reply with counts, and with reply dwords, at their ends.
pub fn every_reply(rng: &mut Rng) -> Vec<WallCase> {
    let mut cases = Vec::new();
    for (kind, origin) in (0..8).flat_map(|kind| [(kind, 0), (kind, 1 << 31)]) {
        for count in [0, 1, 254, 255, 256, 32_767, 65_533, 65_534, 65_535] {
            let from = half(rng);
            let mut records = run(rng, from, 3);
            records[1].count = count;
            records[1].room = rng.pick(&[0, 1, 255, 256, 257, 65_535]);
            for fence in [from.wrapping_add(1), from.wrapping_sub(1)] {
                let mut message = wall_reply(rng, fence, kind);
                message[1] = message[1] << 1 >> 1 | origin;
                cases.push(alone(table(rng, records.clone()), Call::Reply(message)));
            }
        }
    }
    cases
}

/// Every message of `every_message`, with an open fence.
pub fn every_reply_message(rng: &mut Rng) -> Vec<WallCase> {
    let mut cases = Vec::new();
    for mut message in every_message(rng) {
        let from = half(rng);
        let records = run(rng, from, 2);
        set_fence(&mut message, from);
        cases.push(alone(table(rng, records), Call::Reply(message)));
    }
    cases
}

/// Every bit alone in `open`: of a record that an opening must leave, of one that is
/// replied to, of one whose fence is open twice, and of all of a full table.
pub fn every_flag(rng: &mut Rng) -> Vec<WallCase> {
    let mut cases = Vec::new();
    for open in (0..16).map(|bit| 1 << bit) {
        let fence = half(rng);
        let mut one = Record { open, ..open_record(rng, fence) };
        let before = table(rng, vec![one, Record::default()]);
        cases.push(sent(rng, before));
        for kind in REPLIES {
            one.count = rng.pick(&[0, 1, 65_534, 65_535]);
            let call = Call::Reply(wall_reply(rng, fence, kind));
            cases.push(alone(table(rng, vec![one]), call));
        }
        let other = Record { open: 1, ..open_record(rng, fence) };
        let twice = table(rng, vec![Record::default(), one, other]);
        push_both(rng, &mut cases, &twice, fence);
        let full = table(rng, vec![one]);
        cases.push(sent(rng, full));
    }
    cases
}

/// Fences that are open twice: next to each other, far apart, with free records or
/// open ones around them, alike or not, thrice.
pub fn every_fence_twice(rng: &mut Rng) -> Vec<WallCase> {
    let mut cases = Vec::new();
    for (count, fence) in [2, 3, 17, 256].into_iter().flat_map(|n| [(n, 0), (n, 65_535), (n, 999)])
    {
        let any = rng.below(count - 1) as usize;
        let count = count as usize;
        for [one, other] in [[0, 1], [0, count - 1], [count - 2, count - 1], [any, any + 1]] {
            for fill in 0..4 {
                let mut records = run(rng, 1000, count);
                if fill < 2 {
                    records.fill(Record::default());
                }
                records[one] = open_record(rng, fence);
                records[other] = if fill % 2 == 0 { records[one] } else { open_record(rng, fence) };
                if fill == 3 {
                    records[count / 2] = open_record(rng, fence);
                }
                let twice = table(rng, records);
                push_both(rng, &mut cases, &twice, fence);
            }
        }
    }
    cases
}

/// What is no fence open twice: fences of which one bit differs, in records alike in
/// all else; free records that hold the fence of an open one, before and behind it,
/// or one another's.
pub fn every_fence_bit(rng: &mut Rng) -> Vec<WallCase> {
    let mut cases = Vec::new();
    for bit in 0..16 {
        let fence = half(rng);
        let one = open_record(rng, fence);
        let other = Record { fence: fence ^ 1 << bit, ..one };
        let free = Record { open: 0, ..one };
        let all = [
            vec![one, other],
            vec![one, free, free, other],
            vec![free, one],
            vec![one, free],
            vec![free, free, other],
        ];
        for records in all {
            let near = table(rng, records);
            push_both(rng, &mut cases, &near, fence);
        }
    }
    cases
}

/// Numbers of a reply that apply together: a table of another length or with a fence
/// open twice, an N that is not allowed, with messages of every sort. Those of an
/// opening are in `troubles.rs`.
pub fn every_order(rng: &mut Rng) -> Vec<WallCase> {
    let mut cases = Vec::new();
    let fence = half(rng);
    let mut twice = run(rng, fence, 4);
    twice[3].fence = twice[1].fence;
    let mut free = twice.clone();
    free[0] = Record::default();
    let all = [run(rng, fence, 257), run(rng, fence, 2), Vec::new(), twice, free];
    for (records, n) in all.into_iter().flat_map(|one| [(one.clone(), N), (one, 1000)]) {
        let table = Table { n, ..table(rng, records) };
        for asked in [fence.wrapping_add(1), fence.wrapping_sub(1)] {
            push_both(rng, &mut cases, &table, asked);
            for kind in [0, 1, 2, 3, 4, 5, 6, 7] {
                let mut message = wall_reply(rng, asked, kind);
                cases.push(alone(table.clone(), Call::Reply(message.clone())));
                message.push(0);
                cases.push(alone(table.clone(), Call::Reply(message)));
            }
        }
        cases.push(alone(table.clone(), Call::Reply(Vec::new())));
        cases.push(alone(table, Call::Fresh(1000)));
    }
    cases
}
