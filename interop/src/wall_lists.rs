//! Lists of openings, replies and the other side's receives, on one channel, from a
//! fresh table: through the archive; through the plain map from fences to requests
//! with demand 3's plain channel; and through the model's table, which knows the
//! places, with the model's steps. The sender also sends by itself and in steps, so
//! that openings find it mid-call. In some lists somebody writes the last fence, a
//! count, reply dwords or N by hand; in the others nothing else writes, and the sum
//! set aside must be what the history tells.

use crate::same::{same, same_lent, same_slice, Outcome};
use crate::tally::Tally;
use crate::walls::{check_call, fun_of, named, step, Memory, Modelled};
use model::generate::{buffer_length, half, operations, request_of, wall_call, wall_reply, Rng};
use model::plain::{Operation, Plain};
use model::run::Channel;
use model::wall::history::History;
use model::wall::table::{Record, Table};
use model::wall::{Call, Map};

/// A wall in the archive's memory, the model's, and the map with its channel.
struct Three {
    memory: Memory,
    model: Modelled,
    map: Map,
    plain: Plain,
    /// Of a list that nothing else writes.
    history: Option<History>,
}

fn junk(rng: &mut Rng) -> Record {
    let [open, fence, action, count, room] = [(); 5].map(|()| half(rng));
    Record { open, fence, action, count, room }
}

impl Three {
    /// A table of junk that is made fresh, and a channel that is opened.
    fn fresh(
        rng: &mut Rng,
        tally: &mut Tally,
        records: usize,
        (ring, n): (usize, usize),
    ) -> Result<Three, String> {
        let buffer = rng.words(ring);
        let channel = Channel::open(rng.words(16), buffer.clone(), [false; 2]);
        let channel = channel.expect("N is allowed");
        let records: Vec<Record> = (0..records).map(|_| junk(rng)).collect();
        let map = Map::fresh(records.len(), n);
        let table = Table { records, last: half(rng), n: half(rng) };
        let mut model = Modelled { table, channel };
        let mut memory = Memory::of(rng, &model);
        check_call(rng, tally, (&mut memory, &mut model), &Call::Fresh(n))?;
        let history = Some(History::default());
        Ok(Three { memory, model, map, plain: Plain::new(&buffer), history })
    }

    /// The table's open records are the map's requests, with the last fence and N.
    fn agree(&self) -> Outcome {
        let (Table { last, n, .. }, map) = (&self.model.table, &self.map);
        let open = || self.model.table.open_records();
        same("open records, table and map", open().count(), map.open.len())?;
        same("last fence and N, table and map", (*last, *n as usize), (map.last, map.n))?;
        for record in open() {
            let request = map.open.get(&record.fence);
            let request = request.map(|request| (request.action, request.count, request.room));
            let held = Some((record.action, record.count, record.room));
            same("request, table and map", held, request)?;
        }
        same_lent("descriptor", &self.memory.channel.desc, &self.plain.descriptor())?;
        same_lent("ring", &self.memory.channel.buf, self.plain.buffer())
    }

    /// What T-08 says of the whole list.
    fn told(&self, tally: &mut Tally) -> Outcome {
        let history = match &self.history {
            Some(history) => history,
            None => return Ok(()),
        };
        let sum = history.set_aside();
        same("set aside, table and history", self.model.table.set_aside(), sum)?;
        same("open, map and history", self.map.open.len(), history.open().len())?;
        same("set aside beyond N - 1", sum + 1 > self.map.n as u64, false)?;
        tally.mark("sums set aside told by the history", (sum > 0) as u64);
        Ok(())
    }

    /// One call of the wall by all three.
    fn call(&mut self, rng: &mut Rng, tally: &mut Tally, call: &Call) -> Outcome {
        let under_way = self.plain.sending().is_some();
        let answer = step(rng, tally, (&mut self.memory, &mut self.model), call)?;
        same("answer, table and map", answer, self.map.apply(&mut self.plain, call))?;
        tally.answer(fun_of(call), answer.code);
        if matches!(call, Call::Reply(_)) && answer.code == 0 {
            tally.replied(answer.kind)?;
        }
        tally.mark("opening while a send was under way", (under_way && answer.code == 3) as u64);
        if let Some(history) = &mut self.history {
            history.push(call, &answer);
        }
        self.agree()
    }

    /// One operation of either side of the channel.
    fn operate(&mut self, rng: &mut Rng, tally: &mut Tally, operation: &Operation) -> Outcome {
        let got = self.memory.channel.apply(rng, operation)?;
        let (reply, modelled) = (self.plain.apply(operation), self.model.channel.apply(operation));
        same("operation's answer", (got.code, got.len), (reply.code, reply.len))?;
        same_slice("output", &got.output, &reply.output)?;
        same("model's own answer", &modelled, &reply)?;
        self.memory.channel.compare(&self.model.channel)?;
        let received = got.len > 0 && !operation.sends();
        tally.mark("received by the other side in lists of a wall", received as u64);
        self.agree()
    }

    /// One write by hand: the last fence, N, or what a request's record holds.
    fn write_by_hand(&mut self, rng: &mut Rng) {
        let Three { memory, model, map, .. } = self;
        let place = rng.below(model.table.records.len() as u64) as usize;
        let record = &mut model.table.records[place];
        match map.open.get_mut(&record.fence).filter(|_| record.is_open()) {
            Some(request) if rng.chance(2, 3) => {
                let (count, room) = (rng.pick(&[254, 255, 65_533, 65_534, 65_535]), half(rng));
                record.count = count;
                record.room = rng.pick(&[record.room, 0, 257, 1000, room]);
                (request.count, request.room) = (record.count, record.room);
            }
            _ => {
                let (before, any) = (record.fence.wrapping_sub(1), half(rng));
                model.table.last = rng.pick(&[65_300, 65_533, 65_534, 65_535, 0, before, any]);
                model.table.n = rng.pick(&[model.table.n, 1024, 4096, 16_384, 16_384, 1000]);
                (map.last, map.n) = (model.table.last, model.table.n as usize);
            }
        }
        memory.write_over(&model.table);
        self.history = None;
    }
}

/// How many records, and how many items.
fn size(rng: &mut Rng) -> (usize, u64) {
    match rng.below(24) {
        0 => (rng.pick(&[255, 256]), 600),
        1 => (rng.between(1, 256) as usize, 400),
        2..=9 => (rng.pick(&[1, 1, 2]), 60),
        _ => (rng.pick(&[2, 3, 16, 16, 40]), 200),
    }
}

/// What the channel does between calls of the wall: mostly whole receives, else
/// anything that a list of operations has.
fn operation(rng: &mut Rng, three: &Three) -> Operation {
    if three.plain.receiving().is_none() && rng.chance(2, 3) {
        return Operation::ReceiveWhole(rng.words(256));
    }
    if three.plain.sending().is_some() && rng.chance(1, 2) {
        return rng.pick(&[&Operation::SendMoveAll, &Operation::SendPublish]).clone();
    }
    if three.plain.receiving().is_some() && rng.chance(1, 2) {
        let publish = Operation::ReceivePublish(rng.words(256));
        return rng.pick(&[&Operation::ReceiveMoveAll, &publish]).clone();
    }
    operations(rng, three.plain.buffer(), 1, [false; 2]).swap_remove(0)
}

/// The next item: a call of the wall, or none. Some requests are all that is free, or
/// one more than that.
fn item(rng: &mut Rng, three: &Three, openings: u64, calls: u64) -> Option<Call> {
    match rng.below(400) {
        1..=12 => {
            let length = three.plain.free() + rng.below(2);
            let message = request_of(rng, length.clamp(2, 256) as usize);
            Some(Call::Send(message, rng.below(20) as u32))
        }
        0 => Some(Call::Fresh(rng.pick(&[1024, 2048, 16_384, 16_384, 1023, 66_560]))),
        _ if rng.chance(calls, 8) => Some(wall_call(rng, &three.model.table, openings)),
        _ => None,
    }
}

/// A list from a fresh table; in one of two somebody writes by hand between calls.
pub fn check(rng: &mut Rng, tally: &mut Tally) -> Outcome {
    let ((records, count), by_hand) = (size(rng), rng.chance(1, 2));
    let sizes = (buffer_length(rng).min(4096), rng.pick(&[1024, 1024, 2048, 16_384, 16_384]));
    let mut three = Three::fresh(rng, tally, records, sizes)?;
    let (mut openings, mut calls) = (rng.pick(&[6, 8]), 4);
    for index in 0..count {
        if rng.chance(1, 24 + records as u64) {
            (openings, calls) = (rng.pick(&[1, 2, 4, 6, 7]), rng.pick(&[3, 4, 6, 8]));
        }
        if by_hand && rng.chance(1, 24) {
            three.write_by_hand(rng);
            tally.mark("written by hand between calls of a wall", 1);
        }
        match item(rng, &three, openings, calls) {
            Some(call) => {
                let said =
                    |problem| format!("{records} records, item {index}, {}", named(&call, problem));
                three.call(rng, tally, &call).and_then(|()| three.told(tally)).map_err(said)?;
            }
            None => {
                let operation = operation(rng, &three);
                let said = |problem| format!("{records} records, item {index}, channel: {problem}");
                three.operate(rng, tally, &operation).map_err(said)?;
            }
        }
        let full = three.map.open.len() == records;
        tally.mark("table full after a call of a list", full as u64);
        tally.mark("ring full after a call of a list of a wall", (three.plain.free() == 0) as u64);
    }
    tally.mark("calls in lists of a wall", count);
    Ok(())
}

/// From a fresh table on all fences are given, and around; a request that stays open
/// from the start keeps its own.
pub fn check_around(rng: &mut Rng, tally: &mut Tally) -> Outcome {
    let (records, kept) = (rng.between(2, 4) as usize, rng.below(3) as u32);
    let mut three = Three::fresh(rng, tally, records, (1024, 1024))?;
    three.history = None; // it would be long
    for index in 0..65_540 {
        let said = |problem| format!("{records} records, opening {index}: {problem}");
        let message = vec![rng.word() & 0xFFFF_0000 | 1, rng.word() & 0x8FFF_FFFF];
        let opening = Call::Send(message, rng.between(0, 256) as u32);
        three.call(rng, tally, &opening).map_err(said)?;
        let skipped = (index >= 65_536 + kept) as u32;
        let fence = three.model.table.last;
        same("fence", fence as u32, (index + skipped) % 65_536).map_err(said)?;
        three.operate(rng, tally, &Operation::ReceiveWhole(vec![0; 256])).map_err(said)?;
        if index != kept {
            let kind = rng.pick(&[5, 6, 7]);
            let message = wall_reply(rng, fence, kind);
            three.call(rng, tally, &Call::Reply(message)).map_err(said)?;
        }
    }
    tally.mark("fences given all around", 1);
    Ok(())
}
