//! Sends of a wall with two things wrong at once: every two numbers that can apply
//! together, so that the order in which they are tested shows.

use super::message::{well_formed_of, with_type};
use super::requests::{good_channel, good_table};
use super::rooms::spread;
use super::walls::{open_record, WallCase};
use super::Rng;
use crate::channel::{State, HEAD, STATUS, TAIL};
use crate::run::{Channel, Side};
use crate::wall::table::Record;
use crate::wall::Call;

/// How many things can be wrong: 35 by length and by a fence, 2 of the wall, 14, 27
/// by form and by type, 26, 28; of the ring 2, 3, 6, 7, 8 and 10.
const TROUBLES: usize = 14;

fn sender(channel: &mut Channel) -> &mut State {
    match &mut channel.sender {
        Side::Steps(state) => state,
        Side::Two(_) => unreachable!("a wall sends by a side of 260 words"),
    }
}

/// What is wrong with the table or with what is asked of it.
fn spoil_table(rng: &mut Rng, case: &mut WallCase, trouble: usize) {
    let WallCase { table, call, .. } = case;
    let (message, room) = match call {
        Call::Send(message, room) => (message, room),
        _ => unreachable!("all of these are sends"),
    };
    match trouble {
        0 => {
            let from = table.records.len() as u16;
            let more = (from..257).map(|k| Record { room: 0, ..open_record(rng, 30_000 + k) });
            table.records.extend(more);
        }
        1 => {
            let open: Vec<usize> =
                (0..table.records.len()).filter(|at| table.records[*at].is_open()).collect();
            table.records[open[1]].fence = table.records[open[0]].fence;
        }
        2 => table.n = rng.pick(&[0, 1, 1023, 1025, 1536, 17_408, 65_535]),
        3 => *room = rng.pick(&[257, 65_535, 65_536, 65_792, u32::MAX]),
        4 => match rng.below(3) {
            0 => message.push(0),
            1 => message[0] |= 1 << rng.between(8, 15),
            _ => message[0] ^= 1,
        },
        5 => {
            let kind = rng.pick(&[1, 2, 3, 5, 6, 7]);
            message[1] = with_type(message[1], kind);
        }
        6 => {
            let free = table.records.iter().position(|record| !record.is_open());
            if let Some(free) = free {
                table.records[free] = open_record(rng, 40_000);
            }
        }
        _ => {
            let sum = (table.n as u64).max(1024) + rng.below(300);
            spread(rng, table, sum);
        }
    }
}

/// What is wrong with the ring, its descriptor or its sender.
fn spoil_ring(rng: &mut Rng, channel: &mut Channel, trouble: usize) {
    let n = channel.buf.len() as u32;
    match trouble {
        8 => {
            let other = rng.pick(&[1023, 1025, 1536, 17_408]);
            channel.buf.resize(other, 7);
            sender(channel).n = other as u32;
        }
        9 => match rng.below(3) {
            0 => sender(channel).copy[255] = 1,
            1 => sender(channel).n ^= 2048,
            _ => {
                // Mid-call.
                let message = well_formed_of(rng, 5);
                let state = sender(channel);
                (state.len, state.moved) = (5, rng.below(6) as u32);
                state.copy[..5].copy_from_slice(&message);
            }
        },
        10 => channel.desc[STATUS] = 1 << rng.below(32),
        // At least N, and modulo N what it was.
        11 => channel.desc[rng.pick(&[HEAD, TAIL])] += n,
        12 => {
            let state = sender(channel);
            state.own = (state.own + 1) % n;
        }
        _ => channel.desc[HEAD] = (channel.desc[TAIL] % n + 1) % n,
    }
}

/// Every two of them, first those of the table, then those of the ring; each six times.
pub fn every_trouble(rng: &mut Rng) -> Vec<WallCase> {
    let mut cases = Vec::new();
    let all = (0..TROUBLES).flat_map(|one| (one..TROUBLES).map(move |other| (one, other)));
    for ((one, other), _) in all.flat_map(|two| (0..6).map(move |times| (two, times))) {
        let (channel, message) = good_channel(rng);
        let table = good_table(rng, 5, 1024);
        let call = Call::Send(message, rng.between(0, 256) as u32);
        let mut case = WallCase { table, channel, call };
        // The ring's size first, and what goes by offsets before what moves them.
        for trouble in [8, 13, 12, 11, 10, 9, 6, 1, 7, 0, 2, 3, 4, 5] {
            if trouble == one || trouble == other {
                if trouble < 8 {
                    spoil_table(rng, &mut case, trouble);
                } else {
                    spoil_ring(rng, &mut case.channel, trouble);
                }
            }
        }
        cases.push(case);
    }
    cases
}
