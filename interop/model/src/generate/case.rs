//! Single calls with everything they are lent: a near-valid channel around a
//! state, then none, one or several things broken.

use super::message::{malformed, near_malformed, well_formed};
use super::state::{break_place, break_state, random_state, receiving, sending};
use super::{list::output, Rng};
use crate::channel::{State, HEAD, STATUS, TAIL};
use crate::run::{Case, Op};

/// An allowed N, mostly 1,024.
pub fn buffer_length(rng: &mut Rng) -> usize {
    match rng.below(16) {
        0..=9 => 1024,
        10..=12 => 2048,
        13 => 16384,
        _ => 1024 * rng.between(1, 16) as usize,
    }
}

/// A length that is no allowed N.
pub fn disallowed_length(rng: &mut Rng) -> usize {
    rng.pick(&[0, 1, 2, 512, 1000, 1023, 1025, 1536, 2047, 16383, 16385, 17408])
}

/// An offset below N, near the wrap more often.
pub(super) fn offset(rng: &mut Rng, n: usize) -> usize {
    match rng.below(5) {
        0 => rng.pick(&[0, 0, 1, n - 1]),
        1 | 2 => n - rng.between(1, 260.min(n as u64)) as usize,
        _ => rng.below(n as u64) as usize,
    }
}

/// A number of dwords, 0 to N - 1, at or near `about` half of the time.
fn around(rng: &mut Rng, about: usize, n: usize) -> usize {
    match rng.below(10) {
        0 => about.saturating_sub(1),
        1 | 2 => about,
        3 => about + 1,
        4 => rng.pick(&[0, 0, 1, 2, n - 1, n - 2]),
        _ => rng.between(about.min(n - 1) as u64, n as u64 - 1) as usize,
    }
    .min(n - 1)
}

/// The message at HEAD: well formed, or whole but malformed.
fn ring_message(rng: &mut Rng) -> Vec<u32> {
    if rng.chance(1, 5) {
        near_malformed(rng)
    } else {
        well_formed(rng)
    }
}

/// Lays a message into the ring.
pub(super) fn lay(buf: &mut [u32], at: usize, message: &[u32]) {
    let n = buf.len();
    for (k, dword) in message.iter().enumerate() {
        buf[(at + k) % n] = *dword;
    }
}

/// A 16-dword descriptor with STATUS 0; reserved words zeros or junk.
pub(super) fn descriptor(rng: &mut Rng, head: usize, tail: usize) -> Vec<u32> {
    let mut desc = if rng.chance(1, 2) { vec![0; 16] } else { rng.words(16) };
    desc[HEAD] = head as u32;
    desc[TAIL] = tail as u32;
    desc[STATUS] = 0;
    desc
}

/// A call in which nothing is broken but what chance brings: a ring too full
/// or too empty, a malformed message at HEAD, a call not or already complete.
pub(super) fn sound(rng: &mut Rng, op: Op, n: usize) -> Case {
    let mut buf = if rng.chance(1, 8) { vec![0; n] } else { rng.words(n) };
    let msg = well_formed(rng);
    let mut pending = ring_message(rng);
    let used = if op.sends() {
        n - 1 - around(rng, msg.len(), n)
    } else if rng.chance(1, 12) {
        0
    } else {
        around(rng, pending.len(), n)
    };
    let head = offset(rng, n);
    let tail = (head + used) % n;
    let own = if op.sends() { tail } else { head } as u32;
    let state = if !op.goes_on() {
        State::idle(n as u32, own)
    } else if op.sends() {
        sending(rng, n as u32, own, op == Op::SendPublish)
    } else {
        let (state, message) = receiving(rng, n as u32, own, op == Op::ReceivePublish);
        // One time in three the ring's message is no longer the copied one.
        if rng.chance(2, 3) {
            pending = message;
        }
        state
    };
    lay(&mut buf, head, &pending);
    Case { op, state, desc: descriptor(rng, head, tail), buf, msg, out: output(rng) }
}

/// Breaks the descriptor's words: STATUS, or an offset at least N, or one that
/// no longer agrees, or the ring emptied.
fn break_descriptor(rng: &mut Rng, case: &mut Case) {
    let n = case.buf.len().max(1) as u32;
    let side = rng.pick(&[HEAD, TAIL]);
    match rng.below(9) {
        0 => case.desc[STATUS] = rng.pick(&[1, 2, 4, 8, 3, 16, 1 << 31, u32::MAX]),
        1 => case.desc[STATUS] = 1 << rng.below(32),
        2 | 8 => case.desc[side] = rng.pick(&[n, n.wrapping_add(1), 2 * n, u32::MAX, 1 << 31]),
        3 => {
            // At least N on both, or agreeing modulo N, or agreeing with own.
            case.desc[side] = case.desc[side].wrapping_add(n);
            if rng.chance(1, 2) {
                case.state.own = case.desc[side];
            }
        }
        4 => case.desc[side] = (case.desc[side].wrapping_add(1)) % n,
        5 => case.desc[side] = rng.below(n as u64) as u32,
        6 => case.state.own = case.state.own.wrapping_add(rng.pick(&[1, n - 1])) % n,
        _ => case.desc[HEAD] = case.desc[TAIL],
    }
}

/// Gives the buffer a length that is no allowed N.
fn break_buffer(rng: &mut Rng, case: &mut Case) {
    let length = disallowed_length(rng);
    let filler = rng.word();
    case.buf.resize(length, filler);
    if rng.chance(2, 3) {
        case.state.n = length as u32;
    }
}

/// Breaks one thing. The message and the output only where they are judged. The
/// descriptor keeps its 16 dwords: C can lend no other.
fn break_one(rng: &mut Rng, case: &mut Case) {
    match rng.below(10) {
        0 => break_buffer(rng, case),
        1 | 2 if case.op.on_two() => break_place(rng, &mut case.state),
        1 | 2 => break_state(rng, &mut case.state, case.op.sends(), case.op.goes_on()),
        3 => case.state = random_state(rng, case.buf.len() as u32),
        4 if case.op.sends() => case.msg = malformed(rng),
        4 | 5 if !case.op.sends() => {
            let length = rng.pick(&[0usize, 1, 2, 254, 255, 255]);
            case.out = rng.words(length);
        }
        _ => break_descriptor(rng, case),
    }
}

/// Where the side is one of two words, all of its state but those goes.
pub(super) fn cut_to_two(case: &mut Case) {
    if case.op.on_two() {
        case.state = State::idle(case.state.n, case.state.own);
    }
}

/// A case for this function.
pub fn case_for(rng: &mut Rng, op: Op) -> Case {
    let n = buffer_length(rng);
    let mut case = sound(rng, op, n);
    let breaks = rng.pick(&[0, 0, 0, 0, 1, 1, 1, 1, 2, 3]);
    for _ in 0..breaks {
        break_one(rng, &mut case);
    }
    cut_to_two(&mut case);
    case
}

/// A case for any function.
pub fn case(rng: &mut Rng) -> Case {
    let op = rng.pick(&Op::ALL);
    case_for(rng, op)
}
