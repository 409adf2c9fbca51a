//! Calls that make all moves that are left, made on purpose: every number of
//! dwords left, and every place of them against the end of the buffer.

use super::case::{buffer_length, lay, sound};
use super::message::well_formed_of;
use super::state::active;
use super::Rng;
use crate::run::{Case, Op};

/// The most that can be left: a receive's look has moved one.
fn most(op: Op) -> usize {
    if op.sends() {
        256
    } else {
        255
    }
}

/// A call with so many dwords left and so many places from the first of them to
/// the end of the buffer; the message has any length that allows it.
fn left_at(rng: &mut Rng, op: Op, left: usize, to_end: usize) -> Case {
    let n = if rng.chance(1, 8) { buffer_length(rng) } else { 1024 };
    let mut case = sound(rng, op, n);
    let least = if op.sends() { left.max(2) } else { (left + 1).max(2) };
    let length = if rng.chance(1, 3) { least } else { rng.between(least as u64, 256) as usize };
    let moved = length - left;
    let own = (2 * n - to_end.min(n) - moved) % n;
    let message = well_formed_of(rng, length);
    let copied = if op.sends() { length } else { moved };
    case.state = active(rng, (n as u32, own as u32), &message, copied, moved as u32);
    // The descriptor is not judged by a move; of a receive the ring may have
    // changed since the look.
    if !op.sends() && rng.chance(2, 3) {
        lay(&mut case.buf, own, &message);
    }
    case
}

const OPS: [Op; 2] = [Op::SendMoveAll, Op::ReceiveMoveAll];

/// Every number of dwords left, from none on: somewhere, and around the end.
pub fn every_left(rng: &mut Rng) -> Vec<Case> {
    let mut cases = Vec::new();
    for op in OPS {
        for left in 0..=most(op) {
            let to_end = rng.between(1, 1024) as usize;
            cases.push(left_at(rng, op, left, to_end));
            if left > 1 {
                let to_end = rng.between(1, left as u64 - 1) as usize;
                cases.push(left_at(rng, op, left, to_end));
            }
        }
    }
    cases
}

/// For the most and for some that are fewer, every place around the end, at it
/// and just before it.
pub fn every_left_place(rng: &mut Rng) -> Vec<Case> {
    let mut cases = Vec::new();
    for op in OPS {
        for left in [1, 2, 3, 4, 5, 17, most(op)] {
            cases.extend((1..left + 2).map(|to_end| left_at(rng, op, left, to_end)));
        }
    }
    cases
}
