//! Sides of two words made on purpose: N and the own offset at their bounds, with
//! all else as it should be.

use super::calls::set_own;
use super::case::{buffer_length, sound};
use super::Rng;
use crate::run::{Case, Op};

/// N by each bit, another that is allowed, none, the greatest.
fn every_n(rng: &mut Rng, op: Op, cases: &mut Vec<Case>) {
    let mut changed = |rng: &mut Rng, change: &dyn Fn(u32) -> u32| {
        let n = buffer_length(rng);
        let mut case = sound(rng, op, n);
        case.state.n = change(case.state.n);
        cases.push(case);
    };
    for bit in 0..32 {
        changed(rng, &|n| n ^ 1 << bit);
    }
    for other in [0, 1, u32::MAX] {
        changed(rng, &|_| other);
    }
    changed(rng, &|n| if n == 2048 { 1024 } else { 2048 });
    changed(rng, &|n| n);
}

/// The own offset at its bounds, alone and with the descriptor's.
fn every_own(rng: &mut Rng, op: Op, cases: &mut Vec<Case>) {
    for together in [false, true] {
        let n = buffer_length(rng);
        let top = n as u32;
        for own in [0, 1, top - 1, top, top + 1, 1 << 31, u32::MAX - 1, u32::MAX] {
            let mut case = sound(rng, op, n);
            if together {
                set_own(&mut case, own);
            } else {
                case.state.own = own;
            }
            cases.push(case);
        }
    }
}

/// All of these for both sides, and openings.
pub fn every_two(rng: &mut Rng) -> Vec<Case> {
    let mut cases = Vec::new();
    for op in [Op::SendTwo, Op::ReceiveTwo] {
        every_n(rng, op, &mut cases);
        every_own(rng, op, &mut cases);
    }
    cases.extend((1..=16).map(|times| sound(rng, Op::OpenTwo, 1024 * times)));
    cases
}
