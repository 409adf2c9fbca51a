//! States of the two sides: fitting, with one thing broken, and random.

use super::message::{near_malformed, well_formed, with_type};
use super::Rng;
use crate::channel::State;
use crate::message::UNKNOWN;

/// An active state over this message, `moved` dwords on; only the first
/// `copied` dwords are in the copy, junk or zeros after them.
pub(super) fn active(
    rng: &mut Rng,
    (n, own): (u32, u32),
    message: &[u32],
    copied: usize,
    moved: u32,
) -> State {
    let mut state = State { len: message.len() as u32, moved, ..State::idle(n, own) };
    state.copy[..copied].copy_from_slice(&message[..copied]);
    if rng.chance(1, 4) && copied < 256 {
        let at = rng.between(copied as u64, 255) as usize;
        state.copy[at] = rng.word();
    }
    if rng.chance(1, 8) {
        state.copy[copied..].iter_mut().for_each(|dword| *dword = rng.word());
    }
    state
}

/// How far a call has got, from `least` to L: for a move mostly before the
/// end, for a publish mostly at it.
fn progress(rng: &mut Rng, least: u64, length: u64, publishes: bool) -> u32 {
    let end = if publishes { rng.chance(7, 8) } else { rng.chance(1, 6) };
    let moved = match rng.below(4) {
        _ if end => length,
        0 => least,
        1 => length.saturating_sub(1),
        _ => rng.between(least, length),
    };
    moved.clamp(least, length) as u32
}

/// A fitting sender's state, mid-call.
pub fn sending(rng: &mut Rng, n: u32, own: u32, publishes: bool) -> State {
    let message = well_formed(rng);
    let moved = progress(rng, 0, message.len() as u64, publishes);
    active(rng, (n, own), &message, message.len(), moved)
}

/// A fitting receiver's state, mid-call, with the whole message it copies:
/// now and then one that ends in 13.
pub fn receiving(rng: &mut Rng, n: u32, own: u32, publishes: bool) -> (State, Vec<u32>) {
    let bad = rng.chance(1, 4);
    let message = if bad { near_malformed(rng) } else { well_formed(rng) };
    let moved = progress(rng, 1, message.len() as u64, publishes);
    (active(rng, (n, own), &message, moved as usize, moved), message)
}

/// A wholly random state, some of its words plausible.
pub fn random_state(rng: &mut Rng, n: u32) -> State {
    let mut state = State::ZERO;
    if rng.chance(1, 2) {
        state.copy.iter_mut().for_each(|dword| *dword = rng.word());
    }
    state.n = if rng.chance(3, 4) { n } else { rng.edgy() };
    state.own = if rng.chance(1, 2) { rng.below(n as u64 + 2) as u32 } else { rng.edgy() };
    state.len = if rng.chance(1, 2) { rng.below(259) as u32 } else { rng.edgy() };
    state.moved = if rng.chance(1, 2) { rng.below(259) as u32 } else { rng.edgy() };
    if rng.chance(1, 2) {
        state.copy[0] = state.len.wrapping_sub(1) & 0xFF;
    }
    state
}

/// Breaks N or the own offset, whatever the state is.
pub(super) fn break_place(rng: &mut Rng, state: &mut State) {
    let n = state.n;
    match rng.below(4) {
        0 => state.n = rng.pick(&[n ^ 1024, n ^ 2048, 0, n ^ 1, n ^ 1 << 31, n ^ 1 << 16, 1024]),
        1 => state.n = rng.edgy(),
        2 => state.own = rng.pick(&[n, n.wrapping_add(1), u32::MAX, u32::MAX - 255, 1 << 31]),
        _ => state.own = state.own.wrapping_add(n.wrapping_mul(rng.between(1, 3) as u32)),
    }
}

/// Breaks one thing of an idle state, or makes it active.
fn break_idle(rng: &mut Rng, state: &mut State, sender: bool) {
    match rng.below(5) {
        0 => state.len = rng.pick(&[1, 2, 256, u32::MAX, 1 << 16]),
        1 => state.moved = rng.pick(&[1, 2, 256, u32::MAX, 1 << 16]),
        2 => state.copy[rng.pick(&[0, 1, 2, 127, 254, 255])] = rng.word() | 1,
        3 => state.copy[rng.below(256) as usize] = 1u32.rotate_left(rng.below(32) as u32),
        _ if sender => *state = sending(rng, state.n, state.own, false),
        _ => *state = receiving(rng, state.n, state.own, false).0,
    }
}

/// Breaks one thing of an active state, or makes it idle. Some of these break
/// a sender's only: the rules that a receiver doesn't have.
fn break_active(rng: &mut Rng, state: &mut State) {
    match rng.below(12) {
        0 => state.len = rng.pick(&[0, 1, 257, 512, u32::MAX, state.len | 1 << 8]),
        1 => state.len = state.len.wrapping_add(1),
        2 => state.len = state.len.wrapping_sub(1),
        3 => state.moved = state.len.wrapping_add(1),
        4 => state.moved = rng.pick(&[0, 257, u32::MAX, 1 << 31, state.len.wrapping_add(256)]),
        5 => state.copy[0] ^= 1 << rng.below(8),
        6 => state.copy[0] |= 1 << rng.between(8, 15),
        7 => state.copy[1] = with_type(state.copy[1], UNKNOWN),
        8 => {
            // L = 1 that agrees with its header: too short for a send only.
            state.copy[0] &= 0xFFFF_0000;
            state.len = 1;
            state.moved = rng.below(3) as u32;
        }
        9 => *state = State::idle(state.n, state.own),
        10 => (state.len, state.moved) = (0, 0),
        _ => {
            state.len = 257;
            state.copy[0] |= 0xFF;
            state.moved = rng.pick(&[1, 256, 257]);
        }
    }
}

/// Breaks one thing of a state.
pub fn break_state(rng: &mut Rng, state: &mut State, sender: bool, active: bool) {
    if rng.chance(1, 4) {
        break_place(rng, state);
    } else if active {
        break_active(rng, state);
    } else {
        break_idle(rng, state, sender);
    }
}
