//! Single calls made on purpose at the channel's boundaries: every L against
//! what is free and used, every type, every bit of STATUS, every size, every word
//! of a state.

use super::case::{buffer_length, cut_to_two, lay, sound};
use super::message::{well_formed_of, with_type};
use super::Rng;
use crate::channel::{State, HEAD, STATUS, TAIL};
use crate::run::{Case, Op};

const SENDS: [Op; 3] = [Op::SendLook, Op::SendWhole, Op::SendTwo];
const RECEIVES: [Op; 3] = [Op::ReceiveLook, Op::ReceiveWhole, Op::ReceiveTwo];

/// A look or whole call on a small ring, idle and agreeing with its descriptor.
fn look(rng: &mut Rng, op: Op) -> Case {
    let mut case = sound(rng, op, 1024);
    case.out = rng.words(256);
    case
}

/// A call with a message of this length and so much used.
pub(super) fn with_used(rng: &mut Rng, op: Op, length: usize, used: usize) -> Case {
    let mut case = look(rng, op);
    let n = case.buf.len() as u32;
    if op.sends() {
        case.msg = well_formed_of(rng, length);
        case.desc[HEAD] = (case.desc[TAIL] + n - used as u32) % n;
        return case;
    }
    case.desc[TAIL] = (case.desc[HEAD] + used as u32) % n;
    let mut message = well_formed_of(rng, length.max(2));
    message[0] = (message[0] & 0xFFFF_0000) | (length as u32 - 1);
    lay(&mut case.buf, case.desc[HEAD] as usize, &message);
    case
}

/// Every L at what is free or used, and one more than that.
pub fn every_message_length(rng: &mut Rng) -> Vec<Case> {
    let mut cases = Vec::new();
    for length in 1..=256 {
        for more in 0..2 {
            let op = rng.pick(&RECEIVES);
            cases.push(with_used(rng, op, length, length - more));
            let op = rng.pick(&SENDS);
            cases.push(with_used(rng, op, length.max(2), 1023 - length.max(2) + more));
        }
    }
    cases
}

/// A call whose message is good but for its type, which may be any: the message
/// to send, the one in the ring, or the copy that a move or a publish finds.
fn of_type(rng: &mut Rng, op: Op, kind: u32) -> Case {
    let length = rng.between(2, 20) as usize;
    let mut case = with_used(rng, op, length, length);
    let mut message = well_formed_of(rng, length);
    message[1] = with_type(message[1], kind);
    if op.goes_on() {
        let (left, len) = (op.moves() as u32, length as u32);
        case.state = State { len, moved: len - left, ..State::idle(1024, case.state.own) };
        case.state.copy[..length].copy_from_slice(&message);
    } else if op.sends() {
        case.msg = message;
    } else {
        lay(&mut case.buf, case.desc[HEAD] as usize, &message);
    }
    case
}

/// Each type, known or not, for each call that is lent or finds a message.
pub fn every_type(rng: &mut Rng) -> Vec<Case> {
    let mut cases = Vec::new();
    for op in Op::ALL.into_iter().filter(|op| !op.opens()) {
        cases.extend((0..8).map(|kind| of_type(rng, op, kind)));
    }
    cases
}

/// Buffers of each size around those allowed.
pub fn every_size(rng: &mut Rng) -> Vec<Case> {
    let mut cases = Vec::new();
    for op in Op::ALL {
        for n in [0, 1, 1023, 1025, 1536, 2047, 2049, 16383, 16385, 17408, 32768] {
            let mut case = sound(rng, op, 1024);
            case.buf.resize(n, 5);
            case.state.n = n as u32;
            cases.push(case);
        }
        let n = buffer_length(rng);
        cases.push(sound(rng, op, n));
        cases.push(sound(rng, op, 16384));
    }
    cases
}

/// Each bit of STATUS, and HEAD, TAIL and the own offset around where they
/// belong, for each look.
pub fn every_descriptor(rng: &mut Rng) -> Vec<Case> {
    let mut cases = Vec::new();
    for op in SENDS.into_iter().chain(RECEIVES) {
        for bit in 0..32 {
            let mut case = look(rng, op);
            case.desc[STATUS] = 1 << bit;
            cases.push(case);
        }
        for offset in [0, 1, 1022, 1023, 1024, 1025, 1 << 16, 1 << 31, u32::MAX] {
            for place in [HEAD, TAIL] {
                let mut case = look(rng, op);
                case.desc[place] = offset;
                // It is the side's own: the state goes with it.
                if (place == TAIL) == op.sends() && offset < 1024 {
                    case.state.own = offset;
                }
                cases.push(case);
            }
        }
        for own in [1023, 1, 2, 512] {
            let mut case = look(rng, op);
            case.state.own = (case.state.own + own) % 1024;
            cases.push(case);
        }
    }
    cases
}

/// Each slice that a call is lent with no dwords in it, all else as it should be.
pub fn every_empty(rng: &mut Rng) -> Vec<Case> {
    let mut cases = Vec::new();
    for op in Op::ALL {
        let [mut ring, mut msg, mut out] = [0; 3].map(|_| sound(rng, op, 1024));
        ring.buf.clear();
        ring.state.n = 0;
        msg.msg.clear();
        out.out.clear();
        cases.extend([ring, msg, out]);
    }
    cases
}

/// Sets a state's own offset, and the descriptor's with it where they must agree.
pub(super) fn set_own(case: &mut Case, own: u32) {
    case.state.own = own;
    case.desc[if case.op.sends() { TAIL } else { HEAD }] = own;
}

/// States with one word at its bounds: N by each bit, the own offset, what has
/// moved, and each dword of an idle copy.
pub fn every_state(rng: &mut Rng) -> Vec<Case> {
    let mut cases = Vec::new();
    let mut changed = |rng: &mut Rng, op: Op, change: &dyn Fn(&mut Case)| {
        let mut case = sound(rng, op, 1024);
        change(&mut case);
        cut_to_two(&mut case);
        cases.push(case);
    };
    for op in Op::ALL.into_iter().filter(|op| !op.opens()) {
        let bit = rng.below(32);
        changed(rng, op, &|case| case.state.n ^= 1 << bit);
        changed(rng, op, &|case| case.state.n ^= 2048);
        changed(rng, op, &|case| set_own(case, 1023));
        changed(rng, op, &|case| set_own(case, 1024));
        changed(rng, op, &|case| case.state.own = 1024);
        changed(rng, op, &|case| case.state.own += 1024);
        for more in [0, 1, 2, 256] {
            changed(rng, op, &|case| case.state.moved = case.state.len + more);
        }
        for moved in [0, 1, 2] {
            changed(rng, op, &|case| case.state.moved = moved);
        }
        changed(rng, op, &|case| case.state.moved = case.state.len.saturating_sub(1));
    }
    for at in 0..256 {
        let looks = [Op::SendLook, Op::SendWhole, Op::ReceiveLook, Op::ReceiveWhole];
        let (op, bit) = (rng.pick(&looks), rng.below(32));
        changed(rng, op, &|case| case.state = State::idle(1024, case.state.own));
        changed(rng, op, &|case| case.state.copy[at] = 1 << bit);
    }
    cases
}
