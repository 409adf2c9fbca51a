//! Accepted whole calls with their messages at chosen places, most of them around
//! the end of the buffer.

use super::case::{buffer_length, lay, sound};
use super::message::well_formed_of;
use super::Rng;
use crate::channel::{State, HEAD, TAIL};
use crate::run::{Case, Op};

/// A call with a message of this length and so many places from its first dword to
/// the end of the buffer; any number if it is to end before the end.
fn placed(rng: &mut Rng, op: Op, length: usize, left: usize) -> Case {
    let n = if rng.chance(1, 8) { buffer_length(rng) } else { 1024 };
    let mut case = sound(rng, op, n);
    let left = if left > length { rng.between(left as u64, n as u64) as usize } else { left };
    let own = n - left;
    let message = well_formed_of(rng, length);
    let more = rng.below((n - length) as u64) as usize;
    case.out = rng.words(256);
    case.state = State::idle(n as u32, own as u32);
    if op.sends() {
        case.desc[TAIL] = own as u32;
        case.desc[HEAD] = ((own + n - more) % n) as u32;
        case.msg = message;
    } else {
        case.desc[HEAD] = own as u32;
        case.desc[TAIL] = ((own + length + more) % n) as u32;
        lay(&mut case.buf, own, &message);
    }
    case
}

/// For the longest message every place around the end, at it and before it; for
/// some short ones too; and every length at some place around the end.
pub fn every_place(rng: &mut Rng) -> Vec<Case> {
    let mut cases = Vec::new();
    for op in [Op::SendWhole, Op::ReceiveWhole, Op::SendTwo, Op::ReceiveTwo] {
        for length in [2, 3, 4, 5, 17, 256] {
            cases.extend((1..length + 2).map(|left| placed(rng, op, length, left)));
        }
        for length in 2..=256 {
            let left = rng.between(1, length as u64 - 1) as usize;
            cases.push(placed(rng, op, length, left));
        }
    }
    cases
}
