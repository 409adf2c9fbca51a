//! Lists of operations for demand 3. A plain channel runs alongside, only to
//! steer towards full and empty rings and towards calls that get finished.

use super::message::{malformed, well_formed, well_formed_of};
use super::Rng;
use crate::plain::{Operation, Plain};

/// An output: mostly 256 dwords.
pub fn output(rng: &mut Rng) -> Vec<u32> {
    let length = match rng.below(24) {
        0 => 255,
        1 => 0,
        2 => 300,
        3 => 257,
        _ => 256,
    };
    rng.words(length)
}

/// A message: now and then malformed, often just at what is free.
fn to_send(rng: &mut Rng, free: u64) -> Vec<u32> {
    match rng.below(8) {
        0 => malformed(rng),
        1 | 2 => {
            let near = (free + 1).saturating_sub(rng.below(3));
            well_formed_of(rng, near.clamp(2, 256) as usize)
        }
        3 => well_formed_of(rng, 256),
        _ => well_formed(rng),
    }
}

/// The next step of the sender, or a whole send; `looks` of sixteen calls are
/// stepped.
fn next_send(rng: &mut Rng, plain: &Plain, looks: u64) -> Operation {
    let dice = rng.below(16);
    let a_move = if rng.chance(1, 5) { Operation::SendMoveAll } else { Operation::SendMove };
    match plain.sending() {
        None if dice == 0 => a_move,
        None if dice == 1 => Operation::SendPublish,
        None if dice < 2 + looks => Operation::SendLook(to_send(rng, plain.free())),
        Some((k, length)) if k < length && dice < 13 => a_move,
        Some((k, length)) if k == length && dice < 11 => Operation::SendPublish,
        Some(_) if dice == 13 => Operation::SendPublish,
        Some(_) if dice == 14 => Operation::SendLook(to_send(rng, plain.free())),
        Some(_) if dice < 14 => a_move,
        _ => Operation::SendWhole(to_send(rng, plain.free())),
    }
}

/// The next step of the receiver, or a whole receive; `looks` as above.
fn next_receive(rng: &mut Rng, plain: &Plain, looks: u64) -> Operation {
    let dice = rng.below(16);
    let a_move = if rng.chance(1, 5) { Operation::ReceiveMoveAll } else { Operation::ReceiveMove };
    match plain.receiving() {
        None if dice == 0 => a_move,
        None if dice == 1 => Operation::ReceivePublish(output(rng)),
        None if dice < 2 + looks => Operation::ReceiveLook,
        Some((k, length)) if k < length && dice < 13 => a_move,
        Some((k, length)) if k == length && dice < 11 => Operation::ReceivePublish(output(rng)),
        Some(_) if dice == 13 => Operation::ReceivePublish(output(rng)),
        Some(_) if dice == 14 => Operation::ReceiveLook,
        Some(_) if dice < 14 => a_move,
        _ => Operation::ReceiveWhole(output(rng)),
    }
}

/// Whether an operation is a single move, of which bursts are made.
fn is_move(operation: &Operation) -> bool {
    matches!(operation, Operation::SendMove | Operation::ReceiveMove)
}

/// A list of about `count` operations for a channel opened over this buffer, with
/// a sender and a receiver of two words where `two` says so. Phases lean towards
/// one side, so that the ring fills and drains; moves come in bursts, so that long
/// messages get through.
pub fn operations(rng: &mut Rng, buffer: &[u32], count: usize, two: [bool; 2]) -> Vec<Operation> {
    let mut plain = Plain::new(buffer);
    let mut list = Vec::new();
    let mut lean = 4;
    let looks = rng.pick(&[1, 1, 2, 6]);
    while list.len() < count {
        if rng.chance(1, 24) {
            lean = rng.pick(&[1, 2, 4, 6, 7]);
        }
        let operation = match (rng.chance(lean, 8), two) {
            (true, [true, _]) => Operation::SendWhole(to_send(rng, plain.free())),
            (true, _) => next_send(rng, &plain, looks),
            (false, [_, true]) => Operation::ReceiveWhole(output(rng)),
            (false, _) => next_receive(rng, &plain, looks),
        };
        let burst = if is_move(&operation) { rng.pick(&[1, 1, 2, 5, 40, 256]) } else { 1 };
        for _ in 0..burst {
            let refused = plain.apply(&operation).code != 0;
            list.push(operation.clone());
            if refused {
                break;
            }
        }
    }
    list
}
