//! Channels whose sides hold any words at all, and operations that nobody steers:
//! what no opened channel comes to.

use super::case::{buffer_length, descriptor, lay, offset};
use super::list::output;
use super::message::{message, well_formed};
use super::state::{break_state, random_state, receiving, sending};
use super::Rng;
use crate::channel::State;
use crate::plain::Operation;
use crate::run::{Channel, Side};

/// A state for this N at about this offset: idle, under way, broken in one thing,
/// or any words.
fn odd_state(rng: &mut Rng, n: u32, own: u32, sends: bool) -> State {
    let active = rng.chance(4, 5);
    let mut state = match (active, sends) {
        (false, _) => State::idle(n, own),
        (true, true) => sending(rng, n, own, false),
        (true, false) => receiving(rng, n, own, false).0,
    };
    match rng.below(12) {
        0..=2 => break_state(rng, &mut state, sends, active),
        3 => state = random_state(rng, n),
        4 => {
            let words = rng.words(260);
            let copy = words[4..].try_into().expect("256 dwords");
            state = State { n: words[0], own: words[1], len: words[2], moved: words[3], copy };
        }
        _ => {}
    }
    state
}

/// Two words: mostly for this N.
fn odd_two(rng: &mut Rng, n: u32, own: u32) -> [u32; 2] {
    let other = [n - 1, n, n + 1, u32::MAX, rng.edgy()];
    match rng.below(6) {
        0 => [rng.edgy(), own],
        1 => [n, rng.pick(&other)],
        2 => [rng.pick(&other), own],
        _ => [n, own],
    }
}

/// Sides of these kinds, a sender's and a receiver's, at about these offsets.
pub fn odd_sides(rng: &mut Rng, n: u32, own: [u32; 2], two: [bool; 2]) -> [Side; 2] {
    [0, 1].map(|at| {
        if two[at] {
            Side::Two(odd_two(rng, n, own[at]))
        } else {
            Side::Steps(odd_state(rng, n, own[at], at == 0))
        }
    })
}

/// A ring with a message at HEAD, and such sides of these kinds.
pub fn odd_channel(rng: &mut Rng, two: [bool; 2]) -> Channel {
    let n = buffer_length(rng).min(4096);
    let (head, used) = (offset(rng, n), rng.below(n as u64) as usize);
    let tail = (head + used) % n;
    let mut buf = rng.words(n);
    let pending = well_formed(rng);
    lay(&mut buf, head, &pending);
    let [sender, receiver] = odd_sides(rng, n as u32, [tail as u32, head as u32], two);
    Channel { desc: descriptor(rng, head, tail), buf, sender, receiver }
}

/// Any operation of the sender or of the receiver; moves more often.
pub fn odd_operation(rng: &mut Rng, channel: &Channel) -> Operation {
    let (sends, dice) = (rng.chance(1, 2), rng.below(12));
    let two = if sends { channel.sender.is_two() } else { channel.receiver.is_two() };
    match (sends, dice) {
        (true, _) if two => Operation::SendWhole(message(rng)),
        (false, _) if two => Operation::ReceiveWhole(output(rng)),
        (true, 0..=3) => Operation::SendMove,
        (true, 4..=7) => Operation::SendMoveAll,
        (true, 8 | 9) => Operation::SendPublish,
        (true, 10) => Operation::SendLook(message(rng)),
        (true, _) => Operation::SendWhole(message(rng)),
        (false, 0..=3) => Operation::ReceiveMove,
        (false, 4..=7) => Operation::ReceiveMoveAll,
        (false, 8 | 9) => Operation::ReceivePublish(output(rng)),
        (false, 10) => Operation::ReceiveLook,
        (false, _) => Operation::ReceiveWhole(output(rng)),
    }
}
