//! The channel: states of the two sides, what fits, opening.
//! The steps themselves are in `channel/send.rs` and `channel/receive.rs`, the
//! sides that make whole calls only in `channel/two.rs`.

mod receive;
mod send;
mod two;

pub use receive::{receive_look, receive_move, receive_move_all, receive_publish, receive_whole};
pub use send::{send_look, send_move, send_move_all, send_publish, send_whole};
pub use two::{state_of, two_open, two_receive, two_send, Two, TwoAnswer};

use crate::message::{total_length, well_formed};

/// Places of the descriptor: "0 HEAD, 1 TAIL, 2 STATUS, 3 to 15 reserved".
pub const HEAD: usize = 0;
pub const TAIL: usize = 1;
pub const STATUS: usize = 2;

/// A side's state. Every word may be any number; `fits_*` judge it.
#[derive(Clone, Copy, Debug, PartialEq, Eq)]
pub struct State {
    /// The N it was made for.
    pub n: u32,
    /// Own tail (sender) or own head (receiver).
    pub own: u32,
    /// L of the message under way, 0 when idle.
    pub len: u32,
    /// Dwords stored or copied so far.
    pub moved: u32,
    /// "its own copy of the message (up to 256 dwords)"
    pub copy: [u32; 256],
}

impl State {
    /// The all-zero state, "made for N 0".
    pub const ZERO: State = State { n: 0, own: 0, len: 0, moved: 0, copy: [0; 256] };

    /// "idle (L = 0, moved = 0, copy all zeros)"
    pub fn idle(n: u32, own: u32) -> State {
        State { n, own, ..State::ZERO }
    }
}

/// What a step or whole call hands back.
#[derive(Clone, Copy, Debug, PartialEq, Eq)]
pub struct Answer {
    /// 0, or the number that says no.
    pub code: u32,
    /// L, in an accepted whole receive or receive's publish; else 0.
    pub len: u32,
    /// The next state.
    pub next: State,
}

impl Answer {
    /// "The state comes back unchanged", and L "is 0 on a refusal".
    fn refused(code: u32, state: &State) -> Answer {
        Answer { code, len: 0, next: *state }
    }

    fn accepted(next: State) -> Answer {
        Answer { code: 0, len: 0, next }
    }
}

/// "N a multiple of 1,024 from 1,024 to 16,384"
pub fn allowed(n: usize) -> bool {
    n % 1024 == 0 && (1024..=16384).contains(&n)
}

/// "used = (TAIL - HEAD) mod N", asked only with both below N.
pub fn used(n: usize, head: u32, tail: u32) -> u64 {
    (tail as u64 + n as u64 - head as u64) % n as u64
}

/// "free = N - 1 - used"
pub fn free(n: usize, head: u32, tail: u32) -> u64 {
    n as u64 - 1 - used(n, head, tail)
}

/// "made for this N, its own offset is below N"
fn in_place(state: &State, n: usize) -> bool {
    state.n as u64 == n as u64 && (state.own as u64) < n as u64
}

/// A state that may look or start a whole call, on either side.
pub fn fits_idle(state: &State, n: usize) -> bool {
    in_place(state, n)
        && state.len == 0
        && state.moved == 0
        && state.copy.iter().all(|&dword| dword == 0)
}

/// A sender's state that may go on: "L from 2 to 256 for a send, [...] moved
/// at most L, L agreeing with its copied header, and for a send a well-formed
/// copy". Places past the message are not judged.
pub fn fits_sending(state: &State, n: usize) -> bool {
    in_place(state, n)
        && (2..=256).contains(&state.len)
        && state.moved <= state.len
        && state.len == total_length(state.copy[0])
        && well_formed(state.copy[0], state.copy[1])
}

/// A receiver's state that may go on: L "1 to 256 for a receive, moved at most
/// L (for a receive at least 1), L agreeing with its copied header". Places
/// past `moved` are not judged.
pub fn fits_receiving(state: &State, n: usize) -> bool {
    in_place(state, n)
        && (1..=256).contains(&state.len)
        && (1..=state.len).contains(&state.moved)
        && state.len == total_length(state.copy[0])
}

/// Numbers 1, 2 and 3, which every step and whole call judges first.
fn judge_lent(desc: &[u32], buf: &[u32], fits: impl Fn(usize) -> bool) -> u32 {
    if desc.len() != 16 {
        1
    } else if !allowed(buf.len()) {
        2
    } else if !fits(buf.len()) {
        3
    } else {
        0
    }
}

/// Numbers 6, 7 and 8 of a look, with the STATUS that 7 and 8 leave. `place`
/// is TAIL for the sender and HEAD for the receiver.
fn judge_ring(own: u32, desc: &mut [u32], n: usize, place: usize) -> u32 {
    if desc[STATUS] != 0 {
        return 6;
    }
    if desc[HEAD] as u64 >= n as u64 || desc[TAIL] as u64 >= n as u64 {
        desc[STATUS] = 1;
        return 7;
    }
    if own != desc[place] {
        desc[STATUS] = 4;
        return 8;
    }
    0
}

/// The dword's place: "(own + k) mod N", for an own offset below N.
fn place(own: u32, k: u32, n: usize) -> usize {
    ((own as u64 + k as u64) % n as u64) as usize
}

/// "After publish the state is idle with the new own offset, and its copy is
/// all zeros."
fn past_message(state: &State, n: usize) -> State {
    State::idle(state.n, place(state.own, state.len, n) as u32)
}

/// "Opening zeroes the descriptor, leaves the buffer, and gives both sides
/// idle states with own offset 0. It refuses by 1, then 2, and then gives two
/// all-zero states". Answers the number, the sender's and the receiver's state.
pub fn open(desc: &mut [u32], buf: &[u32]) -> (u32, State, State) {
    let code = judge_lent(desc, buf, |_| true);
    if code != 0 {
        return (code, State::ZERO, State::ZERO);
    }
    desc.fill(0);
    let state = State::idle(buf.len() as u32, 0);
    (0, state, state)
}
