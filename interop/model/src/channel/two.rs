//! Sides of two words, N and the own offset, which make whole calls only. From
//! the header: "Between them it is always idle, so that these two words are all of
//! it", and their calls "answer and change what guc_open, guc_send and guc_receive
//! do; 3 means here only that the side was made for another N, or that its own
//! offset is not below N".

use super::{open, receive_whole, send_whole, Answer, State};

/// N and the own offset. Both may be any number.
pub type Two = [u32; 2];

/// What a whole call on two words hands back.
#[derive(Clone, Copy, Debug, PartialEq, Eq)]
pub struct TwoAnswer {
    pub code: u32,
    pub len: u32,
    pub next: Two,
}

/// The idle state that two words stand for.
pub fn state_of(side: &Two) -> State {
    State::idle(side[0], side[1])
}

/// The two words of a state, which must be idle.
fn words_of(state: &State) -> Two {
    let side = [state.n, state.own];
    assert_eq!(*state, state_of(&side), "a whole call leaves an idle side");
    side
}

fn answer_of(answer: &Answer) -> TwoAnswer {
    TwoAnswer { code: answer.code, len: answer.len, next: words_of(&answer.next) }
}

pub fn two_open(desc: &mut [u32], buf: &[u32]) -> (u32, Two, Two) {
    let (code, sender, receiver) = open(desc, buf);
    (code, words_of(&sender), words_of(&receiver))
}

pub fn two_send(side: &Two, desc: &mut [u32], buf: &mut [u32], msg: &[u32]) -> TwoAnswer {
    answer_of(&send_whole(&state_of(side), desc, buf, msg))
}

pub fn two_receive(side: &Two, desc: &mut [u32], buf: &[u32], out: &mut [u32]) -> TwoAnswer {
    answer_of(&receive_whole(&state_of(side), desc, buf, out))
}
