//! The sender's steps: look, one move per dword, publish; the moves that are left
//! in one call; and the whole send.

use super::{
    fits_idle, fits_sending, free, judge_lent, judge_ring, past_message, place, Answer, State,
    HEAD, TAIL,
};
use crate::message::is_message;

/// "look (judge the message, read STATUS, HEAD, TAIL)"
pub fn send_look(state: &State, desc: &mut [u32], buf: &[u32], msg: &[u32]) -> Answer {
    let n = buf.len();
    let mut code = judge_lent(desc, buf, |n| fits_idle(state, n));
    if code == 0 && !is_message(msg) {
        code = 4;
    }
    if code == 0 {
        code = judge_ring(state.own, desc, n, TAIL);
    }
    // 10: "L exceeds free, at a send's look"
    if code == 0 && msg.len() as u64 > free(n, desc[HEAD], desc[TAIL]) {
        code = 10;
    }
    if code != 0 {
        return Answer::refused(code, state);
    }
    // "a look leaves zeros in the copy's other places"
    let mut next = State { len: msg.len() as u32, moved: 0, copy: [0; 256], ..*state };
    next.copy[..msg.len()].copy_from_slice(msg);
    Answer::accepted(next)
}

/// "store dword k at (own tail + k) mod N, one a step"
pub fn send_move(state: &State, desc: &[u32], buf: &mut [u32]) -> Answer {
    let mut code = judge_lent(desc, buf, |n| fits_sending(state, n));
    // 12: "a move after L"
    if code == 0 && state.moved == state.len {
        code = 12;
    }
    if code != 0 {
        return Answer::refused(code, state);
    }
    buf[place(state.own, state.moved, buf.len())] = state.copy[state.moved as usize];
    Answer::accepted(State { moved: state.moved + 1, ..*state })
}

/// "Every dword that is left: what that many guc_send_store do, one after another
/// [...]; where none is left, nothing." (the header)
pub fn send_move_all(state: &State, desc: &[u32], buf: &mut [u32]) -> Answer {
    let code = judge_lent(desc, buf, |n| fits_sending(state, n));
    if code != 0 {
        return Answer::refused(code, state);
    }
    let mut answer = Answer::accepted(*state);
    while answer.next.moved < answer.next.len {
        answer = send_move(&answer.next, desc, buf);
        assert_eq!(answer.code, 0, "a send that goes on moves each dword");
    }
    answer
}

/// "publish TAIL = (own tail + L) mod N"
pub fn send_publish(state: &State, desc: &mut [u32], buf: &[u32]) -> Answer {
    let mut code = judge_lent(desc, buf, |n| fits_sending(state, n));
    // 12: "publish before L dwords moved"
    if code == 0 && state.moved < state.len {
        code = 12;
    }
    if code != 0 {
        return Answer::refused(code, state);
    }
    let next = past_message(state, buf.len());
    desc[TAIL] = next.own;
    Answer::accepted(next)
}

/// "A whole send [...] that 1 to 5 don't refuse equals its steps run one after
/// another on the lent memory." Its 1 to 4 are those of its look.
pub fn send_whole(state: &State, desc: &mut [u32], buf: &mut [u32], msg: &[u32]) -> Answer {
    let mut answer = send_look(state, desc, buf, msg);
    if answer.code != 0 {
        return answer;
    }
    for _ in 0..answer.next.len {
        answer = send_move(&answer.next, desc, buf);
        assert_eq!(answer.code, 0, "a looked-at send moves each dword");
    }
    send_publish(&answer.next, desc, buf)
}
