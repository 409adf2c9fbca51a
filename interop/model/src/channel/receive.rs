//! The receiver's steps: look, one move per further dword, publish; the moves
//! that are left in one call; and the whole receive.

use super::{
    fits_idle, fits_receiving, judge_lent, judge_ring, past_message, place, used, Answer, State,
    HEAD, STATUS, TAIL,
};
use crate::message::{is_message, total_length};

/// "look (read STATUS, HEAD, TAIL and, if not empty, the header, which counts
/// as the first dword copied)"
pub fn receive_look(state: &State, desc: &mut [u32], buf: &[u32]) -> Answer {
    let n = buf.len();
    let mut code = judge_lent(desc, buf, |n| fits_idle(state, n));
    if code == 0 {
        code = judge_ring(state.own, desc, n, HEAD);
    }
    if code != 0 {
        return Answer::refused(code, state);
    }
    let pending = used(n, desc[HEAD], desc[TAIL]);
    if pending == 0 {
        return Answer::refused(11, state); // "nothing pending"
    }
    let header = buf[desc[HEAD] as usize];
    let len = total_length(header);
    if len as u64 > pending {
        desc[STATUS] = 2; // 9: "ring not empty and L exceeds used"
        return Answer::refused(9, state);
    }
    // "a look leaves zeros in the copy's other places"
    let mut next = State { len, moved: 1, copy: [0; 256], ..*state };
    next.copy[0] = header;
    Answer::accepted(next)
}

/// "copy the others one a step"
pub fn receive_move(state: &State, desc: &[u32], buf: &[u32]) -> Answer {
    let mut code = judge_lent(desc, buf, |n| fits_receiving(state, n));
    // 12: "a move after L"
    if code == 0 && state.moved == state.len {
        code = 12;
    }
    if code != 0 {
        return Answer::refused(code, state);
    }
    let mut next = State { moved: state.moved + 1, ..*state };
    next.copy[state.moved as usize] = buf[place(state.own, state.moved, buf.len())];
    Answer::accepted(next)
}

/// "Every dword that is left: what that many guc_receive_copy do, one after another
/// [...]; where none is left, as after the look at a message of one dword, nothing."
/// (the header)
pub fn receive_move_all(state: &State, desc: &[u32], buf: &[u32]) -> Answer {
    let code = judge_lent(desc, buf, |n| fits_receiving(state, n));
    if code != 0 {
        return Answer::refused(code, state);
    }
    let mut answer = Answer::accepted(*state);
    while answer.next.moved < answer.next.len {
        answer = receive_move(&answer.next, desc, buf);
        assert_eq!(answer.code, 0, "a receive that goes on moves each dword");
    }
    answer
}

/// "publish HEAD = (own head + L) mod N and lay the L dwords at the front of
/// the output, the rest of it unchanged. The copied message is judged at
/// publish and the ring isn't read again for it. Malformed: HEAD moves all the
/// same, the output stays, the answer is 13."
pub fn receive_publish(state: &State, desc: &mut [u32], buf: &[u32], out: &mut [u32]) -> Answer {
    let mut code = judge_lent(desc, buf, |n| fits_receiving(state, n));
    if code == 0 && out.len() < 256 {
        code = 5;
    }
    // 12: "publish before L dwords moved"
    if code == 0 && state.moved < state.len {
        code = 12;
    }
    if code != 0 {
        return Answer::refused(code, state);
    }
    let next = past_message(state, buf.len());
    desc[HEAD] = next.own;
    let message = &state.copy[..state.len as usize];
    if !is_message(message) {
        return Answer { code: 13, len: 0, next };
    }
    out[..message.len()].copy_from_slice(message);
    Answer { code: 0, len: state.len, next }
}

/// "A whole [...] receive that 1 to 5 don't refuse equals its steps run one
/// after another on the lent memory." Judges 1, 2, 3, 5, then as its look.
pub fn receive_whole(state: &State, desc: &mut [u32], buf: &[u32], out: &mut [u32]) -> Answer {
    let mut code = judge_lent(desc, buf, |n| fits_idle(state, n));
    if code == 0 && out.len() < 256 {
        code = 5;
    }
    if code != 0 {
        return Answer::refused(code, state);
    }
    let mut answer = receive_look(state, desc, buf);
    if answer.code != 0 {
        return answer;
    }
    for _ in 1..answer.next.len {
        answer = receive_move(&answer.next, desc, buf);
        assert_eq!(answer.code, 0, "a looked-at receive moves each dword");
    }
    receive_publish(&answer.next, desc, buf, out)
}
