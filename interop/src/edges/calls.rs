//! At which boundaries a single channel call stands, worked out from what it is
//! lent, number by number: one counts only where no lower number applies.

use super::messages::{known_type, of_message};
use super::places::{of_left, of_place};
use super::{Edge, Stands};
use crate::sets::Set;
use model::channel::State;
use model::run::{Case, Op};

/// The boundaries of a call before it is made.
pub fn of_call(case: &Case) -> Stands {
    let mut stands = Stands::default();
    let n = case.buf.len() as u64;
    stands.at(Edge::LeastN, n, [1023, 1024]);
    stands.at(Edge::MostN, n, [16384, 16385]);
    stands.at(Edge::NextN, n, [16384, 17408]);
    let allowed = n % 1024 == 0 && (1024..=16384).contains(&n);
    if case.op.opens() || !allowed || !of_state(&mut stands, case, n) {
        return stands;
    }
    match case.op {
        Op::SendLook | Op::SendWhole | Op::SendTwo => {
            let (of_message, well_formed) = of_message(&case.msg);
            stands.add(of_message);
            if well_formed {
                of_look(&mut stands, case, n);
            }
        }
        Op::ReceiveLook => of_look(&mut stands, case, n),
        Op::ReceiveWhole | Op::ReceiveTwo => {
            if of_output(&mut stands, case) {
                of_look(&mut stands, case, n);
            }
        }
        Op::SendMove | Op::ReceiveMove => of_progress(&mut stands, Edge::Move, &case.state),
        Op::SendMoveAll | Op::ReceiveMoveAll => {
            let State { own, len, moved, .. } = case.state;
            let to_end = n - (own + moved) as u64 % n;
            of_left(&mut stands, case.op, (len - moved) as usize, to_end as usize);
        }
        Op::SendPublish => of_progress(&mut stands, Edge::Publish, &case.state),
        Op::ReceivePublish => of_receive_publish(&mut stands, case),
        Op::Open | Op::OpenTwo => {}
    }
    stands
}

/// Numbers 5, 12 and 13 of a receive's publish.
fn of_receive_publish(stands: &mut Stands, case: &Case) {
    let State { len, moved, copy, .. } = &case.state;
    if !of_output(stands, case) {
        return;
    }
    of_progress(stands, Edge::Publish, &case.state);
    if moved == len {
        of_received(stands, copy[0], copy[1]);
    }
}

/// Number 13: the type decides where the header is good. Whether both are.
fn of_received(stands: &mut Stands, header: u32, word: u32) -> bool {
    let good = header & 0xFF00 == 0 && header & 0xFF > 0;
    if good {
        stands.at(Edge::ReceivedType, (!known_type(word)) as u64, [0, 1]);
    }
    good && known_type(word)
}

/// Number 5. Whether it passes.
fn of_output(stands: &mut Stands, case: &Case) -> bool {
    stands.at(Edge::Output, case.out.len() as u64, [255, 256]);
    case.out.len() >= 256
}

/// Number 12.
fn of_progress(stands: &mut Stands, edge: Edge, state: &State) {
    stands.up_to(edge, state.moved as u64, state.len as u64);
}

/// Whether L is in range and agrees with the copied header, which of a send must
/// itself be good.
fn length_agrees(case: &Case) -> bool {
    let header = case.state.copy[0];
    let good = header & 0xFF00 == 0 && header & 0xFF > 0;
    case.state.len == 1 + (header & 0xFF) && (good || !case.op.sends())
}

/// Number 3 of an active state: what has moved, and of a send the copy's type,
/// each where the other fits and the state is `placed`. Whether both do.
fn of_active(stands: &mut Stands, case: &Case, placed: bool) -> bool {
    if !length_agrees(case) {
        return false;
    }
    let (len, moved) = (case.state.len as u64, case.state.moved as u64);
    let least = if case.op.sends() { 0 } else { 1 };
    let moved_fits = (least..=len).contains(&moved);
    let type_fits = !case.op.sends() || known_type(case.state.copy[1]);
    if placed && type_fits {
        stands.at(Edge::StateMoved, moved, [len, len + 1]);
    }
    if placed && least == 1 {
        stands.at(Edge::StateFirst, moved, [0, 1]);
    }
    if placed && moved_fits {
        stands.at(Edge::StateType, (!type_fits) as u64, [0, 1]);
    }
    moved_fits && type_fits
}

/// Own offsets of a side of two words, for this N; members of `TwoOwn` for each
/// side.
fn owns(n: u64) -> [u64; TWO_OWNS.len()] {
    [0, 1, n - 1, n, n + 1, 1 << 31, (1 << 32) - 2, (1 << 32) - 1]
}

/// What there are of these.
pub const TWO_OWNS: [&str; 8] = ["0", "1", "N - 1", "N", "N + 1", "2^31", "2^32 - 2", "2^32 - 1"];

/// The members of a side of two words.
fn of_two(stands: &mut Stands, case: &Case, n: u64) {
    let side = !case.op.sends() as usize;
    let (wrong, own) = (case.state.n ^ n as u32, case.state.own as u64);
    if wrong.count_ones() == 1 && own < n {
        stands.member(Set::TwoN, 32 * side + wrong.trailing_zeros() as usize);
    }
    if let Some(at) = owns(n).iter().position(|one| *one == own && wrong == 0) {
        stands.member(Set::TwoOwn, TWO_OWNS.len() * side + at);
    }
}

/// Number 3: each of a state's words decides only where the others fit.
/// Whether all of them do.
fn of_state(stands: &mut Stands, case: &Case, n: u64) -> bool {
    let State { n: made_for, own, len, moved, copy } = &case.state;
    let (own_fits, n_fits) = ((*own as u64) < n, *made_for as u64 == n);
    if case.op.on_two() {
        of_two(stands, case, n);
    }
    let rest_fits = if case.op.goes_on() {
        of_active(stands, case, own_fits && n_fits)
    } else {
        *len == 0 && *moved == 0 && copy.iter().all(|dword| *dword == 0)
    };
    if rest_fits && n_fits {
        stands.at(Edge::StateOwn, *own as u64, [n - 1, n]);
    }
    if rest_fits && own_fits {
        stands.at(Edge::StateN, (!n_fits) as u64, [0, 1]);
    }
    rest_fits && n_fits && own_fits
}

/// Numbers 6 to 8 of a look, then the rest.
fn of_look(stands: &mut Stands, case: &Case, n: u64) {
    let (head, tail) = (case.desc[0] as u64, case.desc[1] as u64);
    if case.desc[2] != 0 {
        if case.desc[2].count_ones() == 1 {
            stands.member(Set::StatusBit, case.desc[2].trailing_zeros() as usize);
        }
        return;
    }
    if tail < n {
        stands.at(Edge::Head, head, [n - 1, n]);
    }
    if head < n {
        stands.at(Edge::Tail, tail, [n - 1, n]);
    }
    if head >= n || tail >= n {
        return;
    }
    let (own, theirs) = (case.state.own as u64, if case.op.sends() { tail } else { head });
    stands.up_to(Edge::OwnBelow, own, theirs);
    stands.at(Edge::OwnAbove, own, [theirs, theirs + 1]);
    if own == theirs {
        of_lengths(stands, case, n, (tail + n - head) % n);
    }
}

/// Numbers 9, 10 and 11: what is used and free, and L. Then the message's place.
fn of_lengths(stands: &mut Stands, case: &Case, n: u64, used: u64) {
    let left = (n - case.state.own as u64) as usize;
    if case.op.sends() {
        let free = n - 1 - used;
        stands.at(Edge::Free, case.msg.len() as u64, [free, free + 1]);
        if case.msg.len() as u64 == free {
            stands.member(Set::SendLength, case.msg.len() - 2);
        }
        if case.msg.len() as u64 <= free {
            of_place(stands, case.op, case.msg.len(), left);
        }
        return;
    }
    stands.at(Edge::Pending, used, [0, 1]);
    if used > 0 {
        let head = case.desc[0] as usize;
        let (header, word) = (case.buf[head], case.buf[(head + 1) % case.buf.len()]);
        let length = 1 + (header & 0xFF) as u64;
        stands.at(Edge::Used, length, [used, used + 1]);
        if length == used {
            stands.member(Set::ReceiveLength, used as usize - 1);
        }
        if length <= used && of_received(stands, header, word) {
            of_place(stands, case.op, length as usize, left);
        }
    }
}
