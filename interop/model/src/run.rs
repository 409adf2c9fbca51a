//! Runs generated inputs: single calls on arbitrary states (`Case`) and lists
//! of operations on a channel (`Channel`).

use crate::channel::*;
use crate::plain::{Operation, Reply};

/// Which function a case calls. Those on `Two` are the ones for sides that make
/// whole calls only.
#[derive(Clone, Copy, Debug, PartialEq, Eq, Hash)]
pub enum Op {
    SendLook,
    SendMove,
    SendMoveAll,
    SendPublish,
    SendWhole,
    SendTwo,
    ReceiveLook,
    ReceiveMove,
    ReceiveMoveAll,
    ReceivePublish,
    ReceiveWhole,
    ReceiveTwo,
    Open,
    OpenTwo,
}

impl Op {
    pub const ALL: [Op; 14] = [
        Op::SendLook,
        Op::SendMove,
        Op::SendMoveAll,
        Op::SendPublish,
        Op::SendWhole,
        Op::SendTwo,
        Op::ReceiveLook,
        Op::ReceiveMove,
        Op::ReceiveMoveAll,
        Op::ReceivePublish,
        Op::ReceiveWhole,
        Op::ReceiveTwo,
        Op::Open,
        Op::OpenTwo,
    ];

    /// Whether it is the sender's.
    pub fn sends(self) -> bool {
        use Op::*;
        matches!(self, SendLook | SendMove | SendMoveAll | SendPublish | SendWhole | SendTwo)
    }

    /// Whether it goes on with an active state (moves or a publish).
    pub fn goes_on(self) -> bool {
        self.moves() || matches!(self, Op::SendPublish | Op::ReceivePublish)
    }

    /// Whether it moves dwords of an active state.
    pub fn moves(self) -> bool {
        use Op::*;
        matches!(self, SendMove | SendMoveAll | ReceiveMove | ReceiveMoveAll)
    }

    /// Whether it is an opening.
    pub fn opens(self) -> bool {
        matches!(self, Op::Open | Op::OpenTwo)
    }

    /// Whether its side is one of two words.
    pub fn on_two(self) -> bool {
        matches!(self, Op::SendTwo | Op::ReceiveTwo | Op::OpenTwo)
    }
}

/// A call with everything it is lent. Calls that take no message or output
/// don't look at those fields; of a side of two words the state is the idle one
/// that it stands for.
#[derive(Clone, Debug, PartialEq, Eq)]
pub struct Case {
    pub op: Op,
    pub state: State,
    pub desc: Vec<u32>,
    pub buf: Vec<u32>,
    pub msg: Vec<u32>,
    pub out: Vec<u32>,
}

impl Case {
    /// Makes the call on the case's own memory. Opening answers the sender's
    /// state; the receiver's is the same.
    pub fn run(&mut self) -> Answer {
        let Case { op, state, desc, buf, msg, out } = self;
        let two = [state.n, state.own];
        match op {
            Op::SendLook => send_look(state, desc, buf, msg),
            Op::SendMove => send_move(state, desc, buf),
            Op::SendMoveAll => send_move_all(state, desc, buf),
            Op::SendPublish => send_publish(state, desc, buf),
            Op::SendWhole => send_whole(state, desc, buf, msg),
            Op::SendTwo => in_full(two_send(&two, desc, buf, msg)),
            Op::ReceiveLook => receive_look(state, desc, buf),
            Op::ReceiveMove => receive_move(state, desc, buf),
            Op::ReceiveMoveAll => receive_move_all(state, desc, buf),
            Op::ReceivePublish => receive_publish(state, desc, buf, out),
            Op::ReceiveWhole => receive_whole(state, desc, buf, out),
            Op::ReceiveTwo => in_full(two_receive(&two, desc, buf, out)),
            Op::Open => opened(open(desc, buf)),
            Op::OpenTwo => {
                let (code, sender, receiver) = two_open(desc, buf);
                opened((code, state_of(&sender), state_of(&receiver)))
            }
        }
    }
}

fn opened((code, sender, receiver): (u32, State, State)) -> Answer {
    assert_eq!(sender, receiver);
    Answer { code, len: 0, next: sender }
}

/// An answer on two words with the state that they stand for.
fn in_full(answer: TwoAnswer) -> Answer {
    Answer { code: answer.code, len: answer.len, next: state_of(&answer.next) }
}

/// One side of a channel.
#[derive(Clone, Copy, Debug, PartialEq, Eq)]
pub enum Side {
    Steps(State),
    Two(Two),
}

impl Side {
    /// An idle side of either kind, for any N at any offset.
    pub fn idle(two: bool, n: u32, own: u32) -> Side {
        if two {
            Side::Two([n, own])
        } else {
            Side::Steps(State::idle(n, own))
        }
    }

    pub fn own(&self) -> u32 {
        match self {
            Side::Steps(state) => state.own,
            Side::Two(words) => words[1],
        }
    }

    pub fn is_two(&self) -> bool {
        matches!(self, Side::Two(_))
    }
}

/// A channel, its memory and both sides.
#[derive(Clone, Debug)]
pub struct Channel {
    pub desc: Vec<u32>,
    pub buf: Vec<u32>,
    pub sender: Side,
    pub receiver: Side,
}

/// A send's operation on two words; steps have none.
fn send_on_two(two: &mut Two, desc: &mut [u32], buf: &mut [u32], operation: &Operation) -> Reply {
    let answer = match operation {
        Operation::SendWhole(message) => two_send(two, desc, buf, message),
        _ => panic!("a side of two words makes whole calls only"),
    };
    *two = answer.next;
    Reply { code: answer.code, len: answer.len, output: Vec::new() }
}

fn receive_on_two(two: &mut Two, desc: &mut [u32], buf: &[u32], operation: &Operation) -> Reply {
    let mut output = Vec::new();
    let answer = match operation {
        Operation::ReceiveWhole(lent) => {
            output.clone_from(lent);
            two_receive(two, desc, buf, &mut output)
        }
        _ => panic!("a side of two words makes whole calls only"),
    };
    *two = answer.next;
    Reply { code: answer.code, len: answer.len, output }
}

/// The same on a state.
fn on_state(state: &mut State, desc: &mut [u32], buf: &mut [u32], operation: &Operation) -> Reply {
    let mut output = match operation {
        Operation::ReceivePublish(lent) | Operation::ReceiveWhole(lent) => lent.clone(),
        _ => Vec::new(),
    };
    let answer = match operation {
        Operation::SendLook(message) => send_look(state, desc, buf, message),
        Operation::SendMove => send_move(state, desc, buf),
        Operation::SendMoveAll => send_move_all(state, desc, buf),
        Operation::SendPublish => send_publish(state, desc, buf),
        Operation::SendWhole(message) => send_whole(state, desc, buf, message),
        Operation::ReceiveLook => receive_look(state, desc, buf),
        Operation::ReceiveMove => receive_move(state, desc, buf),
        Operation::ReceiveMoveAll => receive_move_all(state, desc, buf),
        Operation::ReceivePublish(_) => receive_publish(state, desc, buf, &mut output),
        Operation::ReceiveWhole(_) => receive_whole(state, desc, buf, &mut output),
    };
    *state = answer.next;
    Reply { code: answer.code, len: answer.len, output }
}

impl Channel {
    /// Opens a channel over this buffer, whatever the descriptor held before, with
    /// a sender and a receiver of two words where `two` says so.
    pub fn open(mut desc: Vec<u32>, buf: Vec<u32>, two: [bool; 2]) -> Result<Channel, u32> {
        match open(&mut desc, &buf) {
            (0, sender, receiver) => {
                let sender = Side::idle(two[0], sender.n, sender.own);
                let receiver = Side::idle(two[1], receiver.n, receiver.own);
                Ok(Channel { desc, buf, sender, receiver })
            }
            (code, _, _) => Err(code),
        }
    }

    /// Runs one item of the list through the step functions.
    pub fn apply(&mut self, operation: &Operation) -> Reply {
        let Channel { desc, buf, sender, receiver } = self;
        match if operation.sends() { sender } else { receiver } {
            Side::Steps(state) => on_state(state, desc, buf, operation),
            Side::Two(two) if operation.sends() => send_on_two(two, desc, buf, operation),
            Side::Two(two) => receive_on_two(two, desc, buf, operation),
        }
    }
}
