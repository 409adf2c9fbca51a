//! The plain channel of the section of that name: a queue of messages, the
//! counts P and R, and for each side whether it is mid-call.

use crate::message::is_message;
use std::collections::VecDeque;

/// One item of demand 3's list: "each step or whole call with its side,
/// message or output".
#[derive(Clone, Debug, PartialEq, Eq)]
pub enum Operation {
    SendLook(Vec<u32>),
    SendMove,
    /// The moves that are left, one after another.
    SendMoveAll,
    SendPublish,
    SendWhole(Vec<u32>),
    ReceiveLook,
    ReceiveMove,
    ReceiveMoveAll,
    ReceivePublish(Vec<u32>),
    ReceiveWhole(Vec<u32>),
}

impl Operation {
    /// Whether it is the sender's.
    pub fn sends(&self) -> bool {
        use Operation::*;
        matches!(self, SendLook(_) | SendMove | SendMoveAll | SendPublish | SendWhole(_))
    }
}

/// The answer to an operation, and the output afterwards (empty if none lent).
#[derive(Clone, Debug, PartialEq, Eq)]
pub struct Reply {
    pub code: u32,
    pub len: u32,
    pub output: Vec<u32>,
}

/// The plain channel.
#[derive(Clone, Debug)]
pub struct Plain {
    n: u64,
    buffer: Vec<u32>,
    queue: VecDeque<Vec<u32>>,
    published: u64,
    released: u64,
    /// Mid-call: k and the send's message.
    sending: Option<(usize, Vec<u32>)>,
    /// Mid-call: k; the message is the queue's first.
    receiving: Option<usize>,
}

impl Plain {
    /// "It is fed N, the buffer as opened": N is the buffer's length.
    pub fn new(buffer: &[u32]) -> Plain {
        Plain {
            n: buffer.len() as u64,
            buffer: buffer.to_vec(),
            queue: VecDeque::new(),
            published: 0,
            released: 0,
            sending: None,
            receiving: None,
        }
    }

    /// "HEAD is R mod N"
    pub fn head(&self) -> u32 {
        (self.released % self.n) as u32
    }

    /// "TAIL P mod N"
    pub fn tail(&self) -> u32 {
        (self.published % self.n) as u32
    }

    /// "HEAD is R mod N, TAIL P mod N, the other descriptor words 0."
    pub fn descriptor(&self) -> [u32; 16] {
        let mut desc = [0; 16];
        desc[0] = self.head();
        desc[1] = self.tail();
        desc
    }

    pub fn buffer(&self) -> &[u32] {
        &self.buffer
    }

    pub fn queue(&self) -> &VecDeque<Vec<u32>> {
        &self.queue
    }

    /// P
    pub fn published(&self) -> u64 {
        self.published
    }

    /// R
    pub fn released(&self) -> u64 {
        self.released
    }

    /// N - 1 - (P - R)
    pub fn free(&self) -> u64 {
        self.n - 1 - (self.published - self.released)
    }

    /// k and L of the send under way.
    pub fn sending(&self) -> Option<(usize, usize)> {
        self.sending.as_ref().map(|(k, message)| (*k, message.len()))
    }

    /// k and L of the receive under way.
    pub fn receiving(&self) -> Option<(usize, usize)> {
        self.receiving.map(|k| (k, self.queue[0].len()))
    }

    /// "Look: 3 if mid-call. Send: 4 if malformed, 10 if L exceeds
    /// N - 1 - (P - R), else k = 0."
    pub fn send_look(&mut self, message: &[u32]) -> u32 {
        if self.sending.is_some() {
            return 3;
        }
        if !is_message(message) {
            return 4;
        }
        if message.len() as u64 > self.free() {
            return 10;
        }
        self.sending = Some((0, message.to_vec()));
        0
    }

    /// "Receive: 11 on an empty queue, else k = 1, L its first message's."
    pub fn receive_look(&mut self) -> u32 {
        if self.receiving.is_some() {
            return 3;
        }
        if self.queue.is_empty() {
            return 11;
        }
        self.receiving = Some(1);
        0
    }

    /// "Move: 3 if not mid-call, 12 if k = L. A send stores dword k at
    /// (P + k) mod N. k grows by 1."
    pub fn send_move(&mut self) -> u32 {
        let (k, message) = match &mut self.sending {
            Some(call) => (&mut call.0, &call.1),
            None => return 3,
        };
        if *k == message.len() {
            return 12;
        }
        let at = (self.published + *k as u64) % self.n;
        self.buffer[at as usize] = message[*k];
        *k += 1;
        0
    }

    /// As many moves as are left, which may be none; 3 if not mid-call.
    pub fn send_move_all(&mut self) -> u32 {
        if self.sending.is_none() {
            return 3;
        }
        while self.send_move() == 0 {}
        0
    }

    /// A receive's move.
    pub fn receive_move(&mut self) -> u32 {
        let (k, length) = match self.receiving() {
            Some(call) => call,
            None => return 3,
        };
        if k == length {
            return 12;
        }
        self.receiving = Some(k + 1);
        0
    }

    /// As a send's.
    pub fn receive_move_all(&mut self) -> u32 {
        if self.receiving.is_none() {
            return 3;
        }
        while self.receive_move() == 0 {}
        0
    }

    /// "Publish: 3 if not mid-call; [...] 12 if k is below L. Send: the message
    /// joins the queue, P grows by L."
    pub fn send_publish(&mut self) -> u32 {
        let (k, message) = match &self.sending {
            Some((k, message)) => (k, message),
            None => return 3,
        };
        if *k < message.len() {
            return 12;
        }
        self.published += message.len() as u64;
        self.queue.push_back(message.clone());
        self.sending = None;
        0
    }

    /// "a receive 5 on a short output"; "Receive: the queue's first goes to
    /// the output's front, R grows by L." Answers the number and L.
    pub fn receive_publish(&mut self, output: &mut [u32]) -> (u32, u32) {
        let (k, length) = match self.receiving() {
            Some(call) => call,
            None => return (3, 0),
        };
        if output.len() < 256 {
            return (5, 0);
        }
        if k < length {
            return (12, 0);
        }
        output[..length].copy_from_slice(&self.queue[0]);
        self.queue.pop_front();
        self.released += length as u64;
        self.receiving = None;
        (0, length as u32)
    }

    /// "Whole call: 3 if mid-call; [...] else look, moves and publish at once,
    /// or the look's refusal."
    pub fn send_whole(&mut self, message: &[u32]) -> u32 {
        let code = self.send_look(message);
        if code != 0 {
            return code;
        }
        for _ in 0..message.len() {
            self.send_move();
        }
        self.send_publish()
    }

    /// "Whole call: 3 if mid-call; a receive 5; else [...]"
    pub fn receive_whole(&mut self, output: &mut [u32]) -> (u32, u32) {
        if self.receiving.is_some() {
            return (3, 0);
        }
        if output.len() < 256 {
            return (5, 0);
        }
        let code = self.receive_look();
        if code != 0 {
            return (code, 0);
        }
        self.receiving = Some(self.queue[0].len());
        self.receive_publish(output)
    }

    /// Runs one item of the list.
    pub fn apply(&mut self, operation: &Operation) -> Reply {
        let mut output = Vec::new();
        let (code, len) = match operation {
            Operation::SendLook(message) => (self.send_look(message), 0),
            Operation::SendMove => (self.send_move(), 0),
            Operation::SendMoveAll => (self.send_move_all(), 0),
            Operation::SendPublish => (self.send_publish(), 0),
            Operation::SendWhole(message) => (self.send_whole(message), 0),
            Operation::ReceiveLook => (self.receive_look(), 0),
            Operation::ReceiveMove => (self.receive_move(), 0),
            Operation::ReceiveMoveAll => (self.receive_move_all(), 0),
            Operation::ReceivePublish(lent) => {
                output.clone_from(lent);
                self.receive_publish(&mut output)
            }
            Operation::ReceiveWhole(lent) => {
                output.clone_from(lent);
                self.receive_whole(&mut output)
            }
        };
        Reply { code, len, output }
    }
}
