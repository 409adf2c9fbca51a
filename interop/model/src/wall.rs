//! A wall of requests: T-06 of document 02 with what T-08 changes, written from the
//! papers' words and the header's alone. Here are the answers, the age of a fence
//! and the plain map; the lent table with its records and places is in
//! `wall/table.rs`, which shares no code with the map, so that each can be held
//! against the other. What a list of calls must have set aside is in
//! `wall/history.rs`, which knows neither.
//!
//! The sentences of the papers that the map follows:
//!
//! - "the last fence starts at 65,535"
//! - "picks the next fence, counting up from the last one used and wrapping at
//!   65,536, skipping fences still open [...]; full is 26."
//! - "Opening now takes a request message (malformed or another type: 27) and sends
//!   it whole with the picked fence, read in demand 3 as that whole send; if the
//!   ring refuses, table and last fence stay."
//! - "an opening with more [than 256 reply dwords] is 14"
//! - "A request is refused with 28 exactly when the dwords set aside by all open
//!   requests plus its own exceed that buffer's N - 1."
//! - "the reply buffer's N (one not allowed is 2 in every call)"
//! - "The order is 35, 2, 14, 27, 26, 28, the ring's own."
//! - "A decoded success or failure of any origin with an open fence closes it, busy
//!   adds one to its count (stopping at 65,535), retry closes it and says so."
//! - "An opening answers its fence; a reply, its kind and the request's action and
//!   count (this busy in it)."
//! - "A reply with no open fence, or a message of another type, is 27 and changes
//!   nothing."
//! - "T-06's map now carries this number."
//!
//! Beyond the papers (the header's words): a malformed reply is 4, after 35 and 2
//! and before 27; what stands beside a refusal is 0.

pub mod history;
pub mod table;

use crate::channel::allowed;
use crate::message::unpack;
use crate::plain::Plain;
use std::collections::HashMap;

/// "one not allowed is 2 in every call"
pub const BAD_N: u32 = 2;
/// "an opening with more is 14"
pub const TOO_MUCH: u32 = 14;
/// "full is 26"
pub const FULL: u32 = 26;
/// "A reply with no open fence, or a message of another type, is 27"
pub const NO_REQUEST: u32 = 27;
/// "A request is refused with 28"
pub const NO_REPLY_ROOM: u32 = 28;
/// "Another table length, or two open records with one fence, is 35"
pub const BAD_TABLE: u32 = 35;

/// "the reply dwords set aside for it, 0 to 256"
pub const MOST_ROOM: u32 = 256;

/// The types of document 01's table that can be opened, and those that are replies.
pub const REQUEST: u32 = 0;
pub const BUSY: u32 = 3;
pub const RETRY: u32 = 5;
pub const FAILURE: u32 = 6;
pub const SUCCESS: u32 = 7;

/// A call of a wall: fresh for a reply buffer of so many dwords, a message to send
/// with so many reply dwords to set aside, a received message.
#[derive(Clone, Debug, PartialEq, Eq)]
pub enum Call {
    Fresh(usize),
    Send(Vec<u32>, u32),
    Reply(Vec<u32>),
}

/// What a call answers: the number, an opening's fence, or a reply's kind with the
/// request's action and count. All else is 0.
#[derive(Clone, Copy, Debug, PartialEq, Eq, Default)]
pub struct Answer {
    pub code: u32,
    pub kind: u32,
    pub fence: u16,
    pub action: u16,
    pub count: u16,
}

impl Answer {
    pub fn refused(code: u32) -> Answer {
        Answer { code, ..Answer::default() }
    }

    fn opened(fence: u16) -> Answer {
        Answer { fence, ..Answer::default() }
    }

    fn replied(kind: u32, action: u16, count: u16) -> Answer {
        Answer { kind, action, count, ..Answer::default() }
    }
}

/// "the age of a fence: fence less newest, modulo 65,536, read as a number from
/// -32,768 to 32,767"
pub fn age(fence: u16, newest: u16) -> i32 {
    let less = (65_536 + fence as i32 - newest as i32) % 65_536;
    if less <= 32_767 {
        less
    } else {
        less - 65_536
    }
}

/// A request that is open: its action, its "times answered busy" and "the reply
/// dwords set aside for it".
#[derive(Clone, Copy, Debug, PartialEq, Eq)]
pub struct Request {
    pub action: u16,
    pub count: u16,
    pub room: u16,
}

/// The plain map from fences to requests, with place for as many as the table has
/// records. It has no places and no free records. `n` is the reply buffer's.
#[derive(Clone, Debug)]
pub struct Map {
    pub records: usize,
    pub open: HashMap<u16, Request>,
    pub last: u16,
    pub n: usize,
}

impl Map {
    /// Of a fresh table of so many records.
    pub fn fresh(records: usize, n: usize) -> Map {
        Map { records, open: HashMap::new(), last: 65_535, n }
    }

    /// "the dwords set aside by all open requests"
    pub fn set_aside(&self) -> u64 {
        self.open.values().map(|request| request.room as u64).sum()
    }

    /// What is refused before the ring is asked, or the action of the message.
    fn judge(&self, message: &[u32], room: u32) -> Result<u16, u32> {
        if !allowed(self.n) {
            return Err(BAD_N);
        }
        if room > MOST_ROOM {
            return Err(TOO_MUCH);
        }
        let action = match unpack(message) {
            Ok(decoded) if decoded.kind == REQUEST => decoded.second as u16,
            _ => return Err(NO_REQUEST),
        };
        if self.open.len() == self.records {
            return Err(FULL);
        }
        if self.set_aside() + room as u64 > self.n as u64 - 1 {
            return Err(NO_REPLY_ROOM);
        }
        Ok(action)
    }

    /// An opening, through the plain channel of demand 3.
    pub fn send(&mut self, plain: &mut Plain, message: &[u32], room: u32) -> Answer {
        let action = match self.judge(message, room) {
            Ok(action) => action,
            Err(code) => return Answer::refused(code),
        };
        let mut fence = self.last.wrapping_add(1);
        while self.open.contains_key(&fence) {
            fence = fence.wrapping_add(1);
        }
        let mut sent = message.to_vec();
        sent[0] = sent[0] % 65_536 + fence as u32 * 65_536;
        let code = plain.send_whole(&sent);
        if code != 0 {
            return Answer::refused(code);
        }
        self.open.insert(fence, Request { action, count: 0, room: room as u16 });
        self.last = fence;
        Answer::opened(fence)
    }

    pub fn reply(&mut self, message: &[u32]) -> Answer {
        if !allowed(self.n) {
            return Answer::refused(BAD_N);
        }
        let decoded = match unpack(message) {
            Ok(decoded) => decoded,
            Err(code) => return Answer::refused(code),
        };
        let fence = decoded.fence as u16;
        let request = match (decoded.kind, self.open.get_mut(&fence)) {
            (BUSY | RETRY | FAILURE | SUCCESS, Some(request)) => request,
            _ => return Answer::refused(NO_REQUEST),
        };
        if decoded.kind == BUSY {
            request.count = request.count.saturating_add(1);
        }
        let Request { action, count, .. } = *request;
        if decoded.kind != BUSY {
            self.open.remove(&fence);
        }
        Answer::replied(decoded.kind, action, count)
    }

    /// Makes a call. The table's length is no matter of the map's.
    pub fn apply(&mut self, plain: &mut Plain, call: &Call) -> Answer {
        match call {
            Call::Fresh(n) if !allowed(*n) => Answer::refused(BAD_N),
            Call::Fresh(n) => {
                *self = Map::fresh(self.records, *n);
                Answer::default()
            }
            Call::Send(message, room) => self.send(plain, message, *room),
            Call::Reply(message) => self.reply(message),
        }
    }
}
