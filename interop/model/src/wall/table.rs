//! The lent table of a wall, record by record: what every byte of it is after any
//! call, whatever it held before. From T-06's words:
//!
//! - "a lent table of 1 to 256 request records, each free or open with its fence,
//!   action and times answered busy"
//! - "Another table length, or two open records with one fence, is 35, before all
//!   else."
//! - "A fresh or closed record is free and all zeros; the last fence starts at
//!   65,535."
//! - "picks the next fence [...] and uses the lowest free record; full is 26"
//!
//! from T-08's, "Let the wall's record of a request also hold the reply dwords set
//! aside for it, 0 to 256 (an opening with more is 14), and let the shared state hold
//! the reply buffer's N (one not allowed is 2 in every call)", with its order; and
//! from the header's: "0 in open is free, whatever the others hold; any other number
//! is an open request", "an opening writes 1", "writes at most one record". Making a
//! wall fresh judges the table's length and the new N alone; a busy reply leaves the
//! number in `open` and what is set aside as they are. A lent record may hold any
//! number of reply dwords. The map in `wall.rs` is other code.

use super::{Answer, Call, BAD_N, BAD_TABLE, BUSY, FAILURE, FULL, MOST_ROOM, NO_REPLY_ROOM};
use super::{NO_REQUEST, REQUEST, RETRY, SUCCESS, TOO_MUCH};
use crate::message::{fence, is_message, kind, MALFORMED};
use crate::plain::Operation;
use crate::run::Channel;

/// A record as it lies in the table.
#[derive(Clone, Copy, Debug, PartialEq, Eq, Default)]
pub struct Record {
    pub open: u16,
    pub fence: u16,
    pub action: u16,
    pub count: u16,
    pub room: u16,
}

impl Record {
    pub fn is_open(&self) -> bool {
        self.open != 0
    }
}

/// A table, the last fence that was given out, and N of the reply buffer.
#[derive(Clone, Debug, PartialEq, Eq)]
pub struct Table {
    pub records: Vec<Record>,
    pub last: u16,
    pub n: u16,
}

impl Table {
    /// The records as 16-bit words, five each.
    pub fn words(&self) -> Vec<u16> {
        let each = |r: &Record| [r.open, r.fence, r.action, r.count, r.room];
        self.records.iter().flat_map(each).collect()
    }

    /// The two 16-bit words that the calls share.
    pub fn wall_words(&self) -> [u16; 2] {
        [self.last, self.n]
    }

    pub fn open_records(&self) -> impl Iterator<Item = &Record> {
        self.records.iter().filter(|record| record.is_open())
    }

    fn allowed_length(&self) -> bool {
        (1..=256).contains(&self.records.len())
    }

    fn allowed_n(n: usize) -> bool {
        (1..=16).any(|times| n == 1024 * times)
    }

    /// Whether the table is judged good: any of its calls but fresh asks this first.
    pub fn sound(&self) -> bool {
        if !self.allowed_length() {
            return false;
        }
        let mut fences: Vec<u16> = self.open_records().map(|record| record.fence).collect();
        fences.sort_unstable();
        fences.windows(2).all(|two| two[0] != two[1])
    }

    /// 35 and 2, of the calls that judge the table.
    fn judge(&self) -> Result<(), u32> {
        match (self.sound(), Table::allowed_n(self.n as usize)) {
            (false, _) => Err(BAD_TABLE),
            (true, false) => Err(BAD_N),
            (true, true) => Ok(()),
        }
    }

    pub fn fresh(&mut self, reply_n: usize) -> Answer {
        if !self.allowed_length() {
            return Answer::refused(BAD_TABLE);
        }
        if !Table::allowed_n(reply_n) {
            return Answer::refused(BAD_N);
        }
        self.records.fill(Record::default());
        self.last = 65_535;
        self.n = reply_n as u16;
        Answer::default()
    }

    /// "the dwords set aside by all open requests", over whole numbers.
    pub fn set_aside(&self) -> u64 {
        self.open_records().fold(0, |sum, record| sum + record.room as u64)
    }

    /// How far behind the next fence each open one lies, in order: the first number
    /// that is missing is how many are skipped.
    fn skipped(&self) -> u32 {
        let next = self.last as u32 + 1;
        let behind = |record: &Record| (record.fence as u32 + 65_536 * 2 - next) % 65_536;
        let mut all: Vec<u32> = self.open_records().map(behind).collect();
        all.sort_unstable();
        (0..).zip(&all).take_while(|(place, behind)| place == *behind).count() as u32
    }

    /// "The order is 35, 2, 14, 27, 26, 28, the ring's own": up to 28, or the place of
    /// the record that is taken.
    fn judge_opening(&self, message: &[u32], room: u32) -> Result<usize, u32> {
        self.judge()?;
        if room > MOST_ROOM {
            return Err(TOO_MUCH);
        }
        if !is_message(message) || kind(message[1]) != REQUEST {
            return Err(NO_REQUEST);
        }
        let free = self.records.iter().position(|record| record.open == 0).ok_or(FULL)?;
        let left = (self.n as u64 - 1).checked_sub(self.set_aside());
        match left {
            Some(left) if room as u64 <= left => Ok(free),
            _ => Err(NO_REPLY_ROOM),
        }
    }

    /// An opening: the message goes out by the channel's whole send, with the picked
    /// fence in the place of its own.
    pub fn send(&mut self, channel: &mut Channel, message: &[u32], room: u32) -> Answer {
        let place = match self.judge_opening(message, room) {
            Ok(place) => place,
            Err(code) => return Answer::refused(code),
        };
        let fence = ((self.last as u32 + 1 + self.skipped()) % 65_536) as u16;
        let mut sent = message.to_vec();
        sent[0] = sent[0] & 0xFFFF | (fence as u32) << 16;
        let code = channel.apply(&Operation::SendWhole(sent)).code;
        // "if the ring refuses, table and last fence stay"
        if code != 0 {
            return Answer::refused(code);
        }
        let action = message[1] as u16;
        self.records[place] = Record { open: 1, fence, action, count: 0, room: room as u16 };
        self.last = fence;
        Answer { code: 0, kind: 0, fence, action: 0, count: 0 }
    }

    pub fn reply(&mut self, message: &[u32]) -> Answer {
        if let Err(code) = self.judge() {
            return Answer::refused(code);
        }
        if !is_message(message) {
            return Answer::refused(MALFORMED);
        }
        let (kind, fence) = (kind(message[1]), fence(message[0]));
        let asked = |record: &Record| record.is_open() && record.fence as u32 == fence;
        let place = match self.records.iter().position(asked) {
            Some(place) if [BUSY, RETRY, FAILURE, SUCCESS].contains(&kind) => place,
            _ => return Answer::refused(NO_REQUEST),
        };
        let record = &mut self.records[place];
        let mut answer =
            Answer { code: 0, kind, fence: 0, action: record.action, count: record.count };
        if kind == BUSY {
            answer.count = (record.count as u32 + 1).min(65_535) as u16;
            record.count = answer.count;
        } else {
            *record = Record::default();
        }
        answer
    }

    /// Makes a call; a send goes out by this channel.
    pub fn apply(&mut self, channel: &mut Channel, call: &Call) -> Answer {
        match call {
            Call::Fresh(reply_n) => self.fresh(*reply_n),
            Call::Send(message, room) => self.send(channel, message, *room),
            Call::Reply(message) => self.reply(message),
        }
    }
}
