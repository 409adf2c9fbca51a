//! Sets of which every member must come up in a run.

mod members;
mod rows;

use crate::edges::calls::TWO_OWNS;
use crate::edges::mail::{self, ADD_FAULTS, BOUNDS, DIRECTIONS, FAULTS, LENGTHS, NUMBERS, PLACES};
use crate::edges::mail::{READ_FAULTS, READ_ROOMS, WRITE_FAULTS, WRITE_ROOMS};
use crate::edges::names::{ONCE, SOUGHT, TWICE};
use crate::edges::orders::{pair_name, FRESH, REPLY, SEND};
use crate::edges::places::{place_name, COPIED, STORED, WHOLE};
use crate::edges::sends::{ASKED, SUMS, SUM_WAYS};
use crate::edges::walls::{self, AGES, COUNTS, DIRT, FLAGGED, HELD, KINDS, LASTS, NEAR, REPLY_NS};
use crate::functions::SLICES;
use crate::guc::constants::*;
pub use members::Members;
pub use rows::SETS;
use std::fmt::Display;

#[derive(Clone, Copy, Debug, PartialEq, Eq)]
pub enum Set {
    HeaderLength,
    NameBit,
    ManifestBit,
    HucBit,
    // `LaterBit`, `Once` and `Twice` have their members for each of `SOUGHT`.
    LaterBit,
    Once,
    Twice,
    TwiceLength,
    ZeroPlace,
    MarkerBit,
    OffsetBit,
    StatusBit,
    HeaderBit,
    Kind,
    SendLength,
    ReceiveLength,
    // Of accepted whole calls.
    SendPlace,
    ReceivePlace,
    WholeSendPlace,
    WholeReceivePlace,
    SendLeft,
    ReceiveLeft,
    WholeSendLeft,
    WholeReceiveLeft,
    SendAround,
    ReceiveAround,
    WholeSendAround,
    WholeReceiveAround,
    // Of calls that make all moves that are left.
    StoreLeft,
    CopyLeft,
    StorePlace,
    CopyPlace,
    // Of sides of two words, each for the sender and the receiver.
    TwoN,
    TwoOwn,
    ListSides,
    Null,
    // Of walls. Those of places, counts and origins have their members for each kind
    // of reply, `TableTwice`, `TableNear` and `FenceBit` for openings and replies.
    Records,
    TableTwice,
    TableNear,
    FenceBit,
    FreshOrders,
    SendOrders,
    ReplyOrders,
    ReplyN,
    AskedRoom,
    Sum,
    SumWay,
    RequestKind,
    RequestBit,
    WallStatusBit,
    WallSendLength,
    WallSendPlace,
    WallSendLeft,
    WallSendAround,
    Skipped,
    LastFence,
    FreePlace,
    Dirt,
    FlagBit,
    ReplyOrigin,
    ReplyPlace,
    ReplyCount,
    ReplyHeld,
    NoReply,
    ListReply,
    Age,
    // Of records to mail home. Faults first, each counted in the report; then those
    // that have their members for adding, writing and reading.
    AddFault,
    WriteFault,
    ReadFault,
    LaidBefore,
    ShortAdd,
    ShortWrite,
    ShortRead,
    KeptLength,
    WrongLength,
    WrongDirection,
    DisagreeingBit,
    UpperBit,
    KeptKind,
    KeptNumber,
    FifthByte,
    LongerForm,
    WideForm,
    UnfinishedBytes,
    AddedPlace,
    WriteRoom,
    ReadRoom,
    Bound,
    // From here on the members are `TYPES`, of accepted messages.
    Packed,
    Unpacked,
    SendLook,
    Send,
    WholeSend,
    ReceivePublish,
    Receive,
    WholeReceive,
    ListSent,
    ListReceived,
}

/// Kinds of the sender and the receiver in lists.
const SIDES: [&str; 4] =
    ["both of 260 words", "receiver of two", "sender of two", "both of two words"];

/// Calls of a wall that judge the whole table.
const JUDGED: [&str; 2] = ["opening", "reply"];

/// Calls of a wall.
const CALLS: [&str; 3] = ["fresh", "opening", "reply"];

/// Origins of a reply.
const ORIGINS: [&str; 2] = ["host", "GuC"];

/// The types of the table by name. Not the model's list: that could lack one.
pub const TYPES: [(u32, &str); 7] = [
    (GUC_TYPE_REQUEST, "request"),
    (GUC_TYPE_EVENT, "event"),
    (GUC_TYPE_FAST_REQUEST, "fast request"),
    (GUC_TYPE_BUSY, "busy"),
    (GUC_TYPE_RETRY, "retry"),
    (GUC_TYPE_FAILURE, "failure"),
    (GUC_TYPE_SUCCESS, "success"),
];

/// A member of a set that has these words or numbers for each of others.
fn each_of<T: Display>(each: &[&str], words: &[T], index: usize) -> String {
    format!("{}: {}", each[index / words.len()], words[index % words.len()])
}

impl Set {
    /// Whether its members are `TYPES`.
    pub fn of_types(self) -> bool {
        self as usize >= Set::Packed as usize
    }

    /// Whether its members are what is wrong beside a 29.
    pub fn of_faults(self) -> bool {
        (Set::AddFault as usize..=Set::ShortRead as usize).contains(&(self as usize))
    }

    /// A member by name.
    pub fn member(self, index: usize) -> String {
        match self {
            Set::Once => each_of(&SOUGHT, &ONCE, index),
            Set::Twice => each_of(&SOUGHT, &TWICE, index),
            Set::TableTwice => each_of(&JUDGED, &walls::TWICE, index),
            Set::TableNear => each_of(&JUDGED, &NEAR, index),
            Set::FreshOrders => pair_name(&FRESH, index),
            Set::SendOrders => pair_name(&SEND, index),
            Set::ReplyOrders => pair_name(&REPLY, index),
            Set::ReplyN => each_of(&CALLS, &REPLY_NS, index),
            Set::AskedRoom => ASKED[index].to_string(),
            Set::Sum => format!("N {}: {}", 1024 * (1 + index / SUMS.len()), SUMS[index % 3]),
            Set::SumWay => SUM_WAYS[index].to_string(),
            Set::RequestKind => format!("type {}: {}", index / 2, ORIGINS[index % 2]),
            Set::LastFence => LASTS[index].to_string(),
            Set::Dirt => DIRT[index].to_string(),
            Set::FlagBit => format!("{}: bit {}", FLAGGED[index / 16], index % 16),
            Set::ReplyOrigin => each_of(&KINDS, &ORIGINS, index),
            Set::ReplyPlace => format!("{}: {}", KINDS[index / 256], index % 256),
            Set::ReplyCount => each_of(&KINDS, &COUNTS, index),
            Set::ReplyHeld => each_of(&KINDS, &HELD, index),
            Set::NoReply => each_of(&["request", "event", "fast request"], &ORIGINS, index),
            Set::ListReply => KINDS[index].to_string(),
            Set::Age => AGES[index].to_string(),
            Set::SendPlace | Set::ReceivePlace | Set::WallSendPlace => place_name(&WHOLE, index),
            Set::WholeSendPlace | Set::WholeReceivePlace => place_name(&WHOLE, index),
            Set::StorePlace => place_name(&STORED, index),
            Set::CopyPlace => place_name(&COPIED, index),
            Set::TwoOwn => TWO_OWNS[index % TWO_OWNS.len()].to_string(),
            Set::ListSides => SIDES[index].to_string(),
            Set::Null => format!("{:?} of {:?}", SLICES[index].1, SLICES[index].0),
            _ if self.of_mail() => self.mail_member(index),
            _ if self.of_types() => TYPES[index].1.to_string(),
            _ => index.to_string(),
        }
    }

    /// Whether it is one of records to mail home.
    fn of_mail(self) -> bool {
        (Set::AddFault as usize..=Set::Bound as usize).contains(&(self as usize))
    }

    /// A member of one of those by name.
    fn mail_member(self, index: usize) -> String {
        match self {
            Set::AddFault | Set::ShortAdd => ADD_FAULTS[index].to_string(),
            Set::WriteFault | Set::ShortWrite => WRITE_FAULTS[index].to_string(),
            Set::ReadFault => READ_FAULTS[index].to_string(),
            Set::LaidBefore => each_of(&FAULTS[1..], &["nothing laid", "messages laid"], index),
            Set::ShortRead => FAULTS[index].to_string(),
            Set::KeptLength => format!("{}: {}", mail::CALLS[index / 256], 1 + index % 256),
            Set::WrongLength => each_of(&mail::CALLS, &LENGTHS, index),
            Set::WrongDirection => each_of(&mail::CALLS, &DIRECTIONS, index),
            Set::DisagreeingBit => format!("{}: bit {}", mail::CALLS[index / 8], index % 8),
            Set::UpperBit => format!("{}: bit {}", mail::CALLS[index / 24], 8 + index % 24),
            Set::KeptKind => format!("{}: type {}", mail::CALLS[index / 8], index % 8),
            Set::KeptNumber => each_of(&mail::CALLS[1..], &NUMBERS, index),
            Set::AddedPlace => PLACES[index].to_string(),
            Set::WriteRoom => WRITE_ROOMS[index].to_string(),
            Set::ReadRoom => each_of(&["a sound file", "a bad file"], &READ_ROOMS, index),
            Set::Bound => BOUNDS[index].0.to_string(),
            _ => index.to_string(),
        }
    }
}
