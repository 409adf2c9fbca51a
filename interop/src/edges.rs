//! The paper's boundaries: the two neighbouring values on either side of each,
//! which of them is refused and by what. `edges/` works out from an input alone
//! at which of them it stands; a side that no input stood at fails the run.

pub mod calls;
pub mod directories;
pub mod images;
pub mod mail;
pub mod mail_files;
pub mod mail_runs;
pub mod messages;
pub mod names;
pub mod orders;
pub mod places;
mod records;
pub mod sends;
mod stands;
pub mod walls;

use crate::functions::Fun;
pub use stands::Stands;

/// Stands beside the numbers for "accepted, but truncated".
pub const TRUNCATED: u32 = 1000;

/// A boundary, by what is measured.
#[derive(Clone, Copy, Debug, PartialEq, Eq)]
pub enum Edge {
    LeastN,
    MostN,
    NextN,
    StateN,
    StateOwn,
    StateMoved,
    StateFirst,
    StateType,
    MessageBelow,
    MessageAbove,
    NumDwords,
    MessageType,
    Output,
    Head,
    Tail,
    OwnBelow,
    OwnAbove,
    Used,
    Free,
    Pending,
    Publish,
    Move,
    ReceivedType,
    PackOrigin,
    PackFence,
    PackNone,
    PackMost,
    PackFirst,
    PackOnly,
    PackSecond,
    PackNothing,
    PackType,
    PackWide,
    RecordsNone,
    RecordsMost,
    FenceTwice,
    LeastReplyN,
    MostReplyN,
    NextReplyN,
    AskedRoom,
    RequestBelow,
    RequestAbove,
    RequestNone,
    RequestType,
    FreeRecords,
    SetAside,
    ReplyFence,
    ReplyType,
    RecordDirection,
    RecordNone,
    RecordMost,
    RecordBelow,
    RecordAbove,
    RunEnd,
    FileEnd,
    FormEnd,
    FormTop,
    FormBytes,
    AddRoom,
    WriteRoom,
    ReadRoom,
    Which,
    Room,
    CssBytes,
    CssBelow,
    CssAbove,
    CssRsa,
    CssSize,
    CssEnd,
    CssFull,
    NameNone,
    NameLong,
    CpdBytes,
    CpdHeader,
    CpdEntries,
    CpdNone,
    CpdTwice,
    CpdEnd,
    OffsetBit,
    Manifest,
}

/// A boundary's name, its two sides in words, the number that refuses one of
/// them, which one, and the functions that must meet both.
pub struct Boundary {
    pub edge: Edge,
    pub name: &'static str,
    pub sides: [&'static str; 2],
    pub number: u32,
    pub refused: usize,
    pub funs: &'static [Fun],
}

/// The first side is the refused one.
const BELOW: usize = 0;
/// The second is.
const ABOVE: usize = 1;

use Fun::*;
const CHANNEL: &[Fun] = &[
    Open,
    SendLook,
    SendStore,
    SendStoreAll,
    SendPublish,
    Send,
    ReceiveLook,
    ReceiveCopy,
    ReceiveCopyAll,
    ReceivePublish,
    Receive,
    WholeOpen,
    WholeSend,
    WholeReceive,
    WallSend,
];
const WITH_STATE: &[Fun] = &[
    SendLook,
    SendStore,
    SendStoreAll,
    SendPublish,
    Send,
    ReceiveLook,
    ReceiveCopy,
    ReceiveCopyAll,
    ReceivePublish,
    Receive,
    WholeSend,
    WholeReceive,
    WallSend,
];
const LOOKS: &[Fun] = &[SendLook, Send, WholeSend, WallSend, ReceiveLook, Receive, WholeReceive];
const SENDS: &[Fun] = &[SendLook, Send, WholeSend, WallSend];
const RECEIVES: &[Fun] = &[ReceiveLook, Receive, WholeReceive];
const MOVES: &[Fun] = &[SendStore, ReceiveCopy];
const PUBLISHES: &[Fun] = &[SendPublish, ReceivePublish];
const GOING_ON: &[Fun] =
    &[SendStore, SendStoreAll, SendPublish, ReceiveCopy, ReceiveCopyAll, ReceivePublish];
const STORING: &[Fun] = &[SendStore, SendStoreAll, SendPublish];
const COPYING: &[Fun] = &[ReceiveCopy, ReceiveCopyAll, ReceivePublish];
const LAYING: &[Fun] = &[ReceivePublish, Receive, WholeReceive];
const MESSAGES: &[Fun] = &[SendLook, Send, WholeSend, Unpack, WallReply];
const TABLES: &[Fun] = &[WallFresh, WallSend, WallReply];
const JUDGED: &[Fun] = &[WallSend, WallReply];
const KEPT: &[Fun] = &[RecordAdd, RecordWrite, RecordRead];
const PARTS: &[Fun] = &[CssPart, CssCopy, HucPart, HucCopy];
const COPIES: &[Fun] = &[CssCopy, CpdCopy, HucCopy];
const IMAGES: &[Fun] =
    &[CssAnswer, CssPart, CssCopy, CssVersion, HucAnswer, HucPart, HucCopy, HucVersion];
const SHOWN: &[Fun] = &[CssAnswer, CssPart, CssCopy, HucAnswer, HucPart, HucCopy];
const NAMED: &[Fun] = &[CpdPart, CpdCopy];
const DIRECTORIES: &[Fun] =
    &[CpdPart, CpdCopy, ManifestVersion, HucAnswer, HucPart, HucCopy, HucVersion];

const fn row(
    edge: Edge,
    name: &'static str,
    sides: [&'static str; 2],
    (number, refused): (u32, usize),
    funs: &'static [Fun],
) -> Boundary {
    Boundary { edge, name, sides, number, refused, funs }
}

/// All of them, in the order of `Edge`.
#[rustfmt::skip]
pub const BOUNDARIES: [Boundary; 80] = [
    row(Edge::LeastN, "N", ["1,023", "1,024"], (2, BELOW), CHANNEL),
    row(Edge::MostN, "N", ["16,384", "16,385"], (2, ABOVE), CHANNEL),
    row(Edge::NextN, "N", ["16,384", "17,408"], (2, ABOVE), CHANNEL),
    row(Edge::StateN, "the state's N", ["N", "another N"], (3, ABOVE), WITH_STATE),
    row(Edge::StateOwn, "the state's own offset", ["N - 1", "N"], (3, ABOVE), WITH_STATE),
    row(Edge::StateMoved, "the state's moved", ["L", "L + 1"], (3, ABOVE), GOING_ON),
    row(Edge::StateFirst, "a receive's moved", ["0", "1"], (3, BELOW), COPYING),
    row(Edge::StateType, "type in a send's copy", ["known", "4"], (3, ABOVE), STORING),
    row(Edge::MessageBelow, "the message's dwords", ["L - 1", "L"], (4, BELOW), MESSAGES),
    row(Edge::MessageAbove, "the message's dwords", ["L", "L + 1"], (4, ABOVE), MESSAGES),
    row(Edge::NumDwords, "the message's NUM_DWORDS", ["0", "1"], (4, BELOW), MESSAGES),
    row(Edge::MessageType, "the message's type", ["known", "4"], (4, ABOVE), MESSAGES),
    row(Edge::Output, "the output's dwords", ["255", "256"], (5, BELOW), LAYING),
    row(Edge::Head, "HEAD", ["N - 1", "N"], (7, ABOVE), LOOKS),
    row(Edge::Tail, "TAIL", ["N - 1", "N"], (7, ABOVE), LOOKS),
    row(Edge::OwnBelow, "own offset, HEAD or TAIL being x", ["x - 1", "x"], (8, BELOW), LOOKS),
    row(Edge::OwnAbove, "own offset, HEAD or TAIL being x", ["x", "x + 1"], (8, ABOVE), LOOKS),
    row(Edge::Used, "L of a receive", ["used", "used + 1"], (9, ABOVE), RECEIVES),
    row(Edge::Free, "L of a send", ["free", "free + 1"], (10, ABOVE), SENDS),
    row(Edge::Pending, "used", ["0", "1"], (11, BELOW), RECEIVES),
    row(Edge::Publish, "moved at a publish", ["L - 1", "L"], (12, BELOW), PUBLISHES),
    row(Edge::Move, "moved at a move", ["L - 1", "L"], (12, ABOVE), MOVES),
    row(Edge::ReceivedType, "type of a received message", ["known", "4"], (13, ABOVE), LAYING),
    row(Edge::PackOrigin, "origin to pack", ["1", "2"], (14, ABOVE), &[Pack]),
    row(Edge::PackFence, "fence to pack", ["2^16 - 1", "2^16"], (14, ABOVE), &[Pack]),
    row(Edge::PackNone, "NUM_DWORDS to pack", ["0", "1"], (14, BELOW), &[Pack]),
    row(Edge::PackMost, "NUM_DWORDS to pack", ["255", "256"], (14, ABOVE), &[Pack]),
    row(Edge::PackFirst, "field 27:16 to pack", ["2^12 - 1", "2^12"], (14, ABOVE), &[Pack]),
    row(Edge::PackOnly, "field 27:0 to pack", ["2^28 - 1", "2^28"], (14, ABOVE), &[Pack]),
    row(Edge::PackSecond, "field 15:0 to pack", ["2^16 - 1", "2^16"], (14, ABOVE), &[Pack]),
    row(Edge::PackNothing, "second field where none is", ["0", "1"], (14, ABOVE), &[Pack]),
    row(Edge::PackType, "type to pack", ["known", "4"], (101, ABOVE), &[Pack]),
    row(Edge::PackWide, "type to pack", ["7", "8"], (101, ABOVE), &[Pack]),
    row(Edge::RecordsNone, "records of a table", ["0", "1"], (35, BELOW), TABLES),
    row(Edge::RecordsMost, "records of a table", ["256", "257"], (35, ABOVE), TABLES),
    row(Edge::FenceTwice, "open records of one fence", ["1", "2"], (35, ABOVE), JUDGED),
    row(Edge::LeastReplyN, "N of the reply buffer", ["1,023", "1,024"], (2, BELOW), TABLES),
    row(Edge::MostReplyN, "N of the reply buffer", ["16,384", "16,385"], (2, ABOVE), TABLES),
    row(Edge::NextReplyN, "N of the reply buffer", ["16,384", "17,408"], (2, ABOVE), TABLES),
    row(Edge::AskedRoom, "reply dwords asked for", ["256", "257"], (14, ABOVE), &[WallSend]),
    row(Edge::RequestBelow, "the request's dwords", ["L - 1", "L"], (27, BELOW), &[WallSend]),
    row(Edge::RequestAbove, "the request's dwords", ["L", "L + 1"], (27, ABOVE), &[WallSend]),
    row(Edge::RequestNone, "the request's NUM_DWORDS", ["0", "1"], (27, BELOW), &[WallSend]),
    row(Edge::RequestType, "type to open", ["request", "another"], (27, ABOVE), &[WallSend]),
    row(Edge::FreeRecords, "free records", ["0", "1"], (26, BELOW), &[WallSend]),
    row(Edge::SetAside, "reply dwords set aside in all", ["N - 1", "N"], (28, ABOVE), &[WallSend]),
    row(Edge::ReplyFence, "open requests replied to", ["0", "1"], (27, BELOW), &[WallReply]),
    row(Edge::ReplyType, "type with an open fence", ["a reply", "another"], (27, ABOVE), &[WallReply]),
    row(Edge::RecordDirection, "a direction in a record", ["1", "2"], (29, ABOVE), KEPT),
    row(Edge::RecordNone, "L in a record", ["0", "1"], (29, BELOW), KEPT),
    row(Edge::RecordMost, "L in a record", ["256", "257"], (29, ABOVE), KEPT),
    row(Edge::RecordBelow, "1 + NUM_DWORDS in a record", ["L - 1", "L"], (29, BELOW), KEPT),
    row(Edge::RecordAbove, "1 + NUM_DWORDS in a record", ["L", "L + 1"], (29, ABOVE), KEPT),
    row(Edge::RunEnd, "a run", ["whole but for a dword", "whole"], (29, BELOW), &[RecordWrite]),
    row(Edge::FileEnd, "a file", ["whole but for a byte", "whole"], (29, BELOW), &[RecordRead]),
    row(Edge::FormEnd, "last byte of 2 to 5", ["0", "1"], (29, BELOW), &[RecordRead]),
    row(Edge::FormTop, "fifth byte of a number", ["15", "16"], (29, ABOVE), &[RecordRead]),
    row(Edge::FormBytes, "bytes of a number", ["5", "6"], (29, ABOVE), &[RecordRead]),
    row(Edge::AddRoom, "dwords from the place on", ["L + 1", "L + 2"], (30, BELOW), &[RecordAdd]),
    row(Edge::WriteRoom, "room for x bytes of a file", ["x - 1", "x"], (30, BELOW), &[RecordWrite]),
    row(Edge::ReadRoom, "room for x dwords to lay", ["x - 1", "x"], (30, BELOW), &[RecordRead]),
    row(Edge::Which, "component", ["3", "4"], (101, ABOVE), PARTS),
    row(Edge::Room, "room for a copy", ["length - 1", "length"], (100, BELOW), COPIES),
    row(Edge::CssBytes, "bytes of CSS", ["127", "128"], (15, BELOW), IMAGES),
    row(Edge::CssBelow, "h, the sum being x", ["x - 1", "x"], (16, BELOW), IMAGES),
    row(Edge::CssAbove, "h, the sum being x", ["x", "x + 1"], (16, ABOVE), IMAGES),
    row(Edge::CssRsa, "k", ["0", "1"], (16, BELOW), IMAGES),
    row(Edge::CssSize, "s", ["h", "h + 1"], (16, BELOW), IMAGES),
    row(Edge::CssEnd, "bytes of CSS, RSA ending at x", ["x - 1", "x"], (17, BELOW), IMAGES),
    row(Edge::CssFull, "bytes of CSS", ["4s - 1", "4s"], (TRUNCATED, BELOW), SHOWN),
    row(Edge::NameNone, "bytes of a name", ["0", "1"], (14, BELOW), NAMED),
    row(Edge::NameLong, "bytes of a name", ["12", "13"], (14, ABOVE), NAMED),
    row(Edge::CpdBytes, "bytes of CPD", ["19", "20"], (15, BELOW), DIRECTORIES),
    row(Edge::CpdHeader, "header length H", ["19", "20"], (18, BELOW), DIRECTORIES),
    row(Edge::CpdEntries, "bytes of CPD", ["H + 24n - 1", "H + 24n"], (19, BELOW), DIRECTORIES),
    row(Edge::CpdNone, "entries of that name", ["0", "1"], (20, BELOW), DIRECTORIES),
    row(Edge::CpdTwice, "entries of that name", ["1", "2"], (22, ABOVE), DIRECTORIES),
    row(Edge::CpdEnd, "a part's end, of x bytes", ["x", "x + 1"], (21, ABOVE), DIRECTORIES),
    row(Edge::OffsetBit, "offset with one upper bit", ["25", "24"], (21, ABOVE), DIRECTORIES),
    row(Edge::Manifest, "bytes of manifest", ["43", "44"], (15, BELOW), &[ManifestVersion]),
];
