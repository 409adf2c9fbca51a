//! The archive's functions, the numbers that each can answer and the slices that
//! it takes.

/// The archive's functions.
#[derive(Clone, Copy, Debug, PartialEq, Eq)]
pub enum Fun {
    Interface,
    Open,
    SendLook,
    SendStore,
    SendStoreAll,
    SendPublish,
    Send,
    ReceiveLook,
    ReceiveCopy,
    ReceiveCopyAll,
    ReceivePublish,
    Receive,
    WholeOpen,
    WholeSend,
    WholeReceive,
    Pack,
    Unpack,
    WallFresh,
    WallSend,
    WallReply,
    WallAge,
    RecordAdd,
    RecordWriteBound,
    RecordWrite,
    RecordRead,
    CssAnswer,
    CssPart,
    CssCopy,
    CssVersion,
    CpdPart,
    CpdCopy,
    ManifestVersion,
    HucAnswer,
    HucPart,
    HucCopy,
    HucVersion,
}

/// Each function with its name and the numbers it can answer. Number 1 is for a
/// descriptor that C can't lend. The interface's version, an age and a count of bytes
/// are no numbers.
pub const FUNCTIONS: [(Fun, &str, &[u32]); 36] = [
    (Fun::Interface, "guc_interface_3", &[]),
    (Fun::Open, "guc_open", &[0, 2]),
    (Fun::SendLook, "guc_send_look", &[0, 2, 3, 4, 6, 7, 8, 10]),
    (Fun::SendStore, "guc_send_store", &[0, 2, 3, 12]),
    (Fun::SendStoreAll, "guc_send_store_all", &[0, 2, 3]),
    (Fun::SendPublish, "guc_send_publish", &[0, 2, 3, 12]),
    (Fun::Send, "guc_send", &[0, 2, 3, 4, 6, 7, 8, 10]),
    (Fun::ReceiveLook, "guc_receive_look", &[0, 2, 3, 6, 7, 8, 9, 11]),
    (Fun::ReceiveCopy, "guc_receive_copy", &[0, 2, 3, 12]),
    (Fun::ReceiveCopyAll, "guc_receive_copy_all", &[0, 2, 3]),
    (Fun::ReceivePublish, "guc_receive_publish", &[0, 2, 3, 5, 12, 13]),
    (Fun::Receive, "guc_receive", &[0, 2, 3, 5, 6, 7, 8, 9, 11, 13]),
    (Fun::WholeOpen, "guc_whole_open", &[0, 2]),
    (Fun::WholeSend, "guc_whole_send", &[0, 2, 3, 4, 6, 7, 8, 10]),
    (Fun::WholeReceive, "guc_whole_receive", &[0, 2, 3, 5, 6, 7, 8, 9, 11, 13]),
    (Fun::Pack, "guc_pack", &[0, 14, 101]),
    (Fun::Unpack, "guc_unpack", &[0, 4]),
    (Fun::WallFresh, "guc_wall_fresh", &[0, 2, 35]),
    (Fun::WallSend, "guc_wall_send", &[0, 2, 3, 6, 7, 8, 10, 14, 26, 27, 28, 35]),
    (Fun::WallReply, "guc_wall_reply", &[0, 2, 4, 27, 35]),
    (Fun::WallAge, "guc_wall_age", &[]),
    (Fun::RecordAdd, "guc_record_add", &[0, 29, 30]),
    (Fun::RecordWriteBound, "guc_record_write_bound", &[]),
    (Fun::RecordWrite, "guc_record_write", &[0, 29, 30]),
    (Fun::RecordRead, "guc_record_read", &[0, 29, 30]),
    (Fun::CssAnswer, "guc_css_answer", &[0, 15, 16, 17]),
    (Fun::CssPart, "guc_css_part", &[0, 15, 16, 17, 101]),
    (Fun::CssCopy, "guc_css_copy", &[0, 15, 16, 17, 100, 101]),
    (Fun::CssVersion, "guc_css_version", &[0, 15, 16, 17]),
    (Fun::CpdPart, "guc_cpd_part", &[0, 14, 15, 18, 19, 20, 21, 22]),
    (Fun::CpdCopy, "guc_cpd_copy", &[0, 14, 15, 18, 19, 20, 21, 22, 100]),
    (Fun::ManifestVersion, "guc_manifest_version", &[0, 15, 18, 19, 20, 21, 22]),
    (Fun::HucAnswer, "guc_huc_answer", &[0, 15, 16, 17, 18, 19, 20, 21, 22]),
    (Fun::HucPart, "guc_huc_part", &[0, 15, 16, 17, 18, 19, 20, 21, 22, 101]),
    (Fun::HucCopy, "guc_huc_copy", &[0, 15, 16, 17, 18, 19, 20, 21, 22, 100, 101]),
    (Fun::HucVersion, "guc_huc_version", &[0, 15, 16, 17, 18, 19, 20, 21, 22]),
];

/// What a function is lent by pointer and count.
#[derive(Clone, Copy, Debug, PartialEq, Eq)]
pub enum Slice {
    Ring,
    Message,
    Output,
    Table,
    Run,
    File,
    Blob,
    Name,
    Destination,
}

use Fun::*;
use Slice::*;

/// Every slice of every function: each must once be NULL with count 0.
#[rustfmt::skip]
pub const SLICES: [(Fun, Slice); 49] = [
    (Open, Ring), (WholeOpen, Ring),
    (SendLook, Ring), (SendLook, Message),
    (SendStore, Ring), (SendStoreAll, Ring), (SendPublish, Ring),
    (Send, Ring), (Send, Message), (WholeSend, Ring), (WholeSend, Message),
    (ReceiveLook, Ring), (ReceiveCopy, Ring), (ReceiveCopyAll, Ring),
    (ReceivePublish, Ring), (ReceivePublish, Output),
    (Receive, Ring), (Receive, Output), (WholeReceive, Ring), (WholeReceive, Output),
    (Unpack, Message),
    (WallFresh, Table), (WallSend, Table), (WallSend, Ring), (WallSend, Message),
    (WallReply, Table), (WallReply, Message),
    (RecordAdd, Run), (RecordAdd, Message),
    (RecordWrite, Run), (RecordWrite, File), (RecordRead, File), (RecordRead, Run),
    (CssAnswer, Blob), (CssPart, Blob), (CssCopy, Blob), (CssCopy, Destination), (CssVersion, Blob),
    (CpdPart, Blob), (CpdPart, Name), (CpdCopy, Blob), (CpdCopy, Name), (CpdCopy, Destination),
    (ManifestVersion, Blob),
    (HucAnswer, Blob), (HucPart, Blob), (HucCopy, Blob), (HucCopy, Destination), (HucVersion, Blob),
];

/// The numbers that are answers, each with a place. Those from 23 to 35 that are not
/// here belong to change requests to come.
#[rustfmt::skip]
const ANSWERS: [u32; 31] = [
    0, 1, 2, 3, 4, 5, 6, 7, 8, 9, 10, 11, 12, 13, 14, 15, 16, 17, 18, 19, 20, 21, 22, 26, 27, 28,
    29, 30, 35, 100, 101,
];

/// How many they are.
pub const NUMBERS: usize = ANSWERS.len();

/// The place of a number; none for a number that is no answer.
pub fn place(code: u32) -> Option<usize> {
    ANSWERS.iter().position(|answer| *answer == code)
}

/// The number at a place.
pub fn number(place: usize) -> u32 {
    ANSWERS[place]
}
