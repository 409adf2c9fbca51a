//! The archive's functions and their answers as include/guc.h declares them.

use super::sides::{Descriptor, Receiver, Sender, WholeReceiver, WholeSender};
use super::wall::{Record, Wall};
use std::os::raw::c_char;

#[repr(C)]
#[derive(Clone, Copy, Debug, PartialEq, Eq)]
pub struct Received {
    pub code: u32,
    pub len: usize,
}

#[repr(C)]
#[derive(Clone, Copy, Debug, PartialEq, Eq)]
pub struct Packed {
    pub code: u32,
    pub header: u32,
    pub word: u32,
}

#[repr(C)]
#[derive(Clone, Copy, Debug, PartialEq, Eq)]
pub struct Unpacked {
    pub code: u32,
    pub origin: u32,
    pub fence: u32,
    pub num_dwords: u32,
    pub kind: u32,
    pub first: u32,
    pub second: u32,
}

#[repr(C)]
#[derive(Clone, Copy, Debug, PartialEq, Eq)]
pub struct WallAnswer {
    pub code: u32,
    pub kind: u32,
    pub fence: u16,
    pub action: u16,
    pub count: u16,
}

#[repr(C)]
#[derive(Clone, Copy, Debug, PartialEq, Eq)]
pub struct Added {
    pub code: u32,
    pub fault: u32,
    pub place: usize,
}

#[repr(C)]
#[derive(Clone, Copy, Debug, PartialEq, Eq)]
pub struct Written {
    pub code: u32,
    pub fault: u32,
    pub at: usize,
    pub written: usize,
}

#[repr(C)]
#[derive(Clone, Copy, Debug, PartialEq, Eq)]
pub struct Readback {
    pub code: u32,
    pub fault: u32,
    pub at: usize,
    pub written: usize,
    pub took: usize,
}

#[repr(C)]
#[derive(Clone, Copy, Debug, PartialEq, Eq)]
pub struct Css {
    pub code: u32,
    pub truncated: u32,
}

#[repr(C)]
#[derive(Clone, Copy, Debug, PartialEq, Eq)]
pub struct Part {
    pub code: u32,
    pub truncated: u32,
    pub start: usize,
    pub len: usize,
}

#[repr(C)]
#[derive(Clone, Copy, Debug, PartialEq, Eq)]
pub struct Copied {
    pub code: u32,
    pub truncated: u32,
    pub len: usize,
}

#[repr(C)]
#[derive(Clone, Copy, Debug, PartialEq, Eq)]
pub struct Version {
    pub code: u32,
    pub major: u32,
    pub minor: u32,
    pub patch: u32,
}

#[repr(C)]
#[derive(Clone, Copy, Debug, PartialEq, Eq)]
pub struct Manifest {
    pub code: u32,
    pub major: u32,
    pub minor: u32,
    pub hotfix: u32,
    pub build: u32,
}

/// Dwords that are only read, and their count.
type In = *const u32;
/// Bytes that are only read.
type Bytes = *const u8;
/// The descriptor where it may be changed.
type Desc = *mut Descriptor;

extern "C" {
    pub fn guc_interface_3() -> u32;
    pub fn guc_open(s: *mut Sender, r: *mut Receiver, d: Desc, b: In, n: usize) -> u32;
    pub fn guc_send_look(s: *mut Sender, d: Desc, b: In, n: usize, m: In, ml: usize) -> u32;
    pub fn guc_send_store(s: *mut Sender, d: *const Descriptor, b: *mut u32, n: usize) -> u32;
    pub fn guc_send_store_all(s: *mut Sender, d: *const Descriptor, b: *mut u32, n: usize) -> u32;
    pub fn guc_send_publish(s: *mut Sender, d: Desc, b: In, n: usize) -> u32;
    pub fn guc_send(s: *mut Sender, d: Desc, b: *mut u32, n: usize, m: In, ml: usize) -> u32;
    pub fn guc_receive_look(r: *mut Receiver, d: Desc, b: In, n: usize) -> u32;
    pub fn guc_receive_copy(r: *mut Receiver, d: *const Descriptor, b: In, n: usize) -> u32;
    pub fn guc_receive_copy_all(r: *mut Receiver, d: *const Descriptor, b: In, n: usize) -> u32;
    pub fn guc_receive_publish(
        r: *mut Receiver,
        d: Desc,
        b: In,
        n: usize,
        o: *mut u32,
        ol: usize,
    ) -> Received;
    pub fn guc_receive(
        r: *mut Receiver,
        d: Desc,
        b: In,
        n: usize,
        o: *mut u32,
        ol: usize,
    ) -> Received;
    pub fn guc_whole_open(
        s: *mut WholeSender,
        r: *mut WholeReceiver,
        d: Desc,
        b: In,
        n: usize,
    ) -> u32;
    pub fn guc_whole_send(
        s: *mut WholeSender,
        d: Desc,
        b: *mut u32,
        n: usize,
        m: In,
        ml: usize,
    ) -> u32;
    pub fn guc_whole_receive(
        r: *mut WholeReceiver,
        d: Desc,
        b: In,
        n: usize,
        o: *mut u32,
        ol: usize,
    ) -> Received;

    pub fn guc_pack(
        origin: u32,
        fence: u32,
        num_dwords: u32,
        kind: u32,
        first: u32,
        second: u32,
    ) -> Packed;
    pub fn guc_unpack(m: In, ml: usize) -> Unpacked;

    pub fn guc_wall_fresh(w: *mut Wall, t: *mut Record, records: usize, reply_n: usize) -> u32;
    pub fn guc_wall_send(
        w: *mut Wall,
        t: *mut Record,
        records: usize,
        s: *mut Sender,
        d: Desc,
        b: *mut u32,
        n: usize,
        m: In,
        ml: usize,
        room: u32,
    ) -> WallAnswer;
    pub fn guc_wall_reply(
        w: *const Wall,
        t: *mut Record,
        records: usize,
        m: In,
        ml: usize,
    ) -> WallAnswer;
    pub fn guc_wall_age(fence: u16, newest: u16) -> i32;

    pub fn guc_record_add(
        run: *mut u32,
        run_len: usize,
        place: usize,
        direction: u32,
        m: In,
        ml: usize,
    ) -> Added;
    pub fn guc_record_write_bound(dwords: usize) -> usize;
    pub fn guc_record_write(run: In, run_len: usize, file: *mut u8, room: usize) -> Written;
    pub fn guc_record_read(file: Bytes, len: usize, run: *mut u32, room: usize) -> Readback;

    pub fn guc_css_answer(b: Bytes, bl: usize) -> Css;
    pub fn guc_css_part(b: Bytes, bl: usize, which: u32) -> Part;
    pub fn guc_css_copy(b: Bytes, bl: usize, which: u32, dst: *mut u8, room: usize) -> Copied;
    pub fn guc_css_version(b: Bytes, bl: usize) -> Version;
    pub fn guc_cpd_part(b: Bytes, bl: usize, name: *const c_char, nl: usize) -> Part;
    pub fn guc_cpd_copy(
        b: Bytes,
        bl: usize,
        name: *const c_char,
        nl: usize,
        dst: *mut u8,
        room: usize,
    ) -> Copied;
    pub fn guc_manifest_version(b: Bytes, bl: usize) -> Manifest;
    pub fn guc_huc_answer(b: Bytes, bl: usize) -> Css;
    pub fn guc_huc_part(b: Bytes, bl: usize, which: u32) -> Part;
    pub fn guc_huc_copy(b: Bytes, bl: usize, which: u32, dst: *mut u8, room: usize) -> Copied;
    pub fn guc_huc_version(b: Bytes, bl: usize) -> Version;
}
