//! A safe face of libguc.a: sides and slices in, structs out. All unsafe code of
//! this project is here and in four files of `guc/`.
//!
//! Every call below is sound for the same reasons: the pointers come from live
//! references, so they are aligned, as long as the counts say and free of overlap
//! with anything that is written, or they are NULL with count 0; the archive keeps
//! none.
//!
//! A side can be lent only as what it is:
//!
//! ```
//! use interop::guc::{self, Descriptor, Dwords, Receiver, Sender};
//! let (mut s, mut r, mut d) = (Sender::zeros(), Receiver::zeros(), Descriptor::zeros());
//! let ring = vec![0; 1024];
//! assert_eq!(guc::open(&mut s, &mut r, &mut d, Some(&ring)), 0);
//! assert_eq!(guc::receive_look(&mut r, &mut d, Some(&ring)), 11);
//! ```
//!
//! A sender is no receiver, and one that makes steps no one that makes none:
//!
//! ```compile_fail,E0308
//! use interop::guc::{self, Descriptor, Dwords, Sender};
//! let (mut s, mut d) = (Sender::zeros(), Descriptor::zeros());
//! guc::receive_look(&mut s, &mut d, None);
//! ```
//! ```compile_fail,E0308
//! use interop::guc::{self, Descriptor, Dwords, Receiver};
//! let (mut r, mut d) = (Receiver::zeros(), Descriptor::zeros());
//! guc::send_publish(&mut r, &mut d, None);
//! ```
//! ```compile_fail,E0308
//! use interop::guc::{self, Descriptor, Dwords, WholeSender};
//! let (mut s, mut d) = (WholeSender::zeros(), Descriptor::zeros());
//! guc::send(&mut s, &mut d, None, None);
//! ```

#![allow(unsafe_code)]

pub mod constants;
pub mod pages;
mod raw;
mod sides;
mod wall;

pub use raw::{Added, Copied, Css, Manifest, Packed, Part, Readback, Received, Unpacked};
pub use raw::{Version, WallAnswer, Written};
pub use sides::{Descriptor, Dwords, Receiver, Sender, WholeReceiver, WholeSender};
pub use wall::{Record, Wall, RECORD_WORDS};

/// Elements that are only read; none of them by NULL where it is `None`.
pub type In<'a, T> = Option<&'a [T]>;
/// Elements that may be written.
pub type Out<'a, T> = Option<&'a mut [T]>;

fn at<T>(slice: In<T>) -> (*const T, usize) {
    slice.map_or((std::ptr::null(), 0), |slice| (slice.as_ptr(), slice.len()))
}

fn at_mut<T>(slice: Out<T>) -> (*mut T, usize) {
    slice.map_or((std::ptr::null_mut(), 0), |slice| (slice.as_mut_ptr(), slice.len()))
}

pub fn interface() -> u32 {
    unsafe { raw::guc_interface_3() }
}

pub fn open(s: &mut Sender, r: &mut Receiver, d: &mut Descriptor, ring: In<u32>) -> u32 {
    let (b, n) = at(ring);
    unsafe { raw::guc_open(s, r, d, b, n) }
}

pub fn send_look(s: &mut Sender, d: &mut Descriptor, ring: In<u32>, msg: In<u32>) -> u32 {
    let ((b, n), (m, ml)) = (at(ring), at(msg));
    unsafe { raw::guc_send_look(s, d, b, n, m, ml) }
}

pub fn send_store(s: &mut Sender, d: &Descriptor, ring: Out<u32>) -> u32 {
    let (b, n) = at_mut(ring);
    unsafe { raw::guc_send_store(s, d, b, n) }
}

pub fn send_store_all(s: &mut Sender, d: &Descriptor, ring: Out<u32>) -> u32 {
    let (b, n) = at_mut(ring);
    unsafe { raw::guc_send_store_all(s, d, b, n) }
}

pub fn send_publish(s: &mut Sender, d: &mut Descriptor, ring: In<u32>) -> u32 {
    let (b, n) = at(ring);
    unsafe { raw::guc_send_publish(s, d, b, n) }
}

pub fn send(s: &mut Sender, d: &mut Descriptor, ring: Out<u32>, msg: In<u32>) -> u32 {
    let ((b, n), (m, ml)) = (at_mut(ring), at(msg));
    unsafe { raw::guc_send(s, d, b, n, m, ml) }
}

pub fn receive_look(r: &mut Receiver, d: &mut Descriptor, ring: In<u32>) -> u32 {
    let (b, n) = at(ring);
    unsafe { raw::guc_receive_look(r, d, b, n) }
}

pub fn receive_copy(r: &mut Receiver, d: &Descriptor, ring: In<u32>) -> u32 {
    let (b, n) = at(ring);
    unsafe { raw::guc_receive_copy(r, d, b, n) }
}

pub fn receive_copy_all(r: &mut Receiver, d: &Descriptor, ring: In<u32>) -> u32 {
    let (b, n) = at(ring);
    unsafe { raw::guc_receive_copy_all(r, d, b, n) }
}

pub fn receive_publish(
    r: &mut Receiver,
    d: &mut Descriptor,
    ring: In<u32>,
    out: Out<u32>,
) -> Received {
    let ((b, n), (o, ol)) = (at(ring), at_mut(out));
    unsafe { raw::guc_receive_publish(r, d, b, n, o, ol) }
}

pub fn receive(r: &mut Receiver, d: &mut Descriptor, ring: In<u32>, out: Out<u32>) -> Received {
    let ((b, n), (o, ol)) = (at(ring), at_mut(out));
    unsafe { raw::guc_receive(r, d, b, n, o, ol) }
}

pub fn whole_open(
    s: &mut WholeSender,
    r: &mut WholeReceiver,
    d: &mut Descriptor,
    ring: In<u32>,
) -> u32 {
    let (b, n) = at(ring);
    unsafe { raw::guc_whole_open(s, r, d, b, n) }
}

pub fn whole_send(s: &mut WholeSender, d: &mut Descriptor, ring: Out<u32>, msg: In<u32>) -> u32 {
    let ((b, n), (m, ml)) = (at_mut(ring), at(msg));
    unsafe { raw::guc_whole_send(s, d, b, n, m, ml) }
}

pub fn whole_receive(
    r: &mut WholeReceiver,
    d: &mut Descriptor,
    ring: In<u32>,
    out: Out<u32>,
) -> Received {
    let ((b, n), (o, ol)) = (at(ring), at_mut(out));
    unsafe { raw::guc_whole_receive(r, d, b, n, o, ol) }
}

/// The fields in the order origin, fence, NUM_DWORDS, type, first, second.
pub fn pack(fields: [u32; 6]) -> Packed {
    let [origin, fence, num_dwords, kind, first, second] = fields;
    unsafe { raw::guc_pack(origin, fence, num_dwords, kind, first, second) }
}

pub fn unpack(msg: In<u32>) -> Unpacked {
    let (m, ml) = at(msg);
    unsafe { raw::guc_unpack(m, ml) }
}

pub fn wall_fresh(wall: &mut Wall, table: Out<Record>, reply_n: usize) -> u32 {
    let (t, records) = at_mut(table);
    unsafe { raw::guc_wall_fresh(wall, t, records, reply_n) }
}

pub fn wall_send(
    (wall, table): (&mut Wall, Out<Record>),
    (s, d, ring): (&mut Sender, &mut Descriptor, Out<u32>),
    msg: In<u32>,
    room: u32,
) -> WallAnswer {
    let ((t, records), (b, n), (m, ml)) = (at_mut(table), at_mut(ring), at(msg));
    unsafe { raw::guc_wall_send(wall, t, records, s, d, b, n, m, ml, room) }
}

pub fn wall_reply(wall: &Wall, table: Out<Record>, msg: In<u32>) -> WallAnswer {
    let ((t, records), (m, ml)) = (at_mut(table), at(msg));
    unsafe { raw::guc_wall_reply(wall, t, records, m, ml) }
}

pub fn wall_age(fence: u16, newest: u16) -> i32 {
    unsafe { raw::guc_wall_age(fence, newest) }
}

pub fn record_add(run: Out<u32>, place: usize, direction: u32, msg: In<u32>) -> Added {
    let ((r, rl), (m, ml)) = (at_mut(run), at(msg));
    unsafe { raw::guc_record_add(r, rl, place, direction, m, ml) }
}

pub fn record_write_bound(dwords: usize) -> usize {
    unsafe { raw::guc_record_write_bound(dwords) }
}

pub fn record_write(run: In<u32>, file: Out<u8>) -> Written {
    let ((r, rl), (f, room)) = (at(run), at_mut(file));
    unsafe { raw::guc_record_write(r, rl, f, room) }
}

pub fn record_read(file: In<u8>, run: Out<u32>) -> Readback {
    let ((f, fl), (r, room)) = (at(file), at_mut(run));
    unsafe { raw::guc_record_read(f, fl, r, room) }
}

pub fn css_answer(blob: In<u8>) -> Css {
    let (b, bl) = at(blob);
    unsafe { raw::guc_css_answer(b, bl) }
}

pub fn css_part(blob: In<u8>, which: u32) -> Part {
    let (b, bl) = at(blob);
    unsafe { raw::guc_css_part(b, bl, which) }
}

pub fn css_copy(blob: In<u8>, which: u32, dst: Out<u8>) -> Copied {
    let ((b, bl), (to, room)) = (at(blob), at_mut(dst));
    unsafe { raw::guc_css_copy(b, bl, which, to, room) }
}

pub fn css_version(blob: In<u8>) -> Version {
    let (b, bl) = at(blob);
    unsafe { raw::guc_css_version(b, bl) }
}

pub fn cpd_part(blob: In<u8>, name: In<u8>) -> Part {
    let ((b, bl), (name, nl)) = (at(blob), at(name));
    unsafe { raw::guc_cpd_part(b, bl, name.cast(), nl) }
}

pub fn cpd_copy(blob: In<u8>, name: In<u8>, dst: Out<u8>) -> Copied {
    let ((b, bl), (name, nl), (to, room)) = (at(blob), at(name), at_mut(dst));
    unsafe { raw::guc_cpd_copy(b, bl, name.cast(), nl, to, room) }
}

pub fn manifest_version(blob: In<u8>) -> Manifest {
    let (b, bl) = at(blob);
    unsafe { raw::guc_manifest_version(b, bl) }
}

pub fn huc_answer(blob: In<u8>) -> Css {
    let (b, bl) = at(blob);
    unsafe { raw::guc_huc_answer(b, bl) }
}

pub fn huc_part(blob: In<u8>, which: u32) -> Part {
    let (b, bl) = at(blob);
    unsafe { raw::guc_huc_part(b, bl, which) }
}

pub fn huc_copy(blob: In<u8>, which: u32, dst: Out<u8>) -> Copied {
    let ((b, bl), (to, room)) = (at(blob), at_mut(dst));
    unsafe { raw::guc_huc_copy(b, bl, which, to, room) }
}

pub fn huc_version(blob: In<u8>) -> Version {
    let (b, bl) = at(blob);
    unsafe { raw::guc_huc_version(b, bl) }
}
