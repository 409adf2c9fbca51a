//! A record to mail home: T-10 of document 02, written from the paper's words and the
//! header's alone. Here are the calls; how a number is cut into bytes is in
//! `mail/number.rs`, the messages of a run and of a file are in `mail/kept.rs`.
//!
//! The sentences of the paper that the calls follow:
//!
//! - "Reading back refuses with 29, naming the byte where the first bad number starts"
//! - "The whole messages before that byte are laid [...]; if what is to be laid
//!   doesn't fit, it is 30 and nothing is written."
//! - "Writing refuses a bad direction, L or header, or a run that ends early, with 29,
//!   naming the place of the first bad message's direction, then a short output with
//!   30, and writes nothing in either case."
//! - "Both say how much they wrote and leave the rest of the output."
//!
//! Beyond the paper (the header's words): what is wrong beside a 29, the bytes of a
//! file that its whole messages take, the adding of one message to a run ("29 [...],
//! or 30 where it does not fit from place on"), and the bytes that a run needs at most,
//! "five each (SIZE_MAX where that is more)". What stands beside a refusal is 0, but
//! for what a read has laid, and for an adding's place.

pub mod kept;
pub mod number;

use kept::{file_of, in_file, in_run, judge, run_of, Kept, Wrong};

/// "Reading back refuses with 29", "Writing refuses [...] with 29"
pub const BAD: u32 = 29;
/// "if what is to be laid doesn't fit, it is 30", "then a short output with 30"
pub const SHORT: u32 = 30;

/// What is wrong with a number, in the paper's order, as the header counts it.
#[derive(Clone, Copy, Debug, PartialEq, Eq)]
pub enum Fault {
    /// "one unfinished [...] inside a message"
    Unfinished = 1,
    /// "or missing inside a message"; "a run that ends early"
    Missing = 2,
    /// "a form too long"
    TooLong = 3,
    /// "a number above 32 bits"
    TooWide = 4,
    /// "a direction above 1"
    Direction = 5,
    /// "an L outside its limits"
    Length = 6,
    /// "a header that disagrees with L"
    Header = 7,
}

/// What an adding answers: the place for the next message, or the one it was given.
#[derive(Clone, Copy, Debug, PartialEq, Eq, Default)]
pub struct Added {
    pub code: u32,
    pub fault: u32,
    pub place: usize,
}

/// What a write answers: beside 29 the dword where the bad message starts, beside 0
/// the bytes that it wrote.
#[derive(Clone, Copy, Debug, PartialEq, Eq, Default)]
pub struct Written {
    pub code: u32,
    pub fault: u32,
    pub at: usize,
    pub written: usize,
}

/// What a read answers: beside 29 the byte where the first bad number starts, beside 0
/// and 29 the dwords that it laid and the bytes that they came from.
#[derive(Clone, Copy, Debug, PartialEq, Eq, Default)]
pub struct Readback {
    pub code: u32,
    pub fault: u32,
    pub at: usize,
    pub written: usize,
    pub took: usize,
}

/// The number, what is wrong, and where.
fn refused(wrong: Wrong) -> (u32, u32, usize) {
    wrong.map_or((0, 0, 0), |(at, fault)| (BAD, fault as u32, at))
}

/// Adds a message to a run, from this place on.
pub fn add(run: &mut [u32], place: usize, direction: u32, message: &[u32]) -> Added {
    if let Err(fault) = judge(direction, message) {
        return Added { code: BAD, fault: fault as u32, place };
    }
    let kept = Kept { direction, dwords: message.to_vec() };
    let numbers = kept.numbers();
    // Over whole numbers, which do not wrap.
    let end = place as u128 + numbers.len() as u128;
    if end > run.len() as u128 {
        return Added { code: SHORT, fault: 0, place };
    }
    run[place..end as usize].copy_from_slice(&numbers);
    Added { code: 0, fault: 0, place: end as usize }
}

/// "five each (SIZE_MAX where that is more)"
pub fn write_bound(dwords: usize) -> usize {
    (5 * dwords as u128).min(usize::MAX as u128) as usize
}

/// Writes a run into a file.
pub fn write(run: &[u32], file: &mut [u8]) -> Written {
    let (messages, wrong) = in_run(run);
    let (code, fault, at) = refused(wrong);
    if code != 0 {
        return Written { code, fault, at, written: 0 };
    }
    let bytes = file_of(&messages);
    if bytes.len() > file.len() {
        return Written { code: SHORT, ..Written::default() };
    }
    file[..bytes.len()].copy_from_slice(&bytes);
    Written { written: bytes.len(), ..Written::default() }
}

/// Reads a file back into a run.
pub fn read(file: &[u8], run: &mut [u32]) -> Readback {
    let (messages, took, wrong) = in_file(file);
    let laid = run_of(&messages);
    if laid.len() > run.len() {
        return Readback { code: SHORT, ..Readback::default() };
    }
    run[..laid.len()].copy_from_slice(&laid);
    let (code, fault, at) = refused(wrong);
    Readback { code, fault, at, written: laid.len(), took }
}
