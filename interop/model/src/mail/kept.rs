//! The messages of a record, as numbers one after another, in a run of dwords and in a
//! file. From T-10's words:
//!
//! - "per message, 0 for sent or 1 for received, then L, then the L dwords; in memory
//!   the same run of dwords"
//! - "L runs from 1 to 256 and malformed messages may be kept"
//! - "one unfinished or missing inside a message, a form too long, a number above 32
//!   bits, a direction above 1, an L outside its limits, or a header that disagrees
//!   with L"
//!
//! The numbers of a message are judged one after another: the first bad one is what is
//! wrong with it. A header disagrees with L where 1 + NUM_DWORDS (document 01) is
//! another number; it is then the header that is bad.

use super::number::{bytes_of, number_at};
use super::Fault;
use crate::message::total_length;

/// A message with its direction.
#[derive(Clone, Debug, PartialEq, Eq)]
pub struct Kept {
    pub direction: u32,
    pub dwords: Vec<u32>,
}

/// Where a record is bad, and what is wrong there.
pub type Wrong = Option<(usize, Fault)>;

impl Kept {
    /// "0 for sent or 1 for received, then L, then the L dwords"
    pub fn numbers(&self) -> Vec<u32> {
        let mut numbers = vec![self.direction, self.dwords.len() as u32];
        numbers.extend(&self.dwords);
        numbers
    }
}

/// The run of dwords of these messages.
pub fn run_of(messages: &[Kept]) -> Vec<u32> {
    messages.iter().flat_map(Kept::numbers).collect()
}

/// The file of these messages.
pub fn file_of(messages: &[Kept]) -> Vec<u8> {
    run_of(messages).into_iter().flat_map(bytes_of).collect()
}

/// One message, its numbers taken one after another, or what is wrong with the first
/// bad one: the last that was asked for.
fn message(mut next: impl FnMut() -> Result<u32, Fault>) -> Result<Kept, Fault> {
    let direction = next()?;
    if direction > 1 {
        return Err(Fault::Direction);
    }
    let length = next()?;
    if !(1..=256).contains(&length) {
        return Err(Fault::Length);
    }
    let header = next()?;
    if total_length(header) != length {
        return Err(Fault::Header);
    }
    let mut dwords = vec![header];
    while (dwords.len() as u32) < length {
        dwords.push(next()?);
    }
    Ok(Kept { direction, dwords })
}

/// A message that is lent by itself, of so many dwords as there are.
pub fn judge(direction: u32, dwords: &[u32]) -> Result<(), Fault> {
    if direction > 1 {
        return Err(Fault::Direction);
    }
    if dwords.is_empty() || dwords.len() > 256 {
        return Err(Fault::Length);
    }
    if total_length(dwords[0]) as usize != dwords.len() {
        return Err(Fault::Header);
    }
    Ok(())
}

/// The whole messages of a run up to the first bad one, with the place of that one's
/// direction.
pub fn in_run(run: &[u32]) -> (Vec<Kept>, Wrong) {
    let (mut messages, mut place) = (Vec::new(), 0);
    while place < run.len() {
        let mut end = place;
        let next = || {
            let number = run.get(end).copied().ok_or(Fault::Missing);
            end += 1;
            number
        };
        match message(next) {
            Ok(kept) => messages.push(kept),
            Err(fault) => return (messages, Some((place, fault))),
        }
        place = end;
    }
    (messages, None)
}

/// The whole messages of a file up to the first bad number, the bytes that they take,
/// and the byte where that number starts.
pub fn in_file(file: &[u8]) -> (Vec<Kept>, usize, Wrong) {
    let (mut messages, mut took) = (Vec::new(), 0);
    while took < file.len() {
        let (mut start, mut end) = (took, took);
        let next = || {
            start = end;
            let (number, bytes) = number_at(&file[start..])?;
            end = start + bytes;
            Ok(number)
        };
        match message(next) {
            Ok(kept) => messages.push(kept),
            Err(fault) => return (messages, took, Some((start, fault))),
        }
        took = end;
    }
    (messages, took, None)
}
