//! Records to mail home: messages to keep, their runs and files, sound and damaged,
//! and calls on them.

use super::Rng;
use crate::mail::kept::{in_file, in_run, run_of, Kept};
use crate::mail::number::bytes_of;

/// A call with what it is lent. What an output holds before is for whoever makes the
/// call; `room` is how long it is.
#[derive(Clone, Debug)]
pub enum MailCase {
    Add { run: Vec<u32>, place: usize, direction: u32, message: Vec<u32> },
    Bound(usize),
    Write { run: Vec<u32>, room: usize },
    Read { file: Vec<u8>, room: usize },
}

/// Numbers from which on a form has a byte more, and the one that has no form.
const POWERS: [u64; 6] = [1, 1 << 7, 1 << 14, 1 << 21, 1 << 28, 1 << 32];

/// Each of those and its neighbours, where they have at most 32 bits.
pub fn edge_numbers() -> Vec<u32> {
    let near = POWERS.iter().flat_map(|power| [power - 1, *power, power + 1]);
    near.filter(|number| *number < 1 << 32).map(|number| number as u32).collect()
}

/// Any number, those whose forms differ more often.
pub fn kept_number(rng: &mut Rng) -> u32 {
    match rng.below(4) {
        0 => rng.pick(&edge_numbers()),
        1 => rng.word() >> rng.below(32),
        2 => rng.below(300) as u32,
        _ => rng.word(),
    }
}

/// A header for L; its other bits are any.
pub fn kept_header(rng: &mut Rng, length: usize) -> u32 {
    kept_number(rng) & 0xFFFF_FF00 | (length as u32).wrapping_sub(1) & 0xFF
}

/// A message of so many dwords, 1 to 256.
pub fn kept_of(rng: &mut Rng, length: usize) -> Kept {
    let mut dwords = vec![kept_header(rng, length)];
    dwords.extend((1..length).map(|_| kept_number(rng)));
    Kept { direction: rng.below(2) as u32, dwords }
}

/// A message: mostly a short one.
pub fn kept(rng: &mut Rng) -> Kept {
    let length = match rng.below(32) {
        0 => rng.pick(&[255, 256]),
        1 => rng.between(1, 256),
        2 => rng.between(120, 135),
        _ => rng.between(1, 5),
    };
    kept_of(rng, length as usize)
}

/// A few messages, or none.
pub fn kept_messages(rng: &mut Rng) -> Vec<Kept> {
    let count = rng.pick(&[0, 1, 1, 2, 2, 3, 3, 4, 6]);
    (0..count).map(|_| kept(rng)).collect()
}

/// The form of each number of these messages.
pub fn forms_of(messages: &[Kept]) -> Vec<Vec<u8>> {
    run_of(messages).into_iter().map(bytes_of).collect()
}

/// A number in so many bytes, which are more than it needs.
pub fn longer_form(number: u32, bytes: usize) -> Vec<u8> {
    let mut form = bytes_of(number);
    *form.last_mut().expect("no number has no bytes") |= 0x80;
    form.resize(bytes - 1, 0x80);
    form.push(0);
    form
}

/// Five bytes that are a number above 32 bits or the front of one, and its other bytes,
/// up to ten in all.
pub fn wide_form(rng: &mut Rng) -> Vec<u8> {
    let mut form: Vec<u8> = (0..4).map(|_| rng.draw() as u8 | 0x80).collect();
    let others = rng.below(6);
    for _ in 0..others {
        form.push(rng.draw() as u8 | 0x80);
    }
    let least = if others == 0 { 16 } else { 0 };
    form.push(rng.between(least, 127) as u8);
    form
}

/// A number that is wrong in some place: another direction, L or header.
pub fn other_number(rng: &mut Rng, number: u32) -> u32 {
    match rng.below(6) {
        0 => number ^ 1 << rng.below(9),
        1 => rng.pick(&[0, 1, 2, 3, 128, 255, 256, 257, 258, 300, 512, 513, 65_537]),
        2 => number.wrapping_add(1),
        3 => number.wrapping_sub(1),
        4 => number.wrapping_add(256),
        _ => kept_number(rng),
    }
}

/// Damages one of these forms, or takes it away, or cuts all behind it.
pub fn damage_forms(rng: &mut Rng, forms: &mut Vec<Vec<u8>>) {
    if forms.is_empty() {
        return forms.push(rng.bytes(2));
    }
    let at = rng.below(forms.len() as u64) as usize;
    let number = crate::mail::number::number_at(&forms[at]).map_or(0, |(number, _)| number);
    match rng.below(8) {
        0 => {
            let more = rng.between(1, 9) as usize;
            forms[at] = longer_form(number, (forms[at].len() + more).min(10));
        }
        1 => forms[at] = wide_form(rng),
        2 => drop(forms.remove(at)),
        3 => forms.insert(at, bytes_of(kept_number(rng))),
        4 => {
            forms.truncate(at + 1);
            forms[at].pop();
        }
        _ => forms[at] = bytes_of(other_number(rng, number)),
    }
}

/// Damages one byte, takes it away, puts one in, or cuts.
pub fn damage_bytes(rng: &mut Rng, file: &mut Vec<u8>) {
    let at = rng.below(file.len() as u64 + 1) as usize;
    let any = rng.draw() as u8;
    let byte = rng.pick(&[0, 1, 2, 0x7F, 0x80, 0x81, 0xFF, any]);
    match rng.below(6) {
        0 => file.truncate(at),
        1 => file.insert(at, byte),
        2 if at < file.len() => drop(file.remove(at)),
        3 if at < file.len() => file[at] ^= 1 << rng.below(8),
        4 if at < file.len() => file[at] ^= 0x80,
        _ if at < file.len() => file[at] = byte,
        _ => file.push(byte),
    }
}

/// Any file: sound, damaged in a number or in a byte, or twice, or any bytes.
pub fn any_file(rng: &mut Rng) -> Vec<u8> {
    let mut forms = forms_of(&kept_messages(rng));
    let how = rng.below(8);
    if how < 4 {
        damage_forms(rng, &mut forms);
    }
    let mut file = forms.concat();
    match how {
        3 | 4 => damage_bytes(rng, &mut file),
        5 => {
            let count = rng.below(12) as usize;
            file = rng.bytes(count);
            file.iter_mut().for_each(|byte| *byte >>= rng.pick(&[0, 0, 4, 7]));
        }
        _ => {}
    }
    file
}

/// Any run: sound, or with a dword that is another, too many or missing, or cut.
pub fn any_run(rng: &mut Rng) -> Vec<u32> {
    let mut run = run_of(&kept_messages(rng));
    let at = rng.below(run.len() as u64 + 1) as usize;
    match rng.below(8) {
        0 => run.truncate(at),
        1 => run.insert(at, kept_number(rng)),
        2 if at < run.len() => drop(run.remove(at)),
        3 | 4 if at < run.len() => run[at] = other_number(rng, run[at]),
        _ => {}
    }
    run
}

/// Room for so much: at it, one less, more, none, or any.
pub fn kept_room(rng: &mut Rng, needed: usize) -> usize {
    match rng.below(8) {
        0..=2 => needed,
        3 => needed.saturating_sub(1),
        4 => needed + rng.between(1, 40) as usize,
        5 => 0,
        6 => needed.saturating_sub(rng.between(0, 9) as usize),
        _ => rng.below(2 * needed as u64 + 2) as usize,
    }
}

/// The bytes of the whole messages of a run, and the dwords of those of a file.
pub fn needed_bytes(run: &[u32]) -> usize {
    in_run(run).0.iter().flat_map(Kept::numbers).map(|number| bytes_of(number).len()).sum()
}

pub fn needed_dwords(file: &[u8]) -> usize {
    run_of(&in_file(file).0).len()
}

/// A place for a message of so many dwords: where it fits just or not, or far away.
fn any_place(rng: &mut Rng, run: usize, length: usize) -> usize {
    let fit = run.saturating_sub(length + 2);
    let back = rng.below(length as u64 + 6) as usize;
    match rng.below(16) {
        0 => usize::MAX - back,
        1 => (usize::MAX - length - 1).wrapping_add(rng.below(run as u64 + 2) as usize),
        2 => (1 << 32) + rng.below(fit as u64 + 1) as usize,
        3 => run + rng.below(3) as usize,
        4 => fit + 1,
        5 => rng.below(run as u64 + 1) as usize,
        _ => fit,
    }
}

fn any_add(rng: &mut Rng) -> MailCase {
    let Kept { mut direction, dwords: mut message } = kept(rng);
    match rng.below(12) {
        0 => direction = rng.pick(&[2, 3, 255, 256, 1 << 31, u32::MAX]),
        1 => message.push(kept_number(rng)),
        2 => drop(message.pop()),
        3 => message[0] = other_number(rng, message[0]),
        4 => {
            let length = rng.pick(&[0, 257, 258, 300, 512, 513]);
            message.resize(length, 0);
            let header = kept_header(rng, length);
            message.iter_mut().take(1).for_each(|first| *first = header);
        }
        _ => {}
    }
    let run = kept_room(rng, message.len() + 2);
    let place = any_place(rng, run, message.len());
    MailCase::Add { run: rng.words(run), place, direction, message }
}

/// Any call of a record that can be refused.
pub fn mail_case(rng: &mut Rng) -> MailCase {
    match rng.below(16) {
        0..=4 => any_add(rng),
        5..=8 => {
            let run = any_run(rng);
            let room = kept_room(rng, needed_bytes(&run));
            MailCase::Write { run, room }
        }
        _ => {
            let file = any_file(rng);
            let room = match rng.below(4) {
                0 => file.len(),
                _ => kept_room(rng, needed_dwords(&file)),
            };
            MailCase::Read { file, room }
        }
    }
}
