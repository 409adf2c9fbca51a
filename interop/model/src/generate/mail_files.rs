//! Files of a record made on purpose, to be read back: every form of a number at every
//! kind of place, every damage at every byte, every cut, and all short files of a few
//! bytes that matter.

use super::mail::{
    edge_numbers, forms_of, kept_of, longer_form, needed_dwords, wide_form, MailCase,
};
use super::Rng;
use crate::mail::kept::{file_of, Kept};

/// Bytes that the rules tell apart: ends, fifth bytes, and those that others follow.
const BYTES: [u8; 9] = [0, 1, 2, 0x0F, 0x10, 0x7F, 0x80, 0x81, 0xFF];

/// A read with room that just holds what is to be laid, or for all that a file could be.
pub(super) fn read(rng: &mut Rng, file: Vec<u8>) -> MailCase {
    let room = match rng.below(if file.len() < 200 { 3 } else { 8 }) {
        0 | 3.. => file.len(),
        1 => needed_dwords(&file) + rng.below(3) as usize,
        _ => needed_dwords(&file),
    };
    MailCase::Read { file, room }
}

/// A few messages of these lengths.
pub(super) fn messages_of(rng: &mut Rng, lengths: &[usize]) -> Vec<Kept> {
    lengths.iter().map(|length| kept_of(rng, *length)).collect()
}

/// A number of any size in groups of seven bits: the shortest form has up to ten bytes.
fn form_of(number: u64) -> Vec<u8> {
    let (mut form, mut left) = (Vec::new(), number);
    while left >= 128 {
        form.push(left as u8 | 0x80);
        left >>= 7;
    }
    form.push(left as u8);
    form
}

/// Forms that are no number of 32 bits, or not its shortest one; and some that are.
fn every_odd_form(rng: &mut Rng, number: u32) -> Vec<Vec<u8>> {
    let mut forms: Vec<Vec<u8>> = Vec::new();
    let shortest = form_of(number as u64).len();
    forms.extend((shortest + 1..=10).map(|bytes| longer_form(number, bytes)));
    for bytes in 2..=10 {
        forms.push(longer_form(0, bytes));
    }
    for power in (32..64).map(|bit| 1u64 << bit) {
        forms.extend([power - 1, power, power + 1].map(form_of));
    }
    forms.push(form_of(u64::MAX));
    for fifth in 0..=255 {
        let mut form = vec![number as u8 | 0x80, 0x80, 0x80, 0x80, fifth];
        if fifth >= 0x80 {
            form.extend(rng.pick(&[&[][..], &[0], &[1], &[0x80, 0], &[0xFF]]));
        }
        forms.push(form);
    }
    for _ in 0..8 {
        forms.push(wide_form(rng));
    }
    forms
}

/// Each of those as direction, L, header, second dword and last dword of a message,
/// with others around it, or with the file ending at it.
pub fn every_form(rng: &mut Rng) -> Vec<MailCase> {
    let mut cases = Vec::new();
    let messages = messages_of(rng, &[2, 4, 1]);
    let forms = forms_of(&messages);
    // The second message's numbers: direction, L, header, and three others.
    for place in [4, 5, 6, 7, 9] {
        let number = crate::mail::number::number_at(&forms[place]).map_or(0, |(number, _)| number);
        for form in every_odd_form(rng, number) {
            let mut file = forms.clone();
            file[place] = form;
            if rng.chance(1, 3) {
                file.truncate(place + 1);
            }
            cases.push(read(rng, file.concat()));
        }
    }
    cases
}

/// Every number whose form is one byte longer than that of the one before it, and its
/// neighbours, as a dword, a header, an L, a direction.
pub fn every_kept_number(rng: &mut Rng) -> Vec<MailCase> {
    let mut cases = Vec::new();
    let mut numbers = edge_numbers();
    numbers.extend([3, 255, 256, 257, 300, 1 << 31, u32::MAX - 1]);
    for number in numbers {
        let length = (number & 0xFF) + 1;
        let mut header = vec![0, length, number];
        header.resize(2 + length as usize, number);
        let runs = [
            header,
            vec![1, 3, 2, number, 1 << 7],
            vec![0, 2, 1 << 8 | 1, number],
            vec![number, 1, 0],
            vec![1, number, number.wrapping_sub(1) & 0xFF, 0, 0],
        ];
        for run in runs {
            let file: Vec<u8> = run.iter().flat_map(|number| form_of(*number as u64)).collect();
            cases.push(read(rng, file));
            let room = 5 * run.len();
            cases.push(MailCase::Write { run, room });
        }
    }
    cases
}

/// A file cut at every byte: of short messages, and with one of 256 dwords.
pub fn every_cut(rng: &mut Rng) -> Vec<MailCase> {
    let mut cases = Vec::new();
    let any = rng.between(1, 256) as usize;
    for lengths in [&[1, 2, 3, 1][..], &[2, 256, 1], &[any]] {
        let file = file_of(&messages_of(rng, lengths));
        for cut in 0..=file.len() {
            cases.push(read(rng, file[..cut].to_vec()));
        }
    }
    cases
}

/// Every damage at every byte of a short file, and one at every byte of a longer one.
pub fn every_damaged_byte(rng: &mut Rng) -> Vec<MailCase> {
    let mut cases = Vec::new();
    let short = file_of(&messages_of(rng, &[2, 1, 3, 1]));
    for at in 0..short.len() {
        let mut with = |rng: &mut Rng, change: &dyn Fn(&mut Vec<u8>)| {
            let mut file = short.clone();
            change(&mut file);
            cases.push(read(rng, file));
        };
        with(rng, &|file| {
            file.remove(at);
        });
        (0..8).for_each(|bit| with(rng, &|file| file[at] ^= 1 << bit));
        for byte in BYTES {
            with(rng, &|file| file[at] = byte);
            with(rng, &|file| file.insert(at, byte));
        }
    }
    let length = rng.between(100, 140) as usize;
    let long = file_of(&messages_of(rng, &[3, length, 2]));
    for at in 0..long.len() {
        let mut file = long.clone();
        match rng.below(4) {
            0 => drop(file.remove(at)),
            1 => file.insert(at, rng.pick(&BYTES)),
            2 => file[at] ^= 1 << rng.below(8),
            _ => file[at] = rng.pick(&BYTES),
        }
        cases.push(read(rng, file));
    }
    cases
}

/// Every damage at every number of a file: taken away, twice, another, a bad form.
pub fn every_damaged_number(rng: &mut Rng) -> Vec<MailCase> {
    let mut cases = Vec::new();
    let forms = forms_of(&messages_of(rng, &[1, 2, 3]));
    for at in 0..forms.len() {
        let number = crate::mail::number::number_at(&forms[at]).map_or(0, |(number, _)| number);
        let mut all: Vec<Vec<Vec<u8>>> = vec![vec![], vec![forms[at].clone(); 2]];
        let others = [0, 1, 2, 3, 127, 128, 256, 257, 258, 300, 512, u32::MAX];
        let bits = (0..10).map(|bit| number ^ 1 << bit);
        let near = [number.wrapping_add(1), number.wrapping_sub(1)];
        let others = others.into_iter().chain(bits).chain(near);
        all.extend(others.map(|other| vec![form_of(other as u64)]));
        all.extend([6, 7, 8, 9, 10].map(|bytes| vec![longer_form(number, bytes)]));
        all.extend([1 << 32, (1 << 32) + 1, 1 << 35, 1 << 63].map(|wide| vec![form_of(wide)]));
        all.push(vec![wide_form(rng)]);
        for instead in all {
            let mut file = forms.clone();
            file.splice(at..at + 1, instead);
            cases.push(read(rng, file.concat()));
        }
    }
    cases
}

/// All files of up to three bytes that matter, and some of those of four.
pub fn every_short_file(rng: &mut Rng) -> Vec<MailCase> {
    let (mut cases, mut files) = (Vec::new(), vec![Vec::new()]);
    for bytes in 0..=4 {
        files.retain(|_| bytes < 4 || rng.chance(1, 5));
        let longer = files.iter().flat_map(|file| BYTES.map(|byte| [&file[..], &[byte]].concat()));
        let longer: Vec<Vec<u8>> = longer.collect();
        let all = std::mem::replace(&mut files, longer);
        cases.extend(all.into_iter().map(|file| read(rng, file)));
    }
    cases
}
