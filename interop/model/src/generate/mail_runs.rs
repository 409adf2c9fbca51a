//! Runs of a record made on purpose, to be written, added to and read back: every L,
//! direction and header, every damage at every dword, every room, every place.

use super::mail::{kept_header, kept_of, needed_bytes, needed_dwords, MailCase};
use super::mail_files::{messages_of, read};
use super::Rng;
use crate::mail::kept::{file_of, run_of, Kept};
use crate::mail::number::bytes_of;

/// Every number as it stands in a file, a bad one too.
fn as_file(run: &[u32]) -> Vec<u8> {
    run.iter().flat_map(|number| bytes_of(*number)).collect()
}

/// The same numbers written, read back, and where they are one message added.
fn push_all(rng: &mut Rng, cases: &mut Vec<MailCase>, run: Vec<u32>) {
    cases.push(read(rng, as_file(&run)));
    let (direction, message) = (run[0], run[2..].to_vec());
    let place = rng.below(3) as usize;
    let long = place + run.len() + rng.below(3) as usize;
    cases.push(MailCase::Add { run: rng.words(long), place, direction, message });
    let room = 5 * run.len() - rng.below(2) as usize;
    cases.push(MailCase::Write { run, room });
}

/// Every L from 1 to 256, of either direction; and others, with a header that agrees
/// in its eight bits.
pub fn every_kept_length(rng: &mut Rng) -> Vec<MailCase> {
    let mut cases = Vec::new();
    for length in (0..=260).chain([300, 511, 512, 513, 1024]) {
        let mut message = vec![kept_header(rng, length)];
        message.resize(length, 0x0400_0000);
        let mut run = vec![rng.below(2) as u32, length as u32];
        run.extend(message);
        push_all(rng, &mut cases, run);
    }
    for length in [257u32, 65_536, 65_537, 65_792, 1 << 31, u32::MAX] {
        let run = vec![0, length, length.wrapping_sub(1) & 0xFF, 0];
        cases.push(read(rng, as_file(&run)));
        cases.push(MailCase::Write { run, room: 20 });
    }
    cases
}

/// Directions above 1 and those that are not, alone in what is wrong.
pub fn every_direction(rng: &mut Rng) -> Vec<MailCase> {
    let mut cases = Vec::new();
    let bits = (0..32).map(|bit| 1u32 << bit);
    for direction in bits.chain([0, 3, 127, 129, 255, 257, u32::MAX - 1, u32::MAX]) {
        let Kept { dwords, .. } = kept_of(rng, 2);
        push_all(rng, &mut cases, vec![direction, 2, dwords[0], dwords[1]]);
    }
    cases
}

/// Headers of which one bit is another than L wants, and those of which one bit above
/// NUM_DWORDS is set; L of 1 to 256 with NUM_DWORDS one less and one more.
pub fn every_kept_header(rng: &mut Rng) -> Vec<MailCase> {
    let mut cases = Vec::new();
    for bit in 0..32 {
        let length = rng.pick(&[1, 2, 3, 128, 129, 255, 256]) as u32;
        let mut run = vec![rng.below(2) as u32, length, (length - 1) ^ 1 << bit];
        run.resize(2 + length as usize, 3);
        push_all(rng, &mut cases, run);
    }
    for length in [1u32, 2, 3, 4, 128, 255, 256] {
        for num_dwords in [2, 1, 0].map(|less| length.wrapping_sub(less) & 0xFF) {
            let mut run = vec![1, length, rng.word() & 0xFFFF_FF00 | num_dwords];
            run.resize(2 + length as usize, 200);
            push_all(rng, &mut cases, run);
        }
    }
    // Types in the second dword, 4 too, which makes a message malformed.
    for kind in 0..8 {
        let mut run = vec![1, 2, kept_header(rng, 2)];
        run.push(kind << 28 | rng.word() >> 4);
        push_all(rng, &mut cases, run);
    }
    cases
}

/// A run cut at every dword, and every damage at every dword of one.
pub fn every_damaged_dword(rng: &mut Rng) -> Vec<MailCase> {
    let mut cases = Vec::new();
    let whole = run_of(&messages_of(rng, &[1, 3, 1, 2]));
    let mut push = |rng: &mut Rng, run: Vec<u32>| {
        let room = rng.pick(&[5 * run.len(), needed_bytes(&run), 0]);
        cases.push(MailCase::Write { run, room });
    };
    for at in 0..whole.len() {
        push(rng, whole[..at].to_vec());
        let mut all: Vec<Vec<u32>> = vec![vec![], vec![whole[at]; 2]];
        all.extend([0, 1, 2, 3, 256, 257, 258, 300, u32::MAX].map(|other| vec![other]));
        all.extend([0, 1, 2, 256, 257].map(|other| vec![other, whole[at]]));
        all.extend((0..32).map(|bit| vec![whole[at] ^ 1 << bit]));
        for instead in all {
            let mut run = whole.clone();
            run.splice(at..at + 1, instead);
            push(rng, run);
        }
    }
    let long = run_of(&messages_of(rng, &[1, 256]));
    (0..=long.len()).for_each(|cut| push(rng, long[..cut].to_vec()));
    cases
}

/// Every room, from none to more than enough: of a run and a file that are sound, and
/// of those whose last message is bad, which a read lays up to it.
pub fn every_kept_room(rng: &mut Rng) -> Vec<MailCase> {
    let mut cases = vec![MailCase::Write { run: Vec::new(), room: 0 }];
    cases.push(MailCase::Read { file: Vec::new(), room: 0 });
    let any = rng.between(1, 3) as usize;
    for lengths in [&[1, 2, any][..], &[1], &[3]] {
        let run = run_of(&messages_of(rng, lengths));
        let file = as_file(&run);
        let mut runs = vec![run.clone()];
        runs.extend(
            [&[2, 1, 0][..], &[0], &[0, 1], &[0, 2, 1], &[0, 0, 1], &[0, 2, 2]]
                .map(|bad| [&run[..], bad].concat()),
        );
        for run in runs {
            let write = |room| MailCase::Write { run: run.clone(), room };
            cases.extend((0..needed_bytes(&run) + 3).map(write));
        }
        let mut files = vec![file.clone()];
        let bad: [&[u8]; 9] = [
            &[0x80],
            &[0],
            &[1, 0x80],
            &[0x80, 0],
            &[0x80, 0x80, 0x80, 0x80, 0x10],
            &[2],
            &[0, 0],
            &[0, 2, 2],
            &[1, 1, 0xFF, 0xFF, 0xFF, 0xFF, 0xFF],
        ];
        files.extend(bad.map(|bad| [&file[..], bad].concat()));
        for file in files {
            let read = |room| MailCase::Read { file: file.clone(), room };
            cases.extend((0..needed_dwords(&file) + 3).chain([file.len()]).map(read));
        }
    }
    cases
}

/// Rooms of a file and a run of the longest message, around their ends.
pub fn every_long_room(rng: &mut Rng) -> Vec<MailCase> {
    let mut cases = Vec::new();
    for length in [255, 256] {
        let mut messages = messages_of(rng, &[length]);
        let widest = rng.chance(1, 2);
        messages[0].dwords.iter_mut().skip(1).for_each(|dword| {
            *dword |= if widest { 1 << 31 } else { 0 };
        });
        let (run, file) = (run_of(&messages), file_of(&messages));
        for less in 0..4 {
            cases.push(MailCase::Write { run: run.clone(), room: file.len() + 1 - less });
            cases.push(MailCase::Read { file: file.clone(), room: run.len() + 1 - less });
        }
    }
    cases
}

/// Places around those at which a message of so many dwords just fits into a run, at
/// the ends of the run, and where the sum with its length wraps.
fn places(run: usize, length: usize) -> Vec<usize> {
    let (fit, end) = (run.saturating_sub(length + 2), length + 2);
    let mut places: Vec<usize> = (0..3).chain(fit.saturating_sub(1)..fit + 3).collect();
    places.extend(run.saturating_sub(1)..run + 3);
    places.extend((0..run.min(9) + 2).map(|at| at.wrapping_sub(end)));
    places.extend([usize::MAX, usize::MAX - 1, 1 << 63, 1 << 32, (1 << 32) + 1]);
    places
}

/// Every such place of runs of some lengths, nothing too, for messages of L at its
/// ends and beyond; now and then the message is wrong too.
pub fn every_added_place(rng: &mut Rng) -> Vec<MailCase> {
    let mut cases = Vec::new();
    for length in [0, 1, 2, 3, 255, 256, 257, 300] {
        for long in [0, 1, 2, 3, length + 1, length + 2, length + 3, length + 9] {
            for place in places(long, length) {
                let mut message = rng.words(length);
                let header = kept_header(rng, length);
                message.iter_mut().take(1).for_each(|first| *first = header);
                let mut direction = rng.below(2) as u32;
                match rng.below(12) {
                    0 => direction += 2,
                    1 => message.iter_mut().take(1).for_each(|first| *first ^= 1),
                    _ => {}
                }
                cases.push(MailCase::Add { run: rng.words(long), place, direction, message });
            }
        }
    }
    cases
}

/// Dwords whose bytes are asked for: around the ends, every power of two.
pub fn every_bound(_: &mut Rng) -> Vec<MailCase> {
    let fifth = usize::MAX / 5;
    let ends = [
        0,
        1,
        2,
        258,
        858_993_459,
        858_993_460,
        fifth - 1,
        fifth,
        fifth + 1,
        usize::MAX - 1,
        usize::MAX,
    ];
    let powers = (2..64).flat_map(|bit| [(1 << bit) - 1, 1 << bit, (1 << bit) + 1]);
    ends.into_iter().chain(powers).map(MailCase::Bound).collect()
}
