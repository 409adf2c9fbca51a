//! Reply dwords: what a request asks for, what the records of a table hold, and N of
//! the buffer in which the replies come.

use super::walls::half;
use super::Rng;
use crate::wall::table::Table;

/// N of a reply buffer that is not allowed, as a wall can hold it.
const BAD_NS: [u16; 12] =
    [0, 1, 512, 1023, 1025, 1536, 16_383, 16_385, 17_408, 32_768, 64_512, 65_535];

/// N as a wall holds it: mostly allowed.
pub fn reply_n(rng: &mut Rng) -> u16 {
    match rng.below(16) {
        0 => rng.pick(&BAD_NS),
        1..=4 => 1024 * rng.between(1, 16) as u16,
        5..=8 => 1024,
        _ => 16_384,
    }
}

/// N as a wall is made fresh with: also one whose low 16 or 32 bits are allowed.
pub fn fresh_n(rng: &mut Rng) -> usize {
    match rng.below(4) {
        0 => rng.pick(&[65_536, 66_560, 65_536 + 16_384, 1 << 32 | 1024, usize::MAX, 1 << 63]),
        1 => rng.pick(&BAD_NS) as usize,
        _ => 1024 * rng.between(1, 16) as usize,
    }
}

/// Reply dwords that a request asks for: mostly 0 to 256.
pub fn asked_room(rng: &mut Rng) -> u32 {
    match rng.below(16) {
        0 => rng.pick(&[257, 258, 512, 1024, 65_535, 65_536, 65_792, 1 << 31, u32::MAX]),
        1..=4 => rng.pick(&[0, 1, 255, 256]),
        5..=9 => rng.below(8) as u32,
        _ => rng.between(0, 256) as u32,
    }
}

/// Gives the open records so many reply dwords in all, where 16 bits each can hold
/// them: to one alone, in equal parts, or by chance. Whether they did.
pub(super) fn spread(rng: &mut Rng, table: &mut Table, sum: u64) -> bool {
    let mut open: Vec<&mut u16> =
        table.records.iter_mut().filter(|r| r.is_open()).map(|r| &mut r.room).collect();
    if open.is_empty() {
        return sum == 0;
    }
    let (mut left, how) = (sum, rng.below(3));
    let first = rng.below(open.len() as u64) as usize;
    open.rotate_left(first);
    let count = open.len() as u64;
    for (place, room) in open.into_iter().enumerate() {
        let others = count - 1 - place as u64;
        let most = left.min(65_535);
        // What the others cannot hold must stand here.
        let least = left.saturating_sub(65_535 * others).min(most);
        let part = match how {
            0 => most,
            1 => left / (others + 1) + u64::from(left % (others + 1) > 0),
            _ if others == 0 => most,
            _ => rng.between(0, most),
        };
        *room = part.clamp(least, most) as u16;
        left -= *room as u64;
    }
    left == 0
}

/// What is set aside, with these dwords that are asked for: as it is, around what is
/// allowed, or anything.
pub(super) fn any_rooms(rng: &mut Rng, table: &mut Table, room: u32) {
    match rng.below(10) {
        0..=5 => {}
        6 => {
            for record in table.records.iter_mut().filter(|record| record.is_open()) {
                record.room = rng.pick(&[0, 1, 256, 257, 32_768, 65_535]);
            }
        }
        7 => table.records.iter_mut().for_each(|record| record.room = half(rng)),
        _ => {
            let around = (table.n as u64 + rng.below(4)).saturating_sub(2);
            spread(rng, table, around.saturating_sub(room as u64));
        }
    }
}
