//! Messages, well formed of every length and malformed in every way, and
//! fields to pack, some too wide.

use super::Rng;
use crate::message::{has_two_fields, Decoded, TYPES, UNKNOWN};

/// An HXG word with this type in the place of its own.
pub(super) fn with_type(word: u32, kind: u32) -> u32 {
    (word & 0x8FFF_FFFF) | kind << 28
}

/// An HXG word of a known type.
fn known_word(rng: &mut Rng) -> u32 {
    let kind = rng.pick(&TYPES);
    with_type(rng.word(), kind)
}

/// A length of a well-formed message, 2 to 256, the ends more often.
fn length(rng: &mut Rng) -> usize {
    match rng.below(6) {
        0 => rng.pick(&[2, 3, 4, 254, 255, 256]),
        1 => rng.between(2, 9) as usize,
        2 => rng.pick(&[31, 32, 33, 34, 127, 128, 129, 256]),
        _ => rng.between(2, 256) as usize,
    }
}

/// A well-formed message of this length, 2 to 256.
pub fn well_formed_of(rng: &mut Rng, length: usize) -> Vec<u32> {
    let mut message = rng.words(length);
    message[0] = (rng.word() & 0xFFFF_0000) | (length as u32 - 1);
    message[1] = known_word(rng);
    message
}

/// A well-formed message.
pub fn well_formed(rng: &mut Rng) -> Vec<u32> {
    let length = length(rng);
    well_formed_of(rng, length)
}

/// A malformed message whose length still agrees with its header (1 to 256):
/// what a receiver can copy whole and must answer 13 to.
pub fn near_malformed(rng: &mut Rng) -> Vec<u32> {
    let mut message = well_formed(rng);
    match rng.below(5) {
        0 => message[0] |= (rng.between(1, 15) as u32) << 12,
        1 => message[0] |= (rng.between(1, 15) as u32) << 8,
        2 => message[1] = with_type(message[1], UNKNOWN),
        3 => {
            message[0] &= 0xFFFF_0000;
            message.truncate(1);
        }
        _ => message[0] |= 1 << rng.between(8, 15),
    }
    message
}

/// A malformed message: as above, or of a length that doesn't agree.
pub fn malformed(rng: &mut Rng) -> Vec<u32> {
    let mut message = match rng.below(8) {
        0..=3 => return near_malformed(rng),
        4 => return Vec::new(),
        5 => well_formed(rng),
        6 => well_formed_of(rng, 256),
        _ => well_formed_of(rng, 2),
    };
    match rng.below(6) {
        0 => message.push(rng.word()),
        1 => drop(message.pop()),
        2 => message.truncate(1),
        3 => message[0] &= 0xFFFF_FF00,
        4 => message[0] ^= 1 << rng.below(8),
        _ => {
            let more = rng.pick(&[1usize, 2, 32, 256]);
            message.extend(rng.words(more));
        }
    }
    message
}

/// A message to send or unpack: mostly well formed.
pub fn message(rng: &mut Rng) -> Vec<u32> {
    match rng.below(10) {
        0..=5 => well_formed(rng),
        6..=8 => malformed(rng),
        _ => {
            let count = rng.below(300) as usize;
            rng.words(count)
        }
    }
}

/// A value for a field of this many bits: within, at the ends, or too wide.
fn field(rng: &mut Rng, bits: u32, may_break: bool) -> u32 {
    let top = ((1u64 << bits) - 1) as u32;
    match rng.below(if may_break { 6 } else { 3 }) {
        0 => rng.word() & top,
        1 => rng.pick(&[0, 1, top, top - top / 2]),
        2 => rng.pick(&[top, 0]),
        3 => top + 1,
        4 => 1 << rng.between(bits as u64, 31),
        _ => rng.edgy(),
    }
}

/// Fields to pack: about half fit.
pub fn fields(rng: &mut Rng) -> Decoded {
    let kind = rng.pick(&TYPES);
    let two = has_two_fields(kind);
    let broken = if rng.chance(1, 2) { rng.below(5) } else { 5 };
    let second = field(rng, 16, broken == 4);
    Decoded {
        origin: field(rng, 1, broken == 0),
        fence: field(rng, 16, broken == 1),
        num_dwords: match broken {
            2 => rng.pick(&[0, 256, 257, u32::MAX, 1 << 31, 512]),
            _ => rng.between(1, 255) as u32,
        },
        kind,
        first: field(rng, if two { 12 } else { 28 }, broken == 3),
        second: if two { second } else { 0 },
    }
}
