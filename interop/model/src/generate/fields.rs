//! Messages and fields made on purpose: every length, every type, every bit of a
//! header that must be 0, every bit of every field.

use super::message::{well_formed_of, with_type};
use super::Rng;
use crate::message::{has_two_fields, Decoded, TYPES};

/// Messages one dword short, right and one too long, of every length; with each
/// type; with each bit of format and reserved set; a lone header.
pub fn every_message(rng: &mut Rng) -> Vec<Vec<u32>> {
    let mut messages = vec![Vec::new(), vec![rng.word() & 0xFFFF_0000]];
    for length in 2..=256 {
        let mut message = well_formed_of(rng, length);
        messages.push(message[..length - 1].to_vec());
        messages.push(message.clone());
        message.push(rng.word());
        messages.push(message);
    }
    for place in 0..8 {
        let length = rng.between(2, 20) as usize;
        let mut message = well_formed_of(rng, length);
        message[0] |= 1 << (8 + place);
        messages.push(message);
        let mut message = well_formed_of(rng, length);
        message[1] = with_type(message[1], place);
        messages.push(message);
    }
    messages
}

/// Fields that all fit, of which one is then set to a single bit, to all bits
/// of its width, to one more than that, and to 0.
pub fn every_field(rng: &mut Rng) -> Vec<Decoded> {
    let mut all = Vec::new();
    for kind in TYPES {
        let two = has_two_fields(kind);
        let widths = [1, 16, 8, if two { 12 } else { 28 }, if two { 16 } else { 0 }];
        for (place, width) in widths.into_iter().enumerate() {
            let bits = (0..32).map(|bit| 1u32 << bit);
            for value in bits.chain([0, (1 << width) - 1, (1 << width) + 1, u32::MAX]) {
                let mut fields = Decoded {
                    origin: rng.below(2) as u32,
                    fence: rng.word() >> 16,
                    num_dwords: rng.between(1, 255) as u32,
                    kind,
                    first: rng.word() >> 20,
                    second: if two { rng.word() >> 16 } else { 0 },
                };
                match place {
                    0 => fields.origin = value,
                    1 => fields.fence = value,
                    2 => fields.num_dwords = value,
                    3 => fields.first = value,
                    _ => fields.second = value,
                }
                all.push(fields);
            }
        }
    }
    all
}
