//! At which boundaries a message to send or unpack, or fields to pack, stand.

use super::{Edge, Stands};
use crate::sets::Set;

/// Types with two fields, and those with one. A second opinion: it must not
/// follow the model's list if that is wrong.
const TWO: [u32; 4] = [0, 1, 2, 6];
const ONE: [u32; 3] = [3, 5, 7];

/// Whether bits 30:28 are a type of the table; if not, they are 4.
pub fn known_type(word: u32) -> bool {
    let kind = (word >> 28) % 8;
    TWO.contains(&kind) || ONE.contains(&kind)
}

/// Where a message stands, and whether it is well formed. Each rule decides only
/// where the others hold.
pub fn of_message(msg: &[u32]) -> (Stands, bool) {
    let mut stands = Stands::default();
    let (header, known) = match msg {
        [] => return (stands, false),
        [header] => (*header, true),
        [header, word, ..] => (*header, known_type(*word)),
    };
    let (count, num_dwords) = (msg.len() as u64, (header & 0xFF) as u64);
    let (plain, agrees) = (header & 0xFF00 == 0, count == 1 + num_dwords);
    if agrees && num_dwords > 0 {
        if plain {
            stands.member(Set::Kind, ((msg[1] >> 28) % 8) as usize);
            stands.at(Edge::MessageType, (!known) as u64, [0, 1]);
        }
        if known && (header & 0xFF00).count_ones() == 1 {
            stands.member(Set::HeaderBit, (header & 0xFF00).trailing_zeros() as usize - 8);
        }
    }
    if !plain || !known {
        return (stands, false);
    }
    if agrees {
        stands.at(Edge::NumDwords, num_dwords, [0, 1]);
    }
    if num_dwords == 0 {
        return (stands, false);
    }
    stands.at(Edge::MessageBelow, count, [num_dwords, num_dwords + 1]);
    stands.at(Edge::MessageAbove, count, [num_dwords + 1, num_dwords + 2]);
    (stands, agrees)
}

/// The boundaries of fields to pack, in the order origin, fence, NUM_DWORDS,
/// type, first, second. Each decides only where the others fit, but the type
/// before all else; of the unknown ones 4 alone has room in a word.
pub fn of_fields(fields: [u32; 6]) -> Stands {
    let mut stands = Stands::default();
    let [origin, fence, num_dwords, kind, first, second] = fields.map(u64::from);
    let known = TWO.contains(&fields[3]) || ONE.contains(&fields[3]);
    stands.at(Edge::PackType, if known { 0 } else { kind }, [0, 4]);
    stands.at(Edge::PackWide, kind, [7, 8]);
    let (first_edge, second_edge, tops) = if TWO.contains(&fields[3]) {
        (Edge::PackFirst, Edge::PackSecond, [0xFFF, 0xFFFF])
    } else if ONE.contains(&fields[3]) {
        (Edge::PackOnly, Edge::PackNothing, [0x0FFF_FFFF, 0])
    } else {
        return stands;
    };
    let fits = [
        origin <= 1,
        fence <= 0xFFFF,
        (1..=255).contains(&num_dwords),
        kind <= 7,
        first <= tops[0],
        second <= tops[1],
    ];
    let others_fit = |place: usize| (0..6).all(|at| at == place || fits[at]);
    let rows = [
        (0, Edge::PackOrigin, origin, 1),
        (1, Edge::PackFence, fence, 0xFFFF),
        (2, Edge::PackNone, num_dwords, 0),
        (2, Edge::PackMost, num_dwords, 255),
        (4, first_edge, first, tops[0]),
        (5, second_edge, second, tops[1]),
    ];
    for (_, edge, value, top) in rows.iter().filter(|row| others_fit(row.0)) {
        stands.at(*edge, *value, [*top, *top + 1]);
    }
    stands
}
