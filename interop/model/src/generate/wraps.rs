//! Sizes of CSS images with huge parts, chosen so that a sum taken with wrap, at
//! any one of its addends, or a signed comparison would be answered otherwise.

use super::css::{agreeing, Sizes};
use super::Rng;

/// How many kinds there are.
pub const KINDS: u64 = 17;

const WRAP: u64 = 1 << 32;
/// Four times as many dwords wrap.
const QUARTER: u64 = 1 << 30;

/// Sizes whose h agrees with the sum only modulo 2^32.
fn agreeing_with_wrap(u: u64, k: u64, m: u64, e: u64) -> Sizes {
    let h = (32 + k + m + e) % WRAP;
    Sizes { h, s: h + u, k, m, e, bytes: 0 }
}

/// Sizes of this kind around small ones that agree.
pub(super) fn wrapping(rng: &mut Rng, base: &Sizes, kind: u64) -> Sizes {
    let (u, k, m, e) = (base.s - base.h, base.k, base.m, base.e);
    let some = rng.below(20);
    let turns = rng.between(1, 3);
    match kind {
        // 32 + k wraps.
        0 => agreeing_with_wrap(u, WRAP - 1 - rng.below(32), m, e),
        // The next addend, m, makes it wrap: k is small, or half of it.
        1 => agreeing_with_wrap(u, k, WRAP - 1 - rng.below(32 + k), e),
        2 => agreeing_with_wrap(u, WRAP / 2 + k, WRAP / 2 - k + some, e),
        // The last, e, does: the others are small, or half of it.
        3 => agreeing_with_wrap(u, k, m, WRAP - 1 - rng.below(32 + k + m)),
        4 => agreeing_with_wrap(u, k, WRAP / 2 + m, WRAP / 2 - m + some),
        // All but 2^32 in both m and e: the sum wraps twice.
        5 => agreeing_with_wrap(u, k, WRAP - 1 - rng.below(k), WRAP - 1 - rng.below(20)),
        // A huge modulus or exponent that agrees: a truncated image.
        6 => agreeing(u, k, 0xFFFF_FF00 - 4 * some, 0),
        7 => agreeing(u, k, 1 + rng.below(2), 0xFFFF_FF00 - some),
        // 4s with wrap is small: truncated all the same.
        8 => agreeing(u, k, turns * QUARTER - 32 - k - e - u + some, e),
        // 4(s - h) with wrap is small, 128 + 4(s - h) is: 17.
        9 => agreeing(turns * QUARTER + u, k, m, e),
        10 => agreeing(QUARTER - 1 - rng.below(32), k, m, e),
        // 4k with wrap is small, the sum with it is: 17.
        11 => agreeing(u, turns * QUARTER + k, m, e),
        12 => agreeing(u, QUARTER - 1 - rng.below(32 + u), m, e),
        // s and h on the two sides of 2^31: 17, or 16 where s is the smaller.
        13 => agreeing(WRAP / 2 + u, k, m, e),
        14 => Sizes { s: 40 + some, ..agreeing(u, k, WRAP / 2 + m, e) },
        // s below h by little, or h itself, both huge.
        15 => {
            let sizes = agreeing(u, k, WRAP / 2 + WRAP / 4 + some, e);
            Sizes { s: sizes.h - rng.below(3), ..sizes }
        }
        // k huge and the bytes for all else there.
        _ => agreeing(u, WRAP / 2 + WRAP / 4 + some, 0, 0),
    }
}
