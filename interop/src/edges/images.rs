//! At which boundaries a CSS image stands, worked out from its bytes; one counts
//! only where no lower number applies. Also which sums of its sizes would be
//! judged otherwise if they wrapped.

use super::{Edge, Stands};

/// A sum of 32 bits wraps here.
pub const WRAP: u64 = 1 << 32;

/// The little-endian dword at a byte.
pub fn dword(blob: &[u8], at: usize) -> u64 {
    (0..4).map(|byte| (blob[at + byte] as u64) << (8 * byte)).sum()
}

/// The sizes of an image.
struct Sizes {
    h: u64,
    s: u64,
    k: u64,
    m: u64,
    e: u64,
}

impl Sizes {
    /// "1 = h, 6 = s, 7 = k, 8 = m, 9 = e"
    fn of(blob: &[u8]) -> Sizes {
        let [h, s, k, m, e] = [1, 6, 7, 8, 9].map(|index| dword(blob, 4 * index));
        Sizes { h, s, k, m, e }
    }

    fn sum(&self) -> u64 {
        32 + self.k + self.m + self.e
    }
}

/// Where an image stands.
pub fn of_image(blob: &[u8]) -> Stands {
    let mut stands = Stands::default();
    let bytes = blob.len() as u64;
    stands.at(Edge::CssBytes, bytes, [127, 128]);
    if bytes >= 128 {
        let sizes = Sizes::of(blob);
        if of_sizes(&mut stands, &sizes) {
            of_ends(&mut stands, &sizes, bytes);
        }
    }
    stands
}

/// Number 16: each rule decides only where the others hold. Whether all do.
fn of_sizes(stands: &mut Stands, sizes: &Sizes) -> bool {
    let Sizes { h, s, k, m, e } = *sizes;
    let sum = sizes.sum();
    let (agrees, signed, longer) = (h == sum, k >= 1, s > h);
    if signed && longer {
        stands.up_to(Edge::CssBelow, h, sum);
        stands.at(Edge::CssAbove, h, [sum, sum + 1]);
        let wraps = |from: u64, to: u64| from < WRAP && to >= WRAP;
        stands.mark("wrap at 32 + k", wraps(k, 32 + k) && h + WRAP == sum);
        stands.mark("wrap at + m", wraps(32 + k, 32 + k + m) && h + WRAP == sum);
        stands.mark("wrap at + e", wraps(32 + k + m, sum) && h + WRAP == sum);
        stands.mark("wrap twice", h + 2 * WRAP == sum);
        stands.mark("wrap of m + e alone", 32 + k + m < WRAP && wraps(e, m + e) && h + WRAP == sum);
    }
    if agrees && longer {
        stands.at(Edge::CssRsa, k, [0, 1]);
    }
    if agrees && signed {
        stands.at(Edge::CssSize, s, [h, h + 1]);
    }
    agrees && signed && longer
}

/// Number 17 and the rule of what is shown.
fn of_ends(stands: &mut Stands, sizes: &Sizes, bytes: u64) {
    let Sizes { h, s, k, m, e } = *sizes;
    let (ucode, rsa) = (4 * (s - h), 4 * k);
    let rsa_end = 128 + ucode + rsa;
    stands.up_to(Edge::CssEnd, bytes, rsa_end);
    if bytes >= rsa_end && m + e > 0 {
        stands.up_to(Edge::CssFull, bytes, 4 * s);
    }
    let there = |end: u64| end <= bytes;
    stands.mark("wrap at 4(s - h)", ucode >= WRAP && there(128 + ucode % WRAP + rsa));
    stands.mark("wrap at 4k", rsa >= WRAP && there(128 + ucode + rsa % WRAP));
    let (ucode_end, short) = (128 + ucode, ucode < WRAP && rsa < WRAP);
    let first = short && ucode_end >= WRAP && there(ucode_end % WRAP + rsa);
    stands.mark("wrap at 128 + 4(s - h)", first);
    let last = short && ucode_end < WRAP && rsa_end >= WRAP && there(rsa_end % WRAP);
    stands.mark("wrap at + 4k", last);
    stands.mark("wrap at 4s", there(rsa_end) && 4 * s >= WRAP && there(4 * s % WRAP));
}

/// Where the number of a component stands.
pub fn of_which(which: u32) -> Stands {
    let mut stands = Stands::default();
    stands.at(Edge::Which, which as u64, [3, 4]);
    stands
}

/// Where the room for a copy of this many bytes stands; 0 bytes always have it.
pub fn of_room(length: usize, room: usize) -> Stands {
    let mut stands = Stands::default();
    if length > 0 {
        stands.up_to(Edge::Room, room as u64, length as u64);
    }
    stands
}
