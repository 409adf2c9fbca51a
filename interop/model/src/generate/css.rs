//! CSS blobs, near-valid in every way: sizes that agree, that are one off,
//! that agree only with wrap, and blobs cut at each boundary.

use super::wraps::{wrapping, KINDS};
use super::Rng;

/// Sizes in dwords and the blob's length in bytes.
#[derive(Clone, Copy, Debug)]
pub(super) struct Sizes {
    pub h: u64,
    pub s: u64,
    pub k: u64,
    pub m: u64,
    pub e: u64,
    pub bytes: u64,
}

/// Sizes that agree, for this much uCode, with a full blob.
pub(super) fn agreeing(u: u64, k: u64, m: u64, e: u64) -> Sizes {
    let h = 32 + k + m + e;
    let s = h + u;
    Sizes { h, s, k, m, e, bytes: 4 * s }
}

/// Small sizes that agree; the paper's own now and then.
fn small(rng: &mut Rng) -> Sizes {
    if rng.chance(1, 16) {
        return agreeing(1000, 64, 64, 1);
    }
    let (u, k) = (rng.between(1, 12), rng.between(1, 9));
    let m = rng.pick(&[0, 1, 2, 8, 64]);
    let e = rng.pick(&[0, 1, 1, 2, 8]);
    agreeing(u, k, m, e)
}

/// Cuts or lengthens the blob at a boundary, or one or so byte from it.
fn cut(rng: &mut Rng, sizes: &mut Sizes) {
    let ucode_end = 128 + 4 * (sizes.s - sizes.h);
    let rsa_end = ucode_end + 4 * sizes.k;
    let modulus_end = rsa_end + 4 * sizes.m;
    let full = 4 * sizes.s;
    let at = rng.pick(&[128, ucode_end, rsa_end, rsa_end, modulus_end, full, full, full + 64]);
    sizes.bytes = (at + rng.pick(&[0, 1, 2, 3, 4])).saturating_sub(rng.pick(&[0, 1, 2, 4]));
}

/// Sizes with huge parts of this kind; the blob has about what small ones need.
fn huge(rng: &mut Rng, kind: u64) -> Sizes {
    let base = small(rng);
    let mut sizes = wrapping(rng, &base, kind);
    let present = 128 + 4 * (base.s - base.h) + 4 * base.k;
    let more = rng.pick(&[0, 0, 1, 64, 300]);
    sizes.bytes = (present + more).saturating_sub(rng.pick(&[0, 0, 0, 1, 4]));
    sizes
}

/// Images with huge parts, one of each kind, and all bytes that a sum with wrap
/// would ask for.
pub fn wrapping_images(rng: &mut Rng) -> Vec<Vec<u8>> {
    let image = |kind| {
        let sizes = huge(rng, kind);
        render(rng, &Sizes { bytes: 1000, ..sizes })
    };
    (0..KINDS).map(image).collect()
}

/// An image cut at every byte, from none to a few more than it has.
pub fn every_length(rng: &mut Rng) -> Vec<Vec<u8>> {
    let (u, k) = (rng.between(1, 3), rng.between(1, 3));
    let sizes = agreeing(u, k, rng.below(4), rng.below(3));
    let whole = render(rng, &Sizes { bytes: 4 * sizes.s + 5, ..sizes });
    (0..=whole.len()).map(|length| whole[..length].to_vec()).collect()
}

/// Images of which one size is one more or one less than agrees.
pub fn one_off(rng: &mut Rng) -> Vec<Vec<u8>> {
    let base = agreeing(rng.between(1, 3), rng.between(1, 2), rng.between(1, 2), 1);
    let base = Sizes { bytes: base.bytes + 16, ..base };
    let off = |add: u64| {
        let by = |value: u64| value + add - 1;
        [
            Sizes { h: by(base.h), ..base },
            Sizes { s: by(base.s), ..base },
            Sizes { s: by(base.h), ..base },
            Sizes { k: by(base.k), ..base },
            Sizes { m: by(base.m), ..base },
            Sizes { e: by(base.e), ..base },
            Sizes { bytes: base.bytes, ..agreeing(base.s - base.h, add, base.m, base.e) },
        ]
    };
    [off(0), off(1), off(2)].concat().iter().map(|sizes| render(rng, sizes)).collect()
}

/// Sizes that disagree: one off, k = 0, s = h, s below h, one field random.
fn disagreeing(rng: &mut Rng) -> Sizes {
    let mut sizes = small(rng);
    match rng.below(8) {
        0 => sizes.h += 1,
        1 => sizes.h -= 1,
        2 => {
            let u = sizes.s - sizes.h;
            sizes = agreeing(u, 0, sizes.m, sizes.e);
        }
        3 => sizes.s = sizes.h,
        4 => sizes.s = rng.pick(&[0, 1, sizes.h - 1, sizes.h - 32]),
        5 => sizes.k = rng.edgy() as u64,
        6 => sizes.m = rng.edgy() as u64,
        _ => sizes.e = rng.pick(&[sizes.e + 1, sizes.e + 256, u32::MAX as u64]),
    }
    sizes
}

fn put(blob: &mut [u8], index: usize, value: u64) {
    let at = index * 4;
    if blob.len() >= at + 4 {
        blob[at..at + 4].copy_from_slice(&(value as u32).to_le_bytes());
    }
}

/// A blob of these sizes, random in all other bytes.
fn render(rng: &mut Rng, sizes: &Sizes) -> Vec<u8> {
    let mut blob = rng.bytes(sizes.bytes as usize);
    put(&mut blob, 1, sizes.h);
    put(&mut blob, 6, sizes.s);
    put(&mut blob, 7, sizes.k);
    put(&mut blob, 8, sizes.m);
    put(&mut blob, 9, sizes.e);
    blob
}

/// A CSS blob, of a few kilobytes at most.
pub fn css_blob(rng: &mut Rng) -> Vec<u8> {
    let mut sizes = match rng.below(10) {
        0..=4 => small(rng),
        5 | 6 => {
            let kind = rng.below(KINDS);
            huge(rng, kind)
        }
        7 | 8 => disagreeing(rng),
        _ => {
            let count = rng.pick(&[0usize, 1, 64, 100, 127, 128, 129, 300]);
            return rng.bytes(count);
        }
    };
    if sizes.h == 32 + sizes.k + sizes.m + sizes.e && sizes.s < 4096 && rng.chance(1, 2) {
        if sizes.s > sizes.h {
            cut(rng, &mut sizes);
        }
    } else if rng.chance(1, 8) {
        sizes.bytes = rng.pick(&[0, 40, 68, 127, 128]);
    }
    render(rng, &sizes)
}
