//! A few large blobs: parts, offsets and entry numbers that need more than 16
//! or 24 bits, which the small generated ones can't have. So the second entry of
//! a name may be one that 16 bits don't count.

use crate::firmware::{check_css_blob, check_directory};
use crate::same::Outcome;
use crate::tally::Tally;
use model::generate::Rng;

fn put(blob: &mut [u8], at: usize, value: u32) {
    blob[at..at + 4].copy_from_slice(&value.to_le_bytes());
}

/// Bytes that differ from place to place, made cheaply.
fn filled(rng: &mut Rng, count: usize) -> Vec<u8> {
    let step = rng.word() | 1;
    (0..count as u32).map(|at| (at.wrapping_mul(step) >> 13) as u8).collect()
}

/// An image of up to about 1 MiB, cut or not.
fn image(rng: &mut Rng) -> Vec<u8> {
    let (u, k) = (rng.between(16_000, 200_000) as u32, rng.between(1, 70_000) as u32);
    let (m, e) = (rng.pick(&[0, 64, 17_000]), rng.pick(&[0, 1, 17_000]));
    let h = 32 + k + m + e;
    let s = h + u;
    let less = rng.pick(&[0, 0, 0, 1, 4 * (m + e), 4 * (m + e) + 1]) as usize;
    let mut blob = filled(rng, 4 * s as usize + 8);
    for (index, value) in [(1, h), (6, s), (7, k), (8, m), (9, e)] {
        put(&mut blob, 4 * index, value);
    }
    blob.truncate((4 * s as usize).saturating_sub(less));
    blob
}

fn entry(blob: &mut [u8], at: usize, name: &[u8], offset: usize, len: usize) {
    blob[at..at + 12].fill(0);
    blob[at..at + name.len()].copy_from_slice(name);
    put(blob, at + 12, offset as u32);
    put(blob, at + 16, len as u32);
}

/// A directory with its image far behind the entries.
fn directory(rng: &mut Rng, gap: usize, count: usize) -> Vec<u8> {
    let inner = image(rng);
    let start = 20 + 24 * count + gap;
    let mut blob = filled(rng, start + inner.len());
    blob[..4].copy_from_slice(b"$CPD");
    put(&mut blob, 4, count as u32);
    blob[10] = 20;
    for index in 0..count - 2 {
        entry(&mut blob, 20 + 24 * index, b"huc_fw\0\0\0\0\0x", index, 1);
    }
    entry(&mut blob, 20 + 24 * (count - 2), b"HUCP.man", start - 44.min(gap), 44.min(gap));
    entry(&mut blob, 20 + 24 * (count - 1), b"huc_fw", start, inner.len());
    blob[start..].copy_from_slice(&inner);
    blob
}

/// One large blob; one in six has its image past 16 MiB. Two in three of those
/// with many entries have the last one's name, the image's, once more.
pub fn check(rng: &mut Rng, tally: &mut Tally) -> Outcome {
    if rng.chance(1, 2) {
        let blob = image(rng);
        return check_css_blob(rng, tally, &blob);
    }
    let far = rng.chance(1, 3);
    let gap = if far { (1 << 24) + rng.below(1000) as usize } else { rng.below(1 << 18) as usize };
    let count = rng.pick(&[2, 300, 70_000, 70_000]);
    let mut blob = directory(rng, gap, count);
    tally.mark("part past 16 MiB", far as u64);
    let twice = count > 2 && rng.chance(2, 3);
    if twice {
        let first = rng.below(count as u64 - 2) as usize;
        entry(&mut blob, 20 + 24 * first, b"huc_fw", first, 1);
    }
    tally.mark("second entry behind 65,536 others", (twice && count > 65_536) as u64);
    check_directory(rng, tally, &blob, b"huc_fw")
}
