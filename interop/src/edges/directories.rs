//! At which boundaries a directory and a name to seek in it stand, worked out
//! from their bytes; one counts only where none of the numbers that are tested
//! before applies (14, 15, 18, 19, 20, 22, 21). Also which sums would come out
//! otherwise if they wrapped.

use super::images::{dword, of_image, WRAP};
use super::names::{end, Sought, Walk};
use super::{Edge, Stands};
use crate::sets::Set;
use std::ops::Range;

/// Where a directory stands in which this name is sought, and the part found.
pub fn of_directory(blob: &[u8], name: &[u8], sought: Sought) -> (Stands, Option<Range<usize>>) {
    let mut stands = Stands::default();
    let part = if of_name(&mut stands, name) && of_header(&mut stands, blob) {
        find(&mut stands, blob, name, sought)
    } else {
        None
    };
    (stands, part)
}

/// Where a directory stands as its manifest's version is read.
pub fn of_manifest(blob: &[u8]) -> Stands {
    let (mut stands, part) = of_directory(blob, b"HUCP.man", Sought::Manifest);
    if let Some(part) = part {
        stands.at(Edge::Manifest, part.len() as u64, [43, 44]);
    }
    stands
}

/// Where a directory stands as the image in it is judged.
pub fn of_huc(blob: &[u8]) -> Stands {
    let (mut stands, part) = of_directory(blob, b"huc_fw", Sought::Huc);
    if let Some(part) = part {
        stands.add(of_image(&blob[part]));
    }
    stands
}

/// Number 14. Whether it passes.
fn of_name(stands: &mut Stands, name: &[u8]) -> bool {
    if let Some(at) = name.iter().position(|byte| *byte == 0) {
        // It alone decides.
        if name.len() <= 12 && !name[at + 1..].contains(&0) {
            stands.member(Set::ZeroPlace, at);
        }
        return false;
    }
    stands.at(Edge::NameNone, name.len() as u64, [0, 1]);
    stands.at(Edge::NameLong, name.len() as u64, [12, 13]);
    (1..=12).contains(&name.len())
}

/// Numbers 15, 18 and 19. Whether they pass.
fn of_header(stands: &mut Stands, blob: &[u8]) -> bool {
    let bytes = blob.len() as u64;
    stands.at(Edge::CpdBytes, bytes, [19, 20]);
    if bytes < 20 {
        return false;
    }
    let (marker, header) = (dword(blob, 0) ^ 0x4450_4324, blob[10] as u64);
    if marker.count_ones() == 1 && header >= 20 {
        stands.member(Set::MarkerBit, marker.trailing_zeros() as usize);
    }
    if marker != 0 {
        return false;
    }
    stands.at(Edge::CpdHeader, header, [19, 20]);
    if header < 20 {
        stands.member(Set::HeaderLength, blob[10] as usize);
        return false;
    }
    let entries = 24 * dword(blob, 4);
    stands.up_to(Edge::CpdEntries, bytes, header + entries);
    stands.mark("wrap at 24n", entries >= WRAP && header + entries % WRAP <= bytes);
    let sum = header + entries;
    stands.mark("wrap at H + 24n", entries < WRAP && sum >= WRAP && sum % WRAP <= bytes);
    sum <= bytes
}

/// Numbers 20 and 22, by all entries. The part of the one that has the name, if
/// it is the only one and its part is there.
fn find(stands: &mut Stands, blob: &[u8], name: &[u8], sought: Sought) -> Option<Range<usize>> {
    let walk = Walk::of(blob, name);
    let count = walk.named.len() as u64;
    stands.at(Edge::CpdNone, count, [0, 1]);
    stands.at(Edge::CpdTwice, count, [1, 2]);
    walk.note(stands, sought);
    if count != 1 {
        return None;
    }
    let part = of_part(stands, walk.entries[walk.named[0]], blob.len() as u64);
    if part.is_some() {
        stands.member(Set::HeaderLength, blob[10] as usize);
    }
    part
}

/// Number 21. The part, where it passes.
fn of_part(stands: &mut Stands, entry: &[u8], bytes: u64) -> Option<Range<usize>> {
    let (offset, length) = (dword(entry, 12), dword(entry, 16));
    let end = end(entry);
    stands.at(Edge::CpdEnd, end, [bytes, bytes + 1]);
    stands.mark("wrap at offset + length", end >= WRAP && end % WRAP <= bytes);
    // One upper bit, which decides alone: the part is in the blob without it.
    let (upper, low_end) = (offset >> 24, offset % (1 << 24) + length);
    if low_end <= bytes && low_end + (1 << 24) > bytes {
        stands.at(Edge::OffsetBit, upper, [2, 1]);
        if upper.count_ones() == 1 {
            stands.member(Set::OffsetBit, upper.trailing_zeros() as usize);
        }
    }
    (end <= bytes).then(|| (end - length) as usize..end as usize)
}
