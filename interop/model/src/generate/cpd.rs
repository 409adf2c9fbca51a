//! CPD blobs near-valid in every way, with a name to seek; many hold a
//! manifest and a CSS image in `huc_fw`, some of them two of one name.

use super::css::css_blob;
use super::Rng;

/// A directory blob and a name to seek in it.
#[derive(Clone, Debug, PartialEq, Eq)]
pub struct CpdCase {
    pub blob: Vec<u8>,
    pub name: Vec<u8>,
}

const POOL: [&[u8]; 9] = [
    b"HUCP.man",
    b"huc_fw",
    b"huc_f",
    b"huc_fw2",
    b"huc_fw_extra",
    b"HUCP.ma",
    b"abcdefghijkl",
    b"abcdefghijk",
    b"a",
];

pub(super) struct Entry {
    pub name: [u8; 12],
    pub offset: u32,
    pub length: u32,
    pub contents: Vec<u8>,
}

/// Flips one bit of one byte.
fn flip_one(rng: &mut Rng, bytes: &mut [u8]) {
    let at = rng.below(bytes.len() as u64) as usize;
    bytes[at] ^= 1 << rng.below(8);
}

/// An entry's name: the two that matter more often, sometimes with a byte
/// after its zeros or with one bit changed, which is then another name.
fn entry_name(rng: &mut Rng) -> [u8; 12] {
    let from = if rng.chance(1, 2) { rng.pick(&POOL[..2]) } else { rng.pick(&POOL) };
    let mut name = [0; 12];
    name[..from.len()].copy_from_slice(from);
    if rng.chance(1, 10) && from.len() < 11 {
        name[rng.between(from.len() as u64, 11) as usize] = rng.between(1, 255) as u8;
    }
    if rng.chance(1, 8) {
        flip_one(rng, &mut name);
    }
    name
}

/// Names for the entries: mostly no two alike, else as chance brings them. It
/// brings the same name often enough to hide what else there is to refuse.
fn names(rng: &mut Rng, count: usize) -> Vec<[u8; 12]> {
    let apart = rng.chance(7, 8);
    let mut names = Vec::new();
    while names.len() < count {
        let name = entry_name(rng);
        if !apart || !names.contains(&name) {
            names.push(name);
        }
    }
    names
}

/// Gives an entry's name to another or to all, or makes two alike in all that
/// an entry says.
fn repeat(rng: &mut Rng, list: &mut [Entry]) {
    let (from, to) = (rng.below(list.len() as u64), rng.below(list.len() as u64));
    let Entry { name, offset, length, .. } = list[from as usize];
    let to = &mut list[to as usize];
    match rng.below(4) {
        0 => (to.name, to.offset, to.length) = (name, offset, length),
        1 => list.iter_mut().for_each(|entry| entry.name = name),
        _ => to.name = name,
    }
}

/// What an entry of this name holds, if it holds it properly.
pub(super) fn contents(rng: &mut Rng, name: &[u8; 12]) -> Vec<u8> {
    let count = match &name[..6] {
        b"huc_fw" => return css_blob(rng),
        b"HUCP.m" => rng.pick(&[43usize, 44, 44, 45, 0, 36, 100]),
        _ => rng.pick(&[0usize, 1, 2, 20, 64]),
    };
    rng.bytes(count)
}

/// Entries of these names and contents behind a header of this length, their
/// parts one after the other behind them.
pub(super) fn laid(header: u8, parts: Vec<([u8; 12], Vec<u8>)>) -> Vec<Entry> {
    let mut at = header as usize + 24 * parts.len();
    let mut lay = |(name, contents): ([u8; 12], Vec<u8>)| {
        let entry = Entry { name, offset: at as u32, length: contents.len() as u32, contents };
        at += entry.contents.len();
        entry
    };
    parts.into_iter().map(&mut lay).collect()
}

/// Moves an entry's part to the blob's end or beyond, or sets the offset's
/// upper bits, which don't count.
fn tweak(rng: &mut Rng, entry: &mut Entry, end: u32) {
    match rng.below(14) {
        0..=2 => entry.offset |= (rng.between(1, 127) as u32) << 25,
        3 => (entry.offset, entry.length) = (end, 0),
        4 => (entry.offset, entry.length) = (end, 1),
        5 => (entry.offset, entry.length) = (end + 1, 0),
        6 => (entry.offset, entry.length) = (end.saturating_sub(1), rng.between(0, 2) as u32),
        7 => entry.length = (end.saturating_sub(entry.offset) + rng.below(2) as u32).max(1),
        8 => (entry.offset, entry.length) = (0, end + rng.below(2) as u32),
        9 => entry.length = 0u32.wrapping_sub(entry.offset).wrapping_add(rng.below(60) as u32),
        10 => entry.offset |= 1 << rng.pick(&[24, 24, 20, 25, 31]),
        11 => entry.length = rng.edgy(),
        12 => entry.offset = rng.edgy(),
        _ => (entry.offset, entry.length) = (0x01FF_FFFF, rng.pick(&[0, 1, u32::MAX])),
    }
}

/// A directory of these entries that says it has `written`, of `end` bytes.
pub(super) fn render(
    rng: &mut Rng,
    header: u8,
    written: u32,
    list: &[Entry],
    end: usize,
) -> Vec<u8> {
    let mut blob = rng.bytes(header.max(20) as usize);
    blob[..4].copy_from_slice(&[0x24, 0x43, 0x50, 0x44]);
    blob[4..8].copy_from_slice(&written.to_le_bytes());
    blob[10] = header;
    blob.truncate(header.max(11) as usize);
    for entry in list {
        blob.extend(entry.name);
        blob.extend(entry.offset.to_le_bytes());
        blob.extend(entry.length.to_le_bytes());
        blob.extend(rng.bytes(4));
    }
    for entry in list {
        blob.extend(&entry.contents);
    }
    let gap = end.saturating_sub(blob.len());
    blob.extend(rng.bytes(gap));
    blob
}

/// Breaks the finished blob: marker, H without moving the entries, or a cut.
fn break_blob(rng: &mut Rng, blob: &mut Vec<u8>, entries_end: usize) {
    match rng.below(8) {
        0 | 1 => {
            flip_one(rng, &mut blob[..4]);
        }
        2 => blob[10] = rng.pick(&[19, 18, 0, 20, 21, 24, 44, 255]),
        3 => blob.truncate(rng.pick(&[0, 1, 3, 4, 8, 11, 18, 19, 20, 21])),
        4 | 5 => blob.truncate((entries_end + 1).saturating_sub(rng.pick(&[0, 1, 2, 2, 3]))),
        6 => {
            let length = rng.below(blob.len() as u64 + 1) as usize;
            blob.truncate(length);
        }
        _ => drop(blob.pop()),
    }
}

/// A name to seek: mostly one of the directory's or of the pool.
fn name(rng: &mut Rng, list: &[Entry]) -> Vec<u8> {
    let mut name = rng.pick(&POOL).to_vec();
    if !list.is_empty() && rng.chance(2, 3) {
        let entry = &list[rng.below(list.len() as u64) as usize];
        name = entry.name.iter().copied().take_while(|&byte| byte != 0).collect();
    }
    match rng.below(40) {
        0 => name.clear(),
        1 => name.resize(13, b'x'),
        2 => name.resize(12, 0),
        3 => name[0] = 0,
        4 => drop(name.pop()),
        5 => name.push(b'x'),
        6 => name.extend([0]),
        7 => {
            let count = rng.below(16) as usize;
            name = rng.bytes(count);
        }
        8..=10 if !name.is_empty() => flip_one(rng, &mut name),
        _ => {}
    }
    name
}

/// A directory and a name to seek in it.
pub fn cpd_case(rng: &mut Rng) -> CpdCase {
    let header = match rng.below(8) {
        0 => rng.pick(&[19, 19, 0, 255, 48]),
        1 => rng.between(21, 24) as u8,
        2 => rng.word() as u8,
        _ => 20,
    };
    let count = rng.pick(&[0usize, 1, 1, 2, 2, 2, 3, 3, 5]);
    let entries_end = header as usize + 24 * count;
    let parts = names(rng, count).into_iter().map(|name| (name, contents(rng, &name)));
    let mut list = laid(header, parts.collect());
    let slack = rng.pick(&[0usize, 0, 0, 1, 24, 40]);
    let end = list.last().map_or(entries_end, |last| last.offset as usize + last.contents.len());
    for entry in &mut list {
        if rng.chance(1, 3) {
            tweak(rng, entry, (end + slack) as u32);
        }
    }
    if count > 1 && rng.chance(1, 6) {
        repeat(rng, &mut list);
    }
    let written = match rng.below(16) {
        0 => rng.pick(&[0x0AAA_AAAB, 0x2000_0000, 0x4000_0000, u32::MAX, 0x0AAA_AAAA, 1 << 31]),
        1 => count as u32 + 1,
        2 => (count as u32).saturating_sub(1),
        _ => count as u32,
    };
    let mut blob = render(rng, header, written, &list, end + slack);
    if rng.chance(1, 5) {
        break_blob(rng, &mut blob, entries_end);
    }
    let name = name(rng, &list);
    CpdCase { blob, name }
}
