//! Directories made on purpose, one for each member of a set: every bit of a
//! name, every header length, every length, every sum that wraps.

use super::cpd::{contents, laid, render, CpdCase, Entry};
use super::Rng;

/// A name's twelve bytes.
pub(super) fn padded(name: &[u8]) -> [u8; 12] {
    let mut bytes = [0; 12];
    let count = name.len().min(12);
    bytes[..count].copy_from_slice(&name[..count]);
    bytes
}

/// A name of this many bytes, none of them zero.
pub(super) fn some_name(rng: &mut Rng, count: usize) -> Vec<u8> {
    (0..count).map(|_| rng.between(1, 255) as u8).collect()
}

/// One of the three kinds of names that are sought, of 1 to 12 bytes.
pub(super) fn sought(rng: &mut Rng, kind: usize) -> Vec<u8> {
    let count = rng.between(1, 12) as usize;
    match kind {
        0 => b"HUCP.man".to_vec(),
        1 => b"huc_fw".to_vec(),
        _ => some_name(rng, count),
    }
}

/// A header length that is allowed.
pub(super) fn header(rng: &mut Rng) -> u8 {
    rng.between(20, 255) as u8
}

/// A directory of these entries, with some bytes behind it.
pub(super) fn directory(rng: &mut Rng, header: u8, list: &[Entry]) -> Vec<u8> {
    let slack = rng.below(60) as usize;
    let end = header as usize + list.iter().map(|e| 24 + e.contents.len()).sum::<usize>();
    render(rng, header, list.len() as u32, list, end + slack)
}

/// A directory with one entry of this name.
pub fn directory_of(rng: &mut Rng, name: &[u8], part: Vec<u8>) -> CpdCase {
    let header = header(rng);
    let blob = directory(rng, header, &laid(header, vec![(padded(name), part)]));
    CpdCase { blob, name: name.to_vec() }
}

/// For each name and each of its 96 bits: an entry with that bit changed, alone,
/// with the entry itself behind it, or before it.
pub fn every_name_bit(rng: &mut Rng) -> Vec<CpdCase> {
    let one = |index: usize| {
        let (bit, order, kind) = (index % 96, index / 96 % 3, index / 288);
        let name = sought(rng, kind);
        let (right, mut wrong) = (padded(&name), padded(&name));
        wrong[bit / 8] ^= 1 << (bit % 8);
        let names = [vec![wrong], vec![wrong, right], vec![right, wrong]];
        let parts = names[order].iter().map(|name| (*name, contents(rng, name))).collect();
        let header = header(rng);
        CpdCase { blob: directory(rng, header, &laid(header, parts)), name }
    };
    (0..3 * 3 * 96).map(one).collect()
}

/// Each header length, with a manifest and an image behind it.
pub fn every_header_length(rng: &mut Rng) -> Vec<CpdCase> {
    let one = |header: u8| {
        let names = [padded(b"HUCP.man"), padded(b"huc_fw")];
        let parts = names.map(|name| (name, contents(rng, &name)));
        let blob = directory(rng, header, &laid(header, parts.into()));
        let kind = rng.below(2) as usize;
        CpdCase { blob, name: sought(rng, kind) }
    };
    (0..=255).map(one).collect()
}

/// A directory cut at every byte; manifests of every length, with more bytes
/// behind the part.
pub fn every_part_length(rng: &mut Rng) -> Vec<CpdCase> {
    let kind = rng.below(3) as usize;
    let name = sought(rng, kind);
    let part = rng.bytes(44);
    let whole = directory_of(rng, &name, part);
    let mut cases: Vec<CpdCase> = (0..=whole.blob.len())
        .map(|end| CpdCase { blob: whole.blob[..end].to_vec(), name: name.clone() })
        .collect();
    for length in 0..50 {
        let part = rng.bytes(length);
        cases.push(directory_of(rng, b"HUCP.man", part));
    }
    cases
}

/// Entry counts for which 24n or H + 24n, and entries for which offset and
/// length, come to little with wrap.
pub fn every_wrap(rng: &mut Rng) -> Vec<CpdCase> {
    let mut cases = Vec::new();
    let mut counted = |rng: &mut Rng, count: u64, header: u8| {
        let mut case = directory_of(rng, b"huc_fw", vec![7; 44]);
        case.blob[4..8].copy_from_slice(&(count as u32).to_le_bytes());
        case.blob[10] = header;
        cases.push(case);
    };
    for turns in 1..24 {
        counted(rng, (turns << 32) / 24 + 1, 20);
    }
    for fewer in 0..9 {
        let header = rng.between(20.max(16 + 24 * fewer), 255) as u8;
        counted(rng, (1 << 32) / 24 - fewer, header);
    }
    for kind in [0, 1, 2, 0, 1, 2] {
        let (name, header) = (sought(rng, kind), header(rng));
        let mut list = laid(header, vec![(padded(&name), rng.bytes(50))]);
        list[0].length = (rng.below(50) as u32).wrapping_sub(list[0].offset);
        cases.push(CpdCase { blob: directory(rng, header, &list), name });
    }
    cases
}

/// Each bit of the offset from 24 on, alone, and each bit of the marker wrong.
pub fn every_upper_bit(rng: &mut Rng) -> Vec<CpdCase> {
    let mut cases = Vec::new();
    for bit in 24..32 {
        for kind in 0..3 {
            let (name, header) = (sought(rng, kind), header(rng));
            let mut list = laid(header, vec![(padded(&name), rng.bytes(50))]);
            list[0].offset |= 1 << bit;
            cases.push(CpdCase { blob: directory(rng, header, &list), name });
        }
    }
    for bit in 0..32 {
        let kind = rng.below(3) as usize;
        let name = sought(rng, kind);
        let mut case = directory_of(rng, &name, vec![9; 44]);
        case.blob[bit / 8] ^= 1 << (bit % 8);
        cases.push(case);
    }
    cases
}

/// Names of every length, and with a zero at every place, in directories that
/// have an entry of the same first twelve bytes.
pub fn every_name_length(rng: &mut Rng) -> Vec<CpdCase> {
    let mut names: Vec<Vec<u8>> = (0..17).map(|count| some_name(rng, count)).collect();
    for place in 0..12 {
        let mut name = some_name(rng, 12);
        name[place] = 0;
        names.push(name[..=place].to_vec());
        names.push(name);
    }
    names.iter().map(|name| directory_of(rng, name, vec![3; 20])).collect()
}
