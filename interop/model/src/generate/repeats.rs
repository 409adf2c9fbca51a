//! Directories in which the name sought stands more than once, in each way that
//! it can, and those in which it only seems to.

use super::cpd::{contents, laid, render, CpdCase, Entry};
use super::directories::{directory, header, padded, some_name, sought};
use super::Rng;

/// Another name than this one.
fn other_than(rng: &mut Rng, name: &[u8; 12]) -> [u8; 12] {
    loop {
        let count = rng.between(1, 12) as usize;
        let other = padded(&some_name(rng, count));
        if other != *name {
            return other;
        }
    }
}

/// So many entries, of which those at `places` have this name and the others
/// have others and hold nothing.
fn entries(rng: &mut Rng, header: u8, name: &[u8], count: usize, places: &[usize]) -> Vec<Entry> {
    let name = padded(name);
    let part = |at: usize| {
        if places.contains(&at) {
            (name, contents(rng, &name))
        } else {
            (other_than(rng, &name), Vec::new())
        }
    };
    laid(header, (0..count).map(part).collect())
}

/// How many entries there are and which of them have the name: neighbours, the
/// first and the last, three, all, and far behind, where the index has nine bits.
fn arrangements(rng: &mut Rng) -> Vec<(usize, Vec<usize>)> {
    let many = rng.between(258, 400) as usize;
    let any = rng.below(many as u64 - 256) as usize;
    vec![
        (2, vec![0, 1]),
        (5, vec![0, 1]),
        (5, vec![2, 3]),
        (5, vec![3, 4]),
        (3, vec![0, 2]),
        (6, vec![0, 5]),
        (5, vec![0, 2, 4]),
        (3, vec![0, 1, 2]),
        (many, vec![0, many - 1]),
        (many, vec![many - 2, many - 1]),
        (many, vec![any, any + 256]),
    ]
}

/// Puts an entry's part beyond every blob that is made here, by its offset or by
/// its length.
fn put_beyond(rng: &mut Rng, entry: &mut Entry) {
    match rng.below(2) {
        0 => entry.offset = 0x01FF_FFFF,
        _ => entry.length = u32::MAX,
    }
}

/// For each name and each arrangement: the parts as they should be, the first's,
/// the last's or all beyond the blob, and entries alike in all that they say.
pub fn every_repeat(rng: &mut Rng) -> Vec<CpdCase> {
    let mut cases = Vec::new();
    for kind in 0..3 {
        for (count, places) in arrangements(rng) {
            for way in 0..5 {
                let (name, header) = (sought(rng, kind), header(rng));
                let mut list = entries(rng, header, &name, count, &places);
                let (first, last) = (places[0], places[places.len() - 1]);
                match way {
                    0 => {}
                    1 => put_beyond(rng, &mut list[first]),
                    2 => put_beyond(rng, &mut list[last]),
                    3 => places.iter().for_each(|at| put_beyond(rng, &mut list[*at])),
                    _ => {
                        let Entry { offset, length, .. } = list[first];
                        (list[last].offset, list[last].length) = (offset, length);
                    }
                }
                cases.push(CpdCase { blob: directory(rng, header, &list), name });
            }
        }
    }
    cases
}

/// Names of each length, twice in the directory.
pub fn every_repeated_length(rng: &mut Rng) -> Vec<CpdCase> {
    let one = |length: usize| {
        let (name, header) = (some_name(rng, length), header(rng));
        let list = entries(rng, header, &name, 3, &[0, 2]);
        CpdCase { blob: directory(rng, header, &list), name }
    };
    (1..=12).map(one).collect()
}

/// A directory whose first two entries of three have the name, cut at every byte:
/// two of the name are there before all entries are.
pub fn every_repeat_cut(rng: &mut Rng) -> Vec<CpdCase> {
    let kind = rng.below(3) as usize;
    let (name, header) = (sought(rng, kind), header(rng));
    let names = [padded(&name), padded(&name), other_than(rng, &padded(&name))];
    let parts = names.map(|name| (name, rng.bytes(3)));
    let blob = directory(rng, header, &laid(header, parts.into()));
    let cut = |end| CpdCase { blob: blob[..end].to_vec(), name: name.clone() };
    (0..=blob.len()).map(cut).collect()
}

/// Names that are not this one of 2 to 10 bytes: one that it begins with, one
/// that begins with it, and its bytes with another than zero behind them.
fn near(rng: &mut Rng, name: &[u8]) -> [[u8; 12]; 3] {
    let (mut longer, mut behind) = (padded(name), padded(name));
    longer[name.len()] = rng.between(1, 255) as u8;
    behind[rng.between(name.len() as u64 + 1, 11) as usize] = rng.between(1, 255) as u8;
    [padded(&name[..name.len() - 1]), longer, behind]
}

/// For each name: an entry of it, and before it, behind it or on both sides one
/// whose name is near, or another name twice; and that twice alone.
pub fn every_near_name(rng: &mut Rng) -> Vec<CpdCase> {
    let mut cases = Vec::new();
    for kind in 0..3 {
        let mut name = sought(rng, kind);
        while !(2..=10).contains(&name.len()) {
            name = sought(rng, kind);
        }
        let own = padded(&name);
        let other = other_than(rng, &own);
        let [shorter, longer, behind] = near(rng, &name);
        for near in [shorter, longer, behind, other] {
            for order in [vec![near, own], vec![own, near], vec![near, own, near], vec![near; 2]] {
                let header = header(rng);
                let parts = order.into_iter().map(|name| (name, contents(rng, &name))).collect();
                let blob = directory(rng, header, &laid(header, parts));
                cases.push(CpdCase { blob, name: name.clone() });
            }
        }
    }
    cases
}

/// For each name: an entry of it as the last of those counted, and a second one
/// just behind them.
pub fn every_uncounted_name(rng: &mut Rng) -> Vec<CpdCase> {
    let one = |index: usize| {
        let (count, kind) = (1 + index / 3, index % 3);
        let (name, header) = (sought(rng, kind), header(rng));
        let list = entries(rng, header, &name, count + 1, &[count - 1, count]);
        CpdCase { blob: render(rng, header, count as u32, &list, 0), name }
    };
    (0..3 * 4).map(one).collect()
}

/// For each name: an entry of it as the last, and the same twelve bytes in the
/// second half of another.
pub fn every_misplaced_name(rng: &mut Rng) -> Vec<CpdCase> {
    let one = |index: usize| {
        let (others, kind) = (1 + index / 3, index % 3);
        let (name, header) = (sought(rng, kind), header(rng));
        let list = entries(rng, header, &name, others + 1, &[others]);
        let mut blob = directory(rng, header, &list);
        let at = header as usize + 24 * rng.below(others as u64) as usize + 12;
        blob[at..at + 12].copy_from_slice(&padded(&name));
        CpdCase { blob, name }
    };
    (0..3 * 4).map(one).collect()
}
