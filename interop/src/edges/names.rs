//! Which entries of a directory have the name sought and which only come near
//! it, worked out from the bytes: the members of sets for numbers 20 and 22.

use super::images::dword;
use super::Stands;
use crate::sets::Set;

/// What is sought: any name, by the caller, or one of the two that calls seek
/// themselves.
#[derive(Clone, Copy, Debug, PartialEq, Eq)]
pub enum Sought {
    Any,
    Manifest,
    Huc,
}

/// They by name, in their order.
pub const SOUGHT: [&str; 3] = ["any name", "HUCP.man", "huc_fw"];

/// Ways in which more than one entry has the name.
pub const TWICE: [&str; 10] = [
    "two next to each other",
    "the first and the last",
    "one behind 256 others",
    "three or more",
    "alike in offset and length",
    "not alike",
    "the first's part beyond",
    "the last's part beyond",
    "all parts beyond",
    "no part beyond",
];

/// What is no second entry of the name, beside an entry that has it.
pub const ONCE: [&str; 9] = [
    "before it a name that it begins with",
    "before it a name that begins with it",
    "before it its bytes, a zero and more",
    "behind it a name that it begins with",
    "behind it a name that begins with it",
    "behind it its bytes, a zero and more",
    "another name twice",
    "the name in the second half of an entry",
    "the name behind the entries counted",
];

/// A directory's entries, and the indices of those that have the name.
pub struct Walk<'a> {
    pub named: Vec<usize>,
    pub entries: Vec<&'a [u8]>,
    behind: &'a [u8],
    name: &'a [u8],
    padded: [u8; 12],
    bytes: u64,
}

impl<'a> Walk<'a> {
    /// Of a directory and a name that 14, 15, 18 and 19 don't refuse.
    pub fn of(blob: &'a [u8], name: &'a [u8]) -> Walk<'a> {
        let mut padded = [0; 12];
        padded[..name.len()].copy_from_slice(name);
        let (counted, behind) = blob[blob[10] as usize..].split_at(24 * dword(blob, 4) as usize);
        let entries: Vec<&[u8]> = counted.chunks_exact(24).collect();
        let has = |at: &usize| entries[*at][..12] == padded;
        let named = (0..entries.len()).filter(has).collect();
        Walk { named, entries, behind, name, padded, bytes: blob.len() as u64 }
    }

    /// Notes what the names are members of.
    pub fn note(&self, stands: &mut Stands, sought: Sought) {
        match self.named[..] {
            [] => self.note_bits(stands, sought, self.entries.len()),
            [at] => {
                self.note_bits(stands, sought, at);
                self.note_once(stands, sought, at);
            }
            [first, .., last] => self.note_twice(stands, sought, first, last),
        }
    }

    /// Entries one bit off the name, before and behind this one.
    fn note_bits(&self, stands: &mut Stands, sought: Sought, found: usize) {
        let bits = [Set::NameBit, Set::ManifestBit, Set::HucBit][sought as usize];
        for (at, entry) in self.entries.iter().enumerate() {
            match one_bit(&entry[..12], &self.padded) {
                Some(bit) if at < found => stands.member(bits, bit),
                Some(bit) => stands.member(Set::LaterBit, 96 * sought as usize + bit),
                None => {}
            }
        }
    }

    fn note_once(&self, stands: &mut Stands, sought: Sought, found: usize) {
        let mut member = |way: usize| stands.member(Set::Once, ONCE.len() * sought as usize + way);
        for (at, entry) in self.entries.iter().enumerate() {
            if let Some(kind) = self.near(&entry[..12]) {
                member(kind + if at < found { 0 } else { 3 });
            }
        }
        if self.others_twice() {
            member(6);
        }
        if self.entries.iter().any(|entry| entry[12..] == self.padded) {
            member(7);
        }
        if self.behind.starts_with(&self.padded) {
            member(8);
        }
    }

    /// The kind of a name that is near: 0, 1 or 2, as in `ONCE`.
    fn near(&self, other: &[u8]) -> Option<usize> {
        let length = self.name.len();
        let text = other.iter().position(|byte| *byte == 0).unwrap_or(12);
        let zeros = other[text..].iter().all(|byte| *byte == 0);
        match text {
            0 => None,
            _ if text < length => (zeros && self.name.starts_with(&other[..text])).then_some(0),
            _ if !other.starts_with(self.name) => None,
            _ if text > length => Some(1),
            _ => (!zeros).then_some(2),
        }
    }

    /// Whether two of the others share a name; of large directories their first
    /// 1,000 entries are asked.
    fn others_twice(&self) -> bool {
        let mut names: Vec<&[u8]> = self.entries.iter().take(1000).map(|e| &e[..12]).collect();
        names.sort_unstable();
        names.windows(2).any(|pair| pair[0] == pair[1])
    }

    fn note_twice(&self, stands: &mut Stands, sought: Sought, first: usize, last: usize) {
        let (two, all) = (self.named.len() == 2, self.entries.len());
        let alike = self.entries[first][12..20] == self.entries[last][12..20];
        let beyond = |at: usize| end(self.entries[at]) > self.bytes;
        let parts = [beyond(first), beyond(last)];
        let ways = [
            two && last == first + 1,
            two && (first, last) == (0, all - 1) && all > 2,
            last >= 256,
            !two,
            two && alike,
            two && !alike,
            two && parts == [true, false],
            two && parts == [false, true],
            self.named.iter().all(|at| beyond(*at)),
            !self.named.iter().any(|at| beyond(*at)),
        ];
        for way in (0..TWICE.len()).filter(|way| ways[*way]) {
            stands.member(Set::Twice, TWICE.len() * sought as usize + way);
        }
        if sought == Sought::Any {
            stands.member(Set::TwiceLength, self.name.len() - 1);
        }
    }
}

/// Where an entry's part ends.
pub fn end(entry: &[u8]) -> u64 {
    dword(entry, 12) % (1 << 25) + dword(entry, 16)
}

/// The one bit in which two names of twelve bytes differ, if it is one.
fn one_bit(left: &[u8], right: &[u8; 12]) -> Option<usize> {
    let bits: u32 = left.iter().zip(right).map(|(l, r)| (l ^ r).count_ones()).sum();
    let at = left.iter().zip(right).position(|(l, r)| l != r)?;
    (bits == 1).then(|| 8 * at + (left[at] ^ right[at]).trailing_zeros() as usize)
}
