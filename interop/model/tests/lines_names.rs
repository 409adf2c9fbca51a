//! T-03, "Two files with one name", both sides of it: what is a second entry of
//! a name, what only looks like one, and which number comes before which.

use model::cpd;
use model::css::Image;

/// An entry: its name, offset and length.
type Entry<'a> = (&'a [u8], u32, u32);

/// The bytes of a directory, unless its entries need more.
const BYTES: usize = 400;

/// A directory with H 20 that says it has `count` entries and has these.
fn counted(count: usize, entries: &[Entry]) -> Vec<u8> {
    let mut blob = vec![0x24, 0x43, 0x50, 0x44];
    blob.extend((count as u32).to_le_bytes());
    blob.extend([1, 1, 20, 0, 9, 9, 9, 9, 9, 9, 9, 9]);
    for (index, (name, offset, length)) in entries.iter().enumerate() {
        let mut padded = name.to_vec();
        padded.resize(12, 0);
        blob.extend(padded);
        blob.extend(offset.to_le_bytes());
        blob.extend(length.to_le_bytes());
        blob.extend([index as u8; 4]);
    }
    blob.resize(BYTES.max(blob.len()), 0xAA);
    blob
}

fn directory(entries: &[Entry]) -> Vec<u8> {
    counted(entries.len(), entries)
}

/// The number for `part`, with the place where it is 0.
fn part(entries: &[Entry]) -> (u32, usize, usize) {
    cpd::seek(&directory(entries), b"part")
}

const REFUSED: (u32, usize, usize) = (22, 0, 0);

#[test]
fn any_of_five_entries() {
    let others: [&[u8]; 5] = [b"a", b"b", b"c", b"d", b"e"];
    for which in 0..32u32 {
        let entry = |at: usize| -> Entry {
            let name = if which >> at & 1 == 1 { b"part" } else { others[at] };
            (name, 200 + 10 * at as u32, at as u32)
        };
        let only = which.trailing_zeros() as usize;
        let expected = match which.count_ones() {
            0 => (20, 0, 0),
            1 => (0, 200 + 10 * only, 200 + 11 * only),
            _ => REFUSED,
        };
        assert_eq!(part(&[0, 1, 2, 3, 4].map(entry)), expected, "entries {which:05b}");
    }
}

#[test]
fn far_apart_and_far_behind() {
    for count in [300, 70_000] {
        let mut entries: Vec<Entry> = vec![(b"other", 0, 0); count];
        entries[count - 1] = (b"part", 3, 4);
        assert_eq!(part(&entries), (0, 3, 7), "others may be of one name");
        for second in [0, 1, count / 2, count - 2] {
            let mut twice = entries.clone();
            twice[second] = (b"part", 3, 4);
            assert_eq!(part(&twice), REFUSED, "{second} and the last of {count}");
        }
    }
}

#[test]
fn whatever_else_they_say() {
    let one: Entry = (b"part", 200, 8);
    let others: [Entry; 6] = [
        (b"part", 200, 8),
        (b"part", 201, 8),
        (b"part", 200, 9),
        (b"part", 0xFE00_00C8, 8),
        (b"part", 0, 0),
        (b"part", 200, u32::MAX),
    ];
    for other in others {
        assert_eq!(part(&[one, other]), REFUSED, "{other:?}");
        assert_eq!(part(&[other, one]), REFUSED, "{other:?}");
        assert_eq!(part(&[other, (b"x", 0, 0), one, (b"y", 0, 0)]), REFUSED, "{other:?}");
    }
}

#[test]
fn names_that_only_look_like_it() {
    let one: Entry = (b"part", 200, 8);
    let near: [&[u8]; 10] = [
        b"par",
        b"part2",
        b"part2part2pa",
        b"part\0x",
        b"part\0\0\0\0\0\0\0x",
        b"part\0part",
        b"PART",
        b"\0part",
        b"\0",
        b"apart",
    ];
    for name in near {
        let other = (name, 200, 8);
        assert_eq!(part(&[other, one]), (0, 200, 208), "{}", name.escape_ascii());
        assert_eq!(part(&[one, other]), (0, 200, 208), "{}", name.escape_ascii());
        assert_eq!(part(&[other, one, other]), (0, 200, 208), "{}", name.escape_ascii());
        assert_eq!(part(&[other, other]), (20, 0, 0), "{}", name.escape_ascii());
        assert_eq!(part(&[one, other, one]), REFUSED, "{}", name.escape_ascii());
    }
}

#[test]
fn a_name_of_twelve_bytes() {
    let (one, other): (Entry, Entry) = ((b"abcdefghijkl", 200, 1), (b"abcdefghijkm", 201, 1));
    let seek = |entries: &[Entry], name: &[u8]| cpd::seek(&directory(entries), name);
    assert_eq!(seek(&[one, other], b"abcdefghijkl"), (0, 200, 201));
    assert_eq!(seek(&[one, other], b"abcdefghijkm"), (0, 201, 202));
    assert_eq!(seek(&[one, other, one], b"abcdefghijkl"), REFUSED);
    assert_eq!(seek(&[one, other, one], b"abcdefghijkm"), (0, 201, 202));
    assert_eq!(seek(&[one, one], b"abcdefghijk"), (20, 0, 0));
    assert_eq!(seek(&[one, one], b"abcdefghijklm"), (14, 0, 0));
}

#[test]
fn after_20_and_before_21() {
    let (inside, beyond): (Entry, Entry) = ((b"part", 392, 8), (b"part", 392, 9));
    assert_eq!(part(&[inside]), (0, 392, 400));
    assert_eq!(part(&[beyond]), (21, 0, 0));
    for twice in [[beyond, inside], [inside, beyond], [beyond, beyond]] {
        assert_eq!(part(&twice), REFUSED);
        // The numbers before 22 stay where they are.
        let blob = directory(&twice);
        assert_eq!(cpd::seek(&blob, b"par"), (20, 0, 0));
        assert_eq!(cpd::seek(&blob[..68], b"part"), REFUSED);
        assert_eq!(cpd::seek(&blob[..67], b"part"), (19, 0, 0));
        let third = counted(3, &twice);
        assert_eq!(cpd::seek(&third[..91], b"part"), (19, 0, 0), "both there, but not the third");
        assert_eq!(cpd::seek(&third[..92], b"part"), REFUSED);
        assert_eq!(cpd::seek(&blob[..19], b"part"), (15, 0, 0));
        assert_eq!(cpd::seek(&blob, b"part\0"), (14, 0, 0));
        let mut wrong = blob;
        wrong[10] = 19;
        assert_eq!(cpd::seek(&wrong, b"part"), (18, 0, 0));
    }
}

#[test]
fn entries_behind_those_counted() {
    let (one, two): (Entry, Entry) = ((b"part", 200, 8), (b"part", 208, 8));
    let seek = |count: usize| cpd::seek(&counted(count, &[one, two]), b"part");
    assert_eq!([0, 1, 2].map(seek), [(20, 0, 0), (0, 200, 208), REFUSED]);
    // The name in bytes 12 to 23 of an entry, where none is sought.
    let mut blob = directory(&[(b"other", 0, 0), one]);
    blob[32..44].copy_from_slice(b"part\0\0\0\0\0\0\0\0");
    assert_eq!(cpd::seek(&blob, b"part"), (0, 200, 208));
}

#[test]
fn readings_inside_pass_it_on() {
    let man: Entry = (b"HUCP.man", 300, 44);
    let version = Ok([0xAAAA; 4]);
    // Of no image in this directory is more than 15 or 16 to be said.
    for (length, own) in [(127, 15), (140, 16)] {
        let huc: Entry = (b"huc_fw", 200, length);
        let read = |entries: &[Entry]| {
            let blob = directory(entries);
            let image = cpd::huc_locate(&blob);
            assert_eq!(image, Image::refused(image.code));
            assert_eq!(cpd::huc_version(&blob), Err(image.code));
            (cpd::manifest_version(&blob), image.code)
        };
        assert_eq!(read(&[man, huc]), (version, own));
        assert_eq!(read(&[man, huc, huc]), (version, 22));
        assert_eq!(read(&[huc, man, huc]), (version, 22));
        assert_eq!(read(&[man, huc, man]), (Err(22), own));
        assert_eq!(read(&[man, man, huc, huc]), (Err(22), 22));
        // Parts that are too short or beyond are not judged any more.
        let (short, beyond): (Entry, Entry) = ((b"HUCP.man", 300, 43), (b"huc_fw", 400, 1));
        assert_eq!(read(&[short, beyond]), (Err(15), 21));
        assert_eq!(read(&[short, man, beyond, huc]), (Err(22), 22));
        assert_eq!(read(&[man, short, huc, beyond]), (Err(22), 22));
    }
}
