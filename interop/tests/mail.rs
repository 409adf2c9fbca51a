//! Records to mail home: the wrapper's layouts against those that the C program prints,
//! the constants against the model's, where calls stand, and that each 29 is counted
//! by what is wrong.

use interop::edges::mail::{CALLS, FAULTS, NUMBERS, PLACES, READ_FAULTS, READ_ROOMS, WRITE_FAULTS};
use interop::edges::mail_files::of_read;
use interop::edges::mail_runs::{of_add, of_write};
use interop::edges::{Edge, Stands};
use interop::functions::Fun;
use interop::guc::constants::*;
use interop::guc::{Added, Readback, Written};
use interop::runner::{run_group, GROUPS};
use interop::sets::Set;
use interop::table::by_set;
use interop::tally::Tally;
use model::generate::edge_numbers;
use model::mail::number::bytes_of;
use model::mail::{Fault, BAD, SHORT};
use std::mem::size_of;

/// What the C program must print, and C says where the fields are.
const EXPECTED: &str = include_str!("../c/walk.expected");

/// How far behind the start of a struct its fields lie.
fn offsets(start: usize, fields: &[usize]) -> String {
    let each: Vec<String> = fields.iter().map(|field| (field - start).to_string()).collect();
    each.join(" ")
}

fn place<T>(field: &T) -> usize {
    field as *const T as usize
}

#[test]
fn layouts_are_those_of_c() {
    let a = Added { code: 0, fault: 0, place: 0 };
    let w = Written { code: 0, fault: 0, at: 0, written: 0 };
    let r = Readback { code: 0, fault: 0, at: 0, written: 0, took: 0 };
    let added = [place(&a.code), place(&a.fault), place(&a.place)];
    let written = [place(&w.code), place(&w.fault), place(&w.at), place(&w.written)];
    let took = [place(&r.code), place(&r.fault), place(&r.at), place(&r.written), place(&r.took)];
    let line = format!(
        "added is {} bytes: {}; written {}: {}; readback {}: {}",
        size_of::<Added>(),
        offsets(place(&a), &added),
        size_of::<Written>(),
        offsets(place(&w), &written),
        size_of::<Readback>(),
        offsets(place(&r), &took)
    );
    assert!(EXPECTED.lines().any(|expected| expected == line), "{line}");
}

#[test]
fn constants_are_the_models() {
    assert_eq!([GUC_BAD_RECORD, GUC_SHORT_ROOM], [BAD, SHORT]);
    let faults = [
        (GUC_FAULT_UNFINISHED, Fault::Unfinished),
        (GUC_FAULT_MISSING, Fault::Missing),
        (GUC_FAULT_TOO_LONG, Fault::TooLong),
        (GUC_FAULT_TOO_WIDE, Fault::TooWide),
        (GUC_FAULT_DIRECTION, Fault::Direction),
        (GUC_FAULT_LENGTH, Fault::Length),
        (GUC_FAULT_HEADER, Fault::Header),
    ];
    for (at, (constant, fault)) in faults.into_iter().enumerate() {
        assert_eq!((constant, fault as usize), (at as u32 + 1, at + 1));
    }
    assert_eq!((FAULTS.len(), CALLS.len()), (faults.len() + 1, 3));
    assert_eq!((GUC_SENT, GUC_RECEIVED), (0, 1));
    assert_eq!(GUC_ENTRY_DWORDS_MAX, 2 + GUC_MESSAGE_DWORDS);
    let most = |number: u32| bytes_of(number).len() as u32;
    let bytes = most(GUC_RECEIVED) + most(GUC_MESSAGE_DWORDS) + GUC_MESSAGE_DWORDS * most(u32::MAX);
    assert_eq!(GUC_ENTRY_BYTES_MAX, bytes);
    assert!(edge_numbers().iter().all(|number| NUMBERS.contains(number)));
    assert!(NUMBERS.windows(2).all(|two| two[0] < two[1]), "in order, to be found");
}

/// The side of this boundary at which an input stands, if it does.
fn side(stands: &Stands, edge: Edge) -> Option<usize> {
    stands.sides.iter().find(|(at, _)| *at == edge).map(|(_, side)| *side)
}

/// The members of a set that an input is, by name.
fn members(stands: &Stands, set: Set) -> Vec<String> {
    let of = stands.members.iter().filter(|(of, _)| *of == set);
    of.map(|(_, index)| set.member(*index)).collect()
}

/// A received message of one dword, in five bytes.
const GOOD: [u8; 5] = [1, 1, 0x80, 0xFE, 0x03];

/// Where a file stands, what must be answered, the dwords laid and the bytes taken.
fn of(file: &[u8], room: usize) -> (Stands, (u32, u32, usize), usize, usize) {
    let (stands, expected, walked) = of_read(file, room);
    (stands, expected, walked.laid.len(), walked.took)
}

#[test]
fn files_stand() {
    let (stands, expected, laid, took) = of(&GOOD, 3);
    assert_eq!((expected, laid, took), ((0, 0, 0), 3, 5));
    let sides = [Edge::RecordDirection, Edge::RecordNone, Edge::FileEnd, Edge::ReadRoom];
    assert_eq!(sides.map(|edge| side(&stands, edge)), [Some(0), Some(1), Some(1), Some(1)]);
    assert_eq!(members(&stands, Set::ReadRoom), ["a sound file: just enough"]);
    assert_eq!(members(&stands, Set::KeptLength), ["read: 1"]);
    let (stands, expected, laid, took) = of(&GOOD, 2);
    assert_eq!((expected, laid, took, side(&stands, Edge::ReadRoom)), ((30, 0, 0), 0, 0, Some(0)));
    assert_eq!(members(&stands, Set::ShortRead), ["none"]);
    let ends = [1, 2, 3, 4, 5].map(|cut| side(&of(&GOOD[..cut], 9).0, Edge::FileEnd));
    assert_eq!(ends, [None, Some(0), Some(0), Some(0), Some(1)]);
    assert_eq!((READ_FAULTS.len(), READ_ROOMS.len()), (18, 8));
}

/// Bad numbers, alone and behind a message that is laid or does not fit.
#[test]
fn bad_files_stand() {
    let bad: [(&[u8], u32, usize, &str); 9] = [
        (&GOOD[..1], 2, 1, "L missing"),
        (&GOOD[..2], 2, 2, "header missing"),
        (&GOOD[..4], 1, 2, "header unfinished"),
        (&[0x81, 0], 3, 0, "direction too long"),
        (&[1, 0x80, 0x80, 0x80, 0x80, 0x10], 4, 1, "L too wide"),
        (&[0, 2, 1, 0x80, 0x80, 0x80, 0x80, 0x80, 0], 4, 3, "another too wide"),
        (&[2], 5, 0, "direction"),
        (&[0, 0], 6, 1, "L"),
        (&[0, 2, 2], 7, 2, "header"),
    ];
    for (file, fault, at, name) in bad {
        let (stands, expected, ..) = of(file, 9);
        assert_eq!(
            (expected, &members(&stands, Set::ReadFault)[..]),
            ((29, fault, at), &[name.to_string()][..])
        );
        let whole = [&GOOD[..], file].concat();
        let (stands, expected, laid, took) = of(&whole, 3);
        assert_eq!((expected, laid, took), ((29, fault, 5 + at), 3, 5));
        let before = members(&stands, Set::LaidBefore);
        assert_eq!(before, [format!("{}: messages laid", FAULTS[fault as usize])]);
        let (stands, expected, ..) = of(&whole, 2);
        assert_eq!(expected, (30, 0, 0));
        assert_eq!(members(&stands, Set::ShortRead), [FAULTS[fault as usize]]);
    }
}

/// Both sides of each line of a form, as a direction or as the second dword.
#[test]
fn forms_stand() {
    let of = |form: &[u8]| of_read(&[&[0, 2, 1], form].concat(), 9).0;
    let top = |fifth| side(&of(&[0x80, 0x80, 0x80, 0x80, fifth]), Edge::FormTop);
    assert_eq!([14, 15, 16, 17].map(top), [None, Some(0), Some(1), None]);
    let end = |last| side(&of(&[0x85, last]), Edge::FormEnd);
    assert_eq!([0, 1, 2].map(end), [Some(0), Some(1), None]);
    let bytes = |count| side(&of(&longest(count)), Edge::FormBytes);
    assert_eq!([4, 5, 6, 7].map(bytes), [None, Some(0), Some(1), None]);
    let longer =
        |count: usize| members(&of(&[&vec![0x80; count - 1][..], &[0]].concat()), Set::LongerForm);
    assert_eq!([2, 5, 6, 10, 11].map(|count| longer(count).join("")), ["0", "3", "4", "8", ""]);
    assert_eq!(members(&of(&[0xFF; 4]), Set::UnfinishedBytes), ["3"]);
    assert_eq!(members(&of(&[0xFF; 5]), Set::FifthByte), ["255"]);
    let wide = members(&of(&[0xFF, 0xFF, 0xFF, 0xFF, 0xFF, 1]), Set::WideForm);
    assert_eq!(wide, ["1"]);
}

/// So many bytes that end with a 1.
fn longest(count: usize) -> Vec<u8> {
    let mut form = vec![0xFF; count - 1];
    form.push(1);
    form
}

#[test]
fn runs_stand() {
    let run = [0, 2, 0x012C_0001, 300, 1, 1, 0xFF00];
    let (stands, expected) = of_write(&run, 13);
    assert_eq!((expected, side(&stands, Edge::WriteRoom)), ((0, 0, 0), Some(1)));
    let (stands, expected) = of_write(&run, 12);
    assert_eq!((expected, side(&stands, Edge::WriteRoom)), ((30, 0, 0), Some(0)));
    let bad: [(&[u32], u32, usize); 9] = [
        (&[2], 5, 0),
        (&[0, 257, 0], 6, 1),
        (&[1, 0], 6, 1),
        (&[1, 1, 1], 7, 2),
        (&[1, 3, 0xFF01], 7, 2),
        (&[0], 2, 3),
        (&[0, 1], 2, 4),
        (&[0, 2, 1], 2, 5),
        (&[0, 3, 2], 2, 5),
    ];
    for (bad, fault, member) in bad {
        let (stands, expected) = of_write(&[&run[..], bad].concat(), 0);
        assert_eq!(expected, (29, fault, 7));
        let name = vec![WRITE_FAULTS[member].to_string()];
        assert_eq!(
            [Set::WriteFault, Set::ShortWrite].map(|set| members(&stands, set)),
            [name.clone(), name]
        );
        let ends = [&[0, 1][..], &[0, 2, 1]].contains(&bad);
        assert_eq!(side(&stands, Edge::RunEnd), ends.then_some(0));
        assert!(
            Tally::default().answer_at(Fun::RecordWrite, 30, &stands).is_ok()
                == stands.sides.is_empty()
        );
    }
}

#[test]
fn addings_stand() {
    let of = |run, place| of_add(run, place, 1, &[2, 9, 9]);
    let (stands, expected) = of(8, 3);
    assert_eq!((expected, side(&stands, Edge::AddRoom)), ((0, 0, 8), Some(1)));
    assert_eq!(members(&stands, Set::AddedPlace), [PLACES[1]]);
    let (stands, expected) = of(8, 4);
    assert_eq!((expected, side(&stands, Edge::AddRoom)), ((30, 0, 4), Some(0)));
    for (place, words) in [
        (8, vec![PLACES[3]]),
        (9, vec![PLACES[4]]),
        ((1 << 32) + 3, vec![PLACES[5]]),
        (usize::MAX, vec![PLACES[6], PLACES[8]]),
        (usize::MAX - 4, vec![PLACES[7]]),
        (usize::MAX - 5, vec![]),
    ] {
        let (stands, expected) = of(8, place);
        assert_eq!(
            (expected, members(&stands, Set::AddedPlace)),
            ((30, 0, place), words.into_iter().map(String::from).collect())
        );
    }
    let (stands, expected) = of_add(2, 7, 2, &[]);
    assert_eq!((expected, members(&stands, Set::ShortAdd)), ((29, 5, 7), vec!["direction".into()]));
    assert_eq!(of_add(2, 7, 1, &[]).1, (29, 6, 7));
    assert_eq!(of_add(900, 7, 1, &[0; 257]).1, (29, 6, 7));
    let (stands, expected) = of_add(9, 0, 1, &[2, 0]);
    assert_eq!((expected, side(&stands, Edge::RecordAbove)), ((29, 7, 0), Some(1)));
    assert!(Tally::default().answer_at(Fun::RecordAdd, 30, &stands).is_err());
}

/// Each refusal by 29 is counted by what is wrong, and told in the report.
#[test]
fn each_29_is_counted_by_its_fault() {
    let mut tally = Tally::default();
    for (index, group) in GROUPS.iter().enumerate() {
        let cases = match group.name {
            "mail" | "runs" | "pieces" => 400,
            "files" => 2,
            _ => continue,
        };
        let (part, differences) = run_group(5, index, cases, 1);
        assert!(differences.is_empty(), "seed 5: {differences:?}");
        tally.add(&part);
    }
    for (fun, set) in [
        (Fun::RecordAdd, Set::AddFault),
        (Fun::RecordWrite, Set::WriteFault),
        (Fun::RecordRead, Set::ReadFault),
        (Fun::RecordRead, Set::LaidBefore),
    ] {
        let counted: u64 = tally.members.counts(set).iter().sum();
        assert!(counted > 500 && counted == tally.count(fun, 29), "{set:?}: {counted}");
        assert!(tally.count(fun, 0) > 500 && tally.count(fun, 30) > 100, "{set:?}");
    }
    let short: u64 = tally.members.counts(Set::ShortRead).iter().sum();
    assert_eq!(short, tally.count(Fun::RecordRead, 30));
    let report = by_set(&tally);
    for name in READ_FAULTS.iter().chain(&WRITE_FAULTS) {
        assert!(report.contains(&format!("{name} x ")), "{name}");
    }
}
