//! The tables behind the report: their order, the wrapper's constants against
//! the model's, and where inputs of the paper's own examples stand.

use interop::edges::directories::{of_directory, of_manifest};
use interop::edges::images::of_image;
use interop::edges::messages::of_message;
use interop::edges::names::{Sought, ONCE, TWICE};
use interop::edges::places::{of_left, of_place, place_name, places, COPIED, STORED, WHOLE};
use interop::edges::{Edge, Stands, BOUNDARIES};
use interop::functions::{Fun, FUNCTIONS, SLICES};
use interop::guc::constants::*;
use interop::guc::{Descriptor, Dwords, Receiver, Sender, WholeReceiver, WholeSender};
use interop::sets::{Set, SETS, TYPES};
use interop::tally::Tally;
use model::channel::{allowed, HEAD, STATUS, TAIL};
use model::message::{known, MALFORMED, TOO_WIDE};
use model::run::Op;

#[test]
fn tables_are_in_order() {
    assert!(FUNCTIONS.iter().enumerate().all(|(at, (fun, ..))| *fun as usize == at));
    assert!(BOUNDARIES.iter().enumerate().all(|(at, row)| row.edge as usize == at));
    assert!(SETS.iter().enumerate().all(|(at, (set, ..))| *set as usize == at));
    assert!(SETS.iter().all(|(set, _, count)| set.of_types() == (*count == TYPES.len())));
    assert_eq!(Edge::Manifest as usize + 1, BOUNDARIES.len());
}

#[test]
fn constants_are_the_papers() {
    assert_eq!((GUC_BAD_MESSAGE, GUC_BAD_FIELD), (MALFORMED, TOO_WIDE));
    let types = TYPES.map(|(kind, _)| kind);
    assert_eq!(types, [0, 1, 2, 3, 5, 6, 7]);
    assert!((0..32).all(|kind| known(kind) == types.contains(&kind)) && !known(4));
    assert_eq!(GUC_STATE_WORDS, 4 + GUC_MESSAGE_DWORDS);
    assert!((0..40_000).all(|n| allowed(n) == (n % 1024 == 0 && (1024..=16384).contains(&n))));
    assert_eq!((GUC_RING_UNIT, GUC_RING_MIN, GUC_RING_MAX), (1024, 1024, 16384));
    let mut names: Vec<&str> = CONSTANTS.iter().map(|(name, _)| *name).collect();
    names.sort_unstable();
    names.dedup();
    assert_eq!(names.len(), CONSTANTS.len());
}

/// The typed descriptor's fields are the paper's places; sides are as long as the
/// header says.
#[test]
fn types_are_their_dwords() {
    let mut dwords: Vec<u32> = (100..116).collect();
    let desc = Descriptor::over(&mut dwords);
    let fields = [desc.head, desc.tail, desc.status, desc.reserved[0], desc.reserved[12]];
    assert_eq!(fields, [HEAD, TAIL, STATUS, 3, 15].map(|at| 100 + at as u32));
    assert_eq!((Descriptor::COUNT, Sender::COUNT, Receiver::COUNT), (16, 260, 260));
    assert_eq!((WholeSender::COUNT, WholeReceiver::COUNT), (2, 2));
    let mut two = [7, 8];
    assert_eq!((WholeSender::over(&mut two).n, WholeReceiver::over(&mut two).own), (7, 8));
    let short = std::panic::catch_unwind(|| {
        Sender::over(&mut [0; 259]);
    });
    assert!(short.is_err());
}

/// Every function that takes a slice is in the list of them, and none twice.
#[test]
fn slices_are_all_there() {
    for (at, one) in SLICES.iter().enumerate() {
        assert!(!SLICES[..at].contains(one), "{one:?} twice");
    }
    let without = [Fun::Interface, Fun::Pack, Fun::WallAge, Fun::RecordWriteBound];
    for (fun, name, _) in FUNCTIONS {
        let listed = SLICES.iter().any(|(of, _)| *of == fun);
        assert_eq!(listed, !without.contains(&fun), "{name}");
    }
    let missing = Tally::default().missing();
    let line = missing.iter().find(|line| line.starts_with("slices of functions"));
    assert!(line.expect("none was NULL yet").contains("Destination of CpdCopy"));
}

fn image(sizes: [u32; 5], bytes: usize) -> Vec<u8> {
    let mut blob = vec![0xAA; bytes];
    for (index, value) in [1, 6, 7, 8, 9].into_iter().zip(sizes) {
        blob[4 * index..4 * index + 4].copy_from_slice(&value.to_le_bytes());
    }
    blob
}

/// The side of this boundary at which an input stands, if it does.
fn side(stands: &Stands, edge: Edge) -> Option<usize> {
    stands.sides.iter().find(|(at, _)| *at == edge).map(|(_, side)| *side)
}

#[test]
fn images_stand_at_their_ends() {
    let at = |edge, bytes| side(&of_image(&image([161, 1161, 64, 64, 1], bytes)), edge);
    let ends = [4382, 4383, 4384, 4385].map(|bytes| at(Edge::CssEnd, bytes));
    assert_eq!(ends, [None, Some(0), Some(1), None]);
    let full = [4642, 4643, 4644, 4645].map(|bytes| at(Edge::CssFull, bytes));
    assert_eq!(full, [None, Some(0), Some(1), None]);
    let wrapped = of_image(&image([33, 1161, 1, u32::MAX, 1], 500));
    assert_eq!(wrapped.marks, ["wrap at + m"]);
}

#[test]
fn directories_and_messages_stand() {
    let mut blob = b"$CPD\x01\0\0\0\x01\x01\x14\0........HUCP.mao\0\0\0\0".to_vec();
    blob.extend([44, 0, 0, 0, 43, 0, 0, 0, 0, 0, 0, 0]);
    blob.resize(87, 1);
    let (stands, part) = of_directory(&blob, b"HUCP.man", Sought::Any);
    assert_eq!((part, stands.members), (None, vec![(Set::NameBit, 56)]));
    blob[27] = b'n';
    let stands = of_manifest(&blob);
    let sides = [Edge::Manifest, Edge::CpdEnd, Edge::CpdHeader].map(|edge| side(&stands, edge));
    assert_eq!(sides, [Some(0), Some(0), Some(1)]);
    assert_eq!(stands.members, [(Set::HeaderLength, 20)]);
    let (stands, well_formed) = of_message(&[0x1234_0001, 0xF000_0000, 0]);
    assert_eq!((side(&stands, Edge::MessageAbove), well_formed), (Some(1), false));
}

/// A directory that counts `count` entries and has these, each with a part of no
/// bytes at this offset.
fn names(count: u8, names: &[(&[u8; 12], u8)]) -> Vec<u8> {
    let mut blob = b"$CPD\0\0\0\0\x01\x01\x14\0........".to_vec();
    blob[4] = count;
    for (name, offset) in names {
        blob.extend(*name);
        blob.extend([*offset, 0, 0, 0, 0, 0, 0, 0, 9, 9, 9, 9]);
    }
    blob
}

/// The side of "entries of that name, 1 or 2", and the members of a set by name.
fn of_names(blob: &[u8], set: Set, words: &[&'static str]) -> (Option<usize>, Vec<&'static str>) {
    let (stands, part) = of_directory(blob, b"huc_fw", Sought::Any);
    let twice = side(&stands, Edge::CpdTwice);
    assert_eq!(part.is_some(), twice == Some(0), "a part only where one has the name");
    let members = stands.members.iter().filter(|(of, _)| *of == set);
    (twice, members.map(|(_, index)| words[*index]).collect())
}

#[test]
fn names_stand_once_or_twice() {
    let (huc, other) = ((b"huc_fw\0\0\0\0\0\0", 20), (b"other\0\0\0\0\0\0\0", 20));
    let once = |count, list: &[(&[u8; 12], u8)]| of_names(&names(count, list), Set::Once, &ONCE);
    assert_eq!(once(1, &[huc]), (Some(0), vec![]));
    assert_eq!(once(1, &[huc, huc]), (Some(0), vec![ONCE[8]]));
    assert_eq!(once(3, &[other, huc, other]), (Some(0), vec![ONCE[6]]));
    let near: [&[u8; 12]; 3] = [b"huc_f\0\0\0\0\0\0\0", b"huc_fw2\0\0\0\0\0", b"huc_fw\0\0\0x\0\0"];
    for (kind, name) in near.into_iter().enumerate() {
        assert_eq!(once(2, &[(name, 20), huc]), (Some(0), vec![ONCE[kind]]));
        assert_eq!(once(2, &[huc, (name, 20)]), (Some(0), vec![ONCE[kind + 3]]));
        assert_eq!(once(1, &[(name, 20)]), (None, vec![]));
    }
    let mut inside = names(2, &[other, huc]);
    inside[32..44].copy_from_slice(huc.0);
    assert_eq!(of_names(&inside, Set::Once, &ONCE), (Some(0), vec![ONCE[7]]));
    let twice =
        |list: &[(&[u8; 12], u8)]| of_names(&names(list.len() as u8, list), Set::Twice, &TWICE);
    let (there, away) = ((huc.0, 21), (huc.0, 255));
    assert_eq!(twice(&[huc, huc]), (Some(1), vec![TWICE[0], TWICE[4], TWICE[9]]));
    assert_eq!(twice(&[huc, other, there]), (Some(1), vec![TWICE[1], TWICE[5], TWICE[9]]));
    assert_eq!(twice(&[other, away, huc]), (Some(1), vec![TWICE[0], TWICE[5], TWICE[6]]));
    assert_eq!(twice(&[huc, away, other]), (Some(1), vec![TWICE[0], TWICE[5], TWICE[7]]));
    assert_eq!(twice(&[away, away]), (Some(1), vec![TWICE[0], TWICE[4], TWICE[8]]));
    assert_eq!(twice(&[huc, huc, there]), (None, vec![TWICE[3], TWICE[9]]));
}

#[test]
fn messages_lie_against_the_end() {
    let of = |op, length, left| {
        let mut stands = Stands::default();
        of_place(&mut stands, op, length, left);
        stands.members
    };
    let lay = |length, left| place_name(&WHOLE, of(Op::SendWhole, length, left)[0].1);
    assert_eq!(lay(8, 4), "others: end in the middle");
    assert_eq!([lay(2, 1), lay(2, 2)], ["2: end behind the first dword", "2: ends at the end"]);
    assert_eq!([lay(3, 2), lay(4, 3)], ["3: end behind the second", "4: end before the last"]);
    let longest = [1, 2, 3, 254, 255, 256, 257].map(|left| lay(256, left));
    let ends = ["behind the first dword", "behind the second", "in the middle", "in the middle"];
    assert_eq!(longest[..4], ends.map(|end| format!("256: end {end}")));
    assert_eq!(longest[4], "256: end before the last");
    assert_eq!(longest[5..], ["256: ends at the end", "256: ends before the end"]);
    for lengths in [WHOLE, STORED, COPIED] {
        let each = (0..places(&lengths)).map(|index| place_name(&lengths, index));
        let mut names: Vec<String> = each.collect();
        names.sort_unstable();
        names.dedup();
        assert_eq!(names.len(), places(&lengths));
    }
    let received = of(Op::ReceiveWhole, 256, 1000);
    assert_eq!(received[1..], [(Set::ReceiveLeft, 256)], "none of those around the end");
    let around = of(Op::SendWhole, 3, 2);
    assert_eq!(around[1..], [(Set::SendAround, 1)]);
    assert_eq!(of(Op::SendTwo, 3, 2)[1..], [(Set::WholeSendAround, 1)]);
    assert_eq!(of(Op::ReceiveTwo, 256, 9)[1], (Set::WholeReceiveLeft, 8));
    assert!(of(Op::SendLook, 256, 1).is_empty());
}

#[test]
fn moves_that_are_left_lie_against_the_end() {
    let of = |op, left, to_end| {
        let mut stands = Stands::default();
        of_left(&mut stands, op, left, to_end);
        stands.members
    };
    assert_eq!(of(Op::SendMoveAll, 0, 5), [(Set::StoreLeft, 0)]);
    let store = |left, to_end| place_name(&STORED, of(Op::SendMoveAll, left, to_end)[1].1);
    assert_eq!([store(1, 2), store(1, 1)], ["1: ends before the end", "1: ends at the end"]);
    assert_eq!(
        [store(2, 1), store(256, 255)],
        ["2: end behind the first dword", "256: end before the last"]
    );
    assert_eq!(of(Op::ReceiveMoveAll, 255, 9)[0], (Set::CopyLeft, 255));
    let copy = |left, to_end| place_name(&COPIED, of(Op::ReceiveMoveAll, left, to_end)[1].1);
    assert_eq!(
        [copy(255, 100), copy(200, 2)],
        ["255: end in the middle", "others: end behind the second"]
    );
}

#[test]
fn types_stand_and_are_counted() {
    let (stands, well_formed) = of_message(&[0x1234_0001, 0x20AB_4601]);
    assert_eq!((side(&stands, Edge::MessageType), well_formed), (Some(0), true));
    let (stands, well_formed) = of_message(&[0x1234_0001, 0xC0AB_4601]);
    assert_eq!((side(&stands, Edge::MessageType), well_formed), (Some(1), false));
    let mut tally = Tally::default();
    assert!(tally.answer_at(Fun::Unpack, 0, &stands).is_err());
    for kind in [0, 1, 3, 5, 6, 7] {
        assert!(tally.accepted(Set::Packed, kind).is_ok());
    }
    assert!(tally.accepted(Set::Packed, 4).is_err());
    let line = "types packed by guc_pack: [fast request]".to_string();
    assert!(tally.missing().contains(&line));
    assert!(tally.accepted(Set::Packed, 2).is_ok() && !tally.missing().contains(&line));
}

#[test]
fn a_side_must_be_answered_as_the_paper_says() {
    let (stands, _) = of_message(&[0x1234_0001]);
    let mut tally = Tally::default();
    assert!(tally.answer_at(Fun::Unpack, 0, &stands).is_err());
    assert!(tally.answer_at(Fun::Unpack, 4, &stands).is_ok());
    assert_eq!(tally.both_sides(Edge::MessageBelow), [1, 0]);
    let missing = tally.missing();
    assert!(missing.iter().any(|line| line == "guc_unpack: the message's dwords, L"));
    assert!(!missing.iter().any(|line| line == "guc_unpack: the message's dwords, L - 1"));
    let two = names(2, &[(b"huc_fw\0\0\0\0\0\0", 20); 2]);
    let (stands, _) = of_directory(&two, b"huc_fw", Sought::Any);
    for code in [0, 20, 21] {
        assert!(tally.answer_at(Fun::CpdPart, code, &stands).is_err());
    }
    assert!(tally.answer_at(Fun::CpdPart, 22, &stands).is_ok());
}
