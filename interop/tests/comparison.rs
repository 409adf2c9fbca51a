//! The comparison itself: a short run of every group, and that writes outside
//! a lent slice and differing values are seen.

use interop::functions::{number, place, Fun, FUNCTIONS, NUMBERS};
use interop::lent::{bytes, words};
use interop::runner::{run_group, run_one, GROUPS};
use interop::same::{same, same_lent, same_slice};
use interop::sets::Set;
use interop::tally::Tally;
use model::generate::Rng;

/// The functions that take or hand out messages, with the sets of their types.
const WITH_TYPES: [(Fun, Set); 8] = [
    (Fun::Pack, Set::Packed),
    (Fun::Unpack, Set::Unpacked),
    (Fun::SendLook, Set::SendLook),
    (Fun::Send, Set::Send),
    (Fun::WholeSend, Set::WholeSend),
    (Fun::ReceivePublish, Set::ReceivePublish),
    (Fun::Receive, Set::Receive),
    (Fun::WholeReceive, Set::WholeReceive),
];

/// The calls that move many dwords, with sets of how many there are or how they lie
/// against the end.
const WITH_LAYS: [(Fun, Set); 6] = [
    (Fun::Send, Set::SendPlace),
    (Fun::Receive, Set::ReceivePlace),
    (Fun::WholeSend, Set::WholeSendPlace),
    (Fun::WholeReceive, Set::WholeReceivePlace),
    (Fun::SendStoreAll, Set::StoreLeft),
    (Fun::ReceiveCopyAll, Set::CopyLeft),
];

/// The calls of a wall, with sets of the records that they take or find, or of where
/// a message lies: on tables of any records, and in lists.
const WITH_RECORDS: [(&str, Fun, Set); 4] = [
    ("tables", Fun::WallSend, Set::FreePlace),
    ("tables", Fun::WallSend, Set::WallSendPlace),
    ("tables", Fun::WallReply, Set::ReplyPlace),
    ("walls", Fun::WallReply, Set::ListReply),
];

#[test]
fn every_group_for_a_moment() {
    for (index, group) in GROUPS.iter().enumerate() {
        let cases = if group.share < 1000 { 2 } else { 200 };
        let (tally, differences) = run_group(3, index, cases, 1);
        assert!(differences.is_empty(), "seed 3: {differences:?}");
        let calls: u64 = FUNCTIONS.iter().map(|(fun, ..)| tally.calls(*fun)).sum();
        assert!(calls >= cases, "{} counts its calls", group.name);
        for (fun, set) in WITH_TYPES {
            let typed: u64 = tally.members.counts(set).iter().sum();
            assert_eq!(typed, tally.count(fun, 0), "{}: {set:?}, each accepted", group.name);
        }
        for (of, fun, set) in WITH_RECORDS.into_iter().filter(|row| row.0 == group.name) {
            let found: u64 = tally.members.counts(set).iter().sum();
            let accepted = tally.count(fun, 0);
            assert!(found > 30 && found == accepted, "{of}: {set:?}, {found} of {accepted}");
        }
        let of_calls = ["calls", "channels"].contains(&group.name);
        for (fun, set) in WITH_LAYS.into_iter().filter(|_| of_calls) {
            let laid: u64 = tally.members.counts(set).iter().sum();
            assert_eq!(laid, tally.count(fun, 0), "{}: {set:?}, each accepted", group.name);
        }
    }
}

#[test]
fn a_case_repeats() {
    let mut tallies = [Tally::default(), Tally::default()];
    for tally in &mut tallies {
        (0..50).for_each(|case| run_one(9, 0, case, tally).expect("no difference"));
    }
    assert_eq!(format!("{:?}", tallies[0]), format!("{:?}", tallies[1]));
}

#[test]
fn guards_and_slices() {
    let mut rng = Rng::new(1);
    let lent = words(&mut rng, &[1, 2, 3]);
    assert_eq!(lent.get(), [1, 2, 3]);
    assert!(same_lent("words", &lent, &[1, 2, 3]).is_ok());
    assert!(same_lent("words", &lent, &[1, 2, 4]).is_err());
    assert!(same_lent("words", &lent, &[1, 2]).is_err());
    assert!(lent.lend() == Some(&[1, 2, 3]) && !lent.null());
    let empties: Vec<_> = (0..100).map(|_| bytes(&mut rng, &[])).collect();
    assert!(empties.iter().all(|empty| empty.get().is_empty() && empty.intact()));
    let nulls = empties.iter().filter(|empty| empty.null());
    assert!((20..80).contains(&nulls.clone().count()) && nulls.clone().all(|n| n.lend().is_none()));
    assert!(same("number", 3, 3).is_ok() && same("number", 3, 4).is_err());
    assert!(same_slice("words", &[0u32], &[1]).unwrap_err().contains("[0]"));
}

#[test]
fn both_kinds_of_places() {
    let mut rng = Rng::new(2);
    for count in [0usize, 1, 16, 260, 1024, 2048] {
        let contents = rng.words(count);
        let kinds: Vec<bool> = (0..300)
            .map(|_| {
                let mut lent = words(&mut rng, &contents);
                assert!(same_lent("words", &lent, &contents).is_ok());
                lent.get_mut().fill(7);
                assert!(lent.intact() && lent.get().iter().all(|word| *word == 7));
                lent.paged()
            })
            .collect();
        assert!(kinds.contains(&true) && kinds.contains(&false));
    }
}

#[test]
fn numbers_have_places() {
    let codes: Vec<u32> = (0..NUMBERS).map(number).collect();
    assert_eq!(codes[21..], [21, 22, 26, 27, 28, 29, 30, 35, 100, 101]);
    assert!(codes.iter().enumerate().all(|(at, code)| place(*code) == Some(at)));
    let none = (23..26).chain(31..35).chain(36..100).chain([102, u32::MAX]);
    none.for_each(|code| assert_eq!(place(code), None));
    let empty = Tally::default().missing();
    assert!(empty.iter().any(|line| line == "guc_receive never answered 9"));
    let twice = empty.iter().filter(|line| line.ends_with(" never answered 22"));
    assert_eq!(twice.count(), 7, "each function that seeks a name, and no other");
    assert!(empty.iter().any(|line| line == "guc_wall_send never answered 28"));
    let room = empty.iter().filter(|line| line.ends_with(" never answered 28"));
    assert_eq!(room.count(), 1, "an opening, and no other");
    for number in [29, 30] {
        let never = format!(" never answered {number}");
        let lines = empty.iter().filter(|line| line.ends_with(&never));
        let all: Vec<&str> = lines.filter_map(|line| line.strip_suffix(&never)).collect();
        assert_eq!(all, ["guc_record_add", "guc_record_write", "guc_record_read"]);
    }
}
