//! Walls of requests: the wrapper's layouts against those that the C program prints,
//! the constants against the model's, and where calls stand. What a send has of its
//! own is in `sends.rs`.

use interop::edges::walls::{age_member, of_wall, AGES, DIRT, KINDS, NEAR, TWICE};
use interop::edges::{Edge, Stands};
use interop::functions::Fun;
use interop::guc::constants::*;
use interop::guc::{Record, Wall, WallAnswer, RECORD_WORDS};
use interop::lent::halves;
use interop::sets::{Set, SETS};
use interop::tally::Tally;
use model::channel::STATUS;
use model::generate::{no_channel, Rng};
use model::run::Channel;
use model::wall::table::{Record as Modelled, Table};
use model::wall::{Call, Map, BAD_N, BAD_TABLE, BUSY, FAILURE, FULL, MOST_ROOM, NO_REPLY_ROOM};
use model::wall::{NO_REQUEST, RETRY, SUCCESS, TOO_MUCH};
use std::mem::size_of;

/// What the C program must print, and C says where the fields are.
const EXPECTED: &str = include_str!("../c/walk.expected");

/// How far behind the first of these the others lie.
fn offsets(places: &[usize]) -> String {
    let each: Vec<String> = places.iter().map(|place| (place - places[0]).to_string()).collect();
    each.join(" ")
}

fn place<T>(field: &T) -> usize {
    field as *const T as usize
}

#[test]
fn layouts_are_those_of_c() {
    let mut words = [7, 8, 9, 10, 11];
    let r = &Record::over(&mut words)[0];
    assert_eq!([r.open, r.fence, r.action, r.count, r.room], [7, 8, 9, 10, 11]);
    let record = [&r.open, &r.fence, &r.action, &r.count, &r.room].map(place);
    let mut two = [5, 6];
    let wall = Wall::over(&mut two);
    assert_eq!((wall.last, wall.n), (5, 6));
    let shared = [&wall.last, &wall.n].map(place);
    let answer = WallAnswer { code: 0, kind: 0, fence: 0, action: 0, count: 0 };
    let fields = [
        place(&answer),
        place(&answer.code),
        place(&answer.kind),
        place(&answer.fence),
        place(&answer.action),
        place(&answer.count),
    ];
    assert_eq!(fields[0], fields[1]);
    let line = format!(
        "a record of {} bytes: {}; a wall of {}: {}; an answer of {}: {}",
        size_of::<Record>(),
        offsets(&record),
        size_of::<Wall>(),
        offsets(&shared),
        size_of::<WallAnswer>(),
        offsets(&fields[1..])
    );
    assert!(EXPECTED.lines().any(|expected| expected == line), "{line}");
    assert_eq!((std::mem::align_of::<Record>(), std::mem::align_of::<Wall>()), (2, 2));
}

#[test]
fn words_are_lent_as_records() {
    let mut words: Vec<u16> = (0..15).collect();
    let records = Record::over(&mut words);
    assert_eq!((records.len(), records[2].open, records[2].room, RECORD_WORDS), (3, 10, 14, 5));
    assert_eq!((Record::over(&mut []).len(), Wall::over(&mut [9, 1]).last), (0, 9));
    assert!(std::panic::catch_unwind(|| Record::over(&mut [0; 6]).len()).is_err());
    assert!(std::panic::catch_unwind(|| Wall::over(&mut [0; 1]).last).is_err());
    // Tables lie at every place that two bytes allow.
    let mut rng = Rng::new(7);
    let lents = (0..200).map(|_| halves(&mut rng, &[1; 8]).get().as_ptr() as usize % 8);
    let mut places: Vec<usize> = lents.collect();
    places.sort_unstable();
    places.dedup();
    assert_eq!(places, [0, 2, 4, 6]);
}

#[test]
fn constants_are_the_models() {
    assert_eq!([GUC_TABLE_FULL, GUC_NO_REQUEST, GUC_BAD_TABLE], [FULL, NO_REQUEST, BAD_TABLE]);
    let others = [GUC_BAD_BUFFER, GUC_BAD_FIELD, GUC_NO_REPLY_ROOM, GUC_REPLY_DWORDS_MAX];
    assert_eq!(others, [BAD_N, TOO_MUCH, NO_REPLY_ROOM, MOST_ROOM]);
    let kinds = [GUC_TYPE_BUSY, GUC_TYPE_RETRY, GUC_TYPE_FAILURE, GUC_TYPE_SUCCESS];
    assert_eq!(kinds, [BUSY, RETRY, FAILURE, SUCCESS]);
    assert_eq!(Map::fresh(1, 1024).last as u32, GUC_FIRST_LAST);
    let most = GUC_RECORDS_MAX as usize;
    let sound = |count| table(&vec![Modelled::default(); count]).sound();
    assert_eq!([0, 1, most, most + 1].map(sound), [false, true, true, false]);
    let mut tally = Tally::default();
    kinds.iter().for_each(|kind| assert!(tally.replied(*kind).is_ok()));
    assert!([0, 1, 2, 4, 8].iter().all(|kind| tally.replied(*kind).is_err()));
}

fn open(fence: u16) -> Modelled {
    Modelled { open: 1, fence, action: fence, count: 0, room: 0 }
}

fn table(records: &[Modelled]) -> Table {
    Table { records: records.to_vec(), last: 65_534, n: 1024 }
}

fn channel() -> Channel {
    Channel::open(vec![0; 16], vec![0; 1024], [false; 2]).expect("N is allowed")
}

/// A request of two dwords.
fn send(room: u32) -> Call {
    Call::Send(vec![1, 9], room)
}

/// A message of two dwords; bit 31 of the type is the origin.
fn reply(fence: u32, kind: u32) -> Call {
    Call::Reply(vec![fence << 16 | 1, kind << 28])
}

/// Where a call stands that is lent a fresh channel, or needs none.
fn stand(table: &Table, call: &Call) -> Stands {
    of_wall(table, &channel(), call).0
}

/// The members of a set that an input is, in order.
fn members(stands: &Stands, set: Set) -> Vec<usize> {
    let of = stands.members.iter().filter(|(of, _)| *of == set);
    let mut found: Vec<usize> = of.map(|(_, index)| *index).collect();
    found.sort_unstable();
    found
}

#[test]
fn openings_stand() {
    let free = Modelled { open: 0, room: 1, ..open(1) };
    let good = table(&[open(65_535), open(0), free, free]);
    let stands = stand(&good, &send(256));
    let sides = [(Edge::FenceTwice, 0), (Edge::LeastReplyN, 1), (Edge::AskedRoom, 0)];
    assert_eq!(stands.sides[..3], sides);
    assert_eq!(members(&stands, Set::Skipped), [256 + 2], "around 65,535");
    assert_eq!(
        (members(&stands, Set::FreePlace), members(&stands, Set::LastFence)),
        (vec![2], vec![8])
    );
    assert_eq!(members(&stands, Set::Records), [256 + 3]);
    let held: Vec<&str> = members(&stands, Set::Dirt).iter().map(|held| DIRT[*held]).collect();
    assert_eq!(held, [DIRT[0], DIRT[1], DIRT[4], DIRT[8]]);
    assert_eq!(members(&stands, Set::TableNear), [2], "two free records with one fence");
    // Refused by the ring, it takes and skips nothing.
    let mut broken = channel();
    broken.desc[STATUS] = 8;
    let (stands, expected) = of_wall(&good, &broken, &send(256));
    assert_eq!((expected, members(&stands, Set::FreePlace)), (6, vec![]));
    assert_eq!(members(&stands, Set::WallStatusBit), [3]);
    let full = stand(&table(&[open(4)]), &send(0));
    assert_eq!(members(&full, Set::FlagBit), [16]);
    assert_eq!(full.sides.last(), Some(&(Edge::FreeRecords, 0)));
    for other in [0, 2, 14, 26, 27, 28, 35, 6] {
        let said = Tally::default().answer_at(Fun::WallSend, other, &full);
        assert_eq!(said.is_ok(), other == 26, "{other}");
    }
}

#[test]
fn tables_stand() {
    let twice = table(&[open(0), Modelled::default(), open(0)]);
    for (which, call) in [send(1), reply(0, 7)].into_iter().enumerate() {
        let stands = stand(&twice, &call);
        assert_eq!(stands.sides, [(Edge::FenceTwice, 1)]);
        let found = members(&stands, Set::TableTwice);
        let ways: Vec<&str> = found.iter().map(|way| TWICE[way - which * TWICE.len()]).collect();
        assert_eq!(ways, [TWICE[2], TWICE[3], TWICE[6]]);
        assert!(Tally::default().answer_at(Fun::WallSend, 26, &stands).is_err());
        assert!(Tally::default().answer_at(Fun::WallReply, 27, &stands).is_err());
    }
    assert_eq!(stand(&twice, &Call::Fresh(2048)).sides, []);
    let near = stand(&table(&[open(0x0101), open(0x0001)]), &reply(1, 3));
    assert_eq!(members(&near, Set::TableNear), [NEAR.len() + 3]);
    for (count, side) in [(0, (Edge::RecordsNone, 0)), (257, (Edge::RecordsMost, 1))] {
        let many = table(&vec![Modelled::default(); count]);
        for (fun, call) in [(Fun::WallFresh, Call::Fresh(1024)), (Fun::WallReply, reply(0, 7))] {
            let stands = stand(&many, &call);
            assert_eq!(stands.sides, [side]);
            assert!(Tally::default().answer_at(fun, 0, &stands).is_err());
            assert!(Tally::default().answer_at(fun, 35, &stands).is_ok());
        }
    }
}

#[test]
fn replies_stand() {
    let good =
        table(&[Modelled { open: 0, ..open(5) }, Modelled { room: 257, ..open(5) }, open(6)]);
    let stand = |call: &Call| of_wall(&good, &no_channel(), call).0;
    let stands = stand(&reply(5, 3 | 8));
    assert_eq!(members(&stands, Set::ReplyOrigin), [1], "busy of the GuC");
    assert_eq!(members(&stands, Set::ReplyPlace), [1]);
    assert_eq!((members(&stands, Set::Dirt), members(&stands, Set::ReplyHeld)), (vec![6], vec![4]));
    assert_eq!(members(&stand(&reply(6, 7)), Set::ReplyPlace), [3 * 256 + 2]);
    assert_eq!(members(&stand(&reply(6, 2)), Set::NoReply), [4]);
    for (call, code) in [(reply(7, 7), 27), (reply(5, 0), 27), (reply(5, 4), 4), (reply(5, 6), 0)] {
        let stands = stand(&call);
        for other in [0, 2, 4, 27, 35] {
            let said = Tally::default().answer_at(Fun::WallReply, other, &stands);
            assert_eq!(said.is_ok(), other == code, "{call:?}, {other}");
        }
    }
}

/// Every member of every set of a wall has a name of its own.
#[test]
fn ages_and_members_have_names() {
    let age = |fence, newest, age| AGES[age_member(fence, newest, age).expect("a figure")];
    assert_eq!(age(0, 65_535, 1), "1, fence below");
    assert_eq!([age(0, 32_768, -32_768), age(32_768, 0, -32_768)], [AGES[1], AGES[2]]);
    assert_eq!((age(3, 3, 0), age_member(2, 0, 2)), ("0", None));
    let lines = Tally::default().missing();
    for (set, name, count) in SETS.iter().filter(|(set, ..)| *set as usize >= Set::Records as usize)
    {
        let line = lines.iter().find(|line| line.starts_with(*name)).expect("none came up yet");
        let names = line[name.len() + 3..line.len() - 1].split(", ");
        assert!(names.count() >= *count, "{set:?}");
    }
    assert!(lines.iter().any(|line| line.contains("busy: host") && line.contains("success: GuC")));
    assert_eq!(KINDS.len() * 256, SETS[Set::ReplyPlace as usize].2);
}
