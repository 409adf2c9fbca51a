//! A wall's sends: where they stand, what is wrong with them first, and which two
//! numbers apply together.

use interop::edges::orders::{pair_name, pairs, FRESH, REPLY, SEND};
use interop::edges::sends::SUM_WAYS;
use interop::edges::walls::of_wall;
use interop::edges::{Edge, Stands};
use interop::sets::Set;
use model::channel::{STATUS, TAIL};
use model::run::{Channel, Side};
use model::wall::table::{Record as Modelled, Table};
use model::wall::Call;

fn open(fence: u16) -> Modelled {
    Modelled { open: 1, fence, action: fence, count: 0, room: 0 }
}

fn table(records: &[Modelled]) -> Table {
    Table { records: records.to_vec(), last: 65_534, n: 1024 }
}

fn channel() -> Channel {
    Channel::open(vec![0; 16], vec![0; 1024], [false; 2]).expect("N is allowed")
}

/// A request of two dwords.
fn send(room: u32) -> Call {
    Call::Send(vec![1, 9], room)
}

/// A message of two dwords; bit 31 of the type is the origin.
fn reply(fence: u32, kind: u32) -> Call {
    Call::Reply(vec![fence << 16 | 1, kind << 28])
}

/// The members of a set that an input is, in order.
fn members(stands: &Stands, set: Set) -> Vec<usize> {
    let of = stands.members.iter().filter(|(of, _)| *of == set);
    let mut found: Vec<usize> = of.map(|(_, index)| *index).collect();
    found.sort_unstable();
    found
}

/// The number that is wanted, and the sides, of one whose records hold these.
#[test]
fn sums_stand() {
    let of = |rooms: [u16; 3], n: u16, room: u32| {
        let mut records = [open(1), open(2), Modelled { open: 0, ..open(3) }];
        records.iter_mut().zip(rooms).for_each(|(record, room)| record.room = room);
        of_wall(&Table { n, ..table(&records) }, &channel(), &send(room))
    };
    let way = |stands: &Stands| -> Vec<&str> {
        members(stands, Set::SumWay).iter().map(|way| SUM_WAYS[*way]).collect()
    };
    let (stands, expected) = of([767, 0, 9], 1024, 256);
    assert_eq!((expected, members(&stands, Set::Sum)), (0, vec![0]));
    assert!(stands.sides.contains(&(Edge::SetAside, 0)));
    assert_eq!(way(&stands), [SUM_WAYS[4], SUM_WAYS[5]]);
    let (stands, expected) = of([512, 256, 0], 1024, 256);
    assert_eq!((expected, members(&stands, Set::Sum)), (28, vec![1]));
    assert!(stands.sides.contains(&(Edge::SetAside, 1)));
    let (stands, expected) = of([16_385, 0, 0], 16_384, 0);
    assert_eq!((expected, members(&stands, Set::Sum)), (28, vec![3 * 15 + 2]));
    let (stands, expected) = of([65_535, 1, 0], 16_384, 0);
    assert_eq!((expected, way(&stands)), (28, vec![SUM_WAYS[0], SUM_WAYS[2]]));
    assert_eq!((of([0, 0, 0], 1025, 0).1, of([0, 0, 0], 1024, 257).1), (2, 14));
}

#[test]
fn requests_stand() {
    let good = table(&[open(5), Modelled::default()]);
    let of = |message: &[u32]| of_wall(&good, &channel(), &Call::Send(message.to_vec(), 0));
    let side = |message: &[u32], edge| {
        let stands = of(message).0;
        stands.sides.iter().find(|(at, _)| *at == edge).map(|(_, side)| *side)
    };
    assert_eq!([&[2, 0][..], &[2, 0, 0]].map(|m| side(m, Edge::RequestBelow)), [Some(0), Some(1)]);
    assert_eq!([&[1, 0][..], &[1, 0, 0]].map(|m| side(m, Edge::RequestAbove)), [Some(0), Some(1)]);
    assert_eq!([&[0][..], &[1, 0]].map(|m| side(m, Edge::RequestNone)), [Some(0), Some(1)]);
    for (kind, sided) in [(0, Some(0)), (1, Some(1)), (2, Some(1)), (7, Some(1)), (4, None)] {
        let message = [1, kind << 28 | 1 << 31];
        assert_eq!(side(&message, Edge::RequestType), sided);
        let (stands, expected) = of(&message);
        assert_eq!(members(&stands, Set::RequestKind), [2 * kind as usize + 1]);
        assert_eq!(expected, if kind == 0 { 0 } else { 27 });
    }
    assert_eq!(members(&of(&[0x8001, 0]).0, Set::RequestBit), [7]);
    assert_eq!((of(&[]).1, of(&[1]).1, of(&[0x101, 0]).1), (27, 27, 27));
}

#[test]
fn orders_stand() {
    let one = |table: &Table, channel: &Channel, call: &Call| {
        let (stands, expected) = of_wall(table, channel, call);
        let found =
            [(Set::FreshOrders, &FRESH[..]), (Set::SendOrders, &SEND), (Set::ReplyOrders, &REPLY)];
        let names = found.iter().flat_map(|(set, of)| {
            members(&stands, *set).into_iter().map(|pair| pair_name(of, pair)).collect::<Vec<_>>()
        });
        (names.collect::<Vec<String>>().join(";"), expected)
    };
    let says = |pair: &str, expected| (pair.to_string(), expected);
    let twice = table(&[open(5), open(5), Modelled::default()]);
    let good = table(&[open(5), Modelled::default()]);
    let fine = channel();
    assert_eq!(one(&twice, &fine, &send(300)), says("35 by a fence and 14", 35));
    assert_eq!(one(&table(&[open(5)]), &fine, &send(300)), says("14 and 26", 14));
    assert_eq!(one(&table(&[open(5)]), &fine, &send(3)), says("", 26));
    assert_eq!(
        one(&Table { n: 1000, ..good.clone() }, &fine, &send(999)),
        says("2 of the wall and 14", 2)
    );
    let mut busy = channel();
    busy.desc[TAIL] = 5;
    assert_eq!(one(&good, &busy, &Call::Send(vec![1, 1 << 28], 0)), says("27 by type and 8", 27));
    busy.sender = Side::idle(false, 1024, 5);
    busy.desc[STATUS] = 1;
    busy.desc[0] = 6;
    assert_eq!(one(&good, &busy, &send(0)), says("6 and 10", 6));
    busy.buf.clear();
    assert_eq!(one(&good, &busy, &send(0)).1, 2);
    assert_eq!(one(&table(&[]), &fine, &Call::Fresh(1023)), says("35 and 2", 35));
    assert_eq!(one(&good, &fine, &reply(7, 4)), says("4 and 27 by fence", 4));
    assert_eq!(one(&table(&[]), &fine, &reply(5, 7)), says("35 by length and 27 by fence", 35));
    let lost = Table { n: 0, ..good };
    assert_eq!(one(&lost, &fine, &reply(5, 1)), says("2 and 27 by type", 2));
    assert_eq!((pairs(&FRESH), pairs(&SEND), pairs(&REPLY)), (1, 88, 13));
}
