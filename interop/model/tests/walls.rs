//! Generated calls of a wall: the lent table and the plain map do the same from a
//! fresh table on, and set aside what the history says; every number comes up often,
//! and what the papers say of all calls holds of each.

use model::generate::{half, sound_table, wall_call, wall_case, wall_reply, Rng};
use model::plain::{Operation, Plain};
use model::run::Channel;
use model::wall::history::History;
use model::wall::table::{Record, Table};
use model::wall::{Answer, Call, Map, Request};

/// The open records of a table are the map's requests, and the free ones are zeros.
fn agree(table: &Table, map: &Map) {
    let request = |r: &Record| Request { action: r.action, count: r.count, room: r.room };
    let open = table.open_records().map(|record| (record.fence, request(record))).collect();
    assert_eq!((&map.open, map.last, map.records), (&open, table.last, table.records.len()));
    assert_eq!((table.open_records().count(), map.n), (open.len(), table.n as usize));
    let free = table.records.iter().filter(|record| !record.is_open());
    free.for_each(|record| assert_eq!(*record, Record::default()));
}

/// Some messages are taken by the other side, so seldom that the ring is often full.
fn drain(rng: &mut Rng, channel: &mut Channel, plain: &mut Plain) {
    let taken = if rng.chance(1, 64) { 40 } else { 0 };
    for _ in 0..taken {
        let receive = Operation::ReceiveWhole(vec![5; 256]);
        assert_eq!(channel.apply(&receive), plain.apply(&receive));
    }
}

#[test]
fn lists_from_a_fresh_table() {
    let mut rng = Rng::new(61);
    let mut counts = [0u32; 36];
    for (records, n) in [1, 2, 3, 16, 255, 256].repeat(8).into_iter().zip([1024, 2048].repeat(24)) {
        let mut table = sound_table(&mut rng, records);
        let (mut map, mut history) = (Map::fresh(records, n), History::default());
        let mut channel = Channel::open(vec![3; 16], vec![0; 1024], [false; 2]).unwrap();
        let mut plain = Plain::new(&[0; 1024]);
        assert_eq!(table.fresh(n).code, 0);
        for step in 0..600 {
            let call = wall_call(&mut rng, &table, if step % 300 < 200 { 6 } else { 2 });
            let answer = table.apply(&mut channel, &call);
            assert_eq!(answer, map.apply(&mut plain, &call), "{call:?}");
            agree(&table, &map);
            history.push(&call, &answer);
            let open = history.open();
            assert_eq!(open.len(), map.open.len());
            assert!(open.iter().all(|(fence, room)| map.open[fence].room as u32 == *room));
            assert_eq!([table.set_aside(), map.set_aside()], [history.set_aside(); 2]);
            assert!(history.set_aside() < n as u64);
            assert_eq!(
                (&channel.desc[..], &channel.buf[..]),
                (&plain.descriptor()[..], plain.buffer())
            );
            drain(&mut rng, &mut channel, &mut plain);
            counts[answer.code as usize] += 1;
        }
    }
    println!("lists: {counts:?}");
    assert!([0, 4, 10, 14, 26, 27, 28].iter().all(|&code| counts[code] > 400), "{counts:?}");
}

/// All fences are given once before one is given again, but for those still open.
#[test]
fn around_all_fences() {
    let mut rng = Rng::new(62);
    let mut table = Table { records: vec![Record::default(); 3], last: 5, n: 5 };
    let mut map = Map::fresh(3, 1024);
    let mut channel = Channel::open(vec![3; 16], vec![0; 1024], [false; 2]).unwrap();
    let mut plain = Plain::new(&[0; 1024]);
    assert_eq!(table.fresh(1024).code, 0);
    let first = Call::Send(vec![1, 0], 256);
    let given = [table.apply(&mut channel, &first), map.apply(&mut plain, &first)];
    assert_eq!(given, [Answer::default(); 2]);
    for fence in (0..2).flat_map(|_| 1..=65_535u16) {
        let action = half(&mut rng);
        let opened = Answer { fence, ..Answer::default() };
        let call = Call::Send(vec![0x7777_0001, action as u32], 256);
        let given = [table.apply(&mut channel, &call), map.apply(&mut plain, &call)];
        assert_eq!(given, [opened; 2]);
        let receive = Operation::ReceiveWhole(vec![5; 256]);
        assert_eq!(channel.apply(&receive), plain.apply(&receive));
        let message = wall_reply(&mut rng, fence, 7);
        let closed = Answer { kind: 7, action, ..Answer::default() };
        assert_eq!((table.reply(&message), map.reply(&message)), (closed, closed));
    }
    agree(&table, &map);
}

/// What a call may change, and what a refusal says.
fn check_change(before: &Table, after: &Table, call: &Call, answer: &Answer) {
    let pairs = before.records.iter().zip(&after.records);
    let changed = pairs.filter(|(one, other)| one != other).count();
    if answer.code != 0 {
        assert_eq!((after, *answer), (before, Answer::refused(answer.code)));
        return;
    }
    match call {
        Call::Fresh(n) => {
            assert!(after.records.iter().all(|record| *record == Record::default()));
            assert_eq!((after.last, after.n as usize), (65_535, *n));
        }
        Call::Send(message, room) => {
            assert_eq!((changed, after.last, after.n), (1, answer.fence, before.n));
            let opened = after.records.iter().find(|record| record.fence == answer.fence);
            let found = |record: &&Record| record.is_open() && record.action == message[1] as u16;
            assert_eq!(opened.filter(found).map(|record| record.room as u32), Some(*room));
            assert!(!before.open_records().any(|record| record.fence == answer.fence));
            assert_eq!(after.set_aside(), before.set_aside() + *room as u64);
            assert!(after.set_aside() < after.n as u64 && *room <= 256);
        }
        Call::Reply(_) => {
            assert_eq!(after.wall_words(), before.wall_words());
            let kept = answer.kind == 3;
            let fewer = before.open_records().count() - after.open_records().count();
            assert!(changed <= 1 && fewer == !kept as usize);
            assert!(!kept || after.set_aside() == before.set_aside());
        }
    }
}

/// What the ring has after a send: the message with the fence that was given.
fn check_sent(before: &Channel, after: &Channel, message: &[u32], answer: &Answer) {
    let mut expected = before.clone();
    if answer.code == 0 {
        let mut sent = message.to_vec();
        sent[0] = (sent[0] & 0xFFFF) | (answer.fence as u32) << 16;
        assert_eq!(expected.apply(&Operation::SendWhole(sent)).code, 0);
        assert_eq!(after.buf[before.desc[1] as usize] >> 16, answer.fence as u32);
    } else if [7, 8].contains(&answer.code) {
        expected.desc[2] = if answer.code == 7 { 1 } else { 4 };
    }
    assert_eq!((&after.desc, &after.buf), (&expected.desc, &expected.buf));
    assert_eq!(after.sender, expected.sender);
}

#[test]
fn every_number_of_every_call() {
    let mut rng = Rng::new(63);
    let mut counts = [[0u32; 36]; 3];
    for _ in 0..60_000 {
        let case = wall_case(&mut rng);
        let which = match case.call {
            Call::Fresh(_) => 0,
            Call::Send(..) => 1,
            Call::Reply(_) => 2,
        };
        let (mut after, mut channel) = (case.table.clone(), case.channel.clone());
        let answer = after.apply(&mut channel, &case.call);
        check_change(&case.table, &after, &case.call, &answer);
        if let Call::Send(message, _) = &case.call {
            check_sent(&case.channel, &channel, message, &answer);
        }
        counts[which][answer.code as usize] += 1;
    }
    println!("fresh, send, reply: {counts:?}");
    let sends = &[0, 2, 3, 6, 7, 8, 10, 14, 26, 27, 28, 35];
    let expected: [&[usize]; 3] = [&[0, 2, 35], sends, &[0, 2, 4, 27, 35]];
    for (counts, expected) in counts.iter().zip(expected) {
        for (code, &count) in counts.iter().enumerate() {
            assert!(if expected.contains(&code) { count > 200 } else { count == 0 }, "{code}");
        }
    }
}
