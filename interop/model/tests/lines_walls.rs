//! T-06, "Replies for a whole wall", with the openings of T-08: the papers' own
//! figures, both sides of each line, of the lent table and of the plain map. What
//! T-08 sets aside is in `lines_rooms.rs`.

use model::plain::Plain;
use model::run::Channel;
use model::wall::table::{Record, Table};
use model::wall::{age, Answer, Map, Request};

/// A message of the GuC of two dwords, with this fence and type.
fn message(fence: u16, kind: u32) -> [u32; 2] {
    [(fence as u32) << 16 | 1, 0x8000_0000 | kind << 28]
}

/// Records of anything, which fresh makes zeros.
fn fresh(records: usize) -> Table {
    let any = Record { open: 7, fence: 7, action: 7, count: 7, room: 7 };
    let mut table = Table { records: vec![any; records], last: 7, n: 7 };
    assert_eq!(table.fresh(1024), Answer::default());
    let records = vec![Record::default(); records];
    assert_eq!(table, Table { records, last: 65_535, n: 1024 });
    table
}

fn open(fence: u16, action: u16, count: u16) -> Record {
    Record { open: 1, fence, action, count, room: 0 }
}

fn table(records: Vec<Record>, last: u16) -> Table {
    Table { records, last, n: 1024 }
}

/// An opening of this action, with no reply dwords, by a channel that is fresh.
fn opened(table: &mut Table, action: u16) -> Answer {
    let mut channel = Channel::open(vec![9; 16], vec![0; 1024], [false; 2]).expect("N is allowed");
    table.send(&mut channel, &[0x1234_0001, action as u32], 0)
}

fn opened_by(map: &mut Map, action: u16) -> Answer {
    map.send(&mut Plain::new(&[0; 1024]), &[0x1234_0001, action as u32], 0)
}

fn fence(answer: Answer) -> u16 {
    assert_eq!(answer, Answer { fence: answer.fence, ..Answer::default() });
    answer.fence
}

#[test]
fn ages() {
    assert_eq!(age(0, 65_535), 1);
    assert_eq!(age(65_535, 0), -1);
    assert_eq!((age(32_768, 0), age(0, 32_768)), (-32_768, -32_768));
    assert_eq!((age(32_767, 0), age(0, 32_767)), (32_767, -32_767));
    assert_eq!((age(32_769, 0), age(0, 32_769)), (-32_767, 32_767));
    assert_eq!((age(65_535, 32_767), age(65_535, 32_768)), (-32_768, 32_767));
    for fence in [0, 1, 32_767, 32_768, 65_534, 65_535] {
        assert_eq!(age(fence, fence), 0);
        for far in 0..=65_535u16 {
            let age = age(fence.wrapping_add(far), fence);
            assert!((-32_768..=32_767).contains(&age));
            assert_eq!(age as u16, far, "modulo 65,536");
        }
    }
}

#[test]
fn the_first_fence_is_0() {
    let (mut table, mut map) = (fresh(3), Map::fresh(3, 1024));
    for expected in 0..3 {
        assert_eq!(fence(opened(&mut table, 0x10 + expected)), expected);
        assert_eq!(fence(opened_by(&mut map, 0x10 + expected)), expected);
        assert_eq!((table.last, map.last), (expected, expected));
    }
    let full = Answer { code: 26, ..Answer::default() };
    let before = table.clone();
    assert_eq!((opened(&mut table, 9), opened_by(&mut map, 9)), (full, full));
    assert_eq!((table, map.last), (before, 2));
}

#[test]
fn lengths_of_a_table() {
    for (records, good) in [(0, false), (1, true), (256, true), (257, false), (512, false)] {
        let mut table = table(vec![Record::default(); records], 9);
        let before = table.clone();
        let codes = [opened(&mut table, 0).code, table.reply(&message(9, 7)).code];
        assert_eq!(codes, if good { [0, 27] } else { [35, 35] });
        assert_eq!(table == before, !good);
        assert_eq!(table.fresh(1024).code, if good { 0 } else { 35 });
        assert_eq!(table == before, !good);
    }
}

#[test]
fn the_lowest_free_record() {
    let mut table = fresh(4);
    (0..4).for_each(|expected| assert_eq!(fence(opened(&mut table, expected)), expected));
    for closed in [2, 1] {
        assert_eq!(table.reply(&message(closed, 7)).code, 0);
        assert_eq!(table.records[closed as usize], Record::default());
    }
    table.records[2].action = 5;
    assert_eq!((fence(opened(&mut table, 40)), fence(opened(&mut table, 50))), (4, 5));
    assert_eq!(table.records[1..3], [open(4, 40, 0), open(5, 50, 0)]);
}

#[test]
fn fences_still_open_are_skipped() {
    let records = vec![open(0, 1, 0), Record::default(), open(65_535, 2, 0), open(1, 3, 0)];
    let request = |r: &Record| (r.fence, Request { action: r.action, count: 0, room: 0 });
    for (last, expected) in [(65_534, 2), (65_535, 2), (0, 2), (1, 2), (2, 3), (65_533, 65_534)] {
        let mut table = table(records.clone(), last);
        let open = table.open_records().map(request).collect();
        let mut map = Map { records: 4, open, last, n: 1024 };
        let given = (fence(opened(&mut table, 8)), fence(opened_by(&mut map, 8)));
        assert_eq!(given, (expected, expected));
        assert_eq!(table.records[1], crate::open(expected, 8, 0));
        assert_eq!((table.last, map.last), (expected, expected));
    }
}

#[test]
fn all_but_one_are_skipped() {
    // From 65,400 to 65,535, then from 0 to 118.
    let fences = (0..255).map(|k| 65_400u16.wrapping_add(k));
    let mut records: Vec<Record> = fences.map(|fence| open(fence, 0, 0)).collect();
    records.push(Record::default());
    let mut table = table(records, 65_399);
    assert_eq!(fence(opened(&mut table, 1)), 119);
    assert_eq!((table.records[255], opened(&mut table, 1).code), (open(119, 1, 0), 26));
}

#[test]
fn what_each_kind_does() {
    for origin in [0, 0x8000_0000] {
        for (kind, closes) in [(3, false), (5, true), (6, true), (7, true)] {
            let mut table = table(vec![open(8, 0x4601, 2), open(9, 1, 1)], 9);
            let [header, word] = message(8, kind);
            let count = if closes { 2 } else { 3 };
            let answer = Answer { code: 0, kind, fence: 0, action: 0x4601, count };
            assert_eq!(table.reply(&[header, word & 0x7FFF_FFFF | origin]), answer);
            let left = if closes { Record::default() } else { open(8, 0x4601, 3) };
            assert_eq!(table, crate::table(vec![left, open(9, 1, 1)], 9));
        }
        for (kind, code) in [(0, 27), (1, 27), (2, 27), (4, 4)] {
            let mut table = table(vec![open(8, 1, 2)], 9);
            assert_eq!(table.reply(&message(8, kind)), Answer::refused(code));
            assert_eq!(table, crate::table(vec![open(8, 1, 2)], 9));
        }
    }
}

#[test]
fn busy_stops_at_65_535() {
    let mut table = table(vec![open(3, 4, 65_533)], 3);
    let mut map = Map::fresh(1, 1024);
    map.open.insert(3, Request { action: 4, count: 65_533, room: 0 });
    for count in [65_534, 65_535, 65_535, 65_535] {
        let answer = Answer { code: 0, kind: 3, fence: 0, action: 4, count };
        assert_eq!((table.reply(&message(3, 3)), map.reply(&message(3, 3))), (answer, answer));
        assert_eq!(table.records[0], open(3, 4, count));
    }
    let closed = Answer { code: 0, kind: 7, fence: 0, action: 4, count: 65_535 };
    assert_eq!((table.reply(&message(3, 7)), map.reply(&message(3, 7))), (closed, closed));
    assert!(table.records == [Record::default()] && map.open.is_empty());
}

#[test]
fn one_fence_open_twice() {
    let (one, free) = (open(0x0101, 1, 1), Record { open: 0, ..open(0x0101, 1, 1) });
    let odd = Record { open: 0x8000, ..one };
    for records in [vec![one, one], vec![one, free, odd], vec![odd, open(5, 0, 0), odd, free]] {
        let table = table(records, 7);
        let mut after = table.clone();
        for message in [&message(0x0101, 7)[..], &message(6, 7), &message(5, 0), &[]] {
            assert_eq!(after.reply(message), Answer::refused(35));
        }
        assert_eq!(opened(&mut after, 3), Answer::refused(35));
        assert_eq!(after, table);
        assert_eq!((after.fresh(1024).code, after.sound()), (0, true));
    }
    for other in [free, open(0x0001, 1, 1), open(0x0100, 1, 1), open(0x0201, 1, 1)] {
        let mut table = table(vec![other, one, free], 7);
        assert_eq!(table.reply(&message(0x0101, 3)).code, 0);
        assert_eq!(table.records, [other, open(0x0101, 1, 2), free]);
    }
}

#[test]
fn any_number_but_0_is_open() {
    for number in [2, 255, 256, 0x8000, 65_535] {
        let one = Record { open: number, ..open(3, 4, 5) };
        let mut table = table(vec![one], 2);
        assert_eq!((opened(&mut table, 1).code, &table.records[..]), (26, &[one][..]));
        assert_eq!(table.reply(&message(3, 3)).count, 6);
        assert_eq!(table.records, [Record { count: 6, ..one }]);
        table.records.push(Record::default());
        assert_eq!((fence(opened(&mut table, 1)), table.records[1]), (4, open(4, 1, 0)));
        assert_eq!(table.reply(&message(3, 5)).count, 6);
        assert_eq!(table.records[0], Record::default());
    }
}

/// A malformed message is 4 before 27 and after 35 and 2; a reply with no open fence
/// is 27.
#[test]
fn the_order_of_a_replys_numbers() {
    let mut table = table(vec![open(3, 4, 5)], 3);
    let [header, word] = message(3, 7);
    for malformed in [&[][..], &[header], &[header, word, 0], &[header | 0x100, word]] {
        assert_eq!(table.reply(malformed), Answer::refused(4));
    }
    assert_eq!(table.reply(&[message(9, 0)[0] | 0x1000, word]), Answer::refused(4));
    assert_eq!(table.reply(&message(4, 7)), Answer::refused(27));
    assert_eq!(table.reply(&message(4, 0)), Answer::refused(27));
    assert_eq!(table.records, [open(3, 4, 5)]);
    table.n = 1023;
    for message in [&[][..], &message(3, 7), &message(4, 0)] {
        assert_eq!(table.reply(message), Answer::refused(2));
    }
    table.records.clear();
    assert_eq!(table.reply(&[]), Answer::refused(35));
}
