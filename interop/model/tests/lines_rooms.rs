//! T-08, "Room for the answer": its own figures, both sides of each line, of the
//! lent table and of the plain map, and the order of its numbers.

use model::channel::{STATUS, TAIL};
use model::plain::Plain;
use model::run::{Channel, Side};
use model::wall::history::History;
use model::wall::table::{Record, Table};
use model::wall::{Answer, Call, Map};

/// Some request, with a fence of its own that nobody asks for.
const REQUEST: [u32; 3] = [0xBEEF_0002, 0x8123_4567, 0x89AB_CDEF];

fn channel() -> Channel {
    Channel::open(vec![9; 16], vec![0; 1024], [false; 2]).expect("N is allowed")
}

/// So many records with these reply dwords, and a free one.
fn table(rooms: &[u16], n: u16) -> Table {
    let each = (100..).zip(rooms);
    let mut records: Vec<Record> = each
        .map(|(fence, room)| Record { open: 1, fence, action: 1, count: 2, room: *room })
        .collect();
    records.push(Record::default());
    Table { records, last: 7, n }
}

/// The number of an opening of so many reply dwords.
fn code(table: &Table, room: u32) -> u32 {
    let (mut after, mut channel) = (table.clone(), channel());
    let answer = after.send(&mut channel, &REQUEST, room);
    assert!(answer.code == 0 || (after == *table && answer == Answer::refused(answer.code)));
    answer.code
}

#[test]
fn at_most_256_reply_dwords() {
    let empty = table(&[], 16_384);
    for (room, expected) in [(0, 0), (255, 0), (256, 0), (257, 14), (65_535, 14)] {
        assert_eq!(code(&empty, room), expected);
    }
    assert_eq!([65_536, 65_792, u32::MAX].map(|room| code(&empty, room)), [14; 3]);
}

#[test]
fn n_minus_1_at_most() {
    for n in [1024u16, 2048, 16_384] {
        for (less, expected) in [(1, 0), (0, 28)] {
            assert_eq!(code(&table(&[n - less - 256], n), 256), expected);
            assert_eq!(code(&table(&[n - less], n), 0), expected);
            assert_eq!(code(&table(&[256, n - less - 300], n), 44), expected);
        }
    }
    // Over whole numbers: 65,536 is not 0, and 255 times 65,535 is not small.
    assert_eq!(code(&table(&[65_535, 1], 16_384), 0), 28);
    assert_eq!(code(&table(&[32_768, 32_768], 1024), 256), 28);
    assert_eq!(code(&table(&[65_535; 255], 16_384), 0), 28);
    // What free records hold is set aside for nobody.
    let mut free = table(&[1023, 65_535], 1024);
    free.records[1].open = 0;
    assert_eq!((code(&free, 0), code(&free, 1)), (0, 28));
}

#[test]
fn what_is_sent_and_recorded() {
    let (mut wall, mut channel) = (table(&[5], 1024), channel());
    wall.last = 99;
    assert_eq!(wall.send(&mut channel, &REQUEST, 9), Answer { fence: 101, ..Answer::default() });
    assert_eq!(channel.buf[..4], [101 << 16 | 2, REQUEST[1], REQUEST[2], 0]);
    assert_eq!((channel.desc[TAIL], channel.sender.own()), (3, 3));
    let record = Record { open: 1, fence: 101, action: 0x4567, count: 0, room: 9 };
    assert_eq!((wall.records[1], wall.wall_words()), (record, [101, 1024]));
    // Busy keeps what is set aside, the others end it.
    assert_eq!(wall.reply(&[101 << 16 | 1, 3 << 28]).count, 1);
    assert_eq!((wall.records[1].room, wall.set_aside()), (9, 14));
    for kind in [5, 6, 7] {
        let mut after = wall.clone();
        assert_eq!(after.reply(&[101 << 16 | 1, kind << 28]).code, 0);
        assert_eq!((after.records[1], after.set_aside()), (Record::default(), 5));
    }
}

#[test]
fn a_reply_buffer_that_is_not_allowed() {
    for n in [0, 1, 1023, 1025, 16_383, 16_385, 17_408, 65_535] {
        let mut wall = Table { n, ..table(&[1], 0) };
        let before = wall.clone();
        assert_eq!(wall.reply(&[100 << 16 | 1, 7 << 28]), Answer::refused(2));
        assert_eq!(wall.fresh(n as usize), Answer::refused(2));
        assert_eq!((code(&wall, 0), code(&wall, 257)), (2, 2));
        assert_eq!(wall, before);
        wall.records[1] = wall.records[0];
        assert_eq!((code(&wall, 0), wall.reply(&[]).code), (35, 35));
        assert_eq!((wall.fresh(1024).code, wall.n), (0, 1024));
    }
    let mut wall = table(&[], 1024);
    for n in [66_560, 65_536 + 16_384, 1 << 32 | 1024, usize::MAX] {
        assert_eq!(wall.fresh(n), Answer::refused(2));
    }
}

/// "The order is 35, 2, 14, 27, 26, 28, the ring's own": each is mended in turn.
#[test]
fn the_order() {
    let mut wall = table(&[65_535, 65_535], 1000);
    wall.records[1].fence = 100;
    wall.records[2] = Record { fence: 7, ..wall.records[0] };
    let (mut message, mut room, mut sender) = (REQUEST, 300, channel());
    message[1] = 0x1000_0000;
    sender.desc[STATUS] = 1;
    sender.sender = Side::idle(false, 2048, 0);
    let mut said = Vec::new();
    for mended in 0..9 {
        match mended {
            0 => {}
            1 => wall.records[1].fence = 101,
            2 => wall.n = 2048,
            3 => room = 256,
            4 => message[1] = 0,
            5 => wall.records[2] = Record::default(),
            6 => wall.records[0].room = 1700,
            7 => wall.records[1].room = 91,
            _ => sender.sender = Side::idle(false, 1024, 0),
        }
        let before = (wall.clone(), sender.desc.clone(), sender.buf.clone());
        said.push(wall.send(&mut sender, &message, room).code);
        assert_eq!((wall.clone(), sender.desc.clone(), sender.buf.clone()), before);
    }
    assert_eq!(said, [35, 2, 14, 27, 26, 28, 28, 3, 6]);
    sender.desc[STATUS] = 0;
    assert_eq!(wall.send(&mut sender, &message, room).code, 0);
    assert_eq!((wall.set_aside(), wall.send(&mut sender, &message, 0).code), (2047, 26));
}

#[test]
fn malformed_or_another_type_is_27() {
    let mut wall = table(&[], 1024);
    let (mut map, mut plain) = (Map::fresh(1, 1024), Plain::new(&[0; 1024]));
    let mut sender = channel();
    let bad: [&[u32]; 6] = [&[], &[1], &[0x101, 0], &[2, 0], &[1, 0, 0], &[1, 4 << 28]];
    let types = [1u32, 2, 3, 5, 6, 7].map(|kind| [1, kind << 28]);
    for message in bad.into_iter().chain(types.iter().map(|message| &message[..])) {
        let refused = Answer::refused(27);
        assert_eq!(wall.send(&mut sender, message, 0), refused);
        assert_eq!(map.send(&mut plain, message, 0), refused);
    }
    assert_eq!((wall.last, map.last, sender.desc[TAIL]), (7, 65_535, 0));
}

#[test]
fn the_history_tells_what_is_open() {
    let mut history = History::default();
    let mut push = |call: Call, fence, kind, code| {
        history.push(&call, &Answer { code, kind, fence, ..Answer::default() });
        (history.open().len(), history.set_aside())
    };
    let reply = |fence: u32| Call::Reply(vec![fence << 16 | 1, 0]);
    assert_eq!(push(Call::Send(vec![], 256), 3, 0, 0), (1, 256));
    assert_eq!(push(Call::Send(vec![], 5), 4, 0, 0), (2, 261));
    assert_eq!(push(Call::Send(vec![], 9), 0, 0, 28), (2, 261), "refused");
    assert_eq!(push(reply(3), 0, 3, 0), (2, 261), "busy");
    assert_eq!(push(reply(3), 0, 0, 27), (2, 261), "refused");
    assert_eq!(push(reply(3), 0, 5, 0), (1, 5), "retry");
    assert_eq!(push(Call::Send(vec![], 7), 3, 0, 0), (2, 12), "the fence again");
    assert_eq!(push(reply(4), 0, 6, 0), (1, 7), "failure");
    assert_eq!(push(reply(3), 0, 7, 0), (0, 0), "success");
    assert_eq!(push(Call::Send(vec![], 7), 9, 0, 0), (1, 7));
    assert_eq!(push(Call::Fresh(1024), 0, 0, 0), (0, 0), "fresh");
}
