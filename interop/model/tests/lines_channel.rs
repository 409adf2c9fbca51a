//! The paper's "Both sides of each line": messages and the channel. Beside them
//! the type that T-02 adds, and the one that stays unknown.

use model::channel::*;
use model::message::*;

fn message(length: usize) -> Vec<u32> {
    let mut dwords: Vec<u32> = (0..length as u32).map(|k| 0x0100_0000 + k).collect();
    dwords[0] = 0x1234_0000 | (length as u32 - 1);
    dwords[1] = 0xF000_0000;
    dwords
}

fn descriptor(head: u32, tail: u32, status: u32) -> Vec<u32> {
    let mut desc = vec![0xABCD; 16];
    (desc[HEAD], desc[TAIL], desc[STATUS]) = (head, tail, status);
    desc
}

#[test]
fn header_and_words() {
    let success = Decoded { origin: 1, fence: 0x1234, num_dwords: 1, kind: 7, first: 0, second: 0 };
    assert_eq!(pack(&success), Ok((0x1234_0001, 0xF000_0000)));
    let failure = Decoded { kind: 6, first: 0x0AB, second: 0x10, ..success };
    assert_eq!(pack(&failure), Ok((0x1234_0001, 0xE0AB_0010)));
    let request = Decoded { origin: 0, kind: 0, first: 0x1000, second: 0, ..success };
    assert_eq!(pack(&request), Err(14));
    let request = Decoded { first: 0xFFF, ..request };
    assert_eq!(pack(&request), Ok((0x1234_0001, 0x0FFF_0000)));
    assert_eq!(pack(&Decoded { num_dwords: 0, ..success }), Err(14));
    assert_eq!(pack(&Decoded { num_dwords: 256, ..success }), Err(14));
    assert_eq!(pack(&Decoded { fence: 0x1_0000, ..success }), Err(14));
    assert_eq!(pack(&Decoded { origin: 2, ..success }), Err(14));
    assert_eq!(unpack(&[0x1234_0001, 0xE0AB_0010]), Ok(failure));
    assert_eq!(unpack(&[0x1234_0001]), Err(4));
    assert_eq!(unpack(&[0x1234_0101, 0xF000_0000]), Err(4));
    assert_eq!(unpack(&[0x1234_1001, 0xF000_0000]), Err(4));
    assert_eq!(unpack(&[0x1234_0001, 0xF000_0000, 0]), Err(4));
    assert_eq!(unpack(&[0x1234_0000, 0xF000_0000]), Err(4));
}

#[test]
fn fast_request_and_type_4() {
    let (fence, num_dwords) = (0x1234, 1);
    let fast = Decoded { origin: 0, fence, num_dwords, kind: 2, first: 0x0AB, second: 0x4601 };
    assert_eq!(pack(&fast), Ok((0x1234_0001, 0x20AB_4601)));
    assert_eq!(unpack(&[0x1234_0001, 0x20AB_4601]), Ok(fast));
    assert_eq!(unpack(&[0x1234_0001, 0xA0AB_4601]), Ok(Decoded { origin: 1, ..fast }));
    assert_eq!(pack(&Decoded { first: 0xFFF, second: 0xFFFF, ..fast }).unwrap().1, 0x2FFF_FFFF);
    assert_eq!(pack(&Decoded { first: 0x1000, ..fast }), Err(14));
    assert_eq!(pack(&Decoded { second: 0x1_0000, ..fast }), Err(14));
    assert_eq!(unpack(&[0x1234_0001, 0x4000_0000]), Err(4));
    assert_eq!(unpack(&[0x1234_0001, 0xC0AB_4601]), Err(4));
}

/// The mended rule where a send's message is judged, its copy, and what is received.
#[test]
fn fast_request_in_the_channel() {
    let (desc, buf) = (&mut vec![7; 16], &mut vec![0; 1024]);
    let (_, sender, receiver) = open(desc, buf);
    let refused = Answer { code: 4, len: 0, next: sender };
    for word in [0x4000_0000, 0xC0AB_4601] {
        assert_eq!(send_look(&sender, desc, buf, &[0x1234_0002, word, 5]), refused);
        assert_eq!(send_whole(&sender, desc, buf, &[0x1234_0002, word, 5]), refused);
    }
    let fast = [0x1234_0002, 0x20AB_4601, 5];
    let mut active = send_look(&sender, desc, buf, &fast).next;
    assert_eq!(send_move(&active, desc, buf).code, 0);
    active.copy[1] = 0x40AB_4601;
    assert_eq!(send_move(&active, desc, buf).code, 3);
    active.moved = 3;
    assert_eq!(send_publish(&active, desc, buf).code, 3);
    assert_eq!(send_whole(&sender, desc, buf, &fast).code, 0);
    let mut out = vec![9; 256];
    let got = receive_whole(&receiver, desc, buf, &mut out);
    assert_eq!((got.code, got.len, &out[..4]), (0, 3, [fast[0], fast[1], 5, 9].as_slice()));
}

#[test]
fn free_down_to_nothing() {
    let mut desc = vec![7; 16];
    let mut buf = vec![0; 1024];
    let (code, mut sender, _) = open(&mut desc, &buf);
    assert_eq!((code, desc.as_slice()), (0, [0; 16].as_slice()));
    assert_eq!(free(1024, desc[HEAD], desc[TAIL]), 1023);
    for _ in 0..3 {
        let answer = send_whole(&sender, &mut desc, &mut buf, &message(256));
        assert_eq!((answer.code, answer.len), (0, 0));
        sender = answer.next;
    }
    assert_eq!(free(1024, desc[HEAD], desc[TAIL]), 255);
    let before = (desc.clone(), buf.clone());
    let answer = send_whole(&sender, &mut desc, &mut buf, &message(256));
    assert_eq!((answer.code, answer.next), (10, sender));
    assert_eq!((&desc, &buf), (&before.0, &before.1));
    let answer = send_whole(&sender, &mut desc, &mut buf, &message(255));
    assert_eq!(answer.code, 0);
    assert_eq!(free(1024, desc[HEAD], desc[TAIL]), 0);
    assert_eq!(desc[TAIL], 1023);
}

#[test]
fn wrap_at_1020() {
    let mut desc = descriptor(1020, 1020, 0);
    let mut buf = vec![0xEEEE; 1024];
    let sent = message(8);
    let mut answer = send_look(&State::idle(1024, 1020), &mut desc, &buf, &sent);
    for k in 0..8usize {
        assert_eq!((answer.code, answer.next.moved), (0, k as u32));
        let mut expected = buf.clone();
        expected[[1020, 1021, 1022, 1023, 0, 1, 2, 3][k]] = sent[k];
        answer = send_move(&answer.next, &desc, &mut buf);
        assert_eq!(buf, expected);
        assert_eq!(desc[TAIL], 1020, "TAIL isn't published before the last dword");
    }
    let full = answer.next;
    assert_eq!(send_move(&full, &desc, &mut buf).code, 12);
    answer = send_publish(&full, &mut desc, &buf);
    assert_eq!((answer.code, answer.next), (0, State::idle(1024, 4)));
    assert_eq!(desc, descriptor(1020, 4, 0));

    let mut out = vec![9; 256];
    let got = receive_whole(&State::idle(1024, 1020), &mut desc, &buf, &mut out);
    assert_eq!((got.code, got.len, got.next), (0, 8, State::idle(1024, 4)));
    assert_eq!((&out[..8], &out[8..]), (sent.as_slice(), [9; 248].as_slice()));
    assert_eq!(desc, descriptor(4, 4, 0));
}

#[test]
fn broken_descriptors() {
    let buf = vec![0; 1024];
    let look = |own: u32, desc: &mut Vec<u32>| {
        let state = State::idle(1024, own);
        let answer = send_look(&state, desc, &buf, &message(2));
        assert_eq!(answer.next, state);
        answer.code
    };
    let mut desc = descriptor(0, 1024, 0);
    assert_eq!((look(0, &mut desc), desc), (7, descriptor(0, 1024, 1)));
    let mut desc = descriptor(0, 12, 0);
    assert_eq!((look(8, &mut desc), desc), (8, descriptor(0, 12, 4)));
    let mut desc = descriptor(0, 0, 8);
    assert_eq!((look(0, &mut desc), desc), (6, descriptor(0, 0, 8)));
}

#[test]
fn truncated_in_the_ring() {
    let mut buf = vec![0; 1024];
    buf[100] = 0x0000_0005;
    let idle = State::idle(1024, 100);
    let mut desc = descriptor(100, 103, 0);
    let answer = receive_look(&idle, &mut desc, &buf);
    assert_eq!((answer.code, answer.len, answer.next), (9, 0, idle));
    assert_eq!(desc, descriptor(100, 103, 2));
    let mut desc = descriptor(100, 106, 0);
    let answer = receive_look(&idle, &mut desc, &buf);
    assert_eq!((answer.code, answer.next.len, answer.next.moved), (0, 6, 1));
    let mut desc = descriptor(100, 100, 0);
    assert_eq!(receive_look(&idle, &mut desc, &buf).code, 11);
    assert_eq!(desc, descriptor(100, 100, 0));
}

#[test]
fn malformed_in_the_ring() {
    // A lone header with NUM_DWORDS 0: L = 1, copied by the look alone. The last
    // two are malformed by their type only.
    let messages = [
        (0u32, 0u32, 1u32),
        (0x0000_1002, 0, 3),
        (0x0000_0102, 0, 3),
        (0x0000_0002, 0x4000_0000, 3),
        (0x0000_0002, 0xC0AB_4601, 3),
    ];
    for (header, word, length) in messages {
        let mut buf = vec![0; 1024];
        (buf[1023], buf[0]) = (header, word);
        let mut desc = descriptor(1023, 10, 0);
        let mut out = vec![5; 300];
        let answer = receive_whole(&State::idle(1024, 1023), &mut desc, &buf, &mut out);
        let past = (1023 + length) % 1024;
        assert_eq!((answer.code, answer.len), (13, 0));
        assert_eq!(answer.next, State::idle(1024, past));
        assert_eq!(desc, descriptor(past, 10, 0));
        assert_eq!(out, vec![5; 300]);
    }
}

#[test]
fn opening_refused() {
    let refused = [(15, 1000, 1), (17, 1024, 1), (16, 1023, 2), (16, 17408, 2), (16, 0, 2)];
    for (words, n, code) in refused {
        let mut desc = vec![3; words];
        let answer = open(&mut desc, &vec![0; n]);
        assert_eq!(answer, (code, State::ZERO, State::ZERO));
        assert_eq!(desc, vec![3; words]);
    }
}

#[test]
fn header_is_not_read_again() {
    let mut buf = vec![0; 1024];
    let sent = message(4);
    buf[..4].copy_from_slice(&sent);
    let mut desc = descriptor(0, 4, 0);
    let mut answer = receive_look(&State::idle(1024, 0), &mut desc, &buf);
    for k in 1..4 {
        answer = receive_move(&answer.next, &desc, &buf);
        buf[k] = 0xFFFF_FFFF;
        buf[0] = 0xFFFF_FFFF;
    }
    // Steps after the look judge neither STATUS nor the offsets (6 to 11 are
    // the looks').
    let mut desc = descriptor(5000, 6000, 9);
    let mut out = vec![0; 256];
    let last = receive_publish(&answer.next, &mut desc, &buf, &mut out);
    assert_eq!((last.code, last.len, &out[..4]), (0, 4, sent.as_slice()));
    assert_eq!(desc, descriptor(4, 6000, 9));
}
