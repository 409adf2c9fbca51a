//! What the header adds to the paper's calls: sides of two words, and all moves
//! that are left in one call.

use model::channel::*;
use model::generate::{case_for, every_left, every_two, odd_channel, odd_operation, Rng};
use model::plain::Operation;
use model::run::{Op, Side};

fn message(length: usize) -> Vec<u32> {
    let mut dwords: Vec<u32> = (0..length as u32).map(|k| 0x0100_0000 + k).collect();
    dwords[0] = 0x1234_0000 | (length as u32 - 1);
    dwords[1] = 0xF000_0000;
    dwords
}

fn descriptor(head: u32, tail: u32) -> Vec<u32> {
    let mut desc = vec![0xABCD; 16];
    (desc[HEAD], desc[TAIL], desc[STATUS]) = (head, tail, 0);
    desc
}

#[test]
fn two_words_around_the_end() {
    let (mut desc, mut buf, sent) = (descriptor(1020, 1020), vec![0; 1024], message(8));
    let answer = two_send(&[1024, 1020], &mut desc, &mut buf, &sent);
    assert_eq!(answer, TwoAnswer { code: 0, len: 0, next: [1024, 4] });
    assert_eq!((desc[TAIL], buf[1023], buf[0]), (4, sent[3], sent[4]));
    let mut out = vec![9; 256];
    let answer = two_receive(&[1024, 1020], &mut desc, &buf, &mut out);
    assert_eq!(answer, TwoAnswer { code: 0, len: 8, next: [1024, 4] });
    assert_eq!((&out[..8], out[8], desc[HEAD]), (sent.as_slice(), 9, 4));
    let answer = two_receive(&[1024, 4], &mut desc, &buf, &mut out);
    assert_eq!(answer, TwoAnswer { code: 11, len: 0, next: [1024, 4] });
}

#[test]
fn two_words_that_fit_no_call() {
    let (mut buf, sent) = (vec![0; 1024], message(2));
    for side in [[0, 0], [2048, 0], [1025, 0], [1024, 1024], [1024, u32::MAX], [u32::MAX, 0]] {
        let mut desc = descriptor(side[1], side[1]);
        let before = desc.clone();
        let refused = TwoAnswer { code: 3, len: 0, next: side };
        assert_eq!(two_send(&side, &mut desc, &mut buf, &sent), refused);
        assert_eq!(two_receive(&side, &mut desc, &buf, &mut [5; 256]), refused);
        assert_eq!((desc, &buf), (before, &vec![0; 1024]));
    }
}

#[test]
fn two_words_opened() {
    let mut desc = vec![7; 16];
    assert_eq!(two_open(&mut desc, &[0; 1000]), (2, [0, 0], [0, 0]));
    assert_eq!(desc, [7; 16]);
    assert_eq!(two_open(&mut desc, &[0; 2048]), (0, [2048, 0], [2048, 0]));
    assert_eq!(desc, [0; 16]);
}

#[test]
fn moves_that_are_left() {
    let (mut desc, mut buf, sent) = (descriptor(1020, 1020), vec![0; 1024], message(8));
    let looked = send_look(&State::idle(1024, 1020), &mut desc, &buf, &sent).next;
    let one = send_move(&looked, &desc, &mut buf).next;
    buf[1020] = 0xEEEE;
    let all = send_move_all(&one, &desc, &mut buf);
    assert_eq!((all.code, all.next), (0, State { moved: 8, ..one }));
    assert_eq!((buf[1020], buf[1021], buf[3], buf[4]), (0xEEEE, sent[1], sent[7], 0));
    let before = buf.clone();
    assert_eq!((send_move_all(&all.next, &desc, &mut buf), &buf), (all, &before));
    assert_eq!(send_publish(&all.next, &mut desc, &buf).next, State::idle(1024, 4));
    assert_eq!(send_move_all(&State::idle(1024, 4), &desc, &mut buf).code, 3);

    buf[1020] = sent[0];
    let looked = receive_look(&State::idle(1024, 1020), &mut desc, &buf).next;
    buf[1020] = 0xEEEE;
    let all = receive_move_all(&looked, &desc, &buf);
    assert_eq!((all.code, all.next.moved, &all.next.copy[..8]), (0, 8, sent.as_slice()));
    assert_eq!(receive_move_all(&all.next, &desc, &buf), all);
    assert_eq!(receive_move_all(&looked, &desc, &buf[..1000]).code, 2);
    assert_eq!(receive_move_all(&State::idle(1024, 4), &desc, &buf).code, 3);

    // A lone header: the look has copied all of it, and the publish passes it over.
    (buf[4], desc[TAIL], desc[HEAD]) = (0, 9, 4);
    let looked = receive_look(&State::idle(1024, 4), &mut desc, &buf);
    assert_eq!((looked.code, looked.next.len), (0, 1));
    assert_eq!(receive_move_all(&looked.next, &desc, &buf), looked);
    assert_eq!(receive_publish(&looked.next, &mut desc, &buf, &mut [0; 256]).code, 13);
}

/// All at once are single moves until one is refused by 12; where the first one is
/// refused by another number, that is the answer.
#[test]
fn all_moves_are_single_moves() {
    let mut rng = Rng::new(31);
    let mut cases: Vec<_> = (0..4000)
        .map(|at| case_for(&mut rng, [Op::SendMoveAll, Op::ReceiveMoveAll][at % 2]))
        .collect();
    cases.extend(every_left(&mut rng));
    let mut none_left = 0;
    for before in cases {
        let (mut at_once, mut one_by_one) = (before.clone(), before.clone());
        let all = at_once.run();
        one_by_one.op = if before.op.sends() { Op::SendMove } else { Op::ReceiveMove };
        let mut moved = 0;
        let last = loop {
            let next = one_by_one.run();
            if next.code != 0 {
                break next.code;
            }
            one_by_one.state = next.next;
            moved += 1;
        };
        assert_eq!(all.code, if last == 12 { 0 } else { last });
        assert!(last == 12 || moved == 0);
        assert_eq!((all.next, &at_once.buf), (one_by_one.state, &one_by_one.buf));
        none_left += (last == 12 && moved == 0) as u32;
    }
    assert!(none_left > 100);
}

#[test]
fn sides_made_on_purpose_are_what_they_say() {
    let mut rng = Rng::new(32);
    for case in every_two(&mut rng) {
        assert_eq!(case.state, State::idle(case.state.n, case.state.own));
    }
    let kinds = [[false, false], [true, false], [false, true], [true, true]];
    for two in kinds.repeat(50) {
        let mut channel = odd_channel(&mut rng, two);
        assert_eq!([channel.sender.is_two(), channel.receiver.is_two()], two);
        for _ in 0..20 {
            let operation = odd_operation(&mut rng, &channel);
            let before = (channel.sender, channel.receiver);
            let sends = operation.sends();
            channel.apply(&operation);
            let other =
                if sends { before.1 == channel.receiver } else { before.0 == channel.sender };
            assert!(other, "{operation:?} changed the other side");
        }
    }
}

#[test]
#[should_panic(expected = "whole calls only")]
fn two_words_make_no_steps() {
    let mut rng = Rng::new(33);
    let mut channel = odd_channel(&mut rng, [true, true]);
    channel.sender = Side::Two([1024, 0]);
    channel.apply(&Operation::SendMoveAll);
}
