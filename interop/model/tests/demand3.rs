//! Demand 3 against the model itself: lists of operations run through the step
//! functions on an opened channel and through the plain channel.

use model::channel::{HEAD, TAIL};
use model::generate::{buffer_length, operations, output, Rng};
use model::message::{kind, total_length, TYPES};
use model::plain::{Operation, Plain, Reply};
use model::run::Channel;

/// Counts of answers over all lists, to see that the lists go everywhere.
#[derive(Default)]
struct Tally {
    operations: u64,
    codes: [u64; 22],
    /// Messages received, or unread at the end, by type.
    kinds: [u64; 8],
    wraps: u64,
    full: u64,
}

/// The dwords of the buffer that are published and not yet released.
fn unreleased(plain: &Plain) -> Vec<(usize, u32)> {
    let n = plain.buffer().len() as u64;
    (plain.released()..plain.published())
        .map(|at| ((at % n) as usize, plain.buffer()[(at % n) as usize]))
        .collect()
}

/// "Unread are the used dwords from HEAD on, cut by their headers."
fn unread(channel: &Channel) -> Vec<Vec<u32>> {
    let n = channel.buf.len();
    let (mut at, tail) = (channel.desc[HEAD] as usize, channel.desc[TAIL] as usize);
    let mut messages = Vec::new();
    while at != tail {
        let length = total_length(channel.buf[at]) as usize;
        messages.push((0..length).map(|k| channel.buf[(at + k) % n]).collect());
        at = (at + length) % n;
    }
    messages
}

/// No step or whole call changes those dwords.
fn check_unchanged(before: &[(usize, u32)], channel: &Channel) {
    for (at, dword) in before {
        assert_eq!(channel.buf[*at], *dword, "an unreleased dword changed");
    }
}

/// "the place (P + k) mod N of a send's store, in whole calls too, is never one
/// of them at that store": asked of the channel before an accepted operation.
fn check_places(before: &Plain, operation: &Operation) {
    let unreleased = before.published() - before.released();
    let last = match operation {
        Operation::SendMove => before.sending().unwrap().0,
        Operation::SendMoveAll => before.sending().unwrap().1 - 1,
        Operation::SendWhole(message) => message.len() - 1,
        _ => return,
    };
    assert!(unreleased + (last as u64) < before.buffer().len() as u64);
}

/// The call that an operation ended, as the whole call it amounts to: "a
/// stepped send takes its look's message, and a stepped receive its publish's
/// output or, where it ended at its look, any 256 dwords".
fn ended_call(
    operation: &Operation,
    code: u32,
    looked: &mut Vec<u32>,
    rng: &mut Rng,
) -> Option<Operation> {
    use Operation::*;
    match operation {
        SendLook(message) if code == 0 => {
            looked.clone_from(message);
            None
        }
        SendLook(message) | SendWhole(message) if code != 3 => Some(SendWhole(message.clone())),
        SendPublish if code == 0 => Some(SendWhole(looked.clone())),
        ReceiveLook if code != 0 && code != 3 => Some(ReceiveWhole(rng.words(256))),
        ReceivePublish(lent) if code == 0 => Some(ReceiveWhole(lent.clone())),
        ReceiveWhole(lent) if code != 3 => Some(ReceiveWhole(lent.clone())),
        _ => None,
    }
}

/// Whether the sender and the receiver are sides of two words.
const KINDS: [[bool; 2]; 4] = [[false, false], [true, false], [false, true], [true, true]];

/// The calls of a list run whole, in the order of their ends, on a channel of
/// their own, whose sides may be those that make no other calls.
struct Whole {
    channel: Channel,
    published: Vec<Vec<u32>>,
    received: Vec<Vec<u32>>,
}

impl Whole {
    fn new(rng: &mut Rng, buffer: &[u32]) -> Whole {
        let two = rng.pick(&KINDS);
        let channel = Channel::open(rng.words(16), buffer.to_vec(), two).unwrap();
        Whole { channel, published: Vec::new(), received: Vec::new() }
    }

    /// Runs a call that ended with this reply on the stepped channel.
    fn call(&mut self, call: &Operation, reply: &Reply, stepped: &Channel) {
        let answer = self.channel.apply(call);
        assert_eq!((answer.code, answer.len), (reply.code, reply.len));
        assert_eq!(self.channel.desc, stepped.desc);
        match call {
            Operation::SendWhole(message) if reply.code == 0 => {
                self.published.push(message.clone());
            }
            Operation::ReceiveWhole(lent) => {
                let (front, rest) = answer.output.split_at(answer.len as usize);
                assert_eq!(rest, &lent[answer.len as usize..]);
                if reply.code == 0 {
                    self.received.push(front.to_vec());
                    assert_eq!(answer.output, reply.output);
                }
            }
            _ => {}
        }
        let rest = unread(stepped);
        assert_eq!(rest, unread(&self.channel));
        assert_eq!(self.published.len(), self.received.len() + rest.len());
    }
}

/// Runs a list and compares every answer, output, descriptor and buffer.
fn run(rng: &mut Rng, n: usize, count: usize, tally: &mut Tally) {
    let (buffer, two) = (rng.words(n), rng.pick(&KINDS));
    let list = operations(rng, &buffer, count, two);
    let mut channel = Channel::open(rng.words(16), buffer.clone(), two).unwrap();
    let mut whole = Whole::new(rng, &buffer);
    let mut plain = Plain::new(&buffer);
    let mut looked = Vec::new();
    for operation in &list {
        let stores = operation.sends() && *operation != Operation::SendPublish;
        let before = if stores { unreleased(&plain) } else { Vec::new() };
        let reply = channel.apply(operation);
        if reply.code == 0 {
            check_places(&plain, operation);
        }
        assert_eq!(reply, plain.apply(operation), "{operation:?}");
        assert_eq!(channel.desc, plain.descriptor());
        assert_eq!(channel.buf, plain.buffer());
        check_unchanged(&before, &channel);
        tally.operations += 1;
        tally.codes[reply.code as usize] += 1;
        tally.full += (plain.free() == 0) as u64;
        if let Some(call) = ended_call(operation, reply.code, &mut looked, rng) {
            whole.call(&call, &reply, &channel);
        }
    }
    whole.received.extend(unread(&channel));
    assert_eq!(whole.received, whole.published, "received in order, then unread");
    whole.received.iter().for_each(|message| tally.kinds[kind(message[1]) as usize] += 1);
    tally.wraps += plain.published() / n as u64;
}

#[test]
fn lists_against_the_plain_channel() {
    let mut rng = Rng::new(0x0D3A);
    let mut tally = Tally::default();
    for index in 0..2000 {
        let (n, count) = match index % 100 {
            0 => (16384, 4000),
            1..=4 => (2048, 1000),
            5 => (buffer_length(&mut rng), 2000),
            _ => (1024, 400),
        };
        run(&mut rng, n, count, &mut tally);
    }
    println!("{} operations, {} wraps, full after {}", tally.operations, tally.wraps, tally.full);
    println!("answers: {:?}, types: {:?}", tally.codes, tally.kinds);
    for kind in 0..8 {
        assert_eq!(tally.kinds[kind as usize] > 1000, TYPES.contains(&kind), "type {kind}");
    }
    for code in [0, 3, 4, 5, 10, 11, 12] {
        assert!(tally.codes[code] > 1000, "number {code} is too rare");
    }
    assert!(tally.wraps > 1000 && tally.full > 1000);
    let others = tally.codes.iter().sum::<u64>()
        - [0, 3, 4, 5, 10, 11, 12].iter().map(|&code| tally.codes[code]).sum::<u64>();
    assert_eq!(others, 0, "no other number comes up on an opened channel");
}

#[test]
fn outputs_longer_than_a_message_keep_their_rest() {
    let mut rng = Rng::new(5);
    for _ in 0..200 {
        let lent = output(&mut rng);
        let two = rng.pick(&KINDS);
        let mut channel = Channel::open(vec![1; 16], vec![0; 1024], two).unwrap();
        let message = model::generate::well_formed(&mut rng);
        assert_eq!(channel.apply(&Operation::SendWhole(message.clone())).code, 0);
        let reply = channel.apply(&Operation::ReceiveWhole(lent.clone()));
        if lent.len() < 256 {
            assert_eq!((reply.code, reply.len, reply.output), (5, 0, lent));
        } else {
            assert_eq!(reply.output[..message.len()], message);
            assert_eq!(reply.output[message.len()..], lent[message.len()..]);
        }
    }
}
