//! Lists of operations of both sides of one channel: through the archive and
//! through the plain channel; with somebody else writing to the memory in between;
//! and on sides that hold any words, through the archive and the model's steps.
//! Each side makes steps and whole calls, or is one of two words.

use crate::archive::{side_words, Archive};
use crate::functions::Fun;
use crate::same::{same, same_lent, same_slice, Outcome};
use crate::sets::Set;
use crate::tally::Tally;
use model::channel::{HEAD, STATUS, TAIL};
use model::generate::{
    buffer_length, near_malformed, odd_channel, odd_operation, odd_sides, operations, Rng,
};
use model::plain::{Operation, Plain, Reply};
use model::run::Channel;

/// N and about how many operations: mostly short lists on a small ring, which
/// fills, wraps and drains often.
fn size(rng: &mut Rng) -> (usize, usize) {
    match rng.below(100) {
        0 => (16384, 4000),
        1..=4 => (2048, 1000),
        5 => (buffer_length(rng), 2000),
        _ => (1024, 400),
    }
}

/// Whether the sender, the receiver is a side of two words: mostly neither.
fn kinds(rng: &mut Rng) -> [bool; 2] {
    let neither = [false, false];
    rng.pick(&[neither, neither, neither, [true, false], [false, true], [true, true]])
}

/// Both channels opened over one buffer and a descriptor of junk.
fn open_both(
    rng: &mut Rng,
    buffer: &[u32],
    two: [bool; 2],
    tally: &mut Tally,
) -> Result<(Archive, Channel), String> {
    let desc = rng.words(16);
    let archive = Archive::open(rng, &desc, buffer, two)?;
    tally.answer(Fun::Open, 0);
    tally.answer(Fun::WholeOpen, 0);
    let model = Channel::open(desc, buffer.to_vec(), two).expect("N is allowed");
    archive.compare(&model)?;
    tally.members.count(Set::ListSides, two[0] as usize * 2 + two[1] as usize);
    Ok((archive, model))
}

/// One operation of the archive, its answer held against one expected.
fn step(archive: &mut Archive, rng: &mut Rng, operation: &Operation, reply: &Reply) -> Outcome {
    let got = archive.apply(rng, operation)?;
    same("answer", (got.code, got.len), (reply.code, reply.len))?;
    same_slice("output", &got.output, &reply.output)
}

/// Says which operation of the list it was.
fn named(index: usize, fun: Fun, problem: String) -> String {
    format!("operation {index}, {fun:?}: {problem}")
}

/// Counts an answer and, where a message was taken or handed out, its type: for
/// the function, and where `listed` for the lists that nobody tampers with.
fn count_reply(
    tally: &mut Tally,
    fun: Fun,
    (operation, reply): (&Operation, &Reply),
    listed: bool,
) -> Outcome {
    tally.answer(fun, reply.code);
    let set = match fun {
        Fun::SendLook => Set::SendLook,
        Fun::Send => Set::Send,
        Fun::WholeSend => Set::WholeSend,
        Fun::ReceivePublish => Set::ReceivePublish,
        Fun::Receive => Set::Receive,
        Fun::WholeReceive => Set::WholeReceive,
        _ => return Ok(()),
    };
    if reply.code != 0 {
        return Ok(());
    }
    let (in_list, message) = match operation {
        Operation::SendLook(message) | Operation::SendWhole(message) => (Set::ListSent, message),
        _ => (Set::ListReceived, &reply.output),
    };
    let kind = (message[1] >> 28) % 8;
    if listed {
        tally.accepted(in_list, kind)?;
    }
    tally.accepted(set, kind)
}

/// A list on an opened channel against the plain channel, which knows no
/// states; those are held against the model's steps.
pub fn check(rng: &mut Rng, tally: &mut Tally) -> Outcome {
    let ((n, count), two) = (size(rng), kinds(rng));
    let buffer = rng.words(n);
    let list = operations(rng, &buffer, count, two);
    let (mut archive, mut model) = open_both(rng, &buffer, two, tally)?;
    let mut plain = Plain::new(&buffer);
    for (index, operation) in list.iter().enumerate() {
        let fun = archive.fun_of(operation);
        let reply = plain.apply(operation);
        let modelled = model.apply(operation);
        step(&mut archive, rng, operation, &reply)
            .and_then(|()| same_lent("descriptor", &archive.desc, &plain.descriptor()))
            .and_then(|()| same_lent("buffer", &archive.buf, plain.buffer()))
            .and_then(|()| same("model's own answer", &modelled, &reply))
            .and_then(|()| archive.compare(&model))
            .and_then(|()| count_reply(tally, fun, (operation, &reply), true))
            .map_err(|problem| named(index, fun, problem))?;
        tally.mark("ring full after an operation", (plain.free() == 0) as u64);
    }
    tally.mark("operations in lists", list.len() as u64);
    Ok(())
}

/// One write that no side made, to the model's memory: a descriptor word, a
/// buffer dword, a malformed message at HEAD, or everything put right again.
fn tamper(rng: &mut Rng, model: &mut Channel) {
    let n = model.buf.len() as u32;
    let side = rng.pick(&[HEAD, TAIL]);
    match rng.below(9) {
        0 => model.desc[STATUS] = rng.edgy(),
        1 => model.desc[side] = rng.pick(&[n, n + 1, u32::MAX, 1 << 31]),
        2 => model.desc[side] = (model.desc[side] % n + rng.between(1, 3) as u32) % n,
        3 => model.desc[rng.between(3, 15) as usize] = rng.word(),
        4 => model.buf[rng.below(n as u64) as usize] = rng.edgy(),
        5 | 6 => {
            let at = model.receiver.own() % n;
            for (k, dword) in (0..).zip(near_malformed(rng)) {
                model.buf[((at + k) % n) as usize] = dword;
            }
        }
        _ => {
            model.desc[STATUS] = 0;
            model.desc[HEAD] = model.receiver.own();
            model.desc[TAIL] = model.sender.own();
        }
    }
}

/// The archive's memory becomes the model's.
fn write_over(archive: &mut Archive, model: &Channel) {
    archive.desc.get_mut().copy_from_slice(&model.desc);
    archive.buf.get_mut().copy_from_slice(&model.buf);
    archive.sender.get_mut().copy_from_slice(&side_words(&model.sender));
    archive.receiver.get_mut().copy_from_slice(&side_words(&model.receiver));
}

/// One operation of a list that the plain channel can't follow.
fn check_one(
    rng: &mut Rng,
    tally: &mut Tally,
    (archive, model): (&mut Archive, &mut Channel),
    operation: &Operation,
) -> Outcome {
    let (fun, reply) = (archive.fun_of(operation), model.apply(operation));
    step(archive, rng, operation, &reply)?;
    archive.compare(model)?;
    count_reply(tally, fun, (operation, &reply), false)
}

/// A list with writes of somebody else in between, against the model's steps.
pub fn check_tampered(rng: &mut Rng, tally: &mut Tally) -> Outcome {
    let (n, two) = (buffer_length(rng).min(4096), kinds(rng));
    let buffer = rng.words(n);
    let list = operations(rng, &buffer, 200, two);
    let (mut archive, mut model) = open_both(rng, &buffer, two, tally)?;
    for (index, operation) in list.iter().enumerate() {
        if rng.chance(1, 8) {
            tamper(rng, &mut model);
            write_over(&mut archive, &model);
            tally.mark("tampered between operations", 1);
        }
        check_one(rng, tally, (&mut archive, &mut model), operation)
            .map_err(|problem| named(index, archive.fun_of(operation), problem))?;
    }
    tally.mark("operations in tampered lists", list.len() as u64);
    Ok(())
}

/// A list on a channel that nobody opened: its sides hold any words at all, and
/// get others now and then.
pub fn check_odd(rng: &mut Rng, tally: &mut Tally) -> Outcome {
    let two = kinds(rng);
    let mut model = odd_channel(rng, two);
    let mut archive = Archive::of(rng, &model);
    for index in 0..40 {
        if rng.chance(1, 8) {
            let n = model.buf.len() as u32;
            let own = [model.sender.own() % n, model.receiver.own() % n];
            [model.sender, model.receiver] = odd_sides(rng, n, own, two);
            tamper(rng, &mut model);
            write_over(&mut archive, &model);
        }
        let operation = odd_operation(rng, &model);
        check_one(rng, tally, (&mut archive, &mut model), &operation)
            .map_err(|problem| named(index, archive.fun_of(&operation), problem))?;
    }
    tally.mark("operations on sides of any words", 40);
    Ok(())
}
