//! Generated records to mail home: every number and every fault comes up often, what
//! the paper says of all calls holds of each, and what it wants proved of a write, a
//! read and a cut holds of all that is generated.

use model::generate::{any_file, any_run, kept_messages, kept_of, mail_case, MailCase, Rng};
use model::mail::kept::{file_of, run_of, Kept};
use model::mail::{add, read, write, write_bound};

/// A file of these messages, written with room to spare.
fn written(rng: &mut Rng, messages: &[Kept]) -> Vec<u8> {
    let run = run_of(messages);
    let mut file = rng.bytes(write_bound(run.len()));
    let got = write(&run, &mut file);
    assert_eq!((got.code, got.fault, got.at), (0, 0, 0));
    file.truncate(got.written);
    file
}

/// The messages of a file as a run, with the code and the bytes that they took.
fn read_back(file: &[u8]) -> (u32, Vec<u32>, usize) {
    let mut run = vec![7; file.len()];
    let got = read(file, &mut run);
    run.truncate(got.written);
    (got.code, run, got.took)
}

#[test]
fn a_write_then_a_read() {
    let mut rng = Rng::new(71);
    for _ in 0..3000 {
        let messages = kept_messages(&mut rng);
        let file = written(&mut rng, &messages);
        assert_eq!(file, file_of(&messages));
        assert_eq!(read_back(&file), (0, run_of(&messages), file.len()));
    }
}

#[test]
fn a_read_then_a_write() {
    let (mut rng, mut accepted) = (Rng::new(72), 0);
    for _ in 0..20_000 {
        let file = any_file(&mut rng);
        let (code, run, took) = read_back(&file);
        let mut again = vec![3; file.len()];
        let got = write(&run, &mut again);
        assert_eq!((got.code, got.written), (0, took), "what was laid is whole messages");
        assert_eq!(again[..took], file[..took]);
        assert!(again[took..].iter().all(|byte| *byte == 3) && (code > 0 || took == file.len()));
        accepted += (code == 0) as u32;
    }
    assert!(accepted > 4000, "{accepted}");
}

/// "a written file cut anywhere hands out exactly its whole messages before the cut"
#[test]
fn cut_anywhere() {
    let mut rng = Rng::new(73);
    for _ in 0..200 {
        let messages = kept_messages(&mut rng);
        let file = written(&mut rng, &messages);
        let mut ends = vec![0];
        for message in &messages {
            ends.push(ends[ends.len() - 1] + file_of(std::slice::from_ref(message)).len());
        }
        for cut in (0..=file.len()).filter(|cut| *cut < 400 || cut % 7 == 0) {
            let whole = ends.iter().filter(|end| **end <= cut).count() - 1;
            let (code, run, took) = read_back(&file[..cut]);
            assert_eq!((run, took), (run_of(&messages[..whole]), ends[whole]));
            assert_eq!(code, if took == cut { 0 } else { 29 });
        }
    }
}

/// Messages that are added one after another are their run.
#[test]
fn added_one_by_one() {
    let mut rng = Rng::new(74);
    for _ in 0..2000 {
        let messages = kept_messages(&mut rng);
        let wanted = run_of(&messages);
        let mut run = rng.words(wanted.len() + 2);
        let (mut place, behind) = (0, run[wanted.len()..].to_vec());
        for Kept { direction, dwords } in &messages {
            let got = add(&mut run, place, *direction, dwords);
            assert_eq!((got.code, got.fault, got.place), (0, 0, place + 2 + dwords.len()));
            place = got.place;
        }
        assert_eq!((&run[..place], &run[place..]), (&wanted[..], &behind[..]));
        let one = kept_of(&mut rng, 1);
        assert_eq!(add(&mut run, place, one.direction, &one.dwords).code, 30);
    }
}

/// Makes a call; answers its number and what is wrong. Outputs that are refused stay,
/// but for what a read with 29 lays.
fn call(rng: &mut Rng, case: MailCase) -> (usize, u32, u32) {
    match case {
        MailCase::Bound(dwords) => {
            assert!(write_bound(dwords) / 5 == dwords || write_bound(dwords) == usize::MAX);
            (0, 0, 0)
        }
        MailCase::Add { mut run, place, direction, message } => {
            let before = run.clone();
            let got = add(&mut run, place, direction, &message);
            assert!(got.code == 0 || (run == before && got.place == place));
            (1, got.code, got.fault)
        }
        MailCase::Write { run, room } => {
            let before = rng.bytes(room);
            let mut file = before.clone();
            let got = write(&run, &mut file);
            assert!(file[got.written..] == before[got.written..]);
            assert!(got.code == 0 || got.written == 0);
            (2, got.code, got.fault)
        }
        MailCase::Read { file, room } => {
            let before = rng.words(room);
            let mut run = before.clone();
            let got = read(&file, &mut run);
            assert!(run[got.written..] == before[got.written..] && got.took <= file.len());
            assert!(got.code != 30 || [got.at, got.written, got.took] == [0; 3]);
            assert!(got.code != 29 || got.took <= got.at && got.at <= file.len());
            (3, got.code, got.fault)
        }
    }
}

#[test]
fn every_number_of_every_call() {
    let mut rng = Rng::new(75);
    let mut counts = [[[0u32; 8]; 3]; 4];
    for _ in 0..100_000 {
        let any = rng.draw() as usize >> rng.below(64);
        let case = if rng.chance(1, 16) { MailCase::Bound(any) } else { mail_case(&mut rng) };
        let (which, code, fault) = call(&mut rng, case);
        let place = [0, 29, 30].iter().position(|one| *one == code).expect("no other number");
        counts[which][place][fault as usize] += 1;
    }
    println!("bound, add, write, read: {counts:?}");
    let faults: [&[usize]; 4] = [&[], &[5, 6, 7], &[2, 5, 6, 7], &[1, 2, 3, 4, 5, 6, 7]];
    for (which, (counts, faults)) in counts.iter().zip(faults).enumerate() {
        let [accepted, bad, short] = counts;
        assert!(accepted[0] > 1000 && (which == 0 || short[0] > 1000));
        for (fault, &count) in bad.iter().enumerate() {
            let enough = if faults.contains(&fault) { count > 200 } else { count == 0 };
            assert!(enough, "call {which}, fault {fault}: {count}");
        }
        assert!(accepted[1..].iter().chain(&short[1..]).all(|count| *count == 0));
    }
}

/// A run is accepted exactly where it is the run of what its file reads back as.
#[test]
fn any_run_is_whole_or_refused() {
    let mut rng = Rng::new(76);
    for _ in 0..20_000 {
        let run = any_run(&mut rng);
        let mut file = vec![0; write_bound(run.len())];
        let got = write(&run, &mut file);
        if got.code == 0 {
            assert_eq!(read_back(&file[..got.written]), (0, run, got.written));
        } else {
            assert_eq!(write(&run[..got.at], &mut file).code, 0, "whole before the bad one");
            assert_eq!(write(&run[got.at..], &mut file).at, 0, "which is bad by itself");
        }
    }
}
