//! Records to mail home: single calls, made by the archive and by the model. The whole
//! answer, the whole output and what must not change are compared after each, and held
//! against what `edges` says of the input alone.

use crate::edges::mail::{Expected, BOUNDS};
use crate::edges::mail_files::of_read;
use crate::edges::mail_runs::{of_add, of_write};
use crate::functions::{Fun, Slice};
use crate::guc::{self, Added, Readback, Written};
use crate::lent::{bytes, words, Guard, Lent};
use crate::same::{same, same_lent, same_slice, Outcome};
use crate::sets::Set;
use crate::tally::Tally;
use model::generate::{mail_case, MailCase, Rng};
use model::mail;

/// Counts a slice of a call that was lent as NULL, or that lies against a page.
fn look_over<T: Guard>(tally: &mut Tally, fun: Fun, slice: Slice, lent: &Lent<T>) {
    if lent.null() {
        tally.null(fun, slice);
    }
    tally.mark("call with a slice against a forbidden page", lent.paged() as u64);
}

/// Counts what an accepted call left of its output, and a refused one.
fn count_rest(tally: &mut Tally, code: u32, room: usize, written: usize) {
    tally.mark("record with more room: rest unchanged", (code == 0 && room > written) as u64);
    tally.mark("record refused: output unchanged", (code != 0 && written == 0) as u64);
}

/// Adds a message to a run that the archive and the model have.
pub fn check_add(
    rng: &mut Rng,
    tally: &mut Tally,
    (lent, run): (&mut Lent<u32>, &mut [u32]),
    (place, direction, message): (usize, u32, &[u32]),
) -> Result<usize, String> {
    let (stands, expected) = of_add(run.len(), place, direction, message);
    let (long, count) = (run.len(), message.len());
    let said = |problem| format!("add {direction}, {count} dwords at {place} of {long}: {problem}");
    let msg = words(rng, message);
    let got = guc::record_add(lent.lend_mut(), place, direction, msg.lend());
    let mail::Added { code, fault, place: next } = mail::add(run, place, direction, message);
    same("answer", got, Added { code, fault, place: next }).map_err(said)?;
    same_lent("run", lent, run).map_err(said)?;
    same_lent("message", &msg, message).map_err(said)?;
    let beside: Expected = (got.code, got.fault, got.place);
    same("answer beside what is wrong first", beside, expected).map_err(said)?;
    tally.answer_at(Fun::RecordAdd, got.code, &stands).map_err(said)?;
    tally.input(&stands);
    look_over(tally, Fun::RecordAdd, Slice::Run, lent);
    look_over(tally, Fun::RecordAdd, Slice::Message, &msg);
    Ok(got.place)
}

/// The bytes for so many dwords: five times as many, or the most that there are.
pub fn check_bound(tally: &mut Tally, dwords: usize) -> Result<usize, String> {
    let got = guc::record_write_bound(dwords);
    let said = |problem| format!("bound for {dwords} dwords: {problem}");
    same("bytes", got, mail::write_bound(dwords)).map_err(said)?;
    let five = got % 5 == 0 && got / 5 == dwords;
    let most = got == usize::MAX && dwords > got / 5;
    if !five && !most {
        return Err(format!("{got} is no bound for {dwords} dwords"));
    }
    if let Some(at) = BOUNDS.iter().position(|(_, bound)| *bound == dwords) {
        tally.members.count(Set::Bound, at);
    }
    tally.mark("bytes of a run asked for", 1);
    Ok(got)
}

/// Writes a run into so much room; answers what the file then has of it.
pub fn check_write(
    rng: &mut Rng,
    tally: &mut Tally,
    run: &[u32],
    room: usize,
) -> Result<(Written, Vec<u8>), String> {
    let said = |problem| format!("write of {} dwords, room {room}: {problem}", run.len());
    let mut want = rng.bytes(room);
    let (lent, mut file) = (words(rng, run), bytes(rng, &want));
    let got = guc::record_write(lent.lend(), file.lend_mut());
    let mail::Written { code, fault, at, written } = mail::write(run, &mut want);
    same("answer", got, Written { code, fault, at, written }).map_err(said)?;
    same_lent("file", &file, &want).map_err(said)?;
    same_lent("run", &lent, run).map_err(said)?;
    let (stands, expected) = of_write(run, room);
    same("answer beside what is wrong first", (got.code, got.fault, got.at), expected)
        .map_err(said)?;
    tally.answer_at(Fun::RecordWrite, got.code, &stands).map_err(said)?;
    tally.input(&stands);
    look_over(tally, Fun::RecordWrite, Slice::Run, &lent);
    look_over(tally, Fun::RecordWrite, Slice::File, &file);
    count_rest(tally, got.code, room, got.written);
    Ok((got, file.get()[..got.written].to_vec()))
}

/// Reads a file into so much room; answers what the run then has of it.
pub fn check_read(
    rng: &mut Rng,
    tally: &mut Tally,
    file: &[u8],
    room: usize,
) -> Result<(Readback, Vec<u32>), String> {
    let said = |problem| format!("read of {} bytes, room {room}: {problem}", file.len());
    let mut want = rng.words(room);
    let (lent, mut run) = (bytes(rng, file), words(rng, &want));
    let got = guc::record_read(lent.lend(), run.lend_mut());
    let mail::Readback { code, fault, at, written, took } = mail::read(file, &mut want);
    same("answer", got, Readback { code, fault, at, written, took }).map_err(said)?;
    same_lent("run", &run, &want).map_err(said)?;
    same_lent("file", &lent, file).map_err(said)?;
    let (stands, expected, walked) = of_read(file, room);
    let beside: Expected = (got.code, got.fault, got.at);
    same("answer beside what is wrong first", beside, expected).map_err(said)?;
    let laid = run.get()[..got.written].to_vec();
    same_slice("laid beside the file's own numbers", &laid, &walked.laid).map_err(said)?;
    same("took beside the file's own numbers", got.took, walked.took).map_err(said)?;
    tally.answer_at(Fun::RecordRead, got.code, &stands).map_err(said)?;
    tally.input(&stands);
    look_over(tally, Fun::RecordRead, Slice::File, &lent);
    look_over(tally, Fun::RecordRead, Slice::Run, &run);
    count_rest(tally, got.code, room, got.written);
    Ok((got, laid))
}

/// This call, made by both.
pub fn check_case(rng: &mut Rng, tally: &mut Tally, case: MailCase) -> Outcome {
    match case {
        MailCase::Add { mut run, place, direction, message } => {
            let mut lent = words(rng, &run);
            let both = (&mut lent, &mut run[..]);
            check_add(rng, tally, both, (place, direction, &message)).map(drop)
        }
        MailCase::Bound(dwords) => check_bound(tally, dwords).map(drop),
        MailCase::Write { run, room } => check_write(rng, tally, &run, room).map(drop),
        MailCase::Read { file, room } => check_read(rng, tally, &file, room).map(drop),
    }
    .map_err(|problem| format!("record: {problem}"))
}

/// Any call, and the bytes of any number of dwords.
pub fn check(rng: &mut Rng, tally: &mut Tally) -> Outcome {
    let dwords = rng.draw() as usize >> rng.below(64);
    check_bound(tally, dwords)?;
    let case = mail_case(rng);
    check_case(rng, tally, case)
}
