//! Records from beginning to end: messages that are added one after another, written,
//! read back and written again; a file that is cut anywhere; and a long file, sound or
//! damaged, that is read piece by piece.

use crate::guc::constants::GUC_ENTRY_BYTES_MAX;
use crate::lent::words;
use crate::mail::{check_add, check_bound, check_read, check_write};
use crate::same::{same, same_slice, Outcome};
use crate::tally::Tally;
use model::generate::{damage_bytes, damage_forms, forms_of, kept, kept_messages, Rng};
use model::mail::kept::{file_of, run_of, Kept};

/// Adds these messages to a run that has room for them and a few dwords more; answers
/// the dwords up to the last place.
fn added(rng: &mut Rng, tally: &mut Tally, messages: &[Kept]) -> Result<Vec<u32>, String> {
    let needed: usize = messages.iter().map(|message| message.dwords.len() + 2).sum();
    let more = rng.below(4) as usize;
    let mut run = rng.words(needed + more);
    let (mut lent, mut place) = (words(rng, &run), 0);
    for Kept { direction, dwords } in messages {
        let both = (&mut lent, &mut run[..]);
        place = check_add(rng, tally, both, (place, *direction, dwords))?;
    }
    same("place behind all messages", place, needed)?;
    let last = kept(rng);
    let both = (&mut lent, &mut run[..]);
    let next = check_add(rng, tally, both, (place, last.direction, &last.dwords))?;
    tally.mark("run that was full for one more", (next == place) as u64);
    Ok(lent.get()[..place].to_vec())
}

/// "a written file cut anywhere hands out exactly its whole messages before the cut":
/// here the messages are counted by what each takes in the file.
fn check_cut(
    rng: &mut Rng,
    tally: &mut Tally,
    (messages, file): (&[Kept], &[u8]),
    cut: usize,
) -> Outcome {
    let (mut whole, mut end) = (0, 0);
    for message in messages {
        let next = end + file_of(std::slice::from_ref(message)).len();
        if next > cut {
            break;
        }
        (whole, end) = (whole + 1, next);
    }
    let (got, laid) = check_read(rng, tally, &file[..cut], cut)?;
    same_slice("whole messages before the cut", &laid, &run_of(&messages[..whole]))?;
    same("bytes before the cut", got.took, end)?;
    same("number of a cut file", got.code, if end == cut { 0 } else { 29 })?;
    tally.mark("cut file with whole messages before the cut", (whole > 0 && end < cut) as u64);
    Ok(())
}

/// From messages to a file and back, and to the same file again; then some cuts.
pub fn check(rng: &mut Rng, tally: &mut Tally) -> Outcome {
    let messages = kept_messages(rng);
    let run = added(rng, tally, &messages)?;
    same_slice("run of what was added", &run, &run_of(&messages))?;
    let bound = check_bound(tally, run.len())?;
    let (written, file) = check_write(rng, tally, &run, bound)?;
    same("number of a sound run", written.code, 0)?;
    let (read, back) = check_read(rng, tally, &file, run.len())?;
    same_slice("written, then read", &back, &run)?;
    same("number and bytes of a written file", (read.code, read.took), (0, file.len()))?;
    tally.mark("written, then read", (!run.is_empty()) as u64);
    let (_, again) = check_write(rng, tally, &back, file.len())?;
    same_slice("read, then written", &again, &file)?;
    tally.mark("read, then written", (!run.is_empty()) as u64);
    for _ in 0..3 {
        let cut = rng.below(file.len() as u64 + 1) as usize;
        check_cut(rng, tally, (&messages, &file), cut)?;
    }
    Ok(())
}

/// A file of many messages, one in two damaged.
fn long_file(rng: &mut Rng) -> Vec<u8> {
    let count = rng.between(5, 60);
    let messages: Vec<Kept> = (0..count).map(|_| kept(rng)).collect();
    let mut forms = forms_of(&messages);
    let damage = rng.below(4);
    if damage == 0 {
        damage_forms(rng, &mut forms);
    }
    let mut file = forms.concat();
    if damage == 1 {
        damage_bytes(rng, &mut file);
    }
    file
}

/// How many bytes the next piece has: as many as a message may have, or another number.
fn piece(rng: &mut Rng, most: usize) -> usize {
    match rng.below(4) {
        0 => rng.between(1, 30) as usize,
        1 => rng.between(1, 2 * most as u64) as usize,
        2 => most,
        _ => most + rng.below(9) as usize,
    }
}

/// A long file in pieces: together they lay what the whole file does, and the last one
/// says what is wrong, if anything is. A piece that took nothing must be longer, up to
/// the bytes that any message has; one of so many that took nothing is bad.
pub fn check_pieces(rng: &mut Rng, tally: &mut Tally) -> Outcome {
    let (file, most) = (long_file(rng), GUC_ENTRY_BYTES_MAX as usize);
    let (whole, laid) = check_read(rng, tally, &file, file.len())?;
    let (mut from, mut least, mut together, mut pieces) = (0, 1, Vec::new(), 0);
    let last = loop {
        let to = file.len().min(from + piece(rng, most).max(least));
        let room = (to - from).max(rng.below(9) as usize);
        let (got, part) = check_read(rng, tally, &file[from..to], room)?;
        together.extend(part);
        pieces += 1;
        let ends = to == file.len() || (got.took == 0 && to - from >= most);
        if ends {
            break (got.code, got.fault, if got.code == 0 { 0 } else { from + got.at });
        }
        least =
            if got.took == 0 { (to - from + rng.between(1, 700) as usize).min(most) } else { 1 };
        from += got.took;
    };
    same_slice("laid piece by piece", &together, &laid)?;
    same("what is wrong with the last piece", last, (whole.code, whole.fault, whole.at))?;
    tally.mark("sound file read piece by piece", (last.0 == 0 && pieces > 1) as u64);
    tally.mark("bad file read piece by piece", (last.0 != 0 && pieces > 1) as u64);
    Ok(())
}
