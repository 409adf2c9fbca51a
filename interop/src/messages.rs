//! Packing and unpacking, and that both ways agree.

use crate::edges::messages::{of_fields, of_message};
use crate::functions::{Fun, Slice};
use crate::guc::constants::*;
use crate::guc::{self, Packed, Unpacked};
use crate::lent::words;
use crate::same::{same, same_lent, Outcome};
use crate::sets::Set;
use crate::tally::Tally;
use model::generate::{fields, message, Rng};
use model::message::{has_two_fields, known, pack, unpack, Decoded};

/// The fields in the order that packing takes them.
fn in_order(f: &Decoded) -> [u32; 6] {
    [f.origin, f.fence, f.num_dwords, f.kind, f.first, f.second]
}

/// What the interface answers: 101 for an unknown type before all else, 14 for
/// a second field where the type has none; for the rest the paper's answer.
fn expected_pack(f: &Decoded) -> Packed {
    let refused = |code| Packed { code, header: 0, word: 0 };
    if !known(f.kind) {
        return refused(GUC_NO_SUCH);
    }
    if !has_two_fields(f.kind) && f.second != 0 {
        return refused(GUC_BAD_FIELD);
    }
    match pack(f) {
        Ok((header, word)) => Packed { code: 0, header, word },
        Err(code) => refused(code),
    }
}

fn expected_unpack(dwords: &[u32]) -> Unpacked {
    let (code, f) = match unpack(dwords) {
        Ok(fields) => (0, fields),
        Err(code) => (code, Decoded::default()),
    };
    let [origin, fence, num_dwords, kind, first, second] = in_order(&f);
    Unpacked { code, origin, fence, num_dwords, kind, first, second }
}

/// Fields to pack, with types outside the table (10 and 12 are 2 and 4 in their
/// low bits) and second fields where there is none.
fn some_fields(rng: &mut Rng) -> Decoded {
    let mut f = fields(rng);
    match rng.below(12) {
        0 => f.kind = rng.pick(&[4, 8, 9, 10, 12, 15, 16, u32::MAX]),
        1 => f.kind = rng.edgy(),
        2 | 3 => f.second = rng.edgy(),
        4 => f.first = rng.edgy(),
        _ => {}
    }
    f
}

fn check_unpack(rng: &mut Rng, tally: &mut Tally, dwords: &[u32]) -> Result<Unpacked, String> {
    let lent = words(rng, dwords);
    let got = guc::unpack(lent.lend());
    same("unpack", got, expected_unpack(dwords))?;
    same_lent("message", &lent, dwords)?;
    let (stands, _) = of_message(dwords);
    tally.answer_at(Fun::Unpack, got.code, &stands)?;
    tally.input(&stands);
    if lent.null() {
        tally.null(Fun::Unpack, Slice::Message);
    }
    if got.code == 0 {
        tally.accepted(Set::Unpacked, got.kind)?;
    }
    Ok(got)
}

/// Fields packed; what was packed is unpacked as the front of a message.
pub fn check_packing(rng: &mut Rng, tally: &mut Tally) -> Outcome {
    let f = some_fields(rng);
    check_fields(rng, tally, f)
}

/// These fields, packed, and unpacked again.
pub fn check_fields(rng: &mut Rng, tally: &mut Tally, f: Decoded) -> Outcome {
    let got = guc::pack(in_order(&f));
    same("pack", got, expected_pack(&f)).map_err(|problem| format!("{f:?}: {problem}"))?;
    tally.answer_at(Fun::Pack, got.code, &of_fields(in_order(&f)))?;
    if got.code == 0 {
        tally.accepted(Set::Packed, f.kind)?;
        let mut dwords = vec![got.header, got.word];
        dwords.extend(rng.words(f.num_dwords as usize - 1));
        let back = check_unpack(rng, tally, &dwords)?;
        let gave = [back.origin, back.fence, back.num_dwords, back.kind, back.first, back.second];
        same("unpacked after packing", gave, in_order(&f))?;
        tally.mark("packed, then unpacked", 1);
    }
    Ok(())
}

/// Unpacks a message; what was unpacked packs to the same two dwords.
pub fn check_unpacking(rng: &mut Rng, tally: &mut Tally) -> Outcome {
    let dwords = message(rng);
    check_message(rng, tally, &dwords)
}

/// This message, unpacked, and packed again.
pub fn check_message(rng: &mut Rng, tally: &mut Tally, dwords: &[u32]) -> Outcome {
    let u = check_unpack(rng, tally, dwords)?;
    if u.code == 0 {
        let again = guc::pack([u.origin, u.fence, u.num_dwords, u.kind, u.first, u.second]);
        let model = Packed { code: 0, header: dwords[0], word: dwords[1] };
        same("packed after unpacking", again, model)?;
        tally.answer(Fun::Pack, 0);
        tally.accepted(Set::Packed, u.kind)?;
        tally.mark("unpacked, then packed", 1);
    }
    Ok(())
}
