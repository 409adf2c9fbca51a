//! CSS images and code partition directories: answers, parts, versions, and
//! copies with a destination exactly long enough, one short, and longer.

use crate::edges::directories::{of_directory, of_huc, of_manifest};
use crate::edges::images::{of_image, of_room, of_which};
use crate::edges::names::Sought;
use crate::edges::{Stands, TRUNCATED};
use crate::functions::{Fun, Slice};
use crate::guc::constants::*;
use crate::guc::{self, Copied, Css, In, Manifest, Out, Part, Version};
use crate::lent::{bytes, Lent};
use crate::same::{same, same_lent, Outcome};
use crate::tally::Tally;
use model::cpd;
use model::css::{self, Image};
use model::generate::{cpd_case, css_blob, Rng};

/// The four functions that judge one image, of a blob or of its `huc_fw`.
struct Family {
    funs: [Fun; 4],
    answer: fn(In<u8>) -> Css,
    part: fn(In<u8>, u32) -> Part,
    copy: fn(In<u8>, u32, Out<u8>) -> Copied,
    version: fn(In<u8>) -> Version,
}

const CSS: Family = Family {
    funs: [Fun::CssAnswer, Fun::CssPart, Fun::CssCopy, Fun::CssVersion],
    answer: guc::css_answer,
    part: guc::css_part,
    copy: guc::css_copy,
    version: guc::css_version,
};

const HUC: Family = Family {
    funs: [Fun::HucAnswer, Fun::HucPart, Fun::HucCopy, Fun::HucVersion],
    answer: guc::huc_answer,
    part: guc::huc_part,
    copy: guc::huc_copy,
    version: guc::huc_version,
};

/// A component's answer; 101 for any but the four, before all else.
fn expected_part(image: &Image, which: u32) -> Part {
    let span = match which {
        GUC_PART_UCODE => image.ucode,
        GUC_PART_RSA => image.rsa,
        GUC_PART_MODULUS => image.modulus,
        GUC_PART_EXPONENT => image.exponent,
        _ => return Part { code: GUC_NO_SUCH, truncated: 0, start: 0, len: 0 },
    };
    Part {
        code: image.code,
        truncated: image.truncated as u32,
        start: span.0,
        len: span.1 - span.0,
    }
}

fn expected_version(version: Result<(u32, u32, u32), u32>) -> Version {
    match version {
        Ok((major, minor, patch)) => Version { code: 0, major, minor, patch },
        Err(code) => Version { code, major: 0, minor: 0, patch: 0 },
    }
}

fn expected_manifest(version: Result<[u32; 4], u32>) -> Manifest {
    let (code, v) = version.map_or_else(|code| (code, [0; 4]), |v| (0, v));
    let [major, minor, hotfix, build] = v;
    Manifest { code, major, minor, hotfix, build }
}

/// Room for a part: at its length, one less, more, none, or any.
fn some_room(rng: &mut Rng, len: usize) -> usize {
    match rng.below(6) {
        0 | 1 => len,
        2 => len.saturating_sub(1),
        3 => len + rng.between(1, 70) as usize,
        4 => len.saturating_sub(rng.between(0, 9) as usize),
        _ => rng.below(2 * len as u64 + 2) as usize,
    }
}

/// Counts what a copy left of its destination.
fn mark_room(tally: &mut Tally, code: u32, len: usize, room: usize) {
    match code {
        GUC_OK if room > len => tally.mark("room longer: rest unchanged", 1),
        GUC_OK | GUC_NO_ROOM => {}
        _ => tally.mark("refused copy: destination unchanged", 1),
    }
}

/// Counts a slice that these functions were lent, where it was NULL.
fn count_null(tally: &mut Tally, lent: &Lent<u8>, funs: &[Fun], slice: Slice) {
    if lent.null() {
        funs.iter().for_each(|fun| tally.null(*fun, slice));
    }
}

/// A call that copies a part: where the model places it in the blob, and where
/// the blob stands.
struct Copying<'a> {
    fun: Fun,
    blob: &'a [u8],
    part: Part,
    stands: &'a Stands,
}

/// A number, or that the image was truncated.
fn shown(code: u32, truncated: u32) -> u32 {
    if truncated == 1 {
        TRUNCATED
    } else {
        code
    }
}

/// Makes a copy, with some room.
fn check_copy(
    rng: &mut Rng,
    tally: &mut Tally,
    of: Copying,
    copy: impl Fn(Out<u8>) -> Copied,
) -> Outcome {
    let Copying { fun, blob, part, stands } = of;
    let room = some_room(rng, part.len);
    let mut want = rng.bytes(room);
    let mut dst = bytes(rng, &want);
    let got = copy(dst.lend_mut());
    let expected = match part {
        Part { code: 0, truncated, len, .. } if len > room => {
            Copied { code: GUC_NO_ROOM, truncated, len }
        }
        Part { code: 0, truncated, start, len } => {
            want[..len].copy_from_slice(&blob[start..start + len]);
            Copied { code: 0, truncated, len }
        }
        Part { code, .. } => Copied { code, truncated: 0, len: 0 },
    };
    same("copy", got, expected).map_err(|problem| format!("room {room}, {part:?}: {problem}"))?;
    same_lent("destination", &dst, &want)?;
    tally.sides(fun, shown(got.code, got.truncated), stands)?;
    tally.answer_at(fun, got.code, &of_room(part.len, room))?;
    tally.mark("call with a slice against a forbidden page", dst.paged() as u64);
    count_null(tally, &dst, &[fun], Slice::Destination);
    mark_room(tally, got.code, part.len, room);
    Ok(())
}

/// What the model says of an image, and where it stands.
struct Told {
    image: Image,
    version: Version,
    stands: Stands,
}

/// One component: its place and its copy. What isn't one of the four is refused
/// before the blob is judged.
fn check_component(
    rng: &mut Rng,
    tally: &mut Tally,
    (family, lent): (&Family, &Lent<u8>),
    (told, which): (&Told, u32),
) -> Outcome {
    let blob = lent.get();
    let [_, part_fun, copy_fun, _] = family.funs;
    let none = Stands::default();
    let stands = if which > GUC_PART_EXPONENT { &none } else { &told.stands };
    let expected = expected_part(&told.image, which);
    let part = (family.part)(lent.lend(), which);
    same("part", part, expected)?;
    tally.sides(part_fun, shown(part.code, part.truncated), stands)?;
    tally.answer_at(part_fun, part.code, &of_which(which))?;
    let copy = |dst: Out<u8>| (family.copy)(lent.lend(), which, dst);
    check_copy(rng, tally, Copying { fun: copy_fun, blob, part: expected, stands }, copy)?;
    tally.sides(copy_fun, part.code, &of_which(which))
}

/// All four functions of a family on one blob.
fn check_family(
    rng: &mut Rng,
    tally: &mut Tally,
    (family, lent): (&Family, &Lent<u8>),
    told: &Told,
) -> Outcome {
    let Told { image, version, stands } = told;
    let [answer_fun, .., version_fun] = family.funs;
    let answer = (family.answer)(lent.lend());
    same("answer", answer, Css { code: image.code, truncated: image.truncated as u32 })?;
    tally.sides(answer_fun, shown(answer.code, answer.truncated), stands)?;
    tally.answer(answer_fun, answer.code);
    let got = (family.version)(lent.lend());
    same("version", got, *version)?;
    tally.answer_at(version_fun, got.code, stands)?;
    let other = rng.pick(&[4, 4, 5, 7, 255, 256, 1 << 16, 1 << 31, u32::MAX, u32::MAX - 3]);
    for which in [0, 1, 2, 3, other] {
        check_component(rng, tally, (family, lent), (told, which))
            .map_err(|problem| format!("which {which}: {problem}"))?;
    }
    if image.code == 0 {
        tally.mark(if image.truncated { "image truncated" } else { "image full" }, 1);
    }
    tally.input(stands);
    count_null(tally, lent, &family.funs, Slice::Blob);
    Ok(())
}

/// The CSS functions on a blob.
pub fn check_css_blob(rng: &mut Rng, tally: &mut Tally, blob: &[u8]) -> Outcome {
    let lent = bytes(rng, blob);
    let version = expected_version(css::version(blob));
    let told = Told { image: css::locate(blob), version, stands: of_image(blob) };
    check_family(rng, tally, (&CSS, &lent), &told).map_err(|problem| format!("CSS: {problem}"))?;
    same_lent("blob", &lent, blob)
}

/// The functions that seek a name.
fn check_seek(rng: &mut Rng, tally: &mut Tally, lent: &Lent<u8>, name: &[u8]) -> Outcome {
    let (blob, lent_name) = (lent.get(), bytes(rng, name));
    let (code, start, end) = cpd::seek(blob, name);
    let expected = Part { code, truncated: 0, start, len: end - start };
    let part = guc::cpd_part(lent.lend(), lent_name.lend());
    same("part", part, expected)?;
    // Slices that are only read may overlap.
    let within = blob.windows(name.len().max(1)).position(|bytes| bytes == name);
    if let Some(at) = within.filter(|_| rng.chance(1, 4)) {
        let part = guc::cpd_part(lent.lend(), Some(&blob[at..at + name.len()]));
        same("part, the name lent where it lies in the blob", part, expected)?;
        tally.mark("name lent where it lies in the blob", 1);
    }
    let (stands, _) = of_directory(blob, name, Sought::Any);
    tally.answer_at(Fun::CpdPart, code, &stands)?;
    tally.input(&stands);
    let empty_at_end = code == 0 && start == blob.len();
    tally.mark("part of 0 bytes at the blob's end", empty_at_end as u64);
    let copy = |dst: Out<u8>| guc::cpd_copy(lent.lend(), lent_name.lend(), dst);
    let of = Copying { fun: Fun::CpdCopy, blob, part: expected, stands: &stands };
    check_copy(rng, tally, of, copy)?;
    count_null(tally, lent, &[Fun::CpdPart, Fun::CpdCopy], Slice::Blob);
    count_null(tally, &lent_name, &[Fun::CpdPart, Fun::CpdCopy], Slice::Name);
    same_lent("name", &lent_name, name)
}

/// The directory functions on a blob, seeking this name.
pub fn check_directory(rng: &mut Rng, tally: &mut Tally, blob: &[u8], name: &[u8]) -> Outcome {
    let lent = bytes(rng, blob);
    check_seek(rng, tally, &lent, name)
        .map_err(|problem| format!("CPD name {}: {problem}", name.escape_ascii()))?;
    let manifest = guc::manifest_version(lent.lend());
    count_null(tally, &lent, &[Fun::ManifestVersion], Slice::Blob);
    same("manifest", manifest, expected_manifest(cpd::manifest_version(blob)))?;
    let stands = of_manifest(blob);
    tally.answer_at(Fun::ManifestVersion, manifest.code, &stands)?;
    tally.input(&stands);
    let version = expected_version(cpd::huc_version(blob));
    let told = Told { image: cpd::huc_locate(blob), version, stands: of_huc(blob) };
    check_family(rng, tally, (&HUC, &lent), &told).map_err(|problem| format!("HuC: {problem}"))?;
    same_lent("blob", &lent, blob)
}

/// A generated CSS blob.
pub fn check_css(rng: &mut Rng, tally: &mut Tally) -> Outcome {
    let blob = css_blob(rng);
    check_css_blob(rng, tally, &blob)
}

/// A generated directory and name; now and then a bare CSS image or a
/// directory where the other is expected.
pub fn check_cpd(rng: &mut Rng, tally: &mut Tally) -> Outcome {
    let case = cpd_case(rng);
    match rng.below(16) {
        0 => check_css_blob(rng, tally, &case.blob),
        1 => {
            let image = css_blob(rng);
            check_directory(rng, tally, &image, &case.name)
        }
        _ => check_directory(rng, tally, &case.blob, &case.name),
    }
}
