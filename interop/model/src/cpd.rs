//! HuC code partition directories: seeking a name, the manifest's version and
//! the CSS image in `huc_fw`. All places are places in the outer blob.

use crate::css::{self, Image, Span, NOWHERE};

/// The manifest's name.
pub const MANIFEST: &[u8] = b"HUCP.man";
/// The name of the part "judged by the CSS rules as a blob of its own".
pub const HUC_FW: &[u8] = b"huc_fw";

fn dword(blob: &[u8], at: usize) -> u64 {
    u32::from_le_bytes([blob[at], blob[at + 1], blob[at + 2], blob[at + 3]]) as u64
}

/// The directory's own numbers before its entries are walked: 14, 15, 18, 19,
/// else 0.
fn judge_directory(blob: &[u8], name: &[u8]) -> u32 {
    // 14: "name to seek not 1 to 12 bytes without a zero"
    if name.is_empty() || name.len() > 12 || name.contains(&0) {
        return 14;
    }
    // "at least 20 bytes, else 15"
    if blob.len() < 20 {
        return 15;
    }
    // "bytes 0 to 3 are 24 43 50 44 hex"; "header length H is the byte at 10";
    // 18: "CPD marker wrong or header length below 20"
    if blob[0..4] != [0x24, 0x43, 0x50, 0x44] || blob[10] < 20 {
        return 18;
    }
    // "entry count n is the dword at 4"; "H + 24n bytes must be there"
    if (blob.len() as u64) < blob[10] as u64 + 24 * dword(blob, 4) {
        return 19;
    }
    0
}

/// The places of all entries that have this name, those "whose twelve bytes
/// agree": "the walk now goes on to the last entry" (T-03). Asked only of a
/// directory that `judge_directory` passed.
fn entries_named(blob: &[u8], name: &[u8]) -> Vec<usize> {
    let mut padded = [0u8; 12];
    padded[..name.len()].copy_from_slice(name);
    let count = dword(blob, 4) as usize;
    let places = (0..count).map(|index| blob[10] as usize + 24 * index);
    places.filter(|&at| blob[at..at + 12] == padded).collect()
}

/// The number and the part's (start, end); (0, 0) on a refusal. The order is
/// 14, 15, 18, 19, 20, 22, 21.
pub fn seek(blob: &[u8], name: &[u8]) -> (u32, usize, usize) {
    let code = judge_directory(blob, name);
    if code != 0 {
        return (code, 0, 0);
    }
    // 20: "no entry of that name"; T-03: "22 when more than one entry has it,
    // tested after 20 and before 21", whatever else the entries say
    let at = match entries_named(blob, name)[..] {
        [] => return (20, 0, 0),
        [at] => at,
        _ => return (22, 0, 0),
    };
    // "offset dword (bits 24:0 count), length dword"
    let start = dword(blob, at + 12) & 0x01FF_FFFF;
    let end = start + dword(blob, at + 16);
    // 21: "entry's part lies beyond the blob"
    if end > blob.len() as u64 {
        return (21, 0, 0);
    }
    (0, start as usize, end as usize)
}

/// "its firmware version is four 16-bit numbers (major, minor, hotfix, build)
/// at byte 36, so 44 bytes are needed, else 15", judged of the part alone.
pub fn version_in_manifest(part: &[u8]) -> Result<[u32; 4], u32> {
    if part.len() < 44 {
        return Err(15);
    }
    let number = |at: usize| u16::from_le_bytes([part[at], part[at + 1]]) as u32;
    Ok([number(36), number(38), number(40), number(42)])
}

/// The firmware version in the directory's `HUCP.man`, after the directory's
/// own numbers: "The manifest and CSS readings inside a directory pass 22 on".
pub fn manifest_version(blob: &[u8]) -> Result<[u32; 4], u32> {
    match seek(blob, MANIFEST) {
        (0, start, end) => version_in_manifest(&blob[start..end]),
        (code, _, _) => Err(code),
    }
}

/// The image in `huc_fw`: "a part inside a directory is judged only after the
/// directory's own numbers, 14 to 21, have passed", which since T-03 "include
/// what a request adds", 22. A refusal gives the empty part at the start of the
/// outer blob, and so does a truncated image for modulus and exponent.
pub fn huc_locate(blob: &[u8]) -> Image {
    let (code, start, end) = seek(blob, HUC_FW);
    if code != 0 {
        return Image::refused(code);
    }
    let inner = css::locate(&blob[start..end]);
    if inner.code != 0 {
        return inner;
    }
    let outward = |part: Span| (start + part.0, start + part.1);
    let tail = |part: Span| if inner.truncated { NOWHERE } else { outward(part) };
    Image {
        ucode: outward(inner.ucode),
        rsa: outward(inner.rsa),
        modulus: tail(inner.modulus),
        exponent: tail(inner.exponent),
        ..inner
    }
}

/// The version of the image in `huc_fw`, refused as `huc_locate` is.
pub fn huc_version(blob: &[u8]) -> Result<(u32, u32, u32), u32> {
    match seek(blob, HUC_FW) {
        (0, start, end) => css::version(&blob[start..end]),
        (code, _, _) => Err(code),
    }
}
