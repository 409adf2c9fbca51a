//! CSS firmware images: the numbers 15, 16, 17 and the places of the parts.
//! Places are (start, end) in bytes, end excluded; a refusal gives (0, 0).

/// A part's first byte and the byte after its last.
pub type Span = (usize, usize);

/// The empty part at the start of the lent blob.
pub const NOWHERE: Span = (0, 0);

/// Everything the locators answer about a blob.
#[derive(Clone, Copy, Debug, PartialEq, Eq)]
pub struct Image {
    pub code: u32,
    pub truncated: bool,
    pub ucode: Span,
    pub rsa: Span,
    pub modulus: Span,
    pub exponent: Span,
}

impl Image {
    /// "a refused location gives the empty part at the start of the lent blob"
    pub fn refused(code: u32) -> Image {
        Image {
            code,
            truncated: false,
            ucode: NOWHERE,
            rsa: NOWHERE,
            modulus: NOWHERE,
            exponent: NOWHERE,
        }
    }
}

/// Little-endian dword number `index` of the header, as a whole number.
fn dword(blob: &[u8], index: usize) -> u128 {
    let at = index * 4;
    u32::from_le_bytes([blob[at], blob[at + 1], blob[at + 2], blob[at + 3]]) as u128
}

/// A place worked out over whole numbers, known to lie within the blob.
fn span(start: u128, end: u128) -> Span {
    (start as usize, end as usize)
}

/// The answer for a blob: number, truncated or not, and the four parts.
pub fn locate(blob: &[u8]) -> Image {
    // "at least 128 bytes, else 15"
    if blob.len() < 128 {
        return Image::refused(15);
    }
    // "1 = h (all that is not uCode), 6 = s (all), 7 = k (RSA), 8 = m
    // (modulus), 9 = e (exponent)"
    let (h, s) = (dword(blob, 1), dword(blob, 6));
    let (k, m, e) = (dword(blob, 7), dword(blob, 8), dword(blob, 9));
    // "Over whole numbers h = 32 + k + m + e, k at least 1, s above h, else 16"
    if h != 32 + k + m + e || k < 1 || s <= h {
        return Image::refused(16);
    }
    // "Bytes 128 + 4(s - h) + 4k must be there, else 17."
    let ucode_end = 128 + 4 * (s - h);
    let rsa_end = ucode_end + 4 * k;
    let bytes = blob.len() as u128;
    if bytes < rsa_end {
        return Image::refused(17);
    }
    // "Modulus and exponent are shown when the blob has at least 4s bytes,
    // else neither is (a truncated image)"
    let full = bytes >= 4 * s;
    let modulus_end = rsa_end + 4 * m;
    let exponent_end = modulus_end + 4 * e;
    Image {
        code: 0,
        truncated: !full,
        ucode: span(128, ucode_end),
        rsa: span(ucode_end, rsa_end),
        modulus: if full { span(rsa_end, modulus_end) } else { NOWHERE },
        exponent: if full { span(modulus_end, exponent_end) } else { NOWHERE },
    }
}

/// The number, and whether the image is truncated (false on a refusal).
pub fn judge(blob: &[u8]) -> (u32, bool) {
    let image = locate(blob);
    (image.code, image.truncated)
}

/// "16 = version (major 23:16, minor 15:8, patch 7:0)"; "Reading the version
/// is refused by the same 15, 16 and 17."
pub fn version(blob: &[u8]) -> Result<(u32, u32, u32), u32> {
    match locate(blob).code {
        0 => {
            let word = dword(blob, 16) as u32;
            Ok(((word >> 16) & 0xFF, (word >> 8) & 0xFF, word & 0xFF))
        }
        code => Err(code),
    }
}
