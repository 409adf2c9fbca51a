//! CTB headers and HXG words: section "Messages" of the paper, its table as T-02
//! of document 02 corrects it. Fields are plain u32 numbers, so that fields too
//! wide can be asked for.

/// Number 4: "message to send or unpack is malformed".
pub const MALFORMED: u32 = 4;
/// Number 14: "field too wide, NUM_DWORDS 0".
pub const TOO_WIDE: u32 = 14;

/// The fields of the first two dwords.
///
/// `first` is the field at 27:16 (types 0, 1, 2, 6) or the only one at 27:0
/// (types 3, 5, 7). `second` is the field at 15:0; types with one field have
/// none: unpacking gives 0 and packing doesn't look at it.
#[derive(Clone, Copy, Debug, PartialEq, Eq, Default)]
pub struct Decoded {
    pub origin: u32,
    pub fence: u32,
    pub num_dwords: u32,
    pub kind: u32,
    pub first: u32,
    pub second: u32,
}

/// "fence 31:16"
pub fn fence(header: u32) -> u32 {
    header >> 16
}

/// "format 15:12"
pub fn format(header: u32) -> u32 {
    (header >> 12) & 0xF
}

/// "reserved 11:8"
pub fn reserved(header: u32) -> u32 {
    (header >> 8) & 0xF
}

/// "NUM_DWORDS 7:0"
pub fn num_dwords(header: u32) -> u32 {
    header & 0xFF
}

/// "Total length L = 1 + NUM_DWORDS."
pub fn total_length(header: u32) -> u32 {
    1 + num_dwords(header)
}

/// "origin bit 31 (0 host, 1 GuC)"
pub fn origin(word: u32) -> u32 {
    word >> 31
}

/// "type 30:28"
pub fn kind(word: u32) -> u32 {
    (word >> 28) & 7
}

/// The types of the table, seven since T-02.
pub const TYPES: [u32; 7] = [0, 1, 2, 3, 5, 6, 7];

/// "only type 4 stays unknown."
pub const UNKNOWN: u32 = 4;

/// Whether the table has this type.
pub fn known(kind: u32) -> bool {
    TYPES.contains(&kind)
}

/// Types 0, 1 and 6 have two fields, at 27:16 and 15:0, and so has type 2, "a
/// fast request, which [...] is laid out as a request"; 3, 5 and 7 have one.
pub fn has_two_fields(kind: u32) -> bool {
    matches!(kind, 0 | 1 | 2 | 6)
}

/// "Well formed: format 0, reserved 0, NUM_DWORDS 1 to 255, and a known HXG
/// type in the second dword."
pub fn well_formed(header: u32, word: u32) -> bool {
    format(header) == 0 && reserved(header) == 0 && num_dwords(header) >= 1 && known(kind(word))
}

/// "A caller's message must also have exactly L dwords."
pub fn is_message(dwords: &[u32]) -> bool {
    dwords.len() >= 2
        && well_formed(dwords[0], dwords[1])
        && dwords.len() as u64 == total_length(dwords[0]) as u64
}

/// "Packing gives the first two dwords and refuses any field too wide for its
/// place and NUM_DWORDS 0." A type code outside the table is refused as well:
/// the seven bodies can't say it.
pub fn pack(fields: &Decoded) -> Result<(u32, u32), u32> {
    let header_fits = fields.fence <= 0xFFFF && (1..=0xFF).contains(&fields.num_dwords);
    let word_fits = fields.origin <= 1 && known(fields.kind);
    let body_fits = if has_two_fields(fields.kind) {
        fields.first <= 0xFFF && fields.second <= 0xFFFF
    } else {
        fields.first <= 0x0FFF_FFFF
    };
    if !(header_fits && word_fits && body_fits) {
        return Err(TOO_WIDE);
    }
    let body =
        if has_two_fields(fields.kind) { fields.first << 16 | fields.second } else { fields.first };
    let header = fields.fence << 16 | fields.num_dwords;
    Ok((header, fields.origin << 31 | fields.kind << 28 | body))
}

/// "Unpacking takes a whole message and refuses a malformed one by 4."
pub fn unpack(dwords: &[u32]) -> Result<Decoded, u32> {
    if !is_message(dwords) {
        return Err(MALFORMED);
    }
    let (header, word) = (dwords[0], dwords[1]);
    let (first, second) = if has_two_fields(kind(word)) {
        ((word >> 16) & 0xFFF, word & 0xFFFF)
    } else {
        (word & 0x0FFF_FFFF, 0)
    };
    Ok(Decoded {
        origin: origin(word),
        fence: fence(header),
        num_dwords: num_dwords(header),
        kind: kind(word),
        first,
        second,
    })
}
