//! The records of a table of requests and what the calls of a wall share, as
//! include/guc.h declares them. Both are 16-bit words, one after another, and
//! aligned to two bytes: the tests lay those words as they like.

/// A record of a table of requests.
#[repr(C)]
pub struct Record {
    pub open: u16,
    pub fence: u16,
    pub action: u16,
    pub count: u16,
    pub room: u16,
}

/// 16-bit words of a record.
pub const RECORD_WORDS: usize = std::mem::size_of::<Record>() / 2;

impl Record {
    /// These words as records, five words each.
    pub fn over(words: &mut [u16]) -> &mut [Record] {
        assert_eq!(words.len() % RECORD_WORDS, 0);
        let count = words.len() / RECORD_WORDS;
        // As long, as aligned and as free of rules as the slice: five u16 each.
        unsafe { std::slice::from_raw_parts_mut(words.as_mut_ptr().cast(), count) }
    }
}

/// The last fence given out, and the dwords of the buffer in which the replies come.
#[repr(C)]
pub struct Wall {
    pub last: u16,
    pub n: u16,
}

impl Wall {
    /// These words, of which there must be two, as a wall.
    pub fn over(words: &mut [u16]) -> &mut Wall {
        assert_eq!(words.len() * 2, std::mem::size_of::<Wall>());
        // As long, as aligned and as free of rules as the slice.
        unsafe { &mut *words.as_mut_ptr().cast() }
    }
}
