//! The sides of a channel and the descriptor as include/guc.h declares them.
//! Each is a type of its own, so that none can be lent in another's place.

use super::constants::{GUC_DESC_DWORDS, GUC_STATE_WORDS};

/// A sender that makes steps and whole calls.
#[repr(C)]
pub struct Sender {
    words: [u32; GUC_STATE_WORDS as usize],
}

/// A receiver that makes steps and whole calls.
#[repr(C)]
pub struct Receiver {
    words: [u32; GUC_STATE_WORDS as usize],
}

/// A sender that makes whole calls only.
#[repr(C)]
pub struct WholeSender {
    pub n: u32,
    pub own: u32,
}

/// A receiver that makes whole calls only.
#[repr(C)]
pub struct WholeReceiver {
    pub n: u32,
    pub own: u32,
}

/// The words both sides share.
#[repr(C)]
pub struct Descriptor {
    pub head: u32,
    pub tail: u32,
    pub status: u32,
    pub reserved: [u32; GUC_DESC_DWORDS as usize - 3],
}

/// A type that is nothing but dwords, one after another: any dwords are one, and
/// the tests lay them as they like.
///
/// # Safety
///
/// The type must be `repr(C)` and have no field but `u32` and arrays of it.
pub unsafe trait Dwords: Sized {
    const COUNT: usize = std::mem::size_of::<Self>() / 4;

    /// These dwords, of which there must be as many as the type has.
    fn over(dwords: &mut [u32]) -> &mut Self {
        assert_eq!(dwords.len(), Self::COUNT);
        // As long, as aligned and as free of rules as the slice; see above.
        unsafe { &mut *dwords.as_mut_ptr().cast() }
    }

    /// All zeros.
    fn zeros() -> Self {
        // No field has a value that zeros are not.
        unsafe { std::mem::zeroed() }
    }
}

unsafe impl Dwords for Sender {}
unsafe impl Dwords for Receiver {}
unsafe impl Dwords for WholeSender {}
unsafe impl Dwords for WholeReceiver {}
unsafe impl Dwords for Descriptor {}
