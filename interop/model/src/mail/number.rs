//! A number as the bytes of a record file. From T-10's words: "Every number is cut into
//! groups of seven bits, lowest group first, the top bit of each byte set when another
//! follows, shortest form only; 300 is the bytes AC 02."
//!
//! A number above 32 bits is seen in five bytes, which hold 35 bits: where the fifth
//! says that another follows, or where the number that ends there is above 32 bits.
//! No byte behind the fifth is looked at, so that a longer form of a small number is
//! one above 32 bits too; the header: "A number of more than five bytes is one above
//! 32 bits."

use super::Fault;

/// Bytes of a form that are looked at.
const MOST: usize = 5;

/// The bytes of a number, in its shortest form.
pub fn bytes_of(number: u32) -> Vec<u8> {
    let mut groups = vec![number % 128];
    let mut left = number / 128;
    while left > 0 {
        groups.push(left % 128);
        left /= 128;
    }
    let last = groups.len() - 1;
    let byte = |(at, group): (usize, &u32)| *group as u8 + if at < last { 128 } else { 0 };
    groups.iter().enumerate().map(byte).collect()
}

/// The number at the front of these bytes and how many of them it takes, or what is
/// wrong with it.
pub fn number_at(bytes: &[u8]) -> Result<(u32, usize), Fault> {
    if bytes.is_empty() {
        return Err(Fault::Missing);
    }
    let mut number: u64 = 0;
    for at in 0..MOST {
        let byte = match bytes.get(at) {
            Some(byte) => *byte as u64,
            None => return Err(Fault::Unfinished),
        };
        number += byte % 128 * 128u64.pow(at as u32);
        if byte < 128 {
            return ended(number, &bytes[..at + 1]);
        }
    }
    Err(Fault::TooWide)
}

/// A number that ends within five bytes, and its form.
fn ended(number: u64, form: &[u8]) -> Result<(u32, usize), Fault> {
    if number >= 1 << 32 {
        return Err(Fault::TooWide);
    }
    let number = number as u32;
    if form != bytes_of(number) {
        return Err(Fault::TooLong);
    }
    Ok((number, form.len()))
}
