//! An independent model of 01-scope.md, the other side of differential tests,
//! with what T-02 and T-03 of 02-change-requests.md mend in it, with what T-06 adds
//! and T-08 makes of it, with what T-10 adds, and with the calls that the C header
//! adds. Written from the papers and the header's words alone: plain code, no
//! cleverness, no outside crates.

#![forbid(unsafe_code)]

pub mod channel;
pub mod cpd;
pub mod css;
pub mod generate;
pub mod mail;
pub mod message;
pub mod plain;
pub mod run;
pub mod wall;
