//! Differential tests of libguc.a: the same generated input goes to the archive
//! and to the independent model, and everything either answers or leaves is
//! compared.

#![deny(unsafe_code)]

pub mod ages;
pub mod archive;
pub mod big;
pub mod calls;
pub mod edges;
pub mod firmware;
pub mod functions;
pub mod guc;
pub mod lent;
pub mod lists;
pub mod mail;
pub mod mail_lists;
pub mod messages;
pub mod runner;
pub mod same;
pub mod sets;
pub mod sweeps;
pub mod table;
pub mod tally;
pub mod wall_lists;
pub mod walls;
