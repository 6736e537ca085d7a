//! The published reference implementation, built from a folder outside this repository.
//!
//! `build.rs` copies the files and writes the module list that is taken in here. The modules that
//! are named here are ours.

extern crate alloc;

pub mod block;
pub mod constants;
pub mod declarations;
pub mod defaults;
pub mod levels;
pub mod raises;
pub mod reading;
pub mod reasons;
pub mod records;
pub mod respelling;

include!(concat!(env!("OUT_DIR"), "/reference.rs"));
