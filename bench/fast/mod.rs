//! The calls of the register in Rust that is written for speed: what the archive is timed against.
//! Each call makes the checks of documents 01 and 02, in their order; those of an office on settings that it
//! takes from the store.
//! No call allocates. Records, bounds and refusal numbers are the model's, so that results can be compared.
// Several programs share this module, and not each uses all of it.
#![allow(dead_code)]

pub mod entry;
pub mod frame;
pub mod join;
pub mod line;
pub mod office;
pub mod places;
pub mod queue;
pub mod script;
pub mod session;
pub mod store;
pub mod token;
