//! An independent model of the burial register, written from documents 01 and 02 (i), (iii) and (iv) alone.
//! Its records have the layout of the C header, so that a test can lend them to the archive as they are.
#![allow(dead_code)]

pub mod checks;
pub mod codec;
pub mod entry;
pub mod join;
pub mod join_checks;
pub mod joint_checks;
pub mod office;
pub mod office_checks;
pub mod past;
pub mod past_checks;
pub mod refusal;
pub mod script;
pub mod script_checks;
pub mod session;
pub mod store;
pub mod token;
pub mod token_checks;
