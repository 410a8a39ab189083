//! The roaming burial register: a safe wrapper over `include/burial_register.h`.
//!
//! An [`Office`] owns its store and makes the calls. A [`Session`] is what one person has read and
//! written; it goes from office to office as a [`Token`]. What is written travels round the ring
//! as [`Frame`]s, from each office to the next. A call that is refused says why in a [`Refusal`],
//! and has changed nothing.
//!
//! ```
//! use burial_register::{Office, Refusal, Ring, Session};
//!
//! let ring = Ring { offices: 2, plots: 64 };
//! let (mut first, mut second) = (Office::open(ring, 0)?, Office::open(ring, 1)?);
//! for frame in first.write(&mut Session::fresh(ring)?, 5, 709)? {
//!     second.hear(&frame)?;
//! }
//! let found = second.read(&mut Session::fresh(ring)?, 5)?;
//! assert_eq!(found.unwrap().to_string(), "709 by 0.1");
//! # Ok::<(), Refusal>(())
//! ```

#![deny(missing_docs, unsafe_code)]

pub mod bounds;
mod entry;
#[allow(unsafe_code)]
mod ffi;
mod frame;
#[cfg(test)]
mod header_agrees;
mod loading;
mod office;
#[cfg(test)]
mod office_tests;
mod refusal;
mod session;
mod settings;
mod token;
mod version;

pub use entry::{Entry, Id};
pub use frame::Frame;
pub use loading::NotLoaded;
pub use office::Office;
pub use refusal::{Refusal, refusal_text};
pub use session::Session;
pub use settings::{Ring, Settings};
pub use token::Token;
pub use version::{OtherVersion, VERSION, Version, archive_version, check_version};
