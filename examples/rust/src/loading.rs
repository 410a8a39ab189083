//! Why kept words did not become an office.

use crate::refusal::Refusal;
use crate::settings::Settings;
use std::{error, fmt};

/// Why kept words did not become an office.
#[derive(Clone, Copy, Debug, PartialEq, Eq)]
pub enum NotLoaded {
    /// They are no sound store: damaged, cut short, or something else.
    Refused(Refusal),
    /// They are a sound store, but of another office or of another ring.
    Foreign {
        /// Whose store they are.
        kept: Settings,
        /// Whose store was asked for.
        wanted: Settings,
    },
}

impl fmt::Display for NotLoaded {
    fn fmt(&self, f: &mut fmt::Formatter) -> fmt::Result {
        match self {
            NotLoaded::Refused(refusal) => refusal.fmt(f),
            NotLoaded::Foreign { kept, wanted } => {
                write!(f, "the store is that of {kept}, not that of {wanted}")
            }
        }
    }
}

impl error::Error for NotLoaded {}

impl From<Refusal> for NotLoaded {
    fn from(refusal: Refusal) -> NotLoaded {
        NotLoaded::Refused(refusal)
    }
}
