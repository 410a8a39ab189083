//! Whether the archive is of the version that this wrapper was written for.

use crate::ffi;
use std::{error, fmt};

/// A version as one number, 65536 * major + 256 * minor + patch.
#[derive(Clone, Copy, Debug, PartialEq, Eq, PartialOrd, Ord, Hash)]
pub struct Version(pub u32);

impl fmt::Display for Version {
    fn fmt(&self, f: &mut fmt::Formatter) -> fmt::Result {
        write!(f, "{}.{}.{}", self.0 >> 16, self.0 >> 8 & 0xFF, self.0 & 0xFF)
    }
}

/// The version of the header that this wrapper follows.
pub const VERSION: Version = Version(0x01_02_00);

/// The version that the archive was built as.
pub fn archive_version() -> Version {
    Version(ffi::version())
}

/// The archive is of this version, and the wrapper is not.
#[derive(Clone, Copy, Debug, PartialEq, Eq)]
pub struct OtherVersion(pub Version);

impl fmt::Display for OtherVersion {
    fn fmt(&self, f: &mut fmt::Formatter) -> fmt::Result {
        write!(f, "the archive has version {}, and the wrapper is for {VERSION}", self.0)
    }
}

impl error::Error for OtherVersion {}

/// Asked once, before the first call.
///
/// ```
/// assert_eq!(burial_register::check_version(), Ok(()));
/// ```
pub fn check_version() -> Result<(), OtherVersion> {
    match archive_version() {
        VERSION => Ok(()),
        other => Err(OtherVersion(other)),
    }
}
