//! Whether the archive that is linked is the one that this crate was written for.

use crate::call;
use core::error::Error;
use core::fmt;

/// The version that this crate was written for, 0.1.0: one byte each for its three numbers.
pub const VERSION: u32 = 0x00_01_00;

/// The version of the archive that is linked.
pub fn version() -> u32 {
    call::version()
}

/// Compares both. A program asks this when it starts: the archive is named when the program is
/// built, and one of another version may have other numbers and structs.
///
/// ```
/// melorwyth::check_version()?;
/// # Ok::<(), melorwyth::VersionMismatch>(())
/// ```
pub fn check_version() -> Result<(), VersionMismatch> {
    compared(VERSION, version())
}

fn compared(wanted: u32, linked: u32) -> Result<(), VersionMismatch> {
    if linked == wanted {
        return Ok(());
    }
    Err(VersionMismatch { wanted, linked })
}

/// The archive that is linked is not of this crate's version.
#[derive(Clone, Copy, Debug, PartialEq, Eq)]
pub struct VersionMismatch {
    /// The crate's: [`VERSION`].
    pub wanted: u32,
    /// The archive's: [`version`].
    pub linked: u32,
}

impl fmt::Display for VersionMismatch {
    fn fmt(&self, f: &mut fmt::Formatter<'_>) -> fmt::Result {
        let [_, a, b, c] = self.linked.to_be_bytes();
        let [_, x, y, z] = self.wanted.to_be_bytes();
        write!(f, "the archive is of version {a}.{b}.{c}, not {x}.{y}.{z}")
    }
}

impl Error for VersionMismatch {}

#[cfg(test)]
mod tests {
    use super::*;

    #[test]
    fn another_archive_is_told() {
        assert_eq!(compared(VERSION, VERSION), Ok(()));
        for linked in [0, VERSION + 1, VERSION + 0x0100, VERSION + 0x01_0000] {
            let wanted = VERSION;
            let told = Err(VersionMismatch { wanted, linked });
            assert_eq!(compared(VERSION, linked), told);
        }
    }
}
