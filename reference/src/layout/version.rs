//! The versions of the two files. Byte 4 of a file tells which one it is of.

/// A version that is known; of an unknown one there is no value.
#[derive(Clone, Copy, Debug, PartialEq, Eq, PartialOrd, Ord)]
pub struct Version(u8);

impl Version {
    /// The version of the paper.
    pub const ONE: Version = Version(1);

    /// Every known version, from the oldest to the newest.
    pub const ALL: [Version; 1] = [Version::ONE];
    pub const NEWEST: Version = Version::ALL[Version::ALL.len() - 1];

    /// The version that a file's byte tells, if it is known.
    pub fn of(byte: u8) -> Option<Version> {
        Version::ALL.into_iter().find(|version| version.byte() == byte)
    }

    pub fn byte(self) -> u8 {
        self.0
    }
}
