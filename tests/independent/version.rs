//! The versions of the protocol (PROTOCOL, "Each session names its version").

use crate::refusal::{BAD_SETTING, Refusal};

#[derive(Clone, Copy, Debug, PartialEq, Eq)]
pub enum Version {
    V2_1,
    V3_0,
}

impl Version {
    pub fn from_number(number: u8) -> Result<Version, Refusal> {
        match number {
            21 => Ok(Version::V2_1),
            30 => Ok(Version::V3_0),
            _ => Err(BAD_SETTING),
        }
    }
}
