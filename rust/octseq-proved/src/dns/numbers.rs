//! The numbers that have names: types, classes and flags.
use super::{Error, text_of};
use crate::calls::{self, OK};
use core::{fmt, str::FromStr};

/// The bits of a header's flags. The opcode and the response code are between them.
pub mod flags {
    /// It is a response.
    pub const QR: u16 = 0x8000;
    /// It is an authoritative answer.
    pub const AA: u16 = 0x0400;
    /// It was truncated.
    pub const TC: u16 = 0x0200;
    /// Recursion is desired.
    pub const RD: u16 = 0x0100;
    /// Recursion is available.
    pub const RA: u16 = 0x0080;
    /// The data is authentic (RFC 4035, 3.1.6).
    pub const AD: u16 = 0x0020;
    /// Checking is disabled (RFC 4035, 3.1.6).
    pub const CD: u16 = 0x0010;
}

/// More than a mnemonic of a type or a class has.
const ROOM: usize = 64;

/// The type of a record. It shows as its mnemonic, and is parsed from one, in letters of either case: `AAAA`,
/// `TYPE1234` (RFC 3597, 5).
#[repr(transparent)]
#[derive(Clone, Copy, Debug, Default, PartialEq, Eq, PartialOrd, Ord, Hash)]
pub struct Rtype(
    /// Its number.
    pub u16,
);

#[allow(missing_docs, reason = "their names say what they are")]
impl Rtype {
    pub const A: Rtype = Rtype(1);
    pub const NS: Rtype = Rtype(2);
    pub const CNAME: Rtype = Rtype(5);
    pub const SOA: Rtype = Rtype(6);
    pub const PTR: Rtype = Rtype(12);
    pub const MX: Rtype = Rtype(15);
    pub const TXT: Rtype = Rtype(16);
    pub const AAAA: Rtype = Rtype(28);
    pub const SRV: Rtype = Rtype(33);
    pub const OPT: Rtype = Rtype(41);
    pub const ANY: Rtype = Rtype(255);
}

impl fmt::Display for Rtype {
    fn fmt(&self, f: &mut fmt::Formatter<'_>) -> fmt::Result {
        let mut room = [0; ROOM];
        f.pad(text_of(calls::rtype_text(*self, &mut room), &mut room).map_err(|_| fmt::Error)?)
    }
}

impl FromStr for Rtype {
    type Err = Error;

    fn from_str(text: &str) -> Result<Rtype, Error> {
        match calls::rtype_from_text(text) {
            (OK, rtype) => Ok(rtype),
            _ => Err(Error::Malformed),
        }
    }
}

/// The class of a record. It shows as its mnemonic, and is parsed from one, in letters of either case: `IN`, `CLASS5`
/// (RFC 3597, 5).
#[repr(transparent)]
#[derive(Clone, Copy, Debug, Default, PartialEq, Eq, PartialOrd, Ord, Hash)]
pub struct Class(
    /// Its number.
    pub u16,
);

#[allow(missing_docs, reason = "their names say what they are")]
impl Class {
    pub const IN: Class = Class(1);
    pub const CH: Class = Class(3);
    pub const NONE: Class = Class(254);
    pub const ANY: Class = Class(255);
}

impl fmt::Display for Class {
    fn fmt(&self, f: &mut fmt::Formatter<'_>) -> fmt::Result {
        let mut room = [0; ROOM];
        f.pad(text_of(calls::class_text(*self, &mut room), &mut room).map_err(|_| fmt::Error)?)
    }
}

impl FromStr for Class {
    type Err = Error;

    fn from_str(text: &str) -> Result<Class, Error> {
        match calls::class_from_text(text) {
            (OK, class) => Ok(class),
            _ => Err(Error::Malformed),
        }
    }
}
