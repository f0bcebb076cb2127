//! EDNS: the OPT record of a query.
use super::{Class, Error, Rtype, octets_of};
use crate::calls;

#[cfg(feature = "alloc")]
use super::vec_of;
#[cfg(feature = "alloc")]
use alloc::vec::Vec;

/// The most octets that a query has besides its options.
#[cfg(feature = "alloc")]
const QUERY: usize = 282;

/// What an OPT record of EDNS version 0 says (RFC 6891, 6.1).
#[derive(Clone, Copy, Debug, PartialEq, Eq)]
pub struct Edns<'octets> {
    /// How many octets the largest UDP payload has that the sender accepts.
    pub payload: u16,
    /// The 16 flags of the record.
    pub flags: u16,
    /// Its options as they are in the record, each with its code and its length in two octets.
    pub options: &'octets [u8],
}

impl Edns<'_> {
    /// The one flag that has a meaning: records of DNSSEC are accepted (RFC 3225, 3).
    pub const DO: u16 = 0x8000;

    /// An OPT record without flags and options.
    pub const fn new(payload: u16) -> Self {
        Edns { payload, flags: 0, options: &[] }
    }
}

/// As [`query_into`](super::query_into), with an OPT record after the question. A room of 282 octets is enough for all
/// but the options.
///
/// # Errors
///
/// [`Error::Malformed`]: the text is no name, or the options aren't whole. [`Error::NoRoom`], [`Error::TooLong`].
pub fn query_edns_into<'room>(
    id: u16,
    flags: u16,
    name: &str,
    rtype: Rtype,
    class: Class,
    edns: Edns<'_>,
    room: &'room mut [u8],
) -> Result<&'room mut [u8], Error> {
    octets_of(calls::query_edns(id, flags, name, rtype, class, edns, room), room)
}

/// As [`query_edns_into`], and it makes a vector.
///
/// # Errors
///
/// [`Error::Malformed`]: the text is no name, or the options aren't whole. [`Error::TooLong`].
#[cfg(feature = "alloc")]
pub fn query_edns(
    id: u16,
    flags: u16,
    name: &str,
    rtype: Rtype,
    class: Class,
    edns: Edns<'_>,
) -> Result<Vec<u8>, Error> {
    let first = QUERY.saturating_add(edns.options.len());
    vec_of(first, |room| calls::query_edns(id, flags, name, rtype, class, edns, room))
}
