//! MRT files (RFC 6396, RFC 8050), as collectors of BGP write them: tables of routes, and messages as they came.
//!
//! With the feature `std`, which is a default, a [`Reader`] is an iterator over the records of a file of any size. With
//! `alloc`, a [`Record`] has octets of its own. A call that ends with `_into` writes to a room and needs neither.
use crate::NoRoom;
use crate::bgp;
use crate::calls::{self, NO_ROOM, OK, Written};
use core::{error, fmt};

#[cfg(feature = "alloc")]
use crate::filled;
#[cfg(feature = "alloc")]
use alloc::vec::Vec;

#[cfg(feature = "std")]
mod reader;
#[cfg(feature = "alloc")]
mod record;
#[cfg(feature = "alloc")]
mod rib;
mod row;

#[cfg(feature = "std")]
pub use reader::{ReadError, Reader};
#[cfg(feature = "alloc")]
pub use record::{Body, Event, Message, Record, State, StateChange};
#[cfg(feature = "alloc")]
pub use rib::{Peer, PeerIndexTable, Rib, RibEntry};
pub use row::{Kind, Row};

/// Why a call refused. The room is then as it was.
#[derive(Clone, Copy, Debug, PartialEq, Eq)]
pub enum Error {
    /// There was too little room.
    NoRoom(NoRoom),
    /// The octets aren't one record.
    Malformed,
}

impl fmt::Display for Error {
    fn fmt(&self, f: &mut fmt::Formatter<'_>) -> fmt::Result {
        match self {
            Error::NoRoom(no_room) => no_room.fmt(f),
            Error::Malformed => f.write_str("malformed"),
        }
    }
}

impl error::Error for Error {}

/// The header of a record (RFC 6396, 2).
#[repr(C)]
#[derive(Clone, Copy, Debug, Default, PartialEq, Eq)]
pub struct Header {
    /// How many octets the record has, with its header, which has 12.
    pub len: usize,
    /// Its time, in seconds since 1970.
    pub timestamp: u32,
    /// Its type: 13 TABLE_DUMP_V2, 16 BGP4MP, 17 BGP4MP_ET, or another.
    pub type_code: u16,
    /// Its subtype.
    pub subtype: u16,
}

impl Header {
    /// The header at the front of octets. A whole record is there exactly if its length is at most theirs. So who reads
    /// a file takes 12 octets, then as many more as the header says. A length may be up to 4,294,967,307.
    ///
    /// # Errors
    ///
    /// [`Error::Malformed`]: there are fewer than 12 octets.
    pub fn new(octets: &[u8]) -> Result<Header, Error> {
        let (status, header) = calls::mrt_record_header(octets);
        done((status, 0)).map(|_| header)
    }
}

/// The parts of the record that octets are, all of them, in their order, in the front of a room of rows: a table and
/// its peers, a RIB and its entries, a message, a state change, or opaque octets. An entry may have a number that no
/// peer has. A message may be malformed.
///
/// # Errors
///
/// [`Error::Malformed`]: the octets aren't one record. [`Error::NoRoom`] where it has more parts than there are rows.
pub fn rows_into<'room>(octets: &[u8], room: &'room mut [Row]) -> Result<&'room mut [Row], Error> {
    let count = done(calls::mrt_rows(octets, room))?;
    Ok(&mut room[..count])
}

/// The path attributes of all entries of the RIB that octets are, in their order, in the front of a room of rows. The
/// row of an entry says how many are its own. Their AS numbers have four octets. An MP_REACH_NLRI may have only next
/// hops, after their length (RFC 6396, 4.3.4). Other records have none.
///
/// # Errors
///
/// [`Error::Malformed`]: the octets aren't one record. [`Error::NoRoom`] where there are more attributes than rows.
pub fn attributes_into<'room>(octets: &[u8], room: &'room mut [bgp::Row]) -> Result<&'room mut [bgp::Row], Error> {
    let count = done(calls::mrt_attributes(octets, room))?;
    Ok(&mut room[..count])
}

/// As [`rows_into`], and it makes a vector.
///
/// # Errors
///
/// [`Error::Malformed`]: the octets aren't one record.
#[cfg(feature = "alloc")]
pub fn rows(octets: &[u8]) -> Result<Vec<Row>, Error> {
    // Most entries have more octets than 32. No record of another type has more than one part.
    let has_entries = Header::new(octets)?.type_code == 13;
    let first = if has_entries { 1 + octets.len() / 32 } else { 1 };
    filled(first, done, |room| calls::mrt_rows(octets, room))
}

/// As [`attributes_into`], and it makes a vector.
///
/// # Errors
///
/// [`Error::Malformed`]: the octets aren't one record.
#[cfg(feature = "alloc")]
pub fn attributes(octets: &[u8]) -> Result<Vec<bgp::Row>, Error> {
    // Most attributes, with the front of their entry, have more octets than 8.
    filled(octets.len() / 8, done, |room| calls::mrt_attributes(octets, room))
}

/// How much was written, or why nothing.
fn done((status, written): Written) -> Result<usize, Error> {
    match status {
        OK => Ok(written),
        NO_ROOM => Err(Error::NoRoom(NoRoom { needed: written })),
        _ => Err(Error::Malformed),
    }
}
