//! DNS messages, their names and their data (RFC 1035).
//!
//! What is read borrows the octets that it was read from. A call that writes has a room to write to and ends with
//! `_into`; the one of the same name without that, of the feature `alloc`, makes a vector or a `String`.
use crate::NoRoom;
use crate::calls::{BAD_ROW, IMMOVABLE, MALFORMED, MEMORY, NO_ROOM, OK, TOO_LONG, Written};
use core::{error, fmt, str};

#[cfg(feature = "alloc")]
use crate::filled;
#[cfg(feature = "alloc")]
use alloc::{string::String, vec::Vec};

mod data;
mod edns;
mod field;
mod message;
mod name;
mod numbers;
mod text;

pub use data::Data;
#[cfg(feature = "alloc")]
pub use edns::query_edns;
pub use edns::{Edns, query_edns_into};
pub use field::{Field, FieldRow, Types};
#[cfg(feature = "alloc")]
pub use message::query;
pub use message::{Entry, Header, Message, Row, Section, first_fault, query_into};
pub use name::Name;
pub use numbers::{Class, Rtype, flags};
#[cfg(feature = "alloc")]
pub use text::{message_from_text, record_from_text};
pub use text::{message_from_text_into, record_from_text_into};

/// Why a call refused. The room is then as it was, but for [`Error::Unshown`].
#[derive(Clone, Copy, Debug, PartialEq, Eq)]
pub enum Error {
    /// There was too little room.
    NoRoom(NoRoom),
    /// The octets, or the text of a name, a type or a class, aren't what they were read as.
    Malformed,
    /// A text is no record, or no message: this is where its first word is that isn't what has to come there. The end
    /// of a line counts as a word.
    MalformedText {
        /// The number of the line, from 1 on.
        line: usize,
        /// How many octets of the line come before the word.
        offset: usize,
    },
    /// Data that isn't of its type's form may have pointers, so it can't be moved to another message.
    Immovable,
    /// A message, or the data of a record, would have more than 65,535 octets, or an answer more than its limit.
    TooLong,
    /// A row's name isn't at its offset, its data isn't in the octets, or its section has no records.
    BadRow,
    /// A request for memory was refused.
    Memory,
    /// No text could be made. No octets lead here, but no proof rules it out.
    Unshown,
}

impl fmt::Display for Error {
    fn fmt(&self, f: &mut fmt::Formatter<'_>) -> fmt::Result {
        let what = match self {
            Error::NoRoom(no_room) => return no_room.fmt(f),
            Error::Malformed => "malformed",
            Error::MalformedText { line, offset } => {
                return write!(f, "line {line}, offset {offset}: something else has to come here");
            }
            Error::Immovable => "data of an unknown form can't be moved",
            Error::TooLong => "a message of too many octets",
            Error::BadRow => "a row that is none of a record",
            Error::Memory => "a request for memory was refused",
            Error::Unshown => "no text could be made",
        };
        f.write_str(what)
    }
}

impl error::Error for Error {}

/// How many octets were written, or why none.
fn done((status, written): Written) -> Result<usize, Error> {
    match status {
        OK => Ok(written),
        NO_ROOM => Err(Error::NoRoom(NoRoom { needed: written })),
        MALFORMED => Err(Error::Malformed),
        IMMOVABLE => Err(Error::Immovable),
        TOO_LONG => Err(Error::TooLong),
        BAD_ROW => Err(Error::BadRow),
        MEMORY => Err(Error::Memory),
        _ => Err(Error::Unshown),
    }
}

/// The octets in the front of a room, after a call that wrote there.
fn octets_of(answer: Written, room: &mut [u8]) -> Result<&mut [u8], Error> {
    let written = done(answer)?;
    Ok(&mut room[..written])
}

/// The text in the front of a room, after a call that wrote there.
///
/// The texts of names, data and messages are ASCII, but `octseq.h` doesn't say so. Thus they are checked, which costs
/// little beside making them.
fn text_of(answer: Written, room: &mut [u8]) -> Result<&mut str, Error> {
    str::from_utf8_mut(octets_of(answer, room)?).map_err(|_| Error::Unshown)
}

/// What a call writes, as a vector that has room for `first` octets or rows, and for as many as it takes where those
/// are too few.
#[cfg(feature = "alloc")]
fn vec_of<T: Clone + Default>(first: usize, call: impl FnMut(&mut [T]) -> Written) -> Result<Vec<T>, Error> {
    filled(first, done, call)
}

/// What a call writes, as a text that has room for `first` octets, and for as many as it takes.
#[cfg(feature = "alloc")]
fn string_of(first: usize, call: impl Fn(&mut [u8]) -> Written) -> Result<String, Error> {
    String::from_utf8(vec_of(first, call)?).map_err(|_| Error::Unshown)
}
