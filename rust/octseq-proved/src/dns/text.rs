//! Records and messages from their text.
use super::{Error, octets_of};
use crate::calls::{self, TextOffset, Written};

#[cfg(feature = "alloc")]
use super::vec_of;
#[cfg(feature = "alloc")]
use alloc::vec::Vec;

/// The most octets that a message has.
#[cfg(feature = "alloc")]
const MESSAGE: usize = 65_535;

/// Most records have fewer octets more than their text.
#[cfg(feature = "alloc")]
const FRONT: usize = 32;

/// A call that reads text.
type Call = fn(&str, &mut [u8]) -> (Written, TextOffset);

/// The record that a text is, one line without its end, as RFC 1035, 5.1 has it: `example.com. 300 IN MX 10
/// mail.example.com.`. The TTL and the class come in either order, and each name ends with a full stop.
///
/// In the front of the room are the octets of the owner, the type, the class, the TTL, the length of the data and the
/// data. No name has a pointer, but data in the form `\# n` (RFC 3597, 5) is what is given there.
/// [`Entry::of_record`](super::Entry::of_record) reads them. A room of 65,800 octets is always enough. Memory is
/// requested for data that ends in a list of types or of parameters.
///
/// # Errors
///
/// [`Error::MalformedText`], whose line is 1. [`Error::TooLong`]: the data has more than 65,535 octets.
/// [`Error::NoRoom`], [`Error::Memory`].
pub fn record_from_text_into<'room>(text: &str, room: &'room mut [u8]) -> Result<&'room mut [u8], Error> {
    octets_into(calls::record_from_text, text, room)
}

/// The message that a text is, in the form that [`Message::text_into`](super::Message::text_into) has, with its names
/// compressed, in the front of a room. A room of 65,535 octets is always enough. Memory is requested as for a record.
///
/// # Errors
///
/// [`Error::MalformedText`]. [`Error::TooLong`]: it has more than 65,535 octets. [`Error::NoRoom`], [`Error::Memory`].
pub fn message_from_text_into<'room>(text: &str, room: &'room mut [u8]) -> Result<&'room mut [u8], Error> {
    octets_into(calls::message_from_text, text, room)
}

/// As [`record_from_text_into`], and it makes a vector.
///
/// # Errors
///
/// [`Error::MalformedText`], whose line is 1. [`Error::TooLong`]: the data has more than 65,535 octets.
/// [`Error::Memory`].
#[cfg(feature = "alloc")]
pub fn record_from_text(text: &str) -> Result<Vec<u8>, Error> {
    octets(calls::record_from_text, text, text.len().min(MESSAGE) + FRONT)
}

/// As [`message_from_text_into`], and it makes a vector.
///
/// # Errors
///
/// [`Error::MalformedText`]. [`Error::TooLong`]: it has more than 65,535 octets. [`Error::Memory`].
#[cfg(feature = "alloc")]
pub fn message_from_text(text: &str) -> Result<Vec<u8>, Error> {
    octets(calls::message_from_text, text, text.len().min(MESSAGE))
}

/// The octets that a call writes to the front of a room.
fn octets_into<'room>(call: Call, text: &str, room: &'room mut [u8]) -> Result<&'room mut [u8], Error> {
    let (answer, offset) = call(text, room);
    octets_of(answer, room).map_err(|error| with_offset(error, offset))
}

/// The octets that a call writes, with room for `first` of them.
#[cfg(feature = "alloc")]
fn octets(call: Call, text: &str, first: usize) -> Result<Vec<u8>, Error> {
    let mut refused = (0, 0);
    let made = vec_of(first, |room| {
        let (answer, offset) = call(text, room);
        refused = offset;
        answer
    });
    made.map_err(|error| with_offset(error, refused))
}

/// The error about a text, of which a word may be refused.
fn with_offset(error: Error, (line, offset): TextOffset) -> Error {
    match error {
        Error::Malformed => Error::MalformedText { line, offset },
        other => other,
    }
}
