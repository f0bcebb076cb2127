//! Names.
use super::{Error, done, octets_of, text_of};
use crate::calls;
use core::cmp::Ordering;
use core::fmt;
use core::hash::{Hash, Hasher};

#[cfg(feature = "alloc")]
use super::{string_of, vec_of};
#[cfg(feature = "alloc")]
use alloc::{string::String, vec::Vec};

/// The most octets that the wire form of a name has (RFC 1035, 3.1).
pub(super) const WIRE: usize = 255;

/// The most octets that the text of a name has: its 255 octets are then the root and four labels, of 250 octets that
/// take four each, and of a full stop each.
const TEXT: usize = 1004;

/// A name within octets. Where it ends with a pointer, what it points to is in the same octets.
///
/// Names compare in the canonical order (RFC 4034, 6.1), where letters of either case are one. Names that are equal in
/// it are equal, and have one hash.
#[derive(Clone, Copy)]
pub struct Name<'octets> {
    octets: &'octets [u8],
    offset: usize,
}

impl<'octets> Name<'octets> {
    /// The name that begins at an offset of octets.
    ///
    /// # Errors
    ///
    /// [`Error::Malformed`]: no name is there.
    pub fn new(octets: &'octets [u8], offset: usize) -> Result<Name<'octets>, Error> {
        match done(calls::name_wire(octets, offset, &mut [])) {
            Err(Error::NoRoom(_)) => Ok(Name { octets, offset }),
            _ => Err(Error::Malformed),
        }
    }

    /// The name at an offset where there is one.
    pub(super) fn at(octets: &'octets [u8], offset: usize) -> Name<'octets> {
        Name { octets, offset }
    }

    /// The name that a text spells, whose wire form is written to the front of a room. The text ends with a full stop:
    /// `example.com.` (RFC 1035, 5.1). A room of 255 octets is always enough.
    ///
    /// # Errors
    ///
    /// [`Error::Malformed`]: the text spells no name. [`Error::NoRoom`].
    pub fn from_text(text: &str, room: &'octets mut [u8]) -> Result<Name<'octets>, Error> {
        let octets = octets_of(calls::name_from_text(text, room), room)?;
        Ok(Name { octets, offset: 0 })
    }

    /// The octets that the name is within.
    pub fn octets(self) -> &'octets [u8] {
        self.octets
    }

    /// Where in them it begins.
    pub fn offset(self) -> usize {
        self.offset
    }

    /// Its text, `example.com.`, with the escapes of RFC 1035, 5.1. A room of 1,004 octets is always enough.
    ///
    /// # Errors
    ///
    /// [`Error::NoRoom`], [`Error::Unshown`].
    pub fn text_into(self, room: &mut [u8]) -> Result<&mut str, Error> {
        text_of(calls::name_text(self.octets, self.offset, room), room)
    }

    /// Its wire form (RFC 1035, 3.1), without pointers. A room of 255 octets is always enough.
    ///
    /// # Errors
    ///
    /// [`Error::NoRoom`].
    pub fn wire_into(self, room: &mut [u8]) -> Result<&mut [u8], Error> {
        octets_of(calls::name_wire(self.octets, self.offset, room), room)
    }

    /// As [`text_into`](Self::text_into), and it makes a text of its own.
    ///
    /// # Errors
    ///
    /// [`Error::Unshown`].
    #[cfg(feature = "alloc")]
    pub fn text(self) -> Result<String, Error> {
        string_of(64, |room| calls::name_text(self.octets, self.offset, room))
    }

    /// As [`wire_into`](Self::wire_into), and it makes a vector.
    ///
    /// # Errors
    ///
    /// None is known: there is a name at its offset.
    #[cfg(feature = "alloc")]
    pub fn wire(self) -> Result<Vec<u8>, Error> {
        vec_of(64, |room| calls::name_wire(self.octets, self.offset, room))
    }
}

/// Its text.
impl fmt::Display for Name<'_> {
    fn fmt(&self, f: &mut fmt::Formatter<'_>) -> fmt::Result {
        f.pad(self.text_into(&mut [0; TEXT]).map_err(|_| fmt::Error)?)
    }
}

/// Its text, within `Name( )`.
impl fmt::Debug for Name<'_> {
    fn fmt(&self, f: &mut fmt::Formatter<'_>) -> fmt::Result {
        write!(f, "Name({self})")
    }
}

impl Ord for Name<'_> {
    fn cmp(&self, other: &Self) -> Ordering {
        let (_, order) = calls::name_compare(self.octets, self.offset, other.octets, other.offset);
        order.cmp(&0)
    }
}

impl PartialOrd for Name<'_> {
    fn partial_cmp(&self, other: &Self) -> Option<Ordering> {
        Some(self.cmp(other))
    }
}

impl PartialEq for Name<'_> {
    fn eq(&self, other: &Self) -> bool {
        self.cmp(other).is_eq()
    }
}

impl Eq for Name<'_> {}

impl Hash for Name<'_> {
    /// Hashes the wire form in small letters. The lengths of labels are at most 63, and so are no letters.
    fn hash<H: Hasher>(&self, state: &mut H) {
        let mut room = [0; WIRE];
        if let Ok(wire) = self.wire_into(&mut room) {
            wire.make_ascii_lowercase();
            wire.hash(state);
        }
    }
}
