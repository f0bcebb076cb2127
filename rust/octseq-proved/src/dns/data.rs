//! The data of records.
use super::{Class, Error, Field, FieldRow, Rtype, done, text_of};
use crate::calls;
use core::{fmt, ops::Range};

#[cfg(feature = "alloc")]
use super::{string_of, vec_of};
#[cfg(feature = "alloc")]
use alloc::{string::String, vec::Vec};

/// Most data has fewer fields.
#[cfg(feature = "alloc")]
const FIELDS: usize = 16;

/// The data of a record, within the octets of its message. Names in it may have pointers into them.
#[derive(Clone, Copy)]
pub struct Data<'octets> {
    message: &'octets [u8],
    offset: usize,
    octets: &'octets [u8],
    rtype: Rtype,
    class: Class,
}

impl<'octets> Data<'octets> {
    /// The data at a range of a message's octets, of a type and a class.
    ///
    /// # Errors
    ///
    /// [`Error::Malformed`]: the range isn't within the octets.
    pub fn new(message: &'octets [u8], range: Range<usize>, rtype: Rtype, class: Class) -> Result<Self, Error> {
        let offset = range.start;
        let octets = message.get(range).ok_or(Error::Malformed)?;
        Ok(Data { message, offset, octets, rtype, class })
    }

    /// Its octets.
    pub fn octets(self) -> &'octets [u8] {
        self.octets
    }

    /// The type that it is of.
    pub fn rtype(self) -> Rtype {
        self.rtype
    }

    /// The class that it is of.
    pub fn class(self) -> Class {
        self.class
    }

    /// Whether it has the form of its type and class; 30 types are known. Data of other types has none.
    pub fn is_typed(self) -> bool {
        calls::data_is_typed(self.message, self.offset, self.octets.len(), self.rtype, self.class)
    }

    /// Its text: that of its type, or `\# n` and the octets in hexadecimal (RFC 3597, 5) where it isn't typed.
    ///
    /// # Errors
    ///
    /// [`Error::NoRoom`], [`Error::Unshown`].
    pub fn text_into(self, room: &mut [u8]) -> Result<&mut str, Error> {
        text_of(self.write_text(room), room)
    }

    /// As [`text_into`](Self::text_into), and it makes a text of its own.
    ///
    /// # Errors
    ///
    /// [`Error::Unshown`].
    #[cfg(feature = "alloc")]
    pub fn text(self) -> Result<String, Error> {
        string_of(128, |room| self.write_text(room))
    }

    /// Its fields as numbers, in the order that its type has them, in the front of a room of rows: of an MX a number
    /// and a name. All character strings of a TXT, all parameters and all options are fields of their own. Data that
    /// has not the form of a type that is known is one field of octets.
    ///
    /// # Errors
    ///
    /// [`Error::NoRoom`] where there are more of them than rows.
    pub fn fields_into(self, room: &mut [FieldRow]) -> Result<&mut [FieldRow], Error> {
        let count = done(self.write_fields(room))?;
        Ok(&mut room[..count])
    }

    /// Its fields, in the order that its type has them. The room is for their rows.
    ///
    /// # Errors
    ///
    /// [`Error::NoRoom`] where there are more of them than rows.
    pub fn fields_in<'room>(
        self,
        room: &'room mut [FieldRow],
    ) -> Result<impl Iterator<Item = Field<'octets>> + use<'octets, 'room>, Error> {
        let rows: &'room [FieldRow] = self.fields_into(room)?;
        Ok(rows.iter().map(move |row| Field::of(self.message, *row)))
    }

    /// Its fields, in the order that its type has them.
    ///
    /// # Errors
    ///
    /// None is known: it is within its message.
    #[cfg(feature = "alloc")]
    pub fn fields(self) -> Result<Vec<Field<'octets>>, Error> {
        let rows = vec_of(FIELDS, |room| self.write_fields(room))?;
        Ok(rows.into_iter().map(|row| Field::of(self.message, row)).collect())
    }

    fn write_fields(self, room: &mut [FieldRow]) -> calls::Written {
        calls::data_fields(self.message, self.offset, self.octets.len(), self.rtype, self.class, room)
    }

    fn write_text(self, room: &mut [u8]) -> calls::Written {
        calls::data_text(self.message, self.offset, self.octets.len(), self.rtype, self.class, room)
    }
}

/// Its type, its class and its octets.
impl fmt::Debug for Data<'_> {
    fn fmt(&self, f: &mut fmt::Formatter<'_>) -> fmt::Result {
        write!(f, "Data({} {} {:?})", self.class, self.rtype, self.octets)
    }
}

/// Its text.
#[cfg(feature = "alloc")]
impl fmt::Display for Data<'_> {
    fn fmt(&self, f: &mut fmt::Formatter<'_>) -> fmt::Result {
        f.pad(&self.text().map_err(|_| fmt::Error)?)
    }
}
