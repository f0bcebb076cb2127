//! Messages, and the questions and records that they have.
use super::name::WIRE;
use super::{Class, Data, Error, Name, Rtype, done, octets_of, text_of};
use crate::calls::{self, OK};
use core::fmt;

#[cfg(feature = "alloc")]
use super::{string_of, vec_of};
#[cfg(feature = "alloc")]
use alloc::{string::String, vec::Vec};

/// The most octets that a query has.
#[cfg(feature = "alloc")]
const QUERY: usize = 271;

/// The header of a message (RFC 1035, 4.1.1).
#[repr(C)]
#[derive(Clone, Copy, Debug, Default, PartialEq, Eq)]
pub struct Header {
    /// The number by which an answer is known.
    pub id: u16,
    /// The bits of [`flags`](super::flags), the opcode and the response code.
    pub flags: u16,
    /// How many questions there are.
    pub qdcount: u16,
    /// How many answers.
    pub ancount: u16,
    /// How many records of authorities.
    pub nscount: u16,
    /// How many additional records.
    pub arcount: u16,
}

impl Header {
    /// The kind of query, 0 to 15.
    pub fn opcode(self) -> u8 {
        (self.flags >> 11 & 15) as u8
    }

    /// The response code, 0 to 15.
    pub fn rcode(self) -> u8 {
        (self.flags & 15) as u8
    }

    /// How many entries there are of all sections.
    pub fn entry_count(self) -> usize {
        [self.qdcount, self.ancount, self.nscount, self.arcount].into_iter().map(usize::from).sum()
    }
}

/// A section of a message.
#[repr(u32)]
#[derive(Clone, Copy, Debug, PartialEq, Eq, PartialOrd, Ord, Hash)]
pub enum Section {
    /// What is asked.
    Question = 0,
    /// What answers it.
    Answer = 1,
    /// Who has authority.
    Authority = 2,
    /// What may be of use beside that.
    Additional = 3,
}

impl From<Section> for u32 {
    fn from(section: Section) -> u32 {
        section as u32
    }
}

/// Its name, in small letters.
impl fmt::Display for Section {
    fn fmt(&self, f: &mut fmt::Formatter<'_>) -> fmt::Result {
        f.pad(match self {
            Section::Question => "question",
            Section::Answer => "answer",
            Section::Authority => "authority",
            Section::Additional => "additional",
        })
    }
}

/// A question or a record, as numbers. Offsets are counted from the first octet of what it was read from.
#[repr(C)]
#[derive(Clone, Copy, Debug, Default, PartialEq, Eq)]
pub struct Row {
    /// Where the name begins.
    pub name_at: usize,
    /// Where the data begins; 0 of a question.
    pub data_at: usize,
    /// How many octets of data there are; 0 of a question.
    pub data_len: usize,
    /// For how many seconds it may be kept; 0 of a question.
    pub ttl: u32,
    /// Its type.
    pub rtype: Rtype,
    /// Its class.
    pub rclass: Class,
    /// Its [`Section`], as a number.
    pub section: u32,
}

/// A question or a record of a message, or a record alone.
#[derive(Clone, Copy)]
pub struct Entry<'octets> {
    octets: &'octets [u8],
    row: Row,
}

impl<'octets> Entry<'octets> {
    /// The record that octets are, all of them, as [`record_from_text_into`](super::record_from_text_into) writes them.
    /// Its name has no pointers, and pointers in its data lead to offsets of these octets. With them as the source, its
    /// row goes into an answer, in this section.
    ///
    /// # Errors
    ///
    /// [`Error::Malformed`]: they are none. [`Error::BadRow`]: the section has no records.
    pub fn of_record(octets: &'octets [u8], section: Section) -> Result<Entry<'octets>, Error> {
        if section == Section::Question {
            return Err(Error::BadRow);
        }
        let row = record_row(octets, section).ok_or(Error::Malformed)?;
        Ok(Entry { octets, row })
    }

    /// The octets that its row's offsets are in: those of its message, or of a record alone.
    pub fn source(self) -> &'octets [u8] {
        self.octets
    }

    /// It as numbers.
    pub fn row(self) -> Row {
        self.row
    }

    /// The section that it is in.
    pub fn section(self) -> Section {
        match self.row.section {
            0 => Section::Question,
            1 => Section::Answer,
            2 => Section::Authority,
            _ => Section::Additional,
        }
    }

    /// The name that it is about.
    pub fn name(self) -> Name<'octets> {
        Name::at(self.octets, self.row.name_at)
    }

    /// Its type.
    pub fn rtype(self) -> Rtype {
        self.row.rtype
    }

    /// Its class.
    pub fn class(self) -> Class {
        self.row.rclass
    }

    /// For how many seconds it may be kept; 0 of a question.
    pub fn ttl(self) -> u32 {
        self.row.ttl
    }

    /// Its data; `None` of a question.
    pub fn data(self) -> Option<Data<'octets>> {
        let Row { data_at, data_len, rtype, rclass, section, .. } = self.row;
        let range = data_at..data_at.saturating_add(data_len);
        (section > 0).then(|| Data::new(self.octets, range, rtype, rclass).ok()).flatten()
    }
}

/// The row of the record that octets are, whose name has no pointers.
fn record_row(octets: &[u8], section: Section) -> Option<Row> {
    let mut room = [0; WIRE];
    let name = Name::at(octets, 0).wire_into(&mut room).ok()?;
    let (numbers, data) = octets.strip_prefix(&*name)?.split_first_chunk::<10>()?;
    let [rtype, rclass, high, low, data_len] =
        core::array::from_fn(|at| u16::from_be_bytes([numbers[2 * at], numbers[2 * at + 1]]));
    let row = Row {
        name_at: 0,
        data_at: octets.len() - data.len(),
        data_len: data_len.into(),
        ttl: u32::from(high) << 16 | u32::from(low),
        rtype: Rtype(rtype),
        rclass: Class(rclass),
        section: section.into(),
    };
    (row.data_len == data.len()).then_some(row)
}

/// Its row.
impl fmt::Debug for Entry<'_> {
    fn fmt(&self, f: &mut fmt::Formatter<'_>) -> fmt::Result {
        f.debug_tuple("Entry").field(&self.row).finish()
    }
}

/// A message within octets: they are nothing but it, and were checked once.
#[derive(Clone, Copy)]
pub struct Message<'octets> {
    octets: &'octets [u8],
    header: Header,
}

impl<'octets> Message<'octets> {
    /// The message that octets are.
    ///
    /// # Errors
    ///
    /// [`Error::Malformed`]: they are none. [`first_fault`] tells where they stop being one.
    pub fn new(octets: &'octets [u8]) -> Result<Message<'octets>, Error> {
        let (status, header) = calls::message_header(octets);
        done((status, 0))?;
        Ok(Message { octets, header })
    }

    /// Its octets.
    pub fn octets(self) -> &'octets [u8] {
        self.octets
    }

    /// Its header.
    pub fn header(self) -> Header {
        self.header
    }

    /// Its questions and records as numbers, in their order, in the front of a room of rows.
    ///
    /// # Errors
    ///
    /// [`Error::NoRoom`] where there are more of them than rows.
    pub fn rows_into(self, room: &mut [Row]) -> Result<&mut [Row], Error> {
        let count = done(calls::rows(self.octets, room))?;
        Ok(&mut room[..count])
    }

    /// Its questions and records, in their order. The room is for their rows.
    ///
    /// # Errors
    ///
    /// [`Error::NoRoom`] where there are more of them than rows.
    pub fn entries_in<'room>(
        self,
        room: &'room mut [Row],
    ) -> Result<impl Iterator<Item = Entry<'octets>> + use<'octets, 'room>, Error> {
        let rows: &'room [Row] = self.rows_into(room)?;
        Ok(rows.iter().map(move |row| Entry { octets: self.octets, row: *row }))
    }

    /// Its questions and records, in their order.
    ///
    /// # Errors
    ///
    /// None is known: it is a message.
    #[cfg(feature = "alloc")]
    pub fn entries(self) -> Result<Vec<Entry<'octets>>, Error> {
        let rows = vec_of(self.header.entry_count(), |room| calls::rows(self.octets, room))?;
        Ok(rows.into_iter().map(|row| Entry { octets: self.octets, row }).collect())
    }

    /// Its text: a line for its header, and one for each of its entries.
    ///
    /// # Errors
    ///
    /// [`Error::NoRoom`], [`Error::Unshown`].
    pub fn text_into(self, room: &mut [u8]) -> Result<&mut str, Error> {
        text_of(calls::message_text(self.octets, room), room)
    }

    /// It written anew, with its names compressed (RFC 1035, 4.1.4; RFC 3597, 4).
    ///
    /// # Errors
    ///
    /// [`Error::NoRoom`], [`Error::Immovable`], [`Error::TooLong`].
    pub fn rewrite_into(self, room: &mut [u8]) -> Result<&mut [u8], Error> {
        octets_of(calls::rewrite(self.octets, room), room)
    }

    /// The answer to it. It has its number, opcode, flag RD and questions, the flag QR, and of `flags` the response
    /// code and all other flags. Its records are the rows, each in its section, in the order that they have here.
    /// Their names and data are at their offsets in `source`, names in data too; all are compressed.
    ///
    /// # Errors
    ///
    /// [`Error::NoRoom`], [`Error::BadRow`], [`Error::Immovable`], [`Error::TooLong`].
    pub fn answer_into<'room>(
        self,
        flags: u16,
        source: &[u8],
        rows: &[Row],
        room: &'room mut [u8],
    ) -> Result<&'room mut [u8], Error> {
        octets_of(calls::answer(self.octets, flags, source, rows, room), room)
    }

    /// The same answer within a limit of octets (RFC 2181, 9). If the records of all rows exceed it, it has those of
    /// the rows that come before the first with which it would. The flag TC is set exactly if it lacks one; that of
    /// `flags` is ignored. The rows are taken in the order that they have here, whatever their sections: so one that
    /// has to stay, as an OPT record (RFC 6891, 7), comes first. The answer is composed once for each row that is
    /// taken, so it takes long if there are thousands.
    ///
    /// # Errors
    ///
    /// [`Error::TooLong`]: its questions alone exceed the limit, or there are more than 65,535 rows.
    /// [`Error::NoRoom`], [`Error::BadRow`], [`Error::Immovable`].
    pub fn answer_within_into<'room>(
        self,
        flags: u16,
        source: &[u8],
        rows: &[Row],
        limit: u16,
        room: &'room mut [u8],
    ) -> Result<&'room mut [u8], Error> {
        octets_of(calls::answer_within(self.octets, flags, source, rows, limit, room), room)
    }
}

/// The same with texts and vectors.
#[cfg(feature = "alloc")]
impl Message<'_> {
    /// As [`text_into`](Self::text_into), and it makes a text of its own.
    ///
    /// # Errors
    ///
    /// [`Error::Unshown`].
    pub fn text(self) -> Result<String, Error> {
        string_of(self.octets.len().saturating_mul(4), |room| calls::message_text(self.octets, room))
    }

    /// As [`rewrite_into`](Self::rewrite_into), and it makes a vector.
    ///
    /// # Errors
    ///
    /// [`Error::Immovable`], [`Error::TooLong`].
    pub fn rewrite(self) -> Result<Vec<u8>, Error> {
        vec_of(self.octets.len(), |room| calls::rewrite(self.octets, room))
    }

    /// As [`answer_into`](Self::answer_into), and it makes a vector.
    ///
    /// # Errors
    ///
    /// [`Error::BadRow`], [`Error::Immovable`], [`Error::TooLong`].
    pub fn answer(self, flags: u16, source: &[u8], rows: &[Row]) -> Result<Vec<u8>, Error> {
        vec_of(512, |room| calls::answer(self.octets, flags, source, rows, room))
    }

    /// As [`answer_within_into`](Self::answer_within_into), and it makes a vector.
    ///
    /// # Errors
    ///
    /// [`Error::TooLong`]: its questions alone exceed the limit, or there are more than 65,535 rows.
    /// [`Error::BadRow`], [`Error::Immovable`].
    pub fn answer_within(self, flags: u16, source: &[u8], rows: &[Row], limit: u16) -> Result<Vec<u8>, Error> {
        vec_of(limit.into(), |room| calls::answer_within(self.octets, flags, source, rows, limit, room))
    }
}

/// Its octets.
impl fmt::Debug for Message<'_> {
    fn fmt(&self, f: &mut fmt::Formatter<'_>) -> fmt::Result {
        write!(f, "Message({:?})", self.octets)
    }
}

/// Its text.
#[cfg(feature = "alloc")]
impl fmt::Display for Message<'_> {
    fn fmt(&self, f: &mut fmt::Formatter<'_>) -> fmt::Result {
        f.write_str(&self.text().map_err(|_| fmt::Error)?)
    }
}

/// Where octets stop being a message, or `None`: they are one. It is where the first part is that isn't there: 0 for
/// the header, or a question or a record that it counts; or, if all of these are there, the offset after the last; or
/// 65,535 if there are more octets.
pub fn first_fault(octets: &[u8]) -> Option<usize> {
    match calls::message_fault(octets) {
        (OK, _) => None,
        (_, offset) => Some(offset),
    }
}

/// A query, a message of one question, in the front of a room. The name is text that ends with a full stop:
/// `example.com.` (RFC 1035, 5.1). `flags` are those of the header. A room of 271 octets is always enough.
///
/// # Errors
///
/// [`Error::Malformed`]: the text is no name. [`Error::NoRoom`].
pub fn query_into<'room>(
    id: u16,
    flags: u16,
    name: &str,
    rtype: Rtype,
    class: Class,
    room: &'room mut [u8],
) -> Result<&'room mut [u8], Error> {
    octets_of(calls::query(id, flags, name, rtype, class, room), room)
}

/// As [`query_into`], and it makes a vector.
///
/// # Errors
///
/// [`Error::Malformed`]: the text is no name.
#[cfg(feature = "alloc")]
pub fn query(id: u16, flags: u16, name: &str, rtype: Rtype, class: Class) -> Result<Vec<u8>, Error> {
    vec_of(QUERY, |room| calls::query(id, flags, name, rtype, class, room))
}
