//! BGP messages (RFC 4271 and its extensions), read and shown.
//!
//! Octets alone don't say how a message is read, so each is read in a [`Session`], which has what two speakers agreed
//! on. What is read borrows the octets that it was read from. A call that writes has a room to write to and ends with
//! `_into`; the one of the same name without that, of the feature `alloc`, makes a vector or a `String`.
use crate::NoRoom;
use crate::calls::{self, MALFORMED, NO_ROOM, OK, Written};
use core::net::IpAddr;
use core::{error, fmt, str};

#[cfg(feature = "alloc")]
use alloc::{string::String, vec, vec::Vec};

mod path;

pub use path::{AsPath, Hop, Segment, SegmentKind};

/// The type of the attribute AS_PATH (RFC 4271, 5.1.2).
#[cfg(feature = "alloc")]
pub(crate) const AS_PATH: u8 = 2;

/// Why a call refused. The room is then as it was, but for [`Error::Unshown`].
#[derive(Clone, Copy, Debug, PartialEq, Eq)]
pub enum Error {
    /// There was too little room.
    NoRoom(NoRoom),
    /// The octets are no message, or no AS path, of the session.
    Malformed,
    /// No text could be made. No octets lead here, but no proof rules it out.
    Unshown,
}

impl fmt::Display for Error {
    fn fmt(&self, f: &mut fmt::Formatter<'_>) -> fmt::Result {
        match self {
            Error::NoRoom(no_room) => no_room.fmt(f),
            Error::Malformed => f.write_str("malformed"),
            Error::Unshown => f.write_str("no text could be made"),
        }
    }
}

impl error::Error for Error {}

/// The families whose prefixes have path ids (RFC 7911).
#[derive(Clone, Copy, Debug, Default, PartialEq, Eq)]
pub struct AddPath {
    /// IPv4 unicast.
    pub ipv4_unicast: bool,
    /// IPv4 multicast.
    pub ipv4_multicast: bool,
    /// IPv6 unicast.
    pub ipv6_unicast: bool,
    /// IPv6 multicast.
    pub ipv6_multicast: bool,
}

impl AddPath {
    /// All four families, or none.
    pub const fn all(has: bool) -> AddPath {
        AddPath { ipv4_unicast: has, ipv4_multicast: has, ipv6_unicast: has, ipv6_multicast: has }
    }
}

/// How the messages of a session are read.
#[derive(Clone, Copy, Debug, PartialEq, Eq)]
pub struct Session {
    /// Whether AS numbers have four octets (RFC 6793) or two.
    pub four_octet_asn: bool,
    /// The families with path ids.
    pub add_path: AddPath,
    /// Whether messages may have 65,535 octets (RFC 8654) or 4,096.
    pub extended_message: bool,
}

impl Session {
    /// AS numbers of four octets, no path ids, messages of at most 4,096 octets.
    pub const MODERN: Session =
        Session { four_octet_asn: true, add_path: AddPath::all(false), extended_message: false };

    /// AS numbers of two octets, no path ids, messages of at most 4,096 octets.
    pub const LEGACY: Session = Session { four_octet_asn: false, ..Session::MODERN };

    /// It as `octseq.h` has it.
    fn flags(self) -> u32 {
        let AddPath { ipv4_unicast, ipv4_multicast, ipv6_unicast, ipv6_multicast } = self.add_path;
        let families = [ipv4_unicast, ipv4_multicast, ipv6_unicast, ipv6_multicast];
        let flags = [!self.four_octet_asn, self.extended_message].into_iter().chain(families);
        flags.enumerate().map(|(bit, is_set)| u32::from(is_set) << bit).sum()
    }

    /// The session that `octseq.h` has as flags.
    #[cfg(feature = "alloc")]
    pub(crate) fn of(flags: u32) -> Session {
        let [is_two_octet, extended_message, ipv4_unicast, ipv4_multicast, ipv6_unicast, ipv6_multicast] =
            core::array::from_fn(|bit| flags >> bit & 1 == 1);
        let add_path = AddPath { ipv4_unicast, ipv4_multicast, ipv6_unicast, ipv6_multicast };
        Session { four_octet_asn: !is_two_octet, add_path, extended_message }
    }
}

/// What a row is of.
#[derive(Clone, Copy, Debug, PartialEq, Eq, Hash)]
pub enum Kind {
    /// A prefix of the withdrawn routes.
    Withdrawn,
    /// A path attribute.
    Attribute,
    /// A prefix after the attributes.
    Announced,
    /// A prefix of an MP_REACH_NLRI (RFC 4760, 3).
    Reached,
    /// A prefix of an MP_UNREACH_NLRI (RFC 4760, 4).
    Unreached,
}

/// A prefix or a path attribute of an UPDATE, as numbers. Offsets are counted from the first octet of the message.
#[repr(C)]
#[derive(Clone, Copy, Debug, Default, PartialEq, Eq)]
pub struct Row {
    /// Where the value of the attribute begins, or the octets of the prefix, after its length.
    pub at: usize,
    /// How many octets there are.
    pub len: usize,
    /// Its [`Kind`], as a number.
    pub kind: u32,
    /// The path id, or 0.
    pub path_id: u32,
    /// 1 of a prefix with a path id, else 0.
    pub has_path_id: u16,
    /// 1 of an IPv4 prefix, 2 of an IPv6 one; 0 of an attribute.
    pub afi: u16,
    /// 1 of a unicast prefix, 2 of a multicast one; 0 of an attribute.
    pub safi: u8,
    /// The length of the prefix in bits; 0 of an attribute.
    pub bits: u8,
    /// The flags of the attribute; 0 of a prefix.
    pub flags: u8,
    /// The type of the attribute; 0 of a prefix.
    pub type_code: u8,
}

/// The address that the octets of a prefix of an AFI begin. The bits after its length become 0.
pub(crate) fn address_of(octets: &[u8], bits: u8, afi: u16) -> IpAddr {
    let mut address = [0; 16];
    for (to, from) in address.iter_mut().zip(octets) {
        *to = *from;
    }
    let mask = u128::MAX.checked_shl(128_u32.saturating_sub(bits.into())).unwrap_or(0);
    let number = u128::from_be_bytes(address) & mask;
    match afi {
        1 => IpAddr::V4(((number >> 96) as u32).into()),
        _ => IpAddr::V6(number.into()),
    }
}

/// A prefix.
#[derive(Clone, Copy, Debug, PartialEq, Eq, Hash)]
pub struct Prefix {
    /// The address, whose bits after the length are 0.
    pub address: IpAddr,
    /// The length in bits.
    pub bits: u8,
    /// Whether it is of a multicast family.
    pub is_multicast: bool,
    /// Its path id, if its family has them in the session.
    pub path_id: Option<u32>,
}

/// Its address, its length, and its path id.
impl fmt::Display for Prefix {
    fn fmt(&self, f: &mut fmt::Formatter<'_>) -> fmt::Result {
        write!(f, "{}/{}", self.address, self.bits)?;
        self.path_id.map_or(Ok(()), |id| write!(f, " path {id}"))
    }
}

/// A prefix or a path attribute of an UPDATE.
#[derive(Clone, Copy, Debug, PartialEq, Eq)]
pub struct Part<'octets> {
    octets: &'octets [u8],
    row: Row,
}

impl<'octets> Part<'octets> {
    /// The part of a row whose offsets are in octets.
    #[cfg(feature = "alloc")]
    pub(crate) fn of(octets: &'octets [u8], row: Row) -> Part<'octets> {
        Part { octets, row }
    }

    /// It as numbers.
    pub fn row(self) -> Row {
        self.row
    }

    /// What it is.
    pub fn kind(self) -> Kind {
        match self.row.kind {
            0 => Kind::Withdrawn,
            1 => Kind::Attribute,
            2 => Kind::Announced,
            3 => Kind::Reached,
            _ => Kind::Unreached,
        }
    }

    /// The octets of the attribute's value, or of the prefix.
    pub fn octets(self) -> &'octets [u8] {
        let Row { at, len, .. } = self.row;
        self.octets.get(at..at.saturating_add(len)).unwrap_or_default()
    }

    /// The prefix; `None` of an attribute.
    pub fn prefix(self) -> Option<Prefix> {
        let Row { bits, afi, safi, path_id, has_path_id, .. } = self.row;
        let address = address_of(self.octets(), bits, afi);
        let path_id = (has_path_id == 1).then_some(path_id);
        (afi > 0).then_some(Prefix { address, bits, is_multicast: safi == 2, path_id })
    }
}

/// A message of a session within octets: they are nothing but it, and were checked once.
#[derive(Clone, Copy)]
pub struct Message<'octets> {
    octets: &'octets [u8],
    session: Session,
    count: usize,
}

impl<'octets> Message<'octets> {
    /// The message of a session that octets are.
    ///
    /// # Errors
    ///
    /// [`Error::Malformed`]: they are none. [`first_fault`] tells where they stop being one.
    pub fn new(octets: &'octets [u8], session: Session) -> Result<Message<'octets>, Error> {
        match calls::bgp_rows(octets, session.flags(), &mut []) {
            (OK | NO_ROOM, count) => Ok(Message { octets, session, count }),
            _ => Err(Error::Malformed),
        }
    }

    /// Its octets.
    pub fn octets(self) -> &'octets [u8] {
        self.octets
    }

    /// The session that it was read in.
    pub fn session(self) -> Session {
        self.session
    }

    /// How many parts it has: none if it is no UPDATE.
    pub fn part_count(self) -> usize {
        self.count
    }

    /// Its parts as numbers, in their order, in the front of a room of rows. The prefixes of an MP_REACH_NLRI or
    /// MP_UNREACH_NLRI follow it, if its value has the form of its type.
    ///
    /// # Errors
    ///
    /// [`Error::NoRoom`] where there are more of them than rows.
    pub fn rows_into(self, room: &mut [Row]) -> Result<&mut [Row], Error> {
        let count = done(calls::bgp_rows(self.octets, self.session.flags(), room))?;
        Ok(&mut room[..count])
    }

    /// Its parts, in their order. The room is for their rows.
    ///
    /// # Errors
    ///
    /// [`Error::NoRoom`] where there are more of them than rows.
    pub fn parts_in<'room>(
        self,
        room: &'room mut [Row],
    ) -> Result<impl Iterator<Item = Part<'octets>> + use<'octets, 'room>, Error> {
        let rows: &'room [Row] = self.rows_into(room)?;
        Ok(rows.iter().map(move |row| Part { octets: self.octets, row: *row }))
    }

    /// Its text: a line for each of its parts.
    ///
    /// # Errors
    ///
    /// [`Error::NoRoom`], [`Error::Unshown`].
    pub fn text_into(self, room: &mut [u8]) -> Result<&mut str, Error> {
        let len = done(calls::bgp_message_text(self.octets, self.session.flags(), room))?;
        str::from_utf8_mut(&mut room[..len]).map_err(|_| Error::Unshown)
    }
}

/// The same with texts and vectors.
#[cfg(feature = "alloc")]
impl<'octets> Message<'octets> {
    /// Its parts, in their order.
    ///
    /// # Errors
    ///
    /// None is known: it is a message.
    pub fn parts(self) -> Result<Vec<Part<'octets>>, Error> {
        let mut room = vec![Row::default(); self.count];
        Ok(self.parts_in(&mut room)?.collect())
    }

    /// Its AS path: that of its first AS_PATH (RFC 4271, 5.1.2). `None` where it has no such attribute.
    ///
    /// # Errors
    ///
    /// [`Error::Malformed`]: the attribute hasn't the form of its type.
    pub fn as_path(self) -> Result<Option<AsPath<Vec<Hop>>>, Error> {
        let is_path = |part: &Part<'_>| part.kind() == Kind::Attribute && part.row().type_code == AS_PATH;
        let path = self.parts()?.into_iter().find(is_path);
        path.map(|part| AsPath::new(part.octets(), self.session)).transpose()
    }

    /// As [`text_into`](Self::text_into), and it makes a text of its own.
    ///
    /// # Errors
    ///
    /// [`Error::Unshown`].
    pub fn text(self) -> Result<String, Error> {
        let mut room = Vec::new();
        if let (NO_ROOM, needed) = calls::bgp_message_text(self.octets, self.session.flags(), &mut room) {
            room.resize(needed, 0);
        }
        done(calls::bgp_message_text(self.octets, self.session.flags(), &mut room))?;
        String::from_utf8(room).map_err(|_| Error::Unshown)
    }
}

/// Its octets.
impl fmt::Debug for Message<'_> {
    fn fmt(&self, f: &mut fmt::Formatter<'_>) -> fmt::Result {
        write!(f, "Message({:?})", self.octets)
    }
}

/// Its text.
#[cfg(feature = "alloc")]
impl fmt::Display for Message<'_> {
    fn fmt(&self, f: &mut fmt::Formatter<'_>) -> fmt::Result {
        f.write_str(&self.text().map_err(|_| fmt::Error)?)
    }
}

/// Where octets stop being a message of a session, or `None`: they are one. It is 0 where they don't begin with the
/// header of a message of this length; else where the first part is that isn't there: 19 for what each message of its
/// type begins with (and for what follows the header of a KEEPALIVE), or the offset of a parameter of an OPEN, a
/// length, a prefix or an attribute of an UPDATE.
pub fn first_fault(octets: &[u8], session: Session) -> Option<usize> {
    match calls::bgp_message_fault(octets, session.flags()) {
        (OK, _) => None,
        (_, offset) => Some(offset),
    }
}

/// How much was written, or why nothing.
fn done((status, written): Written) -> Result<usize, Error> {
    match status {
        OK => Ok(written),
        NO_ROOM => Err(Error::NoRoom(NoRoom { needed: written })),
        MALFORMED => Err(Error::Malformed),
        _ => Err(Error::Unshown),
    }
}
