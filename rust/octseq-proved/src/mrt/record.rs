//! Records, by what they have.
use super::row::address_of;
use super::{Error, Header, Kind, PeerIndexTable, Rib, Row};
use crate::bgp::{self, Session};
use alloc::{sync::Arc, vec::Vec};
use core::fmt;
use core::net::IpAddr;

/// A record. It has octets of its own.
#[derive(Clone, Debug, PartialEq, Eq)]
pub struct Record {
    octets: Vec<u8>,
    header: Header,
    rows: Vec<Row>,
    attributes: Vec<bgp::Row>,
    table: Option<Arc<Record>>,
}

impl Record {
    /// The record that octets are, all of them, with its header.
    ///
    /// # Errors
    ///
    /// [`Error::Malformed`]: they aren't one.
    pub fn new(octets: Vec<u8>) -> Result<Record, Error> {
        let header = Header::new(&octets)?;
        let rows = super::rows(&octets)?;
        let is_rib = rows.first().is_some_and(|row| row.kind() == Kind::Rib);
        let attributes = if is_rib { super::attributes(&octets)? } else { Vec::new() };
        Ok(Record { octets, header, rows, attributes, table: None })
    }

    /// The same record, as one that comes after a table.
    #[cfg(feature = "std")]
    pub(super) fn after(self, table: Option<Arc<Record>>) -> Record {
        Record { table, ..self }
    }

    /// Its octets, with its header.
    pub fn octets(&self) -> &[u8] {
        &self.octets
    }

    /// Its header, with its time, its type and its subtype.
    pub fn header(&self) -> Header {
        self.header
    }

    /// Its parts as numbers, in their order.
    pub fn rows(&self) -> &[Row] {
        &self.rows
    }

    /// The path attributes of all entries as numbers, if it is a RIB, in their order.
    pub fn attributes(&self) -> &[bgp::Row] {
        &self.attributes
    }

    /// What it has.
    pub fn body(&self) -> Body<'_> {
        let row = self.front();
        match row.kind() {
            Kind::PeerIndexTable => Body::PeerIndexTable(PeerIndexTable { record: self }),
            Kind::Rib => Body::Rib(Rib { record: self }),
            Kind::Message => Body::Message(Message {
                event: Event::of(row),
                octets: row.octets(&self.octets),
                session: Session::of(row.session),
            }),
            Kind::StateChange => Body::StateChange(StateChange {
                event: Event::of(row),
                old_state: State(row.old_state as u16),
                new_state: State(row.new_state as u16),
            }),
            Kind::Opaque | Kind::Peer | Kind::RibEntry => Body::Opaque(row.octets(&self.octets)),
        }
    }

    /// Its first row. Each record has one.
    pub(super) fn front(&self) -> Row {
        self.rows.first().copied().unwrap_or_default()
    }

    /// The record of the table that came before it.
    pub(super) fn table(&self) -> Option<&Record> {
        self.table.as_deref()
    }
}

/// What a record has.
#[derive(Clone, Copy, Debug)]
pub enum Body<'record> {
    /// The peers that the entries of the RIBs after it came from (RFC 6396, 4.3.1).
    PeerIndexTable(PeerIndexTable<'record>),
    /// The routes to a prefix (RFC 6396, 4.3.2; RFC 8050, 4).
    Rib(Rib<'record>),
    /// A BGP message that the collector received, or sent (RFC 6396, 4.4 and 4.5; RFC 8050, 3).
    Message(Message<'record>),
    /// A change of a session's state (RFC 6396, 4.4 and 4.5).
    StateChange(StateChange),
    /// The octets after the header of a record of another type or subtype, or without the form of its own.
    Opaque(&'record [u8]),
}

/// What a message and a state change say of their session (RFC 6396, 4.4 and 4.5).
#[derive(Clone, Copy, Debug, PartialEq, Eq, Hash)]
pub struct Event {
    /// The microseconds of its time, if its type has them: BGP4MP_ET (RFC 6396, 3).
    pub microseconds: Option<u32>,
    /// The AS number of the peer.
    pub peer_asn: u32,
    /// The AS number of the collector.
    pub local_asn: u32,
    /// The number of the interface, or 0.
    pub interface_index: u16,
    /// The address of the peer.
    pub peer_address: IpAddr,
    /// The address of the collector.
    pub local_address: IpAddr,
}

impl Event {
    /// The event of a row.
    fn of(row: Row) -> Event {
        Event {
            microseconds: (row.has_number == 1).then_some(row.time),
            peer_asn: row.asn,
            local_asn: row.local_asn,
            interface_index: row.index,
            peer_address: address_of(row.addr, row.addr_len),
            local_address: address_of(row.local_addr, row.addr_len),
        }
    }
}

/// A BGP message that the collector received, or sent.
#[derive(Clone, Copy, Debug, PartialEq, Eq)]
pub struct Message<'record> {
    /// What it says of its session.
    pub event: Event,
    /// The octets of the message, whether they are one or not.
    pub octets: &'record [u8],
    /// The session that the message is read in, as the subtype of its record says it.
    pub session: Session,
}

impl<'record> Message<'record> {
    /// The message.
    ///
    /// # Errors
    ///
    /// [`bgp::Error::Malformed`]: the octets are none. [`bgp::first_fault`] tells where they stop being one.
    pub fn message(self) -> Result<bgp::Message<'record>, bgp::Error> {
        bgp::Message::new(self.octets, self.session)
    }
}

/// A change of a session's state.
#[derive(Clone, Copy, Debug, PartialEq, Eq, Hash)]
pub struct StateChange {
    /// What it says of its session.
    pub event: Event,
    /// The state before it.
    pub old_state: State,
    /// The state after it.
    pub new_state: State,
}

/// The state of a session (RFC 4271, 8.2.2; RFC 6396, 4.4.1), which may be none of those that have names. It shows as
/// its name, or else as its number.
#[derive(Clone, Copy, Debug, PartialEq, Eq, PartialOrd, Ord, Hash)]
pub struct State(
    /// Its number.
    pub u16,
);

#[allow(missing_docs, reason = "their names say what they are")]
impl State {
    pub const IDLE: State = State(1);
    pub const CONNECT: State = State(2);
    pub const ACTIVE: State = State(3);
    pub const OPEN_SENT: State = State(4);
    pub const OPEN_CONFIRM: State = State(5);
    pub const ESTABLISHED: State = State(6);
}

impl fmt::Display for State {
    fn fmt(&self, f: &mut fmt::Formatter<'_>) -> fmt::Result {
        f.pad(match *self {
            State::IDLE => "Idle",
            State::CONNECT => "Connect",
            State::ACTIVE => "Active",
            State::OPEN_SENT => "OpenSent",
            State::OPEN_CONFIRM => "OpenConfirm",
            State::ESTABLISHED => "Established",
            State(number) => return number.fmt(f),
        })
    }
}
