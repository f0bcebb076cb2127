//! The parts of a record, as numbers.
use crate::bgp::{self, Prefix};
use core::net::IpAddr;

/// What a row is of.
#[derive(Clone, Copy, Debug, PartialEq, Eq, Hash)]
pub enum Kind {
    /// Octets without the form of their type and subtype.
    Opaque,
    /// A PEER_INDEX_TABLE (RFC 6396, 4.3.1).
    PeerIndexTable,
    /// A peer of a table.
    Peer,
    /// A RIB: the routes to a prefix (RFC 6396, 4.3.2; RFC 8050, 4).
    Rib,
    /// An entry of a RIB: a route (RFC 6396, 4.3.4).
    RibEntry,
    /// A BGP message (RFC 6396, 4.4 and 4.5; RFC 8050, 3).
    Message,
    /// A change of a session's state (RFC 6396, 4.4 and 4.5).
    StateChange,
}

/// A part of a record, as numbers. Offsets are counted from the first octet of the record. What a kind doesn't have is
/// 0.
#[repr(C)]
#[derive(Clone, Copy, Debug, Default, PartialEq, Eq)]
pub struct Row {
    /// Where the name of a table's view begins, the prefix of a RIB, a message, opaque octets.
    pub at: usize,
    /// How many octets there are.
    pub len: usize,
    /// How many peers a table has, how many entries a RIB, how many attributes an entry.
    pub count: usize,
    /// Its [`Kind`], as a number.
    pub kind: u32,
    /// The BGP identifier of a table's collector or of a peer, the sequence number of a RIB, the path id of an entry.
    pub id: u32,
    /// When the route of an entry came, in seconds since 1970; the microseconds of a message, of a state change.
    pub time: u32,
    /// The AS number of a peer.
    pub asn: u32,
    /// Of a message, of a state change: the AS number of the collector.
    pub local_asn: u32,
    /// How a message is read, as `octseq.h` has it.
    pub session: u32,
    /// The state before a state change (RFC 4271, 8.2.2).
    pub old_state: u32,
    /// The state after it.
    pub new_state: u32,
    /// The number of an entry's peer in the table, from 0; of a message, of a state change: that of its interface.
    pub index: u16,
    /// 1 where a prefix or an address is IPv4, 2 where it is IPv6.
    pub afi: u16,
    /// 1 of a unicast RIB, 2 of a multicast one.
    pub safi: u8,
    /// The length of a RIB's prefix in bits.
    pub bits: u8,
    /// 1 of an entry with a path id, of a message and of a state change with microseconds, else 0.
    pub has_number: u8,
    /// How many octets the address of a peer has: 4 or 16.
    pub addr_len: u8,
    /// The address of a peer. Zeros follow it.
    pub addr: [u8; 16],
    /// The address of the collector. Zeros follow it.
    pub local_addr: [u8; 16],
}

impl Row {
    /// What it is of.
    pub fn kind(self) -> Kind {
        match self.kind {
            1 => Kind::PeerIndexTable,
            2 => Kind::Peer,
            3 => Kind::Rib,
            4 => Kind::RibEntry,
            5 => Kind::Message,
            6 => Kind::StateChange,
            _ => Kind::Opaque,
        }
    }

    /// Its octets, within those of its record: the name of a table's view, the prefix of a RIB, a message, opaque
    /// octets.
    pub fn octets(self, record: &[u8]) -> &[u8] {
        record.get(self.at..self.at.saturating_add(self.len)).unwrap_or_default()
    }

    /// The address of a peer: that of a table, a message or a state change. `None` of another part.
    pub fn address(self) -> Option<IpAddr> {
        (self.addr_len > 0).then(|| address_of(self.addr, self.addr_len))
    }

    /// The address of the collector, of a message or a state change. `None` of another part.
    pub fn local_address(self) -> Option<IpAddr> {
        let is_event = matches!(self.kind(), Kind::Message | Kind::StateChange);
        is_event.then(|| address_of(self.local_addr, self.addr_len))
    }

    /// The prefix of a RIB, within the octets of its record. Its bits after its length are 0, and it has no path id.
    /// `None` of another part.
    pub fn prefix(self, record: &[u8]) -> Option<Prefix> {
        (self.kind() == Kind::Rib).then(|| self.prefix_in(record))
    }

    /// The prefix, if it is of a RIB.
    pub(super) fn prefix_in(self, record: &[u8]) -> Prefix {
        let Row { bits, afi, safi, .. } = self;
        let address = bgp::address_of(self.octets(record), bits, afi);
        Prefix { address, bits, is_multicast: safi == 2, path_id: None }
    }
}

/// The address that the first octets are, 4 or all 16.
pub(super) fn address_of(octets: [u8; 16], len: u8) -> IpAddr {
    let [a, b, c, d, ..] = octets;
    if len == 4 { [a, b, c, d].into() } else { octets.into() }
}
