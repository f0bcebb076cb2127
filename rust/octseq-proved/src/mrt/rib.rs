//! Tables of peers, and RIBs with their entries.
use super::row::address_of;
use super::{Record, Row};
use crate::bgp::{self, AS_PATH, AsPath, Hop, Part, Prefix};
use alloc::vec::Vec;
use core::net::{IpAddr, Ipv4Addr};

/// The peers that the entries of the RIBs after it came from (RFC 6396, 4.3.1).
#[derive(Clone, Copy, Debug, PartialEq, Eq)]
pub struct PeerIndexTable<'record> {
    pub(super) record: &'record Record,
}

impl<'record> PeerIndexTable<'record> {
    /// The BGP identifier of the collector.
    pub fn collector_bgp_id(self) -> Ipv4Addr {
        self.record.front().id.into()
    }

    /// The name of the view, often none.
    pub fn view_name(self) -> &'record [u8] {
        self.record.front().octets(self.record.octets())
    }

    /// Its peers. An entry tells its peer by its index here.
    pub fn peers(self) -> impl ExactSizeIterator<Item = Peer> + use<'record> {
        self.record.rows().iter().skip(1).map(|row| Peer::of(*row))
    }

    /// The peer with a number, from 0 on, if there is one.
    pub fn peer(self, index: u16) -> Option<Peer> {
        self.record.rows().get(1 + usize::from(index)).map(|row| Peer::of(*row))
    }
}

/// A peer of a collector.
#[derive(Clone, Copy, Debug, PartialEq, Eq, Hash)]
pub struct Peer {
    /// Its BGP identifier.
    pub bgp_id: Ipv4Addr,
    /// Its address.
    pub address: IpAddr,
    /// Its AS number.
    pub asn: u32,
}

impl Peer {
    /// The peer of a row.
    fn of(row: Row) -> Peer {
        Peer { bgp_id: row.id.into(), address: address_of(row.addr, row.addr_len), asn: row.asn }
    }
}

/// The routes to a prefix (RFC 6396, 4.3.2; RFC 8050, 4).
#[derive(Clone, Copy, Debug, PartialEq, Eq)]
pub struct Rib<'record> {
    pub(super) record: &'record Record,
}

impl<'record> Rib<'record> {
    /// Its sequence number.
    pub fn sequence_number(self) -> u32 {
        self.record.front().id
    }

    /// Its prefix, which has no path id: its entries have them.
    pub fn prefix(self) -> Prefix {
        self.record.front().prefix_in(self.record.octets())
    }

    /// Its entries.
    pub fn entries(self) -> impl ExactSizeIterator<Item = RibEntry<'record>> + use<'record> {
        let record = self.record;
        let mut first = 0;
        record.rows().iter().skip(1).map(move |row| {
            let entry = RibEntry { record, row, first };
            first += row.count;
            entry
        })
    }

    /// The table of peers that came before it, if a [`Reader`](super::Reader) read one.
    pub fn table(self) -> Option<PeerIndexTable<'record>> {
        self.record.table().map(|record| PeerIndexTable { record })
    }
}

/// A route to the prefix of a RIB (RFC 6396, 4.3.4).
#[derive(Clone, Copy, Debug, PartialEq, Eq)]
pub struct RibEntry<'record> {
    record: &'record Record,
    row: &'record Row,
    first: usize,
}

impl<'record> RibEntry<'record> {
    /// When it came, in seconds since 1970.
    pub fn originated_time(self) -> u32 {
        self.row.time
    }

    /// Its path id, if its RIB has them (RFC 8050, 4).
    pub fn path_id(self) -> Option<u32> {
        (self.row.has_number == 1).then_some(self.row.id)
    }

    /// The number of its peer in the table, from 0 on.
    pub fn peer_index(self) -> u16 {
        self.row.index
    }

    /// The peer that it came from. `None` where no table came before its RIB, or the table hasn't its number.
    pub fn peer(self) -> Option<Peer> {
        Rib { record: self.record }.table()?.peer(self.row.index)
    }

    /// Its path attributes. Their AS numbers have four octets. An MP_REACH_NLRI has next hops alone, after their
    /// length, as a rule (RFC 6396, 4.3.4).
    pub fn attributes(self) -> impl ExactSizeIterator<Item = Part<'record>> + use<'record> {
        let octets = self.record.octets();
        let rows = self.record.attributes().get(self.first..self.first.saturating_add(self.row.count));
        rows.unwrap_or_default().iter().map(|row| Part::of(octets, *row))
    }

    /// The octets of its first attribute of a type, if it has one.
    pub fn value_of(self, type_code: u8) -> Option<&'record [u8]> {
        self.attributes().find(|part| part.row().type_code == type_code).map(Part::octets)
    }

    /// Its AS path: that of its first AS_PATH (RFC 4271, 5.1.2). `None` where it has no such attribute.
    ///
    /// # Errors
    ///
    /// [`bgp::Error::Malformed`]: the attribute hasn't the form of its type.
    pub fn as_path(self) -> Result<Option<AsPath<Vec<Hop>>>, bgp::Error> {
        self.value_of(AS_PATH).map(|octets| AsPath::new(octets, bgp::Session::MODERN)).transpose()
    }
}
