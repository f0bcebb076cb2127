"""The records of MRT files, by what they have."""
from __future__ import annotations

import enum
import functools
import struct
from collections.abc import Iterator
from ipaddress import IPv4Address, IPv6Address
from socket import AF_INET, AF_INET6, inet_ntop
from typing import NamedTuple, Union

from .. import _calls, bgp
from .._calls import lib
from ..bgp.message import Network, network_of
from ..bgp.path import AS_PATH, AsPath, parse_path
from ..bgp.session import ALL, FAMILIES, Family, Session
from ..errors import Malformed

Address = Union[IPv4Address, IPv6Address]
Header = tuple[int, int, int, int]

# Rows as they are in memory: octseq_mrt_row, of which an entry has only some numbers, and octseq_bgp_row.
_ROW = struct.Struct("@NNNIIIIIIIIHHBBBB16s16s")
_KIND = struct.Struct("@I")
_KIND_AT = 24
_ENTRY = struct.Struct("@16xN4xII20xH4xB33x")
_ATTRIBUTE = struct.Struct("@NN14xBB")


class Row(NamedTuple):
    """A row, as `octseq_mrt_row` has it."""

    at: int
    len: int
    count: int
    kind: int
    id: int
    time: int
    asn: int
    local_asn: int
    session: int
    old_state: int
    new_state: int
    index: int
    afi: int
    safi: int
    bits: int
    has_number: int
    addr_len: int
    addr: bytes
    local_addr: bytes

    def address(self) -> Address:
        """The address of the peer."""
        return _address(self.addr, self.addr_len)

    def local_address(self) -> Address:
        """The address of the collector."""
        return _address(self.local_addr, self.addr_len)


def _address(octets: bytes, size: int) -> Address:
    return IPv4Address(octets[:4]) if size == 4 else IPv6Address(octets)


class State(enum.IntEnum):
    """The states of a session (RFC 4271, 8.2.2; RFC 6396, 4.4.1)."""

    IDLE = 1
    CONNECT = 2
    ACTIVE = 3
    OPEN_SENT = 4
    OPEN_CONFIRM = 5
    ESTABLISHED = 6


class Record:
    """A record. It doesn't change, and keeps the octets that it was read from. What is in them is made when it is asked
    for."""

    __slots__ = ("_header", "_octets", "_rows")
    _header: Header
    _octets: bytes
    _rows: bytes

    def __init__(self, octets: bytes, header: Header, rows: bytes) -> None:
        self._octets, self._header, self._rows = octets, header, rows

    @property
    def octets(self) -> bytes:
        """The octets that it was read from, with its header."""
        return self._octets

    @property
    def timestamp(self) -> int:
        """Its time, in seconds since 1970."""
        return self._header[1]

    @property
    def type_code(self) -> int:
        """The number of its type."""
        return self._header[2]

    @property
    def subtype(self) -> int:
        """The number of its subtype."""
        return self._header[3]

    def _row(self) -> Row:
        """Its first row."""
        return Row(*_ROW.unpack_from(self._rows))

    def _body(self, row: Row) -> bytes:
        """The octets of a row."""
        return self._octets[row.at : row.at + row.len]

    def _shown(self) -> str:
        """What `repr` says of its own."""
        return f"{self.type_code}/{self.subtype}"

    def __repr__(self) -> str:
        return f"<{type(self).__name__} {self._shown()}, time {self.timestamp}>"


class OpaqueRecord(Record):
    """A record of another type or subtype, or without the form of its own."""

    __slots__ = ()

    @property
    def body(self) -> bytes:
        """The octets after its header."""
        return self._octets[12:]


class Peer(NamedTuple):
    """A peer of a collector."""

    bgp_id: IPv4Address
    """Its BGP identifier."""
    address: Address
    """Its address."""
    asn: int
    """Its AS number."""


class PeerIndexTable(Record):
    """The peers that the entries of the RIBs after it came from (RFC 6396, 4.3.1)."""

    __slots__ = ("_peers",)
    _peers: tuple[Peer, ...] | None

    def __init__(self, octets: bytes, header: Header, rows: bytes) -> None:
        super().__init__(octets, header, rows)
        self._peers = None

    @property
    def collector(self) -> IPv4Address:
        """The BGP identifier of the collector."""
        return IPv4Address(self._row().id)

    @property
    def view_name(self) -> bytes:
        """The name of the view, often none."""
        return self._body(self._row())

    @property
    def peers(self) -> tuple[Peer, ...]:
        """The peers. An entry tells its peer by its index here."""
        if self._peers is None:
            rows = [Row(*it) for it in _ROW.iter_unpack(self._rows[_ROW.size :])]
            self._peers = tuple(Peer(IPv4Address(row.id), row.address(), row.asn) for row in rows)
        return self._peers

    def _shown(self) -> str:
        return f"of {self.collector}, {len(self.peers)} peers"


class RibEntry:
    """A route to the prefix of a RIB (RFC 6396, 4.3.4)."""

    __slots__ = ("_count", "_from", "_rib", "originated_time", "path_id", "peer_index")
    _count: int
    _from: int
    _rib: Rib
    originated_time: int
    path_id: int | None
    peer_index: int

    def __init__(self, rib: Rib, first: int, count: int, path_id: int | None, time: int, peer: int) -> None:
        """The entry with so many attributes of a RIB, from the first on."""
        self._rib, self._from, self._count = rib, first, count
        self.path_id, self.originated_time, self.peer_index = path_id, time, peer

    @property
    def peer(self) -> Peer | None:
        """The peer that it came from. None where no table came before it, or the table hasn't its number."""
        table = self._rib.table
        return table.peers[self.peer_index] if table and self.peer_index < len(table.peers) else None

    @property
    def attributes(self) -> tuple[bgp.Attribute, ...]:
        """Its path attributes. Their AS numbers have four octets. An MP_REACH_NLRI has next hops alone, as a rule."""
        octets = self._rib.octets
        rows = self._rib._attribute_rows()[self._from : self._from + self._count]
        return tuple(bgp.Attribute(flags, kind, octets[at : at + size], (), ()) for at, size, flags, kind in rows)

    def value_of(self, type_code: int) -> bytes | None:
        """The octets of its first attribute of a type. None where it has none."""
        rows = self._rib._attribute_rows()
        for at, size, _, kind in rows[self._from : self._from + self._count]:
            if kind == type_code:
                return self._rib.octets[at : at + size]
        return None

    @property
    def as_path(self) -> AsPath | None:
        """Its AS path: the first AS_PATH. None where it has none that has the form of its type."""
        octets = self.value_of(AS_PATH)
        try:
            return None if octets is None else parse_path(octets, 0)
        except Malformed:
            return None

    def __repr__(self) -> str:
        path = "" if self.path_id is None else f" path {self.path_id}"
        return f"<RibEntry {self._rib.cidr}{path}, peer {self.peer_index}>"


class Rib(Record):
    """The routes to a prefix (RFC 6396, 4.3.2; RFC 8050, 4)."""

    __slots__ = ("_attributes", "table")
    _attributes: list[tuple[int, int, int, int]] | None
    table: PeerIndexTable | None
    """The table of peers that came before it in its file, if there was one."""

    def __init__(self, octets: bytes, header: Header, rows: bytes, table: PeerIndexTable | None) -> None:
        super().__init__(octets, header, rows)
        self.table = table
        self._attributes = None

    @property
    def sequence(self) -> int:
        """Its sequence number."""
        return self._row().id

    @property
    def family(self) -> Family:
        """Its address family."""
        row = self._row()
        return FAMILIES[row.afi, row.safi]

    @property
    def prefix(self) -> Network:
        """Its prefix. Bits after its length are 0."""
        row = self._row()
        return network_of(self._body(row), row.afi, row.bits)

    @property
    def cidr(self) -> str:
        """Its prefix as text. It takes a tenth of the time of `prefix`."""
        row = self._row()
        return f"{inet_ntop(AF_INET if row.afi == 1 else AF_INET6, _masked(self._body(row), row))}/{row.bits}"

    @property
    def entries(self) -> tuple[RibEntry, ...]:
        """Its entries, made anew each time."""
        return tuple(self)

    def __len__(self) -> int:
        return self._row().count

    def __bool__(self) -> bool:
        return True

    def __iter__(self) -> Iterator[RibEntry]:
        """Its entries, one at a time."""
        first = 0
        for count, path_id, time, peer, has_path_id in _ENTRY.iter_unpack(self._rows[_ROW.size :]):
            yield RibEntry(self, first, count, path_id if has_path_id else None, time, peer)
            first += count

    def _attribute_rows(self) -> list[tuple[int, int, int, int]]:
        """The offset, length, flags and type of each attribute of each entry."""
        if self._attributes is None:
            rows = _calls.mrt_attributes(self._octets, len(self._octets) // 3)
            self._attributes = list(_ATTRIBUTE.iter_unpack(rows))
        return self._attributes

    def _shown(self) -> str:
        return f"{self.cidr}, {len(self)} entries"


def _masked(octets: bytes, row: Row) -> bytes:
    """The octets of a prefix as those of an address. The bits after the prefix are 0."""
    bits = row.bits % 8
    if bits and octets[-1] << bits & 0xFF:
        octets = octets[:-1] + bytes([octets[-1] & 0xFF00 >> bits & 0xFF])
    return octets.ljust(4 if row.afi == 1 else 16, b"\0")


class Event(Record):
    """A message or a state change of a session of BGP (RFC 6396, 4.4 and 4.5; RFC 8050, 3)."""

    __slots__ = ()

    @property
    def microseconds(self) -> int | None:
        """The microseconds of its time, if its type has them."""
        row = self._row()
        return row.time if row.has_number else None

    @property
    def peer_asn(self) -> int:
        """The AS number of the peer."""
        return self._row().asn

    @property
    def local_asn(self) -> int:
        """The AS number of the collector."""
        return self._row().local_asn

    @property
    def interface(self) -> int:
        """The number of the interface, or 0."""
        return self._row().index

    @property
    def peer_address(self) -> Address:
        """The address of the peer."""
        return self._row().address()

    @property
    def local_address(self) -> Address:
        """The address of the collector."""
        return self._row().local_address()

    def _shown(self) -> str:
        return f"of {self.peer_address} AS{self.peer_asn}"


class Message(Event):
    """A message that the collector received, or sent."""

    __slots__ = ("_message",)
    _message: bgp.Message | None

    def __init__(self, octets: bytes, header: Header, rows: bytes) -> None:
        super().__init__(octets, header, rows)
        self._message = None

    @property
    def session(self) -> Session:
        """The session that the message is read in, as the subtype says it."""
        return _session_of(self._row().session)

    @property
    def message_octets(self) -> bytes:
        """The octets of the message, whether they are one or not."""
        return self._body(self._row())

    @property
    def message(self) -> bgp.Message:
        """The message. Malformed where the octets are none."""
        if self._message is None:
            self._message = bgp.Message(self.message_octets, self.session)
        return self._message


@functools.lru_cache(maxsize=None)
def _session_of(flags: int) -> Session:
    """The session that flags describe. The library gives four of them."""
    narrow, extended = flags & lib.OCTSEQ_BGP_TWO_OCTET_ASN, flags & lib.OCTSEQ_BGP_EXTENDED_MESSAGE
    return Session(not narrow, Family(flags & ALL), bool(extended))


class StateChange(Event):
    """A change of a session's state."""

    __slots__ = ()

    @property
    def old_state(self) -> int:
        """The state before it, as a number: a `State`, if it is one of those."""
        return self._row().old_state

    @property
    def new_state(self) -> int:
        """The state after it."""
        return self._row().new_state

    def _shown(self) -> str:
        return f"{super()._shown()}, {self.old_state} to {self.new_state}"


def record_of(octets: bytes, header: Header, table: PeerIndexTable | None = None) -> Record:
    """The record that the octets are, with the numbers of its header, and the table that came before it. Malformed."""
    # (a peer and an entry have at least nine and eight octets, and one event has one row)
    rows = _calls.mrt_rows(octets, 1 + len(octets) // 8 if header[2] == 13 else 1)
    kind = _KIND.unpack_from(rows, _KIND_AT)[0]
    if kind == lib.OCTSEQ_MRT_RIB:
        return Rib(octets, header, rows, table)
    return _MADE[kind](octets, header, rows)


_MADE = {
    lib.OCTSEQ_MRT_OPAQUE: OpaqueRecord,
    lib.OCTSEQ_MRT_TABLE: PeerIndexTable,
    lib.OCTSEQ_MRT_MESSAGE: Message,
    lib.OCTSEQ_MRT_STATE_CHANGE: StateChange,
}
