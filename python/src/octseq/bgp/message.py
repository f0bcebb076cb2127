"""BGP messages (RFC 4271, 4), read and shown."""
from __future__ import annotations

import enum
import functools
import ipaddress
from typing import TYPE_CHECKING, NamedTuple, Union

from .. import _calls
from .._calls import BgpRow, lib
from ..errors import Malformed, malformed_at
from .path import AS_PATH, AsPath, parse_path
from .session import FAMILIES, Family, Session

if TYPE_CHECKING:
    from typing_extensions import Buffer

Network = Union[ipaddress.IPv4Network, ipaddress.IPv6Network]
_KIND_AT = 18
_ATTRIBUTE, _REACHED, _UNREACHED = lib.OCTSEQ_BGP_ATTRIBUTE, lib.OCTSEQ_BGP_REACHED, lib.OCTSEQ_BGP_UNREACHED


@functools.lru_cache(maxsize=1 << 16)
def network_of(octets: bytes, afi: int, bits: int) -> Network:
    """The prefix of an AFI that octets begin with. Prefixes come again and again, so the last ones are kept."""
    size, kind = (4, ipaddress.IPv4Network) if afi == 1 else (16, ipaddress.IPv6Network)
    return kind((octets.ljust(size, b"\0"), bits), strict=False)


class Kind(enum.IntEnum):
    """The types of messages (RFC 4271, 4.1; RFC 2918, 3)."""

    OPEN = 1
    UPDATE = 2
    NOTIFICATION = 3
    KEEPALIVE = 4
    ROUTE_REFRESH = 5


class Prefix(NamedTuple):
    """A prefix of an UPDATE."""

    network: Network
    """The prefix. Bits after its length are 0."""
    family: Family
    """Its address family."""
    path_id: int | None
    """Its path id, if its family has them in the session (RFC 7911, 3)."""

    def __str__(self) -> str:
        return str(self.network) if self.path_id is None else f"{self.network} path {self.path_id}"


class Attribute(NamedTuple):
    """A path attribute of an UPDATE (RFC 4271, 4.3)."""

    flags: int
    """Its flags: 0x80 optional, 0x40 transitive, 0x20 partial, 0x10 a length of two octets."""
    type_code: int
    """Its type."""
    octets: bytes
    """The octets of its value."""
    reached: tuple[Prefix, ...]
    """The prefixes of an MP_REACH_NLRI (RFC 4760, 3) that has the form of its type."""
    unreached: tuple[Prefix, ...]
    """The prefixes of an MP_UNREACH_NLRI (RFC 4760, 4) that has the form of its type."""


class Message:
    """A BGP message. It doesn't change, and keeps the octets that it was read from.

    What an UPDATE has is read with it. Other messages have no attributes and no prefixes.
    """

    __slots__ = ("_octets", "_rows", "_session")
    _octets: bytes
    _rows: list[BgpRow]
    _session: Session

    def __init__(self, data: Buffer, session: Session = Session()) -> None:
        """The message that the octets are, as `from_wire` has it."""
        self._octets = bytes(_calls.frozen(data))
        self._session = session
        try:
            self._rows = _calls.bgp_rows(self._octets, session.flags(), len(self._octets) // 4)
        except Malformed:
            raise _malformed(self._octets, session.flags()) from None

    @classmethod
    def from_wire(cls, data: Buffer, session: Session = Session()) -> Message:
        """The message of a session that the octets are, all of them, with the header.

        Malformed where they are none: their length isn't that of the header, they are more than the session allows, or
        what the header says isn't there. Its `offset` is 0, or that of the first part after the header that isn't
        there. TypeError where `data` has no octets.
        """
        return cls(data, session)

    @property
    def octets(self) -> bytes:
        """The octets that it was read from."""
        return self._octets

    @property
    def session(self) -> Session:
        """The session that it was read in."""
        return self._session

    @property
    def kind(self) -> Kind:
        """Its type."""
        return Kind(self._octets[_KIND_AT])

    @property
    def text(self) -> str:
        """Its text: a line for each of its parts."""
        room = 8 * len(self._octets) + 256
        return _calls.text(room, lib.octseq_bgp_message_text, self._octets, self._session.flags())

    @property
    def withdrawn(self) -> tuple[Prefix, ...]:
        """The prefixes of its withdrawn routes, which are IPv4 unicast."""
        return self._of_kind(lib.OCTSEQ_BGP_WITHDRAWN)

    @property
    def announced(self) -> tuple[Prefix, ...]:
        """The prefixes after its attributes, which are IPv4 unicast."""
        return self._of_kind(lib.OCTSEQ_BGP_ANNOUNCED)

    @property
    def reached(self) -> tuple[Prefix, ...]:
        """The prefixes of each MP_REACH_NLRI (RFC 4760, 3)."""
        return self._of_kind(_REACHED)

    @property
    def unreached(self) -> tuple[Prefix, ...]:
        """The prefixes of each MP_UNREACH_NLRI (RFC 4760, 4)."""
        return self._of_kind(_UNREACHED)

    @property
    def attributes(self) -> tuple[Attribute, ...]:
        """Its path attributes."""
        octets, prefix = self._octets, self._prefix
        attributes: list[Attribute] = []
        reached: list[Prefix] = []
        unreached: list[Prefix] = []
        # (the prefixes inside an attribute follow it)
        for row in reversed(self._rows):
            kind = row.kind
            if kind == _ATTRIBUTE:
                value = octets[row.at : row.at + row.len]
                inside = tuple(reversed(reached)), tuple(reversed(unreached))
                attributes.append(Attribute(row.flags, row.type_code, value, *inside))
                reached, unreached = [], []
            elif kind == _REACHED:
                reached.append(prefix(row))
            elif kind == _UNREACHED:
                unreached.append(prefix(row))
        return tuple(reversed(attributes))

    @property
    def as_path(self) -> AsPath | None:
        """Its AS path: the first AS_PATH. None where it has none that has the form of its type."""
        for row in self._rows:
            if row.type_code == AS_PATH and row.kind == _ATTRIBUTE:
                try:
                    return parse_path(self._octets_of(row), self._session.flags())
                except Malformed:
                    return None
        return None

    def _of_kind(self, kind: int) -> tuple[Prefix, ...]:
        """The prefixes of a kind."""
        return tuple([self._prefix(row) for row in self._rows if row.kind == kind])

    def _octets_of(self, row: BgpRow) -> bytes:
        return self._octets[row.at : row.at + row.len]

    def _prefix(self, row: BgpRow) -> Prefix:
        """The prefix of a row. Its octets may have bits after its length, which have no meaning."""
        network = network_of(self._octets_of(row), row.afi, row.bits)
        return Prefix(network, FAMILIES[row.afi, row.safi], row.path_id if row.has_path_id else None)

    def __str__(self) -> str:
        return self.text

    def __repr__(self) -> str:
        return f"<Message {self.kind.name}, {len(self._octets)} octets>"


def _malformed(octets: bytes, session: int) -> Malformed:
    """The error about octets that are no message of a session."""
    offset = _calls.bgp_message_offset(octets, session)
    if offset == 0:
        reason = f"it doesn't begin with the header of a message of {len(octets)} octets in this session"
    elif offset == len(octets):
        reason = f"it ends at octet {offset}, where more has to come"
    else:
        reason = f"what has to be at octet {offset} isn't there, or isn't whole"
    return malformed_at(offset, f"malformed BGP message: {reason}")
