"""EDNS: what an OPT record says (RFC 6891, 6.1)."""
from __future__ import annotations

import enum
from collections.abc import Iterable
from typing import NamedTuple

from .._calls import lib
from .numbers import Section, within
from .rdata import OPT
from .record import Record

DEFAULT_EDNS_PAYLOAD = 1232
"""How many octets of a UDP payload are accepted unless it is said: those that fit the least MTU of IPv6."""


class EDNSFlag(enum.IntFlag):
    """The flags of an OPT record."""

    DO = lib.OCTSEQ_DNS_DO
    """Records of DNSSEC are accepted (RFC 3225, 3)."""


class Edns(NamedTuple):
    """What an OPT record has to say: 16 flags, the UDP payload size, and the octets of its options."""

    flags: int
    payload: int
    options: bytes

    def record(self, rcode: int) -> Record:
        """The OPT record of EDNS version 0, with the upper eight bits of a response code (RFC 6891, 6.1.3)."""
        ttl = (rcode >> 4) << 24 | self.flags
        return Record(".", OPT, ttl, self.options, rdclass=self.payload, section=Section.ADDITIONAL)


def edns_of(
    use_edns: int | None,
    want_dnssec: bool,
    ednsflags: int | None,
    payload: int | None,
    options: Iterable[tuple[int, bytes]] | None,
) -> Edns | None:
    """The OPT record that the arguments of `make_query` ask for. None: none. ValueError."""
    is_asked = want_dnssec or not (ednsflags is None and payload is None and options is None)
    if use_edns is None and not is_asked or use_edns is not None and (use_edns is False or use_edns == -1):
        return None
    if use_edns is not None and use_edns is not True and use_edns != 0:
        raise ValueError(f"version 0 of EDNS alone is written, not {use_edns}")
    flags = within(ednsflags or 0, 16, "the flags of EDNS") | (EDNSFlag.DO if want_dnssec else 0)
    size = within(DEFAULT_EDNS_PAYLOAD if payload is None else payload, 16, "a payload size")
    return Edns(int(flags), size, wire_of(options or ()))


def wire_of(options: Iterable[tuple[int, bytes]]) -> bytes:
    """The octets of options: of each its code, its length and its octets. ValueError where one is too large."""
    parts = []
    for otype, data in options:
        octets = bytes(memoryview(data))
        parts.append(within(otype, 16, "the code of an option").to_bytes(2, "big"))
        parts.append(within(len(octets), 16, "the length of an option").to_bytes(2, "big") + octets)
    return b"".join(parts)
