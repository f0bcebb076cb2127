"""What two speakers of BGP agreed on."""
from __future__ import annotations

import enum
from typing import NamedTuple

from .._calls import lib


class Family(enum.IntFlag):
    """Address families whose prefixes are read (RFC 4760, 5 and 6), and sets of them."""

    IPV4_UNICAST = lib.OCTSEQ_BGP_ADD_PATH_IPV4_UNICAST
    IPV4_MULTICAST = lib.OCTSEQ_BGP_ADD_PATH_IPV4_MULTICAST
    IPV6_UNICAST = lib.OCTSEQ_BGP_ADD_PATH_IPV6_UNICAST
    IPV6_MULTICAST = lib.OCTSEQ_BGP_ADD_PATH_IPV6_MULTICAST


ALL = Family(lib.OCTSEQ_BGP_ADD_PATH)
NONE = Family(0)
FAMILIES = {
    (1, 1): Family.IPV4_UNICAST,
    (1, 2): Family.IPV4_MULTICAST,
    (2, 1): Family.IPV6_UNICAST,
    (2, 2): Family.IPV6_MULTICAST,
}
"""The family of an AFI and a SAFI."""


class Session(NamedTuple):
    """How the messages of a session are read."""

    four_octet_asn: bool = True
    """Whether AS numbers have four octets (RFC 6793) or two."""
    add_path: Family = NONE
    """The families whose prefixes have path ids (RFC 7911)."""
    extended_message: bool = False
    """Whether messages may have 65,535 octets (RFC 8654) or 4,096."""

    def flags(self) -> int:
        """The session as the C library takes it."""
        narrow = 0 if self.four_octet_asn else lib.OCTSEQ_BGP_TWO_OCTET_ASN
        extended = lib.OCTSEQ_BGP_EXTENDED_MESSAGE if self.extended_message else 0
        return narrow | extended | int(self.add_path) & lib.OCTSEQ_BGP_ADD_PATH
