"""The numbers of DNS messages: types and classes of records, flags, sections."""
from __future__ import annotations

import enum

from .. import _calls
from .._calls import lib
from ..errors import Malformed


class Flag(enum.IntFlag):
    """The flags of a header (RFC 1035, 4.1.1; RFC 4035, 3.2 and 3.1.6)."""

    QR = lib.OCTSEQ_DNS_QR
    """It is a response."""
    AA = lib.OCTSEQ_DNS_AA
    """The answer is of an authority."""
    TC = lib.OCTSEQ_DNS_TC
    """It was truncated."""
    RD = lib.OCTSEQ_DNS_RD
    """Recursion is desired."""
    RA = lib.OCTSEQ_DNS_RA
    """Recursion is available."""
    AD = lib.OCTSEQ_DNS_AD
    """The data is authentic."""
    CD = lib.OCTSEQ_DNS_CD
    """Checking is disabled."""


class Section(enum.IntEnum):
    """Where a record is in a message (RFC 1035, 4.1)."""

    ANSWER = 1
    AUTHORITY = 2
    ADDITIONAL = 3


def rdatatype_from_text(text: str) -> int:
    """The number of the type that a text names, `A` or `TYPE1234`, in letters of either case (RFC 3597, 5).

    Malformed where it names none.
    """
    return _calls.number_of(lib.octseq_dns_rtype_from_text, ascii_of(text))


def rdatatype_to_text(value: int) -> str:
    """The mnemonic of a type, `A`, or `TYPE1234` where it has none. ValueError where it isn't from 0 to 65,535."""
    return _calls.mnemonic(lib.octseq_dns_rtype_text, within(value, 16, "a type"))


def rdataclass_from_text(text: str) -> int:
    """The number of the class that a text names, `IN` or `CLASS5`, in letters of either case (RFC 3597, 5).

    Malformed where it names none.
    """
    return _calls.number_of(lib.octseq_dns_class_from_text, ascii_of(text))


def rdataclass_to_text(value: int) -> str:
    """The mnemonic of a class, `IN`, or `CLASS5` where it has none. ValueError where it isn't from 0 to 65,535."""
    return _calls.mnemonic(lib.octseq_dns_class_text, within(value, 16, "a class"))


def rdatatype_of(value: int | str) -> int:
    """A type that is given by its number or its text. ValueError."""
    return rdatatype_from_text(value) if isinstance(value, str) else within(value, 16, "a type")


def rdataclass_of(value: int | str) -> int:
    """A class that is given by its number or its text. ValueError."""
    return rdataclass_from_text(value) if isinstance(value, str) else within(value, 16, "a class")


def within(value: int, bits: int, what: str) -> int:
    """The number, which has at most this many bits. ValueError where it has more or is negative."""
    if not 0 <= value < 1 << bits:
        raise ValueError(f"{what} is a number from 0 to {(1 << bits) - 1}, not {value}")
    return value


def ascii_of(text: str) -> bytes:
    """The octets of a text. Malformed where it isn't ASCII."""
    if not text.isascii():
        raise Malformed(f"{text!r} isn't ASCII")
    return text.encode("ascii")
