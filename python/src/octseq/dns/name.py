"""Domain names (RFC 1035, 3.1)."""
from __future__ import annotations

from collections.abc import Iterable
from typing import TYPE_CHECKING

from .. import _calls
from .._calls import lib
from ..errors import Malformed
from .numbers import ascii_of

if TYPE_CHECKING:
    from typing_extensions import Buffer

LONGEST_LABEL = 63
"""How many octets a label has at most."""

LONGEST_WIRE = 255
"""How many octets the wire form of a name has at most."""

LONGEST_TEXT = 1004
"""How many octets the text of a name has at most."""


class NoParent(ValueError):
    """The root has no parent."""


class Name:
    """A domain name: its labels, up to the root. It doesn't change.

    Names are equal where their labels are, with ASCII letters of either case as one (RFC 4343), and such names have the
    same hash. Their order is the canonical one (RFC 4034, 6.1): from the last label to the first, by the octets of
    labels in small letters.
    """

    __slots__ = ("_offset", "_source", "_whole")
    _offset: int
    _source: bytes
    _whole: bytes | None

    def __init__(self, labels: Iterable[bytes]) -> None:
        """The name of these labels, from the first to that of the root, which has no octet.

        Malformed where a label of no octets is missing at the end or is elsewhere, or a label has more than 63 octets,
        or the name more than 255 in wire form.
        """
        labels = tuple(labels)
        if any(len(label) > LONGEST_LABEL for label in labels):
            raise Malformed(f"a label has more than {LONGEST_LABEL} octets")
        self._source, self._offset = b"".join(bytes([len(label)]) + label for label in labels), 0
        self._whole = _wire_at(self._source, 0)
        if self._whole != self._source:
            raise Malformed("a label of no octets isn't the last one")

    @classmethod
    def from_text(cls, text: str) -> Name:
        """The name that a text spells, `example.com.` or `example.com`, with the escapes of RFC 1035, 5.1.

        An octet that isn't visible ASCII is written as `\\DDD`. The text is that of a whole name, so the full stop at
        its end may be missing: an empty text is the root. Malformed where it spells no name: a label is empty or has
        more than 63 octets, or the name has more than 255 in wire form.
        """
        octets = ascii_of(text)
        try:
            wire = _calls.octets(LONGEST_WIRE, lib.octseq_dns_name_from_text, octets)
        except Malformed:
            wire = _wire_of_unended(octets)
        return cls._known(wire, 0, wire)

    @classmethod
    def read(cls, data: Buffer, offset: int = 0) -> Name:
        """The name at an offset of the octets, counted from the first of them. Pointers in it are followed.

        Malformed where no name is there (RFC 1035, 4.1.4), or it has more than 127 pointers.
        """
        octets = _calls.frozen(data)
        if not 0 <= offset <= len(octets):
            raise Malformed(f"octets from 0 to {len(octets)} have no offset {offset}")
        wire = _wire_at(octets, offset)
        return cls._known(wire, 0, wire)

    @classmethod
    def _known(cls, octets: bytes, offset: int, wire: bytes | None = None) -> Name:
        """The name that there is at an offset of octets. Its wire form is made when it is first asked for."""
        name = cls.__new__(cls)
        name._source, name._offset, name._whole = octets, offset, wire
        return name

    @property
    def _wire(self) -> bytes:
        if self._whole is None:
            self._whole = _wire_at(self._source, self._offset)
        return self._whole

    def to_text(self) -> str:
        """The text of the name, with a full stop at its end and the escapes of RFC 1035, 5.1."""
        return _calls.text(LONGEST_TEXT, lib.octseq_dns_name_text, self._source, self._offset)

    def to_wire(self) -> bytes:
        """The wire form of the name, without pointers: at most 255 octets."""
        return self._wire

    @property
    def labels(self) -> tuple[bytes, ...]:
        """The labels, from the first to that of the root, which has no octet."""
        wire = self._wire
        return tuple(wire[offset + 1 : offset + 1 + wire[offset]] for offset in self._offsets())

    def parent(self) -> Name:
        """The name without its first label. NoParent where it is the root."""
        if self._wire[0] == 0:
            raise NoParent("the root has no parent")
        return Name._known(self._wire, 1 + self._wire[0])

    def is_subdomain(self, other: Name) -> bool:
        """Whether the name is the other one, or below it."""
        offsets, others = self._offsets(), other._offsets()
        at = len(offsets) - len(others)
        return at >= 0 and _calls.dns_name_compare(self._wire, offsets[at], other._wire, 0) == 0

    def _offsets(self) -> list[int]:
        """Where each label begins, that of the root too."""
        offsets = [0]
        while self._wire[offsets[-1]] != 0:
            offsets.append(offsets[-1] + 1 + self._wire[offsets[-1]])
        return offsets

    def _compare(self, other: Name) -> int:
        return _calls.dns_name_compare(self._source, self._offset, other._source, other._offset)

    def __eq__(self, other: object) -> bool:
        return self._compare(other) == 0 if isinstance(other, Name) else NotImplemented

    def __lt__(self, other: Name) -> bool:
        return self._compare(other) < 0 if isinstance(other, Name) else NotImplemented

    def __le__(self, other: Name) -> bool:
        return self._compare(other) <= 0 if isinstance(other, Name) else NotImplemented

    def __gt__(self, other: Name) -> bool:
        return self._compare(other) > 0 if isinstance(other, Name) else NotImplemented

    def __ge__(self, other: Name) -> bool:
        return self._compare(other) >= 0 if isinstance(other, Name) else NotImplemented

    def __hash__(self) -> int:
        # The length of a label is at most 63, which is no letter, so this makes letters small and nothing else.
        return hash(self._wire.lower())

    def __str__(self) -> str:
        return self.to_text()

    def __repr__(self) -> str:
        return f"<Name {self.to_text()}>"


def _wire_at(octets: bytes | memoryview, offset: int) -> bytes:
    """The wire form of the name at an offset of frozen octets. Malformed."""
    return _calls.octets(LONGEST_WIRE, lib.octseq_dns_name_wire, octets, offset)


def _wire_of_unended(octets: bytes) -> bytes:
    """The wire form of a text that has no full stop at its end. Malformed."""
    try:
        return _calls.octets(LONGEST_WIRE, lib.octseq_dns_name_from_text, octets + b".")
    except Malformed:
        raise Malformed(f"{octets.decode()!r} spells no name") from None


def name_of(value: Name | str) -> Name:
    """A name that is given as one or by its text. Malformed."""
    return value if isinstance(value, Name) else Name.from_text(value)
