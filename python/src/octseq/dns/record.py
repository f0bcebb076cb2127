"""Questions and records of DNS messages (RFC 1035, 4.1.2 and 4.1.3)."""
from __future__ import annotations

import struct
from typing import TYPE_CHECKING

from .. import _calls
from .._calls import Row
from .name import Name, name_of
from .numbers import (
    Section,
    ascii_of,
    rdataclass_of,
    rdataclass_to_text,
    rdatatype_of,
    rdatatype_to_text,
    within,
)
from .rdata import Rdata

if TYPE_CHECKING:
    from typing_extensions import Buffer

# Octets that have no name at any offset, as many as a pointer can lead to. After them, data has no pointer to a name.
_NO_NAMES = b"\x80" * (1 << 14)
_EMPTY_MESSAGE = bytes(12)


class _Entry:
    """What questions and records have. Each has the octets that its row's offsets are in."""

    __slots__ = ("_name", "_row", "_source")
    _name: Name | None
    _row: Row
    _source: bytes

    @property
    def name(self) -> Name:
        """Its name, read when it is first asked for."""
        if self._name is None:
            self._name = Name._known(self._source, self._row.name_at)
        return self._name

    @property
    def rdtype(self) -> int:
        """The number of its type: 1 is A."""
        return self._row.rtype

    @property
    def rdclass(self) -> int:
        """The number of its class: 1 is IN."""
        return self._row.rclass

    def to_text(self) -> str:
        """Its text, one line."""
        raise NotImplementedError

    def __str__(self) -> str:
        return self.to_text()

    def __repr__(self) -> str:
        return f"<{type(self).__name__} {self.to_text()}>"


class Question(_Entry):
    """A question of a message: of which name, type and class records are asked for.

    Questions are equal where those three are.
    """

    __slots__ = ()

    def __init__(self, source: bytes, row: Row) -> None:
        """The question of a row of `source`. Messages make it."""
        self._name = None
        self._row = row
        self._source = source

    def to_text(self) -> str:
        """Name, class and type: `example.com. IN A`."""
        return f"{self.name} {rdataclass_to_text(self.rdclass)} {rdatatype_to_text(self.rdtype)}"

    def __eq__(self, other: object) -> bool:
        if not isinstance(other, Question):
            return NotImplemented
        return (self.rdtype, self.rdclass, self.name) == (other.rdtype, other.rdclass, other.name)

    def __hash__(self) -> int:
        return hash((self.rdtype, self.rdclass, self.name))


class Record(_Entry):
    """A record of a message, or one that is made for a message."""

    __slots__ = ("_is_alone",)
    _is_alone: bool

    def __init__(
        self,
        name: Name | str,
        rdtype: int | str,
        ttl: int,
        data: Buffer,
        *,
        rdclass: int | str = "IN",
        section: Section = Section.ANSWER,
    ) -> None:
        """A record with these octets of data, in which names have no pointers. `ttl` is in seconds.

        Immovable where the data isn't of its type's form and may have pointers; TooLong where no message has room for
        it; Malformed where a text spells no name, names no type or no class; ValueError where a number is too large.
        """
        self._name = name_of(name)
        wire, octets = self._name.to_wire(), bytes(memoryview(data))
        numbers = within(ttl, 32, "a TTL"), rdatatype_of(rdtype), rdataclass_of(rdclass)
        self._row = Row(0, len(wire), len(octets), *numbers, Section(section))
        self._source = wire + octets
        self._is_alone = True
        _calls.dns_answer(_EMPTY_MESSAGE, 0, _NO_NAMES + self._source, [_moved(self._row, len(_NO_NAMES))])

    @classmethod
    def from_text(cls, text: str, *, section: Section = Section.ANSWER) -> Record:
        """The record that a line is, as `to_text` has it: `example.com. 300 IN A 192.0.2.1` (RFC 1035, 5.1).

        The TTL and the class come in either order, and each name ends with a full stop. Malformed where it is none: the
        error shows the word that is refused, which is at its `line`, that is 1, and `offset`. Immovable where
        octets that are given as such may have pointers; TooLong where no message has room for the record.
        """
        ascii_of(text)
        octets = _calls.dns_record_from_text(text)
        name = Name.read(octets)
        middle = len(name.to_wire())
        rtype, rclass, ttl = struct.unpack_from(">HHI", octets, middle)
        return cls(name, rtype, ttl, octets[middle + 10 :], rdclass=rclass, section=section)

    @classmethod
    def _of_row(cls, source: bytes, row: Row) -> Record:
        """The record of a row of a message."""
        record = cls.__new__(cls)
        record._name = None
        record._row = row
        record._source = source
        record._is_alone = False
        return record

    @property
    def ttl(self) -> int:
        """For how many seconds it may be kept."""
        return self._row.ttl

    @property
    def section(self) -> Section:
        """The section of a message that it is in, or is made for."""
        return Section(self._row.section)

    @property
    def rdata(self) -> Rdata:
        """Its data, whose fields are attributes: `record.rdata.preference`."""
        return Rdata(self._source, self._row)

    data = rdata

    def in_section(self, section: Section) -> Record:
        """The same record, for another section of a message."""
        record = Record._of_row(self._source, self._row._replace(section=Section(section)))
        record._is_alone = self._is_alone
        return record

    def to_text(self) -> str:
        """Name, TTL, class, type and data: `example.com. 300 IN A 192.0.2.1`."""
        kind = f"{rdataclass_to_text(self.rdclass)} {rdatatype_to_text(self.rdtype)}"
        return f"{self.name} {self.ttl} {kind} {self.rdata}"

    def _alone(self) -> Record:
        """The same record without the message it is in. Immovable where its data has pointers into that."""
        if self._is_alone:
            return self
        row = self._row
        return Record(self.name, row.rtype, row.ttl, self.rdata.octets, rdclass=row.rclass, section=self.section)


def _moved(row: Row, distance: int) -> Row:
    """The row, once its source begins this many octets further on."""
    return row._replace(name_at=row.name_at + distance, data_at=row.data_at + distance)


def gather(records: list[Record]) -> tuple[bytes, list[Row]]:
    """One source for all records, and their rows in it.

    The octets of the first message that a record is in are its front, so pointers of that message's records lead where
    they did. Other records have no pointers. Immovable where one has.
    """
    front = next((record._source for record in records if not record._is_alone), b"")
    parts, rows, size = [front], [], len(front)
    for record in records:
        if not record._is_alone and record._source is front:
            rows.append(record._row)
            continue
        alone = record._alone()
        rows.append(_moved(alone._row, size))
        parts.append(alone._source)
        size += len(alone._source)
    return b"".join(parts), rows
