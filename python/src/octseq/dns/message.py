"""DNS messages (RFC 1035, 4), read, shown and written."""
from __future__ import annotations

import secrets
from collections.abc import Iterable
from typing import TYPE_CHECKING

from .. import _calls
from .._calls import Header, Row, lib
from ..errors import Malformed, TooLong, malformed_at
from .edns import edns_of
from .name import Name, name_of
from .numbers import Flag, Section, ascii_of, rdataclass_of, rdatatype_of, within
from .rdata import OPT, Option
from .record import Question, Record, gather

if TYPE_CHECKING:
    from typing_extensions import Buffer

LONGEST_MESSAGE = 65_535
"""How many octets a message has at most that is written."""


class Message:
    """A DNS message. It doesn't change, and keeps the octets that it was read from.

    It is checked when it is read. What its sections have is read when it is first asked for.
    """

    __slots__ = ("_header", "_octets", "_records", "_rows")
    _header: Header
    _octets: bytes
    _records: list[tuple[Record, ...]] | None
    _rows: list[Row] | None

    def __init__(self, data: Buffer) -> None:
        """The message that the octets are, as `from_wire` has it."""
        self._octets = bytes(_calls.frozen(data))
        try:
            self._header = _calls.dns_header(self._octets)
        except Malformed:
            raise _malformed(self._octets) from None
        self._records = None
        self._rows = None

    @classmethod
    def from_wire(cls, data: Buffer) -> Message:
        """The message that the octets are (RFC 1035, 4.1).

        Malformed where they are none: they end too early, go on after the last record, or are more than 65,535, or a
        name isn't where one should be. Its `offset` is that of the first part that isn't there: the header, a question
        or a record, or what follows the last. TypeError where `data` has no octets.
        """
        return cls(data)

    @classmethod
    def from_text(cls, text: str) -> Message:
        """The message that a text is, in the form that `to_text` has, with its names compressed.

        Malformed where it is none: the error shows the line and the word that is refused, which are at its `line` and
        `offset`. TooLong where the message would have more than 65,535 octets.
        """
        ascii_of(text)
        return cls(_calls.dns_message_from_text(text))

    @property
    def octets(self) -> bytes:
        """The octets that it was read from."""
        return self._octets

    @property
    def id(self) -> int:
        """The number by which a query and its response belong together, from 0 to 65,535."""
        return self._header.id

    @property
    def flags(self) -> int:
        """The second two octets of the header: the bits of `Flag`, the opcode and the lower response code."""
        return self._header.flags

    def opcode(self) -> int:
        """The kind of query, from 0 to 15: 0 is a query, 5 an update (RFC 1035, 4.1.1; RFC 2136, 1.3)."""
        return (self.flags >> 11) & 15

    def rcode(self) -> int:
        """The response code, from 0 to 4,095: 0 is no error.

        Its lower four bits are in the header, its upper eight in an OPT record, if there is one (RFC 6891, 6.1.3).
        """
        return (self.flags & 15) | ((self.ednsflags >> 20) & 0xFF0)

    @property
    def edns(self) -> int:
        """The version of EDNS that its OPT record has, or -1 where it has none (RFC 6891, 6.1.3)."""
        opt = self._opt()
        return -1 if opt is None else (opt.ttl >> 16) & 255

    @property
    def ednsflags(self) -> int:
        """The 32 bits of the OPT record: eight of the response code, eight of the version, and 16 flags. 0: none."""
        opt = self._opt()
        return 0 if opt is None else opt.ttl

    @property
    def payload(self) -> int:
        """The number of octets of the largest UDP payload that the sender accepts. 0: it has no OPT record."""
        opt = self._opt()
        return 0 if opt is None else opt.rdclass

    @property
    def options(self) -> tuple[Option, ...]:
        """The options of the OPT record. Malformed where its data isn't options up to its end (RFC 6891, 6.1.2)."""
        opt = self._opt()
        options: tuple[Option, ...] | None = () if opt is None else getattr(opt.rdata, "options", None)
        if options is None:
            raise Malformed("the data of an OPT record isn't options")
        return options

    def _opt(self) -> Record | None:
        """The first OPT record."""
        return next((record for record in self.additionals if record.rdtype == OPT), None)

    @property
    def questions(self) -> tuple[Question, ...]:
        """The questions."""
        return tuple(Question(self._octets, row) for row in self._entries() if row.section == 0)

    @property
    def answers(self) -> tuple[Record, ...]:
        """The records that answer the question."""
        return self._in_section(Section.ANSWER)

    @property
    def authorities(self) -> tuple[Record, ...]:
        """The records of an authority."""
        return self._in_section(Section.AUTHORITY)

    @property
    def additionals(self) -> tuple[Record, ...]:
        """The additional records. A record of type OPT is one of them."""
        return self._in_section(Section.ADDITIONAL)

    def _entries(self) -> list[Row]:
        """The rows of all questions and records."""
        if self._rows is None:
            header = self._header
            count = header.qdcount + header.ancount + header.nscount + header.arcount
            self._rows = _calls.dns_rows(self._octets, count)
        return self._rows

    def _in_section(self, section: Section) -> tuple[Record, ...]:
        if self._records is None:
            records: list[list[Record]] = [[] for _ in range(Section.ADDITIONAL + 1)]
            for row in self._entries():
                if row.section:
                    records[row.section].append(Record._of_row(self._octets, row))
            self._records = [tuple(found) for found in records]
        return self._records[section]

    def to_text(self) -> str:
        """A line for the header, and one for each question and record, after the name of its section."""
        return _calls.text(4 * len(self._octets) + 256, lib.octseq_dns_message_text, self._octets)

    def to_wire(self, max_size: int = LONGEST_MESSAGE) -> bytes:
        """The octets of the message, written anew, with its names compressed (RFC 1035, 4.1.4; RFC 3597, 4).

        A response of more than `max_size` octets has those of its records that come before the first with which it has
        more, an OPT record first, and the flag TC (RFC 2181, 9; RFC 6891, 7). Immovable where a record's data isn't of
        its type's form and may have pointers; TooLong where a query or the questions of a response have more octets
        than `max_size`; ValueError where that isn't from 0 to 65,535.
        """
        within(max_size, 16, "a size")
        whole = _calls.octets(LONGEST_MESSAGE, lib.octseq_dns_rewrite, self._octets)
        if len(whole) <= max_size:
            return whole
        if not self.flags & Flag.QR:
            raise TooLong(f"the query has {len(whole)} octets")
        rows = sorted((row for row in self._entries() if row.section), key=lambda row: not _is_opt(row))
        return _calls.dns_answer_within(self._octets, self.flags, self._octets, rows, max_size)

    def __str__(self) -> str:
        return self.to_text()

    def __repr__(self) -> str:
        return f"<Message {self.id}, {len(self._octets)} octets>"


def _is_opt(row: Row) -> bool:
    """Whether a row is that of an OPT record."""
    return row.rtype == OPT and row.section == Section.ADDITIONAL


def _malformed(octets: bytes) -> Malformed:
    """The error about octets that are no message."""
    _, offset = _calls.dns_message_offset(octets)
    size = len(octets)
    if size > LONGEST_MESSAGE:
        reason = f"it has {size} octets, and may have {LONGEST_MESSAGE}"
    elif offset == 0:
        reason = f"it ends at octet {size}, within the header"
    elif _calls.dns_message_offset(octets[:offset])[0]:
        reason = f"it goes on at octet {offset}, where its last record or question ends"
    elif offset == size:
        reason = f"it ends at octet {size}, and its header counts more questions or records"
    else:
        reason = f"the question or record at octet {offset} isn't whole, or has no name where one has to be"
    return malformed_at(offset, f"malformed DNS message: {reason}")


def make_query(
    qname: Name | str,
    rdtype: int | str,
    rdclass: int | str = "IN",
    *,
    id: int | None = None,
    flags: int = Flag.RD,
    use_edns: int | None = None,
    want_dnssec: bool = False,
    ednsflags: int | None = None,
    payload: int | None = None,
    options: Iterable[tuple[int, bytes]] | None = None,
) -> Message:
    """A message with one question. Its number is random where `id` is None.

    It has an OPT record where `use_edns` is 0, the version, or True, and also where that is None and one of the
    arguments after it is given (RFC 6891, 6.1): `want_dnssec` sets the flag DO, `ednsflags` are 16 flags, `payload` is
    the UDP payload size, or 1,232, and each of `options` is an `Option`, or a code and octets.

    Malformed where a text spells no name, names no type or no class; TooLong where options have too many octets;
    ValueError where a number is too large, or the version isn't 0.
    """
    number = secrets.randbelow(1 << 16) if id is None else within(id, 16, "a message's number")
    text = ascii_of(name_of(qname).to_text())
    query = number, within(flags, 16, "the flags"), text, rdatatype_of(rdtype), rdataclass_of(rdclass)
    edns = edns_of(use_edns, want_dnssec, ednsflags, payload, options)
    if edns is None:
        return Message(_calls.dns_query(*query))
    return Message(_calls.dns_query_edns(query, edns.payload, edns.flags, edns.options))


def make_response(
    query: Message,
    records: Iterable[Record] = (),
    flags: int = 0,
    *,
    rcode: int | None = None,
    use_edns: int | None = None,
    ednsflags: int | None = None,
    payload: int | None = None,
    options: Iterable[tuple[int, bytes]] | None = None,
    max_size: int | None = None,
) -> Message:
    """The response to a message, with these records, each in its section, in the order that they have here.

    It has the number, the opcode, the flag RD and the questions of the query, the flag QR, and of `flags` the response
    code and all other flags. `rcode` is a response code from 0 to 4,095 in place of that of `flags`.

    It has an OPT record as `make_query` has one, and also where `rcode` has more than four bits. That comes before the
    other additional records. With `max_size`, it has the records that come before the first with which it would have
    more octets, and the flag TC exactly where it lacks one (RFC 2181, 9).

    Immovable where the data of a record isn't of its type's form and may have pointers, or records of a second message
    have pointers into that; TooLong where it would have more than 65,535 octets, or its questions alone more than
    `max_size`; ValueError where a number is too large, the version of EDNS isn't 0, or a response code of more than
    four bits has no OPT record.
    """
    code = within(flags, 16, "the flags") & 15 if rcode is None else within(rcode, 12, "a response code")
    flags = flags & ~15 | code & 15
    edns = edns_of(0 if use_edns is None and code > 15 else use_edns, False, ednsflags, payload, options)
    if edns is None and code > 15:
        raise ValueError(f"the response code {code} takes an OPT record")
    source, rows = gather(([] if edns is None else [edns.record(code)]) + list(records))
    if max_size is None:
        return Message(_calls.dns_answer(query.octets, flags, source, rows))
    return Message(_calls.dns_answer_within(query.octets, flags, source, rows, within(max_size, 16, "a size")))
