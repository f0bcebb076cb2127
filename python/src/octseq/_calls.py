"""The calls of the C library.

cffi makes them, by the module `_c`; where that can't be imported, as without cffi, ctypes does (`_by_ctypes`). `lib`
and `ffi` are the same for this file: a call that octseq.h has is in both `lib`s, and of cffi only what `_by_ctypes`
names is used here.

The library is proved on what a caller promises (octseq.h). This file is what promises it: no other file of the package
makes pointers for it, but `_by_ctypes` does what cffi would do, and no proof covers these two. What it has to keep:

- A pointer and the length after it are of one object, which lives until the call is over, and isn't moved till then.
- Nobody writes to octets during a call. Other threads run meanwhile, so `frozen` copies all octets but those of
  `bytes`. An object of a class made from `bytes` may tell another length, so it is copied too.
- What is written overlaps nothing: each call has room that nobody else has meanwhile.
- What a call wrote is copied before its room goes, or is another's, rows too.
- No length is above PTRDIFF_MAX, which is `sys.maxsize`: so much room isn't asked for.
"""
from __future__ import annotations

import functools
import struct
import sys
from collections.abc import Callable, Iterator, Sequence
from typing import TYPE_CHECKING, Any, NamedTuple

from .errors import BadRow, BadState, Immovable, Malformed, TooLong, Unshown, malformed_in

try:
    from ._c import ffi, lib
except ImportError:
    from ._by_ctypes import ffi, lib

    calls_by = "ctypes"
else:
    calls_by = "cffi"

if TYPE_CHECKING:
    from typing_extensions import Buffer

Call = Callable[..., int]
_Room = tuple[Any, int, Any, Any]
"""What a call writes to, how many have room in it, where it writes how many there are, and the octets of it all."""
_array_of = ffi.new_allocator(should_clear_after_alloc=False)
_OK, _NO_ROOM = lib.OCTSEQ_OK, lib.OCTSEQ_NO_ROOM
_SIZE, _ORDER, _NUMBER = ffi.typeof("size_t *"), ffi.typeof("int32_t *"), ffi.typeof("uint16_t *")
_HEADER, _STATE = ffi.typeof("octseq_dns_header *"), ffi.typeof("octseq_lossy_state *")
_MRT_HEADER = ffi.typeof("octseq_mrt_header *")
_HEADER_NUMBERS, _MRT_NUMBERS = struct.Struct("@6H"), struct.Struct("@NIHH")
_ROW, _FIELD, _BGP_ROW = struct.Struct("@NNNIHHI4x"), struct.Struct("@NNII"), struct.Struct("@NNIIHHBBBB")


class _Unit:
    """What calls write: octets, or rows of a kind. Rooms for a few are kept: who takes one is its only user."""

    __slots__ = ("few", "kept", "kind", "size")

    def __init__(self, name: str, few: int) -> None:
        self.kind, self.size, self.few = ffi.typeof(f"{name}[]"), ffi.sizeof(name), few
        self.kept: list[_Room] = []

    def room(self, size: int) -> _Room:
        """Room for so many."""
        out = _array_of(self.kind, size)
        return out, size, ffi.new(_SIZE), ffi.buffer(out)


_OCTETS, _ROWS, _FIELDS = _Unit("uint8_t", 1024), _Unit("octseq_dns_row", 64), _Unit("octseq_dns_field", 64)
_BGP_ROWS, _HOPS, _MRT_ROWS = _Unit("octseq_bgp_row", 64), _Unit("octseq_bgp_hop", 64), _Unit("octseq_mrt_row", 64)
_RAISED: dict[int, tuple[type[Exception], str]] = {
    lib.OCTSEQ_MALFORMED: (Malformed, "it isn't what it is read as"),
    lib.OCTSEQ_IMMOVABLE: (Immovable, "data of a record isn't of its type's form and may have pointers"),
    lib.OCTSEQ_TOO_LONG: (TooLong, "the message, or the data of a record, would have more than 65,535 octets"),
    lib.OCTSEQ_BAD_ROW: (BadRow, "a record isn't in its octets, or its section is none"),
    lib.OCTSEQ_BAD_STATE: (BadState, "no reading in pieces left this state"),
    lib.OCTSEQ_UNSHOWN: (Unshown, "no text could be made"),
    lib.OCTSEQ_MEMORY: (MemoryError, "a request for memory was refused"),
}


class Header(NamedTuple):
    """The header of a DNS message, as `octseq_dns_header` has it."""

    id: int
    flags: int
    qdcount: int
    ancount: int
    nscount: int
    arcount: int


class Row(NamedTuple):
    """A question or a record, as `octseq_dns_row` has it. Offsets are counted from the first octet of its source."""

    name_at: int
    data_at: int
    data_len: int
    ttl: int
    rtype: int
    rclass: int
    section: int


class BgpRow(NamedTuple):
    """A prefix or a path attribute, as `octseq_bgp_row` has it. Offsets are counted from the message's first octet."""

    at: int
    len: int
    kind: int
    path_id: int
    has_path_id: int
    afi: int
    safi: int
    bits: int
    flags: int
    type_code: int


_row: Callable[[tuple[Any, ...]], Row] = functools.partial(tuple.__new__, Row)
_bgp_row: Callable[[tuple[Any, ...]], BgpRow] = functools.partial(tuple.__new__, BgpRow)


def frozen(data: Buffer) -> bytes | memoryview:
    """The octets of an object, where nobody can write to them: `bytes`, or a view of `bytes`.

    TypeError where the object has no octets, ValueError where it is a view that was released.
    """
    if type(data) is bytes:
        return data
    view = memoryview(data)
    is_frozen = type(view.obj) is bytes and view.format == "B" and view.ndim == 1 and view.c_contiguous
    return view if is_frozen else bytes(view)


def _pointer(octets: bytes | memoryview) -> Any:
    """Frozen octets as a call takes them. cffi copies none, ctypes those of a view."""
    return octets if type(octets) is bytes else ffi.from_buffer(_OCTETS.kind, octets)


def _check(status: int) -> None:
    """Raises what a status means, unless it is OK."""
    if status != lib.OCTSEQ_OK:
        raised, message = _RAISED.get(status, (RuntimeError, f"the C library answered {status}"))
        raise raised(message)


def _filled(unit: _Unit, room: int, call: Call, *arguments: Any) -> bytes:
    """What a call wrote: octets, or rows as they are in memory. `room` is a guess of how many they are."""
    while True:
        try:
            lent = unit.kept.pop() if room <= unit.few else unit.room(room)
        except IndexError:
            lent = unit.room(unit.few)
        out, size, count, written = lent
        status = call(*arguments, out, size, count)
        room = count[0]
        made = bytes(written[: room * unit.size]) if status == _OK else b""
        if size == unit.few:
            unit.kept.append(lent)
        if status == _OK:
            return made
        if status != _NO_ROOM:
            _check(status)
        if room > sys.maxsize:
            raise MemoryError("no memory has room for the answer")


def octets(room: int, call: Call, data: bytes, *numbers: int) -> bytes:
    """The octets that a call makes of frozen ones. `room` is a guess of how many they are."""
    return _filled(_OCTETS, room, call, _pointer(data), len(data), *numbers)


def text(room: int, call: Call, data: bytes | memoryview, *numbers: int) -> str:
    """The text that a call makes of frozen octets. `room` is a guess of how many octets it has."""
    return str(_filled(_OCTETS, room, call, _pointer(data), len(data), *numbers), "utf-8")


def is_utf8(data: bytes | memoryview) -> bool:
    """Whether frozen octets are UTF-8."""
    return lib.octseq_is_utf8(_pointer(data), len(data)) == 1


def utf8_fault(data: bytes | memoryview) -> tuple[int, int] | None:
    """Where frozen octets stop being UTF-8, and how many octets are ill-formed there. None: they are UTF-8."""
    valid_up_to, error_len = ffi.new(_SIZE), ffi.new(_SIZE)
    if lib.octseq_utf8_fault(_pointer(data), len(data), valid_up_to, error_len) == lib.OCTSEQ_OK:
        return None
    return valid_up_to[0], error_len[0]


def _state_of(held: bytes) -> Any:
    """The state of a reading that holds these octets, at most 3. BadState."""
    if len(held) > 3:
        _check(lib.OCTSEQ_BAD_STATE)
    return ffi.new(_STATE, {"octets": held, "len": len(held)})


def lossy_piece(held: bytes, data: bytes | memoryview) -> tuple[str, bytes]:
    """The text of frozen octets that come after those that are held, and what is held after them. BadState."""
    state = _state_of(held)
    room = lossy_room(len(held) + len(data))
    written = _filled(_OCTETS, room, lib.octseq_lossy_piece, state, _pointer(data), len(data))
    return str(written, "utf-8"), bytes(state.octets[0 : state.len])


def lossy_end(held: bytes) -> str:
    """The text of the octets that are held, where none come after them. BadState."""
    return str(_filled(_OCTETS, 3, lib.octseq_lossy_end, _state_of(held)), "utf-8")


def lossy_room(size: int) -> int:
    """A guess of how long the text of octets is: it has three for each of them at most, and mostly one."""
    return min(3 * size, size + 65_536)


def dns_header(data: bytes) -> Header:
    """The header of a message. Malformed."""
    header = ffi.new(_HEADER)
    _check(lib.octseq_dns_message_header(data, len(data), header))
    return Header._make(_HEADER_NUMBERS.unpack(ffi.buffer(header)))


def dns_rows(data: bytes, room: int) -> list[Row]:
    """The questions and the records of a message. `room` is a guess of how many they are. Malformed."""
    rows = _filled(_ROWS, room, lib.octseq_dns_rows, data, len(data))
    return list(map(_row, _ROW.iter_unpack(rows)))


def dns_query(number: int, flags: int, name: bytes, rtype: int, rclass: int) -> bytes:
    """The query for a name, which is text. Malformed."""
    return _filled(_OCTETS, 271, lib.octseq_dns_query, number, flags, name, len(name), rtype, rclass)


def dns_answer(query: bytes, flags: int, source: bytes, rows: Sequence[Row]) -> bytes:
    """The answer to a message, with rows whose offsets are in `source`. Malformed, BadRow, Immovable, TooLong."""
    array = ffi.new(_ROWS.kind, rows)
    arguments = query, len(query), flags, source, len(source), array, len(array)
    return _filled(_OCTETS, 65_535, lib.octseq_dns_answer, *arguments)


def dns_name_compare(one: bytes, one_offset: int, other: bytes, other_offset: int) -> int:
    """-1, 0 or 1: how the name at one offset compares with that at another. Malformed."""
    order = ffi.new(_ORDER)
    _check(lib.octseq_dns_name_compare(one, len(one), one_offset, other, len(other), other_offset, order))
    return order[0]


def dns_data_is_typed(data: bytes, row: Row) -> bool:
    """Whether the data of a row has the form of its type and class."""
    numbers = row.data_at, row.data_len, row.rtype, row.rclass
    return lib.octseq_dns_data_is_typed(data, len(data), *numbers) == 1


def dns_data_fields(data: bytes, row: Row, room: int) -> Iterator[tuple[int, int, int, int]]:
    """Of each field of the data of a row the offset, the length, the number and the kind, as `octseq_dns_field` has
    them. `room` is a guess of how many fields there are. Malformed."""
    _, at, size, _, rtype, rclass, _ = row
    rows = _filled(_FIELDS, room, lib.octseq_dns_data_fields, data, len(data), at, size, rtype, rclass)
    return _FIELD.iter_unpack(rows)


def dns_message_offset(data: bytes) -> tuple[bool, int]:
    """Whether octets are a message, and where reading them stops."""
    offset = ffi.new(_SIZE)
    return lib.octseq_dns_message_fault(data, len(data), offset) == lib.OCTSEQ_OK, offset[0]


def bgp_message_offset(data: bytes, session: int) -> int:
    """Where reading octets as a message of a session stops."""
    offset = ffi.new(_SIZE)
    lib.octseq_bgp_message_fault(data, len(data), session, offset)
    return offset[0]


def bgp_rows(data: bytes, session: int, room: int) -> list[BgpRow]:
    """The parts of an UPDATE of a session. `room` is a guess of how many they are. Malformed."""
    rows = _filled(_BGP_ROWS, room, lib.octseq_bgp_rows, data, len(data), session)
    return list(map(_bgp_row, _BGP_ROW.iter_unpack(rows)))


def mnemonic(call: Call, number: int) -> str:
    """The mnemonic of a type or a class."""
    return str(_filled(_OCTETS, 32, call, number), "utf-8")


def number_of(call: Call, name: bytes) -> int:
    """The number of the type or the class that a text names. Malformed."""
    number = ffi.new(_NUMBER)
    _check(call(name, len(name), number))
    return number[0]


def dns_query_edns(query: tuple[int, int, bytes, int, int], payload: int, flags: int, options: bytes) -> bytes:
    """The query for a name, as `dns_query` takes it, with an OPT record. Malformed, TooLong."""
    number, flags_of_query, name, rtype, rclass = query
    arguments = number, flags_of_query, name, len(name), rtype, rclass, payload, flags, options, len(options)
    return _filled(_OCTETS, 282 + len(options), lib.octseq_dns_query_edns, *arguments)


def dns_answer_within(query: bytes, flags: int, source: bytes, rows: Sequence[Row], limit: int) -> bytes:
    """The answer to a message within a limit. Malformed, BadRow, Immovable, TooLong."""
    array = ffi.new(_ROWS.kind, rows)
    arguments = query, len(query), flags, source, len(source), array, len(array), limit
    return _filled(_OCTETS, limit, lib.octseq_dns_answer_within, *arguments)


def bgp_hops(data: bytes, session: int) -> bytes:
    """The AS numbers of an AS path of a session, as `octseq_bgp_hop` has them. Malformed."""
    return _filled(_HOPS, len(data) // 2, lib.octseq_bgp_as_path, data, len(data), session)


def mrt_header(data: bytes) -> tuple[int, int, int, int] | None:
    """Of the record that octets begin with: how many octets it has, its time, type and subtype. None: more octets are
    needed to tell."""
    header = ffi.new(_MRT_HEADER)
    if lib.octseq_mrt_record_header(data, len(data), header) != lib.OCTSEQ_OK:
        return None
    return _MRT_NUMBERS.unpack(ffi.buffer(header))


def mrt_rows(data: bytes, room: int) -> bytes:
    """The parts of a record, as `octseq_mrt_row` has them. `room` is a guess of how many they are. Malformed."""
    return _filled(_MRT_ROWS, room, lib.octseq_mrt_rows, data, len(data))


def mrt_attributes(data: bytes, room: int) -> bytes:
    """The attributes of all entries of a RIB, as `octseq_bgp_row` has them. `room` is a guess of how many they are.
    Malformed."""
    return _filled(_BGP_ROWS, room, lib.octseq_mrt_attributes, data, len(data))


def dns_record_from_text(text: str) -> bytes:
    """The octets of the record that a text is, which is ASCII. Malformed, with the offset; TooLong, MemoryError."""
    octets, offset = text.encode("ascii"), ffi.new(_SIZE)

    def call(*arguments: Any) -> int:
        return lib.octseq_dns_record_from_text(*arguments, offset)

    try:
        return _filled(_OCTETS, len(octets) + 512, call, octets, len(octets))
    except Malformed:
        raise malformed_in(text, 1, offset[0]) from None


def dns_message_from_text(text: str) -> bytes:
    """The message that a text is, which is ASCII. Malformed, with the offset; TooLong, MemoryError."""
    octets, line, offset = text.encode("ascii"), ffi.new(_SIZE), ffi.new(_SIZE)

    def call(*arguments: Any) -> int:
        return lib.octseq_dns_message_from_text(*arguments, line, offset)

    try:
        return _filled(_OCTETS, 65_535, call, octets, len(octets))
    except Malformed:
        raise malformed_in(text, line[0], offset[0]) from None
