"""The data of DNS records, and its fields by the names that dnspython gives them."""
from __future__ import annotations

import enum
import functools
from collections.abc import Callable
from typing import TYPE_CHECKING, Any, NamedTuple, Union

from .. import _calls
from .._calls import Row, lib
from .name import Name
from .numbers import rdataclass_to_text, rdatatype_to_text

OPT = 41
"""The type of OPT records."""


class FieldKind(enum.IntEnum):
    """What a field is."""

    NUMBER = 0
    NAME = 1
    ADDRESS = 2
    STRING = 3
    OCTETS = 4
    TYPES = 5
    PARAMETER = 6


class Parameter(NamedTuple):
    """A parameter of SVCB or HTTPS (RFC 9460, 2.2)."""

    key: int
    value: bytes


class Option(NamedTuple):
    """An option of an OPT record: its code, and its octets (RFC 6891, 6.1.2)."""

    otype: int
    data: bytes


Value = Union[int, Name, str, bytes, "tuple[int, ...]", Parameter, Option]


class Field(NamedTuple):
    """A field of data. Its value is, by its kind:

    NUMBER an int, NAME a `Name`, ADDRESS a text, STRING and OCTETS bytes, TYPES the numbers of the types in ascending
    order, PARAMETER a `Parameter`, or an `Option` of OPT.
    """

    kind: FieldKind
    value: Value


_NUMBER, _NAME, _ADDRESS, _TYPES, _PARAMETER = 0, 1, 2, 5, 6
_KINDS = tuple(FieldKind)
_IPV4 = 4
_field: Callable[[tuple[FieldKind, Value]], Field] = functools.partial(tuple.__new__, Field)

# The names of the fields of each type, as dnspython has them. A name after `*` is that of all fields that are left.
_NAMES: dict[int, tuple[str, ...]] = {
    1: ("address",),
    2: ("target",),
    5: ("target",),
    6: ("mname", "rname", "serial", "refresh", "retry", "expire", "minimum"),
    12: ("target",),
    13: ("cpu", "os"),
    15: ("preference", "exchange"),
    16: ("*strings",),
    28: ("address",),
    33: ("priority", "weight", "port", "target"),
    35: ("order", "preference", "flags", "service", "regexp", "replacement"),
    39: ("target",),
    41: ("*options",),
    43: ("key_tag", "algorithm", "digest_type", "digest"),
    44: ("algorithm", "fp_type", "fingerprint"),
    46: (
        "type_covered",
        "algorithm",
        "labels",
        "original_ttl",
        "expiration",
        "inception",
        "key_tag",
        "signer",
        "signature",
    ),
    47: ("next", "types"),
    48: ("flags", "protocol", "algorithm", "key"),
    49: ("data",),
    50: ("algorithm", "flags", "iterations", "salt", "next", "types"),
    51: ("algorithm", "flags", "iterations", "salt"),
    52: ("usage", "selector", "mtype", "cert"),
    53: ("usage", "selector", "mtype", "cert"),
    59: ("key_tag", "algorithm", "digest_type", "digest"),
    60: ("flags", "protocol", "algorithm", "key"),
    61: ("key",),
    62: ("serial", "flags", "types"),
    64: ("priority", "target", "*params"),
    65: ("priority", "target", "*params"),
    256: ("priority", "weight", "target"),
    257: ("flags", "tag", "value"),
}
_FEW_FIELDS = 16


class Rdata:
    """The data of a record. It doesn't change.

    Its fields are attributes, by the names that dnspython gives them: `preference` and `exchange` of an MX, `target` of
    a CNAME, `strings` of a TXT, `options` of an OPT. Sets of types, the `windows` of dnspython, are `types`, their
    numbers; `params` of SVCB and HTTPS is a dict. `fields` has them all. AttributeError where the data has no such
    field, as where it hasn't the form of its type.

    Data is equal where type, class and fields are: octets, but names with ASCII letters of either case as one.
    """

    __slots__ = ("_fields", "_row", "_source")

    if TYPE_CHECKING:
        address: str
        algorithm: int
        cert: bytes
        cpu: bytes
        data: bytes
        digest: bytes
        digest_type: int
        exchange: Name
        expiration: int
        expire: int
        fingerprint: bytes
        flags: int | bytes
        fp_type: int
        inception: int
        iterations: int
        key: bytes
        key_tag: int
        labels: int
        minimum: int
        mname: Name
        mtype: int
        next: Name | bytes
        options: tuple[Option, ...]
        order: int
        original_ttl: int
        os: bytes
        params: dict[int, bytes]
        port: int
        preference: int
        priority: int
        protocol: int
        refresh: int
        regexp: bytes
        replacement: Name
        retry: int
        rname: Name
        salt: bytes
        selector: int
        serial: int
        service: bytes
        signature: bytes
        signer: Name
        strings: tuple[bytes, ...]
        tag: bytes
        target: Name | bytes
        type_covered: int
        types: tuple[int, ...]
        usage: int
        value: bytes
        weight: int

    def __init__(self, source: bytes, row: Row) -> None:
        """The data of a row of `source`. Records make it."""
        self._source = source
        self._row = row
        self._fields: tuple[Field, ...] | None = None

    @property
    def octets(self) -> bytes:
        """The octets of the data, as they are in the message: names in them may have pointers to offsets in it."""
        return self._octets(self._row.data_at, self._row.data_len)

    @property
    def is_typed(self) -> bool:
        """Whether the data has the form of its type and class, which is one of those that are known."""
        return _calls.dns_data_is_typed(self._source, self._row)

    @property
    def fields(self) -> tuple[Field, ...]:
        """The fields, in the order that its type has them.

        Data that hasn't the form of its type, or whose type isn't known, is one field of octets.
        """
        if self._fields is None:
            value_of, rows = self._value, _calls.dns_data_fields(self._source, self._row, _FEW_FIELDS)
            self._fields = tuple([
                _field((_KINDS[kind], number if kind == _NUMBER else value_of(kind, at, size, number)))
                for at, size, number, kind in rows
            ])
        return self._fields

    def to_text(self) -> str:
        """The text of the data, in the form of its type.

        It is `\\# n` and the octets in hexadecimal (RFC 3597, 5) where the data hasn't the form of a known type.
        """
        row = self._row
        room = 4 * row.data_len + 1024
        numbers = row.data_at, row.data_len, row.rtype, row.rclass
        return _calls.text(room, lib.octseq_dns_data_text, self._source, *numbers)

    def _octets(self, at: int, size: int) -> bytes:
        return self._source[at : at + size]

    def _value(self, kind: int, at: int, size: int, number: int) -> Value:
        """The value of a field that isn't a number."""
        if kind == _NAME:
            return Name._known(self._source, at)
        if kind == _ADDRESS:
            # (an address is all of the data of its type)
            return "%d.%d.%d.%d" % tuple(self._octets(at, size)) if size == _IPV4 else self.to_text()
        octets = self._octets(at, size)
        if kind == _TYPES:
            return _types_of(octets)
        if kind == _PARAMETER:
            return (Option if self._row.rtype == OPT else Parameter)(number, octets)
        return octets

    def _has_names(self) -> bool:
        """Whether the fields are those that the names of its type are for."""
        if self._row.rtype == OPT:
            return all(field.kind == _PARAMETER for field in self.fields)
        return self._row.rtype in _NAMES and self.is_typed

    def __getattr__(self, name: str) -> Any:
        # (it is called where there is no such attribute otherwise)
        names = _NAMES.get(self._row.rtype, ())
        if name in names or f"*{name}" in names:
            if self._has_names():
                return self._named(names, name)
        raise AttributeError(f"{rdatatype_to_text(self._row.rtype)} data has no field {name!r} here")

    def _named(self, names: tuple[str, ...], name: str) -> Any:
        """The field of a name, or all fields from there on."""
        if name in names:
            return self.fields[names.index(name)].value
        rest = tuple(field.value for field in self.fields[names.index(f"*{name}") :])
        return dict(rest) if name == "params" else rest

    def __dir__(self) -> list[str]:
        names = (name.lstrip("*") for name in _NAMES.get(self._row.rtype, ()))
        return sorted({*super().__dir__(), *names})

    def _key(self) -> tuple[int, int, tuple[Field, ...]]:
        return self._row.rtype, self._row.rclass, self.fields

    def __eq__(self, other: object) -> bool:
        return self._key() == other._key() if isinstance(other, Rdata) else NotImplemented

    def __hash__(self) -> int:
        return hash(self._key())

    def __str__(self) -> str:
        return self.to_text()

    def __repr__(self) -> str:
        kind = f"{rdataclass_to_text(self._row.rclass)} {rdatatype_to_text(self._row.rtype)}"
        return f"<Rdata {kind} {self.to_text()}>"


def _types_of(octets: bytes) -> tuple[int, ...]:
    """The numbers of the types of a set: blocks of a window's number, a length, and bits (RFC 4034, 4.1.2)."""
    types, at = [], 0
    while at < len(octets):
        window, size = octets[at], octets[at + 1]
        for index, octet in enumerate(octets[at + 2 : at + 2 + size]):
            types += [256 * window + 8 * index + bit for bit in range(8) if octet & (0x80 >> bit)]
        at += 2 + size
    return tuple(types)
