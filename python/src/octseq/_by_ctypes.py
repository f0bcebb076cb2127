"""The C library by ctypes, for where cffi isn't installed. It is slower, and answers the same.

`lib` has the calls and numbers of octseq.h, as the build found them there (`_declared`). `ffi` has what `_calls` uses
of cffi, under cffi's names, so that `_calls` is one text for both: `NULL`, `new`, `new_allocator`, `typeof`, `sizeof`,
`from_buffer`, `buffer`, `unpack`. A type is `T`, `T *` or `T[]`.

ctypes passes what it is given: it cuts numbers, takes a number for an address, and lets a call write to `bytes`. So
each argument is compared with the declaration first, and what cffi refuses is refused here: OverflowError for a number
that the type hasn't, TypeError for a pointer to something else, or for another number of arguments. What a call writes
to is made by `new`, and is never moved. What it only reads may be `bytes` too. `from_buffer` copies.
"""
from __future__ import annotations

import ctypes
import operator
import pathlib
from collections.abc import Callable
from types import SimpleNamespace
from typing import Any, NamedTuple, Union

from ._declared import CALLS, NUMBERS, STRUCTS

_LIBRARY = pathlib.Path(__file__).with_name("liboctseq.so")
_START = ctypes.c_uint8 * 0
"""The type of a pointer to memory: an array of no octets that begins there."""


class _Integer:
    """A type of integers."""

    def __init__(self, name: str, made_by: Any, letter: str) -> None:
        """`letter` is what a memoryview calls it."""
        self.name, self.made_by, self.letter = name, made_by, letter
        self.size = ctypes.sizeof(made_by)
        bits = 8 * self.size
        self.least, self.greatest = (-1 << bits - 1, (1 << bits - 1) - 1) if letter.islower() else (0, (1 << bits) - 1)

    def taken(self, value: Any) -> int:
        """A number of this type. TypeError where the value is none, OverflowError where the type hasn't it."""
        number = operator.index(value)
        if not self.least <= number <= self.greatest:
            raise OverflowError(f"{number} is no {self.name}")
        return number

    def array(self, count: int) -> _Numbers:
        return _Numbers(self, count)


class _Fields(ctypes.Structure):
    """What the structs have: a field takes what its type has alone."""

    _types_: dict[str, tuple[_Integer, Any]]

    def __setattr__(self, name: str, value: Any) -> None:
        of, array = self._types_[name]
        super().__setattr__(name, of.taken(value) if array is None else array(*map(of.taken, value)))

    def __getitem__(self, index: int) -> _Fields:
        if index != 0:
            raise IndexError("a pointer to a struct is to one")
        return self


class _Struct:
    """A type of structs."""

    def __init__(self, name: str, fields: list[tuple[str, str, int | None]]) -> None:
        types = {
            field: (_INTEGERS[of], None if count is None else _INTEGERS[of].made_by * count)
            for of, field, count in fields
        }
        declared = [(field, array or of.made_by) for field, (of, array) in types.items()]
        self.name, self.names = name, list(types)
        self.made_by: Any = type(name, (_Fields,), {"_fields_": declared, "_types_": types})
        self.size = ctypes.sizeof(self.made_by)

    def fill(self, struct: _Fields, value: Any) -> _Fields:
        """Gives a struct its fields, by their names or in their order."""
        named = value if isinstance(value, dict) else dict(zip(self.names, value))
        if len(named) != len(value):
            raise ValueError(f"too many fields for {self.name}")
        for name, field in named.items():
            setattr(struct, name, field)
        return struct

    def array(self, count: int) -> _Structs:
        return _Structs(self, count)


class _Array:
    """Things of one type in memory of their own, which nothing moves. They begin with zeros."""

    def __init__(self, of: _Integer | _Struct, count: int) -> None:
        self.of, self.count, self.memory = of, count, bytearray(of.size * count)

    def __len__(self) -> int:
        return self.count


class _Numbers(_Array):
    def __init__(self, of: _Integer, count: int) -> None:
        super().__init__(of, count)
        self._view, self._taken = memoryview(self.memory).cast(of.letter), of.taken

    def __getitem__(self, index: int | slice) -> Any:
        found = self._view[index]
        return found.tolist() if isinstance(index, slice) else found

    def __setitem__(self, index: int, value: Any) -> None:
        self._view[index] = self._taken(value)


class _Structs(_Array):
    def __getitem__(self, index: int | slice) -> Any:
        if isinstance(index, slice):
            return [self[at] for at in range(*index.indices(self.count))]
        if not 0 <= index < self.count:
            raise IndexError(f"{self.count} structs have none at {index}")
        return self.of.made_by.from_buffer(self.memory, index * self.of.size)

    def __setitem__(self, index: int, value: Any) -> None:
        self.of.fill(self[index], value)


_Type = Union[_Integer, _Struct]


class _Null:
    """The pointer to nothing."""


class _Kind(NamedTuple):
    """What `new` makes: one thing, or an array of things."""

    of: _Type
    is_array: bool


_INTEGERS = {
    name: _Integer(name, made_by, letter)
    for name, made_by, letter in (
        ("int8_t", ctypes.c_int8, "b"),
        ("int16_t", ctypes.c_int16, "h"),
        ("int32_t", ctypes.c_int32, "i"),
        ("int64_t", ctypes.c_int64, "q"),
        ("uint8_t", ctypes.c_uint8, "B"),
        ("uint16_t", ctypes.c_uint16, "H"),
        ("uint32_t", ctypes.c_uint32, "I"),
        ("uint64_t", ctypes.c_uint64, "Q"),
        ("size_t", ctypes.c_size_t, "N"),
    )
}
_STRUCTS = {name: _Struct(name, fields) for name, fields in STRUCTS.items()}
_TYPES: dict[str, _Type] = {**_INTEGERS, **_STRUCTS}
_OCTET = _INTEGERS["uint8_t"]
_NULL = _Null()


def _typeof(kind: str | _Kind) -> _Kind:
    """The kind that a text names."""
    if isinstance(kind, _Kind):
        return kind
    name = kind.rstrip("[]* ")
    return _Kind(_TYPES[name], kind.endswith("[]"))


def _new(kind: str | _Kind, value: Any = None) -> Any:
    """One thing (`T *`), or an array of things (`T[]`): of so many, or of these."""
    of, is_array = _typeof(kind)
    if is_array and hasattr(value, "__index__"):
        return of.array(operator.index(value))
    if isinstance(of, _Struct) and not is_array:
        return of.fill(of.made_by(), () if value is None else value)
    if value is None and not is_array:
        return of.array(1)
    things = value if is_array else [value]
    made = of.array(len(things))
    for index, thing in enumerate(things):
        made[index] = thing
    return made


def _buffer(thing: Any, size: int | None = None) -> memoryview:
    """The first octets of a thing, or all of them, as they are in memory."""
    octets = memoryview(thing.memory if isinstance(thing, _Array) else bytes(thing))
    if size is None:
        return octets
    if not 0 <= size <= len(octets):
        raise ValueError(f"{len(octets)} octets have no first {size}")
    return octets[:size]


def _from_buffer(kind: str | _Kind, data: Any) -> bytes:
    """The octets of an object, for a call that reads them."""
    if _typeof(kind) != _Kind(_OCTET, True):
        raise TypeError("a buffer has octets")
    return memoryview(data).tobytes()


def _pointer_to(of: _Type, is_const: bool) -> Callable[[Any], Any]:
    """What turns an argument into a pointer to things of a type, as ctypes takes it."""
    is_lent = is_const and of is _OCTET

    def taken(value: Any) -> Any:
        if is_lent and type(value) is bytes:
            return value
        if isinstance(value, _Array) and value.of is of:
            return _START.from_buffer(value.memory)
        if isinstance(of, _Struct) and isinstance(value, of.made_by):
            return ctypes.byref(value)
        if value is _NULL:
            return None
        raise TypeError(f"{type(value).__name__} is no pointer to {of.name}")

    return taken


class _Call:
    """A call of the library."""

    def __init__(self, name: str, returned: str, parameters: list[str]) -> None:
        self._name = name
        self._taken: list[Callable[[Any], Any]] = []
        types = []
        for parameter in parameters:
            is_const, is_pointer = parameter.startswith("const "), parameter.endswith("*")
            of = _TYPES[parameter.removeprefix("const ").rstrip("* ")]
            types.append(ctypes.c_void_p if is_pointer else of.made_by)
            self._taken.append(_pointer_to(of, is_const) if is_pointer else of.taken)
        self._function = _SHARED[name]
        self._function.argtypes = types
        self._function.restype = _INTEGERS[returned].made_by

    def __call__(self, *arguments: Any) -> int:
        if len(arguments) != len(self._taken):
            raise TypeError(f"{self._name} takes {len(self._taken)} arguments, not {len(arguments)}")
        return self._function(*[taken(one) for taken, one in zip(self._taken, arguments)])


def _opened() -> ctypes.CDLL:
    """The shared library of the package. ImportError where it can't be loaded."""
    try:
        return ctypes.CDLL(str(_LIBRARY))
    except OSError as error:
        raise ImportError(f"octseq finds neither its module of cffi nor its library: {error}") from error


_SHARED = _opened()
ffi = SimpleNamespace(
    NULL=_NULL,
    buffer=_buffer,
    from_buffer=_from_buffer,
    new=_new,
    new_allocator=lambda should_clear_after_alloc=True: _new,
    sizeof=lambda kind: _typeof(kind).of.size,
    typeof=_typeof,
    unpack=lambda array, count: array[:count],
)
lib = SimpleNamespace(**NUMBERS, **{name: _Call(name, *declared) for name, declared in CALLS.items()})
