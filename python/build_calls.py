"""What the build makes of the C library, so that Python can call it in two ways.

By cffi: the module octseq._c, which has the library in it. By ctypes, where cffi isn't installed: the module
octseq._declared, and the shared library beside it. The declarations of both are those of octseq.h, and none is written
a second time.

The library is in the folder that the environment variable OCTSEQ_PREFIX names, or else in out/c of the repository,
where bin/build-c puts it.
"""
from __future__ import annotations

import os
import pathlib
import pprint
import re
import sys
from typing import TYPE_CHECKING, NamedTuple

if TYPE_CHECKING:
    from cffi import FFI

HEADER, ARCHIVE, SHARED = "include/octseq.h", "lib/liboctseq.a", "lib/liboctseq.so"
USUAL = pathlib.Path(__file__).resolve().parents[1] / "out/c"
HOW = "Run bin/build-c in the octseq repository, or set OCTSEQ_PREFIX to the PREFIX that it was run with."
INTEGERS = {"size_t", *(f"{sign}int{bits}_t" for sign in ("", "u") for bits in (8, 16, 32, 64))}

_STRUCT = re.compile(r"typedef struct (\w+) \{ (.*?;) \} \1 ?;")
_FIELD = re.compile(r"(\w+) (\w+)(?:\[(\d+)\])? ?; ?")
_CALL = re.compile(r"(\w+) (\w+)\((.*?)\) ?;")
_PARAMETER = re.compile(r"(const )?(\w+) (\*?)\w+")
_MACRO = re.compile(r"#define (\w+)(\(| |$)(.*)")
_NUMBER = re.compile(r"(0x[0-9A-Fa-f]+|[0-9]+)u?")


class Declared(NamedTuple):
    """What octseq.h declares."""

    numbers: dict[str, int]
    """The macros that are numbers."""
    structs: dict[str, list[tuple[str, str, int | None]]]
    """The fields of each struct: the type, the name, and how many of it there are if it is an array."""
    calls: dict[str, tuple[str, list[str]]]
    """What each call returns, and the types of its parameters: `size_t`, `size_t *`, `const uint8_t *`."""


def prefix() -> pathlib.Path:
    """The folder of the C library. The build ends with a message where it isn't there."""
    value = os.environ.get("OCTSEQ_PREFIX")
    folder = pathlib.Path(value).resolve() if value else USUAL
    missing = [name for name in (HEADER, ARCHIVE, SHARED) if not (folder / name).is_file()]
    if missing:
        found = f"OCTSEQ_PREFIX is {folder}, which" if value else f"OCTSEQ_PREFIX isn't set, and {folder}"
        sys.exit(f"octseq: {found} has no {' and no '.join(missing)}. {HOW}")
    return folder


def _without_comments(header: str) -> str:
    """The text of a header for C alone, without comments, each macro on one line."""
    text = re.sub(r"/\*.*?\*/", " ", header, flags=re.DOTALL)
    text = re.sub(r"#ifdef __cplusplus.*?#endif", "", text, flags=re.DOTALL)
    return re.sub(r"\\\n", " ", text)


def _not_understood(what: str) -> ValueError:
    return ValueError(f"octseq.h has what this build doesn't understand: {what[:200]!r}")


def _numbers(text: str) -> dict[str, int]:
    """The macros that are numbers. Those with parameters, of no value and of a text are for C alone."""
    found = {}
    for name, mark, rest in _MACRO.findall(text):
        value = rest.strip()
        if mark == "(" or not value or value.startswith('"'):
            continue
        number = _NUMBER.fullmatch(value)
        if number is None:
            raise _not_understood(f"#define {name} {value}")
        found[name] = int(number[1], 0)
    return found


def _fields(text: str) -> list[tuple[str, str, int | None]]:
    """The fields of a struct, from what is between its braces."""
    fields, at = [], 0
    while at < len(text):
        field = _FIELD.match(text, at)
        if field is None or field[1] not in INTEGERS:
            raise _not_understood(text[at:])
        fields.append((field[1], field[2], int(field[3]) if field[3] else None))
        at = field.end()
    return fields


def _parameters(text: str, structs: dict[str, list[tuple[str, str, int | None]]]) -> list[str]:
    """The types of parameters, from what is between the parentheses."""
    types = []
    for one in text.split(","):
        found = _PARAMETER.fullmatch(one.strip())
        if found is None or not (found[2] in INTEGERS or (found[2] in structs and found[3])):
            raise _not_understood(one)
        types.append(f"{found[1] or ''}{found[2]}{' *' if found[3] else ''}")
    return types


def declared(header: str) -> Declared:
    """What a header declares. ValueError where it has anything else: a call is never left out."""
    text = _without_comments(header)
    found = Declared(_numbers(text), {}, {})
    rest = " ".join(word for line in text.splitlines() if not line.startswith("#") for word in line.split())
    while rest:
        if struct := _STRUCT.match(rest):
            found.structs[struct[1]] = _fields(struct[2])
        elif (call := _CALL.match(rest)) and call[1] in INTEGERS:
            found.calls[call[2]] = call[1], _parameters(call[3], found.structs)
        else:
            raise _not_understood(rest)
        rest = rest[(struct or call).end() :].lstrip()
    return found


def declarations(header: str) -> str:
    """What a header declares, as cffi takes it: the numbers, and the text of types and calls."""
    text = _without_comments(header)
    lines = [line for line in text.splitlines() if not line.startswith("#")]
    return "\n".join([f"#define {number} ..." for number in declared(header).numbers] + lines)


def module(header: str) -> str:
    """The text of octseq._declared: what a header declares, as ctypes takes it."""
    head = '"""What octseq.h declares. The build made this of it, by build_calls.py."""\n'
    found = declared(header)
    tables = {"NUMBERS": found.numbers, "STRUCTS": found.structs, "CALLS": found.calls}
    return head + "".join(
        f"\n{name} = {pprint.pformat(table, width=100, sort_dicts=False)}\n" for name, table in tables.items()
    )


def make(folder: pathlib.Path) -> FFI:
    """The module octseq._c over the library of a folder, as cffi writes it in C."""
    from cffi import FFI

    made = FFI()
    made.cdef(declarations((folder / HEADER).read_text(encoding="utf-8")))
    made.set_source("octseq._c", '#include "octseq.h"')
    return made
