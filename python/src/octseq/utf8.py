"""UTF-8 (the Unicode Standard, 3.9): whether octets are it, where they aren't, and their text nevertheless."""
from __future__ import annotations

import codecs
from typing import TYPE_CHECKING, NamedTuple

from . import _calls
from ._calls import lib

if TYPE_CHECKING:
    from typing_extensions import Buffer


class Fault(NamedTuple):
    """The first part of octets that is not well-formed UTF-8."""

    valid_up_to: int
    """How many octets are before it. They are well-formed."""

    error_len: int | None
    """How many octets it has: 1, 2 or 3, or None where the octets end within a character."""


def is_utf8(data: Buffer) -> bool:
    """Whether the octets are well-formed UTF-8 (the Unicode Standard, table 3-7).

    TypeError where `data` has no octets.
    """
    return _calls.is_utf8(_calls.frozen(data))


def first_fault(data: Buffer) -> Fault | None:
    """Where the octets stop being well-formed UTF-8, or None where they are that as a whole.

    A fault is a maximal subpart of an ill-formed subsequence (the Unicode Standard, D93b). TypeError where `data` has
    no octets.
    """
    found = _calls.utf8_fault(_calls.frozen(data))
    return None if found is None else Fault(found[0], found[1] or None)


def lossy(data: Buffer) -> str:
    """The text of the octets, in which each maximal ill-formed part became one U+FFFD.

    That is what the Unicode Standard recommends (3.9, "U+FFFD Substitution of Maximal Subparts"), and what
    `bytes.decode(errors="replace")` answers in CPython. TypeError where `data` has no octets.
    """
    front, rest = _split_at_fault(_calls.frozen(data))
    return front + _calls.text(_calls.lossy_room(len(rest)), lib.octseq_lossy, rest) if rest else front


def _split_at_fault(octets: bytes | memoryview) -> tuple[str, bytes | memoryview]:
    """The text of the octets before the first fault, and the octets from there on."""
    found = _calls.utf8_fault(octets)
    if found is None:
        return str(octets, "utf-8"), b""
    view = memoryview(octets)
    return str(view[: found[0]], "utf-8"), view[found[0] :]


class LossyDecoder(codecs.IncrementalDecoder):
    """`lossy` for octets that come in pieces.

    However the octets are cut, the texts of the pieces are together the text of `lossy`. The decoder holds at most
    three octets, of a character that isn't whole yet. It has one way of handling errors, `errors="replace"`. Threads
    that share a decoder must take turns.
    """

    def __init__(self, errors: str = "replace") -> None:
        """A decoder before its first piece. ValueError where `errors` isn't `replace`."""
        if errors != "replace":
            raise ValueError(f"a LossyDecoder replaces what is ill-formed, it can't handle errors by {errors!r}")
        super().__init__(errors)
        self._held = b""

    def decode(self, data: Buffer, final: bool = False) -> str:
        """The text of the next piece. `final`: no piece comes after it, and the decoder is as it was at first.

        TypeError where `data` has no octets.
        """
        octets = _calls.frozen(data)
        front, rest = ("", octets) if self._held else _split_at_fault(octets)
        middle, held = _calls.lossy_piece(self._held, rest) if rest else ("", self._held)
        end = _calls.lossy_end(held) if final and held else ""
        self._held = b"" if final else held
        return front + middle + end

    def reset(self) -> None:
        """The decoder is as it was before its first piece."""
        self._held = b""

    def getstate(self) -> tuple[bytes, int]:
        """The octets that are held, at most three, and 0."""
        return self._held, 0

    def setstate(self, state: tuple[bytes, int]) -> None:
        """The decoder is as it was when `getstate` answered this. BadState where it can't have answered so."""
        held = bytes(memoryview(state[0]))
        _calls.lossy_piece(held, b"")
        self._held = held
