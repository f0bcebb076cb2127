"""A reader of MRT files."""
from __future__ import annotations

import bz2
import gzip
import io
import os
from collections.abc import Iterator
from types import TracebackType
from typing import BinaryIO, Union, cast

from .. import _calls
from ..errors import Malformed
from .record import PeerIndexTable, Record, Rib, record_of

Source = Union[str, "os.PathLike[str]", BinaryIO]
BLOCK = 1 << 20
"""How many octets are read at a time."""
_GZIP = b"\x1f\x8b\x08"
_BZIP2 = b"BZh"
_BZIP2_BLOCKS = b"1AY&SY", b"\x17rE8P\x90"
"""What follows the level of bzip2: the first block, or the end. A record's time may be `BZh` and a digit."""
_HEADER = 12


class CutOff(Malformed):
    """A file ends inside a record."""


def open(source: Source) -> Reader:
    """The records of a file, which is plain, or compressed by gzip or bzip2.

    `source` is a path, or a binary file that is open already, which isn't closed then. OSError, EOFError where the file
    can't be read or decompressed.
    """
    if isinstance(source, (str, os.PathLike)):
        file = io.open(source, "rb")
        return Reader(_plain(file), file)
    return Reader(_plain(source), None)


def _plain(file: BinaryIO) -> BinaryIO:
    """What a file has, decompressed if need be. Its first octets tell."""
    buffered = io.BufferedReader(cast("io.RawIOBase", file), BLOCK) if not hasattr(file, "peek") else file
    head = buffered.peek(10)[:10]  # type: ignore[union-attr]
    if head.startswith(_GZIP):
        return cast(BinaryIO, gzip.GzipFile(fileobj=buffered, mode="rb"))
    if head.startswith(_BZIP2) and head[4:10] in _BZIP2_BLOCKS:
        return cast(BinaryIO, bz2.BZ2File(buffered))
    return cast(BinaryIO, buffered)


class Reader:
    """An iterator over the records of a file. It holds a block of the file, and no record that it gave.

    CutOff where the file ends inside a record, after all records before it. A reader is for one thread at a time.
    """

    __slots__ = ("_file", "_owned", "_records")
    _file: BinaryIO
    _owned: BinaryIO | None
    _records: Iterator[Record]

    def __init__(self, file: BinaryIO, owned: BinaryIO | None = None) -> None:
        """The records of a binary file, from where it is, and the file that `close` closes."""
        self._file, self._owned = file, owned
        self._records = _records(file)

    def __iter__(self) -> Iterator[Record]:
        return self._records

    def __next__(self) -> Record:
        return next(self._records)

    def close(self) -> None:
        """Closes the file, if it was opened here."""
        if self._owned is not None:
            self._owned.close()

    def __enter__(self) -> Reader:
        return self

    def __exit__(
        self, kind: type[BaseException] | None, error: BaseException | None, trace: TracebackType | None
    ) -> None:
        self.close()

    def __repr__(self) -> str:
        return f"<Reader of {getattr(self._owned or self._file, 'name', self._file)!r}>"


def _records(file: BinaryIO) -> Iterator[Record]:
    """The records of a file."""
    table: PeerIndexTable | None = None
    header_of = _calls.mrt_header
    octets, at = b"", 0
    while True:
        header = header_of(octets[at : at + _HEADER])
        end = at + (_HEADER if header is None else header[0])
        if header is None or end > len(octets):
            if not (octets := _more(file, octets[at:], end - at)):
                return
            at = 0
            continue
        record = record_of(octets[at:end], header, table)
        at = end
        if type(record) is PeerIndexTable:
            table = record
        yield record


def _more(file: BinaryIO, octets: bytes, wanted: int) -> bytes:
    """The octets that are left, and at least so many as are wanted, with what the file has after them. None: the file
    has ended. CutOff where it has fewer.

    It asks for a block at a time, so that a length that no file has takes no memory."""
    parts, size = [octets], len(octets)
    while size < wanted:
        block = file.read(BLOCK)
        if not block:
            break
        parts.append(block)
        size += len(block)
    if 0 < size < wanted:
        raise CutOff(f"the file ends inside a record, after {size} of its octets")
    return b"".join(parts)
