"""AS paths (RFC 4271, 4.3; RFC 5065, 3)."""
from __future__ import annotations

import enum
import functools
import itertools
import struct
from typing import NamedTuple

from .. import _calls

AS_PATH = 2
"""The type of the attribute."""
_HOP = struct.Struct("=IHH")


class SegmentKind(enum.IntEnum):
    """The types of segments."""

    SET = 1
    SEQUENCE = 2
    CONFED_SEQUENCE = 3
    CONFED_SET = 4


_KINDS = {kind.value: kind for kind in SegmentKind}
_BRACKETS = {1: "{%s}", 2: "%s", 3: "(%s)", 4: "[%s]"}
_BETWEEN = {1: ",", 2: " ", 3: " ", 4: ","}


class Segment(NamedTuple):
    """A segment of an AS path."""

    kind: SegmentKind
    """Its type."""
    asns: tuple[int, ...]
    """Its AS numbers, at least one."""

    def __str__(self) -> str:
        return _BRACKETS[self.kind] % _BETWEEN[self.kind].join(map(str, self.asns))


class AsPath(NamedTuple):
    """An AS path."""

    segments: tuple[Segment, ...]
    """Its segments. A path within one's own AS has none."""

    @property
    def asns(self) -> tuple[int, ...]:
        """All its AS numbers, in the order of the octets, whatever segments they are in."""
        return tuple(itertools.chain.from_iterable(segment.asns for segment in self.segments))

    @property
    def origin(self) -> int | None:
        """The AS number that the route began with: the last one, if it is in a sequence, else None."""
        last = self.segments[-1] if self.segments else None
        return last.asns[-1] if last and last.kind == SegmentKind.SEQUENCE else None

    def __str__(self) -> str:
        return " ".join(map(str, self.segments))


@functools.lru_cache(maxsize=1 << 16)
def parse_path(octets: bytes, session: int) -> AsPath:
    """The AS path that the octets are, in a session, as flags. Malformed. Paths come again and again, so the last ones
    are kept."""
    hops = _calls.bgp_hops(octets, session)
    if not hops:
        return AsPath(())
    asns, kinds, counts = zip(*_HOP.iter_unpack(hops))
    segments, at = [], 0
    while at < len(asns):
        end = at + counts[at]
        segments.append(Segment(_KINDS[kinds[at]], asns[at:end]))
        at = end
    return AsPath(tuple(segments))
