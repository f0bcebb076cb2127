"""UTF-8 texts, DNS and BGP messages, and MRT files, read and written by calls that are formally proved.

The calls are those of the C library `octseq`, which is a part of this package: for all octets each of them returns,
touches no memory but its own, and answers what its contract says. `octseq.dns` has the names and messages of DNS,
`octseq.bgp` the messages of BGP, `octseq.mrt` the files of its collectors.

`octseq.calls_by` is "cffi" where that is installed, or else "ctypes", by which calls take longer.
"""
from ._calls import calls_by
from .errors import BadRow, BadState, Immovable, Malformed, TooLong, Unshown
from .utf8 import Fault, LossyDecoder, first_fault, is_utf8, lossy

__all__ = [
    "BadRow",
    "BadState",
    "Fault",
    "Immovable",
    "LossyDecoder",
    "Malformed",
    "TooLong",
    "Unshown",
    "calls_by",
    "first_fault",
    "is_utf8",
    "lossy",
]
