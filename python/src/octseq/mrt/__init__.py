"""MRT files (RFC 6396, RFC 8050), as collectors of BGP write them: tables of routes, and messages as they came.

`open` reads a file of any size, a record at a time.
"""
from .reader import CutOff, Reader, open
from .record import (
    Event,
    Message,
    OpaqueRecord,
    Peer,
    PeerIndexTable,
    Record,
    Rib,
    RibEntry,
    State,
    StateChange,
)

__all__ = [
    "CutOff",
    "Event",
    "Message",
    "OpaqueRecord",
    "Peer",
    "PeerIndexTable",
    "Reader",
    "Record",
    "Rib",
    "RibEntry",
    "State",
    "StateChange",
    "open",
]
