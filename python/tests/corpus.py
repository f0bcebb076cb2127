"""The messages of crates/octseq_dns_messages and crates/octseq_bgp_messages, and the records of
crates/octseq_mrt_tests, with the texts that other readers, dnspython and mrtparse, make of them."""
from __future__ import annotations

import pathlib
from typing import NamedTuple

CRATES = pathlib.Path(__file__).resolve().parents[2] / "crates"
FOLDER = CRATES / "octseq_dns_messages"
BGP_FOLDER = CRATES / "octseq_bgp_messages"
MRT_FOLDER = CRATES / "octseq_mrt_tests"


class Sample(NamedTuple):
    """The octets of a message, and its text. The text of what is no message is `malformed` and a line feed."""

    octets: bytes
    text: str


def samples() -> list[Sample]:
    """All messages: 483 of real traffic, and 137 that were made."""
    stream = (FOLDER / "stdin").read_bytes()
    blocks = (FOLDER / "stdout").read_text(encoding="ascii").split("\n\n")
    found, at = [], 0
    for block in blocks[:-1]:
        end = at + 2 + int.from_bytes(stream[at : at + 2], "big")
        found.append(Sample(stream[at + 2 : end], block + "\n"))
        at = end
    if at != len(stream):
        raise ValueError(f"{FOLDER} has a text too few or too many")
    return found


class BgpSample(NamedTuple):
    """A number that says the session of a message, its octets, and its text, `malformed` where there is no message."""

    session: int
    octets: bytes
    text: str


def bgp_samples() -> list[BgpSample]:
    """All messages of BGP: 187 of daemons and captures, and 131 that were made."""
    stream = (BGP_FOLDER / "stdin").read_bytes()
    blocks = (BGP_FOLDER / "stdout").read_text(encoding="utf-8").split("\n\n")
    found, at = [], 0
    for block in blocks[:-1]:
        end = at + 3 + int.from_bytes(stream[at + 1 : at + 3], "big")
        found.append(BgpSample(stream[at], stream[at + 3 : end], block + "\n"))
        at = end
    if at != len(stream):
        raise ValueError(f"{BGP_FOLDER} has a text too few or too many")
    return found


def mrt_stream() -> bytes:
    """Files of MRT records that four daemons wrote, one after another, and then records that were made."""
    return (MRT_FOLDER / "stdin").read_bytes()


def mrt_texts() -> list[list[str]]:
    """The lines of each record's text."""
    blocks = (MRT_FOLDER / "stdout").read_text(encoding="utf-8").split("\n\n")
    return [block.split("\n") for block in blocks[:-1]]
