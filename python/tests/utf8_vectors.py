"""Octets for the tests of UTF-8, and what CPython says of them."""
from __future__ import annotations

import random
from collections.abc import Iterator

# Both ends of each class of first octets of the Unicode Standard, table 3-7, and of the octets that are no first ones.
FIRST_OCTETS = bytes.fromhex("00 7F 80 BF C0 C1 C2 DF E0 E1 EC ED EE EF F0 F1 F3 F4 F5 FF")

TEXTS = [
    "",
    "Hello, world",
    "Zwölf Boxkämpfer jagen Viktor quer über den großen Sylter Deich",
    "Γαζέες καὶ μυρτιὲς δὲν θὰ βρῶ πιὰ στὸ χρυσαφὶ ξέφωτο",
    "В чащах юга жил бы цитрус? Да, но фальшивый экземпляр!",
    "いろはにほへとちりぬるを わかよたれそつねならむ",
    "他们为什么不说中文？",
    "👩‍👩‍👧‍👦 🇪🇺 𝄞 𐍈 \U0010ffff \U00010000",
    "\x00\x7f\x80\u07ff\u0800\ud7ff\ue000\uffff\ufffd",
]

# The Unicode Standard, tables 3-8 to 3-11: octets, and the text that each of them becomes.
STANDARD = [
    ("C0 AF E0 80 BF F0 81 82 41", "\ufffd" * 8 + "A"),
    ("ED A0 80 ED BF BF ED AF 41", "\ufffd" * 8 + "A"),
    ("F4 91 92 93 FF 41 80 BF 42", "\ufffd" * 5 + "A" + "\ufffd" * 2 + "B"),
    ("E1 80 E2 F0 91 92 F1 BF 41", "\ufffd" * 4 + "A"),
]


def short_strings() -> Iterator[bytes]:
    """All strings of at most two octets."""
    yield b""
    for first in range(256):
        yield bytes([first])
        for second in range(256):
            yield bytes([first, second])


def three_octets(first: int) -> Iterator[bytes]:
    """All strings of three octets that begin with this one."""
    for pair in range(1 << 16):
        yield bytes([first, pair >> 8, pair & 255])


def broken_texts(count: int) -> Iterator[bytes]:
    """Texts of several scripts in which some octets were changed, removed or doubled. They are always the same."""
    chance = random.Random(20_211)
    for _ in range(count):
        octets = bytearray("".join(chance.choices(TEXTS, k=2)).encode())
        for _ in range(chance.randrange(4)):
            offset = chance.randrange(len(octets) + 1)
            octets[offset : offset + chance.randrange(3)] = chance.randbytes(chance.randrange(3))
        yield bytes(octets)


def fault_of(octets: bytes) -> tuple[int, int | None] | None:
    """The first fault, as CPython tells it."""
    try:
        octets.decode()
    except UnicodeDecodeError as error:
        ends_early = error.reason == "unexpected end of data"
        return error.start, None if ends_early else error.end - error.start
    return None
