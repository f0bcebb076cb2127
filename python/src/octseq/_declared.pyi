"""The module that the build makes of octseq.h."""

NUMBERS: dict[str, int]
"""The macros that are numbers."""

STRUCTS: dict[str, list[tuple[str, str, int | None]]]
"""The fields of each struct: the type, the name, and how many of it there are if it is an array."""

CALLS: dict[str, tuple[str, list[str]]]
"""What each call returns, and the types of its parameters: `size_t`, `size_t *`, `const uint8_t *`."""
