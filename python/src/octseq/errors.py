"""What calls raise, by the status that the C library answers."""
from __future__ import annotations


class Malformed(ValueError):
    """The octets, or the text, aren't what they were read as."""

    offset: int | None = None
    """Where reading octets stopped, counted from the first of them, if that is known."""

    line: int | None = None
    """The number of the line that is refused of the text of a record or a message, from 1 on."""

    offset: int | None = None
    """How many characters of that line come before the word that is refused."""


def malformed_at(offset: int, message: str) -> Malformed:
    """The error about octets, of which reading stopped at an offset."""
    error = Malformed(message)
    error.offset = offset
    return error


def malformed_in(text: str, line: int, offset: int) -> Malformed:
    """The error about a text, of which a word is refused. It shows the line, with a mark under the word."""
    shown = text.split("\n")[line - 1]
    blanks = "".join("\t" if character == "\t" else " " for character in shown[:offset])
    error = Malformed(f"line {line}, offset {offset}: something else has to come here\n{shown}\n{blanks}^")
    error.line, error.offset = line, offset
    return error


class Immovable(ValueError):
    """Data of a record isn't of its type's form and may have pointers, so it can't be moved (RFC 3597, 4)."""


class TooLong(ValueError):
    """A DNS message would have more than 65,535 octets."""


class BadRow(ValueError):
    """A record isn't in the octets that it is said to be in, or its section is none."""


class BadState(ValueError):
    """The state of a reading in pieces is none that a reading left."""


class Unshown(RuntimeError):
    """No text could be made. No octets are known that lead here, but no proof rules it out."""
