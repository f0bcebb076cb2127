"""LossyDecoder: pieces of octets, beside CPython's decoder on the whole, and as one of the codecs module."""
import codecs
import io
import random
import threading
import unittest

import octseq
from utf8_vectors import FIRST_OCTETS, STANDARD, TEXTS, broken_texts, short_strings, three_octets


def decode(pieces) -> str:
    """The text of octets in pieces. The last call has no octets."""
    decoder = octseq.LossyDecoder()
    return "".join([decoder.decode(piece) for piece in pieces] + [decoder.decode(b"", final=True)])


def cut(octets: bytes, offsets) -> list:
    """The octets in pieces, which begin at these offsets."""
    ends = [*offsets, len(octets)]
    return [octets[start:end] for start, end in zip([0, *offsets], ends)]


class InPieces(unittest.TestCase):
    def test_short_strings_octet_by_octet(self) -> None:
        for octets in short_strings():
            if decode(cut(octets, range(1, len(octets)))) != octets.decode(errors="replace"):
                self.fail(repr(octets))

    def test_strings_of_three_octets_with_two_cuts(self) -> None:
        # The first octets of characters of three and four octets, and the ends of the classes that can follow them.
        following = bytes.fromhex("00 7F 80 8F 90 9F A0 BF C0 C2 E0 F0 F4 FF")
        for first in FIRST_OCTETS:
            for octets in (bytes([first, second, third]) for second in following for third in range(256)):
                text = octets.decode(errors="replace")
                for offsets in ((1,), (2,), (1, 2)):
                    if decode(cut(octets, offsets)) != text:
                        self.fail(f"{octets!r} cut at {offsets}")

    def test_all_strings_of_three_octets_in_lines(self) -> None:
        # The length of a piece has no factor in common with that of a line, so lines are cut at each of their offsets.
        for first in FIRST_OCTETS:
            octets = b"".join(string + b"\n" for string in three_octets(first))
            if decode(cut(octets, range(997, len(octets), 997))) != octets.decode(errors="replace"):
                self.fail(f"strings that begin with {first}")

    def test_broken_texts_cut_at_random(self) -> None:
        chance = random.Random(7)
        for octets in broken_texts(1_000):
            offsets = sorted(chance.choices(range(len(octets) + 1), k=chance.randrange(8)))
            if decode(cut(octets, offsets)) != octets.decode(errors="replace"):
                self.fail(f"{octets!r} cut at {offsets}")

    def test_examples_of_the_standard_cut_everywhere(self) -> None:
        for octets, text in STANDARD:
            whole = bytes.fromhex(octets)
            for offset in range(len(whole) + 1):
                self.assertEqual(decode([whole[:offset], whole[offset:]]), text)

    def test_the_last_piece_may_have_octets(self) -> None:
        decoder = octseq.LossyDecoder()
        self.assertEqual(decoder.decode(b"a\xe2"), "a")
        self.assertEqual(decoder.decode(b"\x82\xac\xe2", final=True), "€\ufffd")
        self.assertEqual(decoder.decode(b"\x82", final=True), "\ufffd")

    def test_pieces_may_be_any_octets(self) -> None:
        self.assertEqual(decode([bytearray(b"a\xe2"), memoryview(b"?\x82\xac?")[1:3], b"\xff"]), "a€\ufffd")

    def test_a_refused_piece_changes_nothing(self) -> None:
        decoder = octseq.LossyDecoder()
        self.assertEqual(decoder.decode(b"\xe2\x82"), "")
        with self.assertRaises(TypeError):
            decoder.decode("text")
        self.assertEqual(decoder.decode(b"\xac"), "€")


class State(unittest.TestCase):
    def test_it_is_the_octets_of_a_character(self) -> None:
        decoder = octseq.LossyDecoder()
        self.assertEqual(decoder.getstate(), (b"", 0))
        decoder.decode(b"a\xf0\x9f\x91")
        self.assertEqual(decoder.getstate(), (b"\xf0\x9f\x91", 0))

    def test_it_can_be_set(self) -> None:
        decoder = octseq.LossyDecoder()
        decoder.setstate((b"\xe2\x82", 0))
        self.assertEqual(decoder.decode(b"\xac"), "€")

    def test_reset_forgets_it(self) -> None:
        decoder = octseq.LossyDecoder()
        decoder.decode(b"\xe2\x82")
        decoder.reset()
        self.assertEqual(decoder.getstate(), (b"", 0))
        self.assertEqual(decoder.decode(b"a", final=True), "a")

    def test_no_other_is_taken(self) -> None:
        decoder = octseq.LossyDecoder()
        decoder.decode(b"\xe2")
        for held in (b"a", b"\xff", b"\x80", b"\xed\xa0", "é".encode(), b"\xf0\x9f\x91\x91", b"\xe2\x82\xac" * 99):
            with self.assertRaises(octseq.BadState):
                decoder.setstate((held, 0))
        self.assertEqual(decoder.decode(b"\x82\xac"), "€")

    def test_other_ways_of_errors_are_refused(self) -> None:
        self.assertEqual(octseq.LossyDecoder("replace").errors, "replace")
        with self.assertRaises(ValueError):
            octseq.LossyDecoder("strict")


NAME = "octseq_lossy_of_a_test"


def search(name: str):
    """The codec of the tests: it decodes by a LossyDecoder."""
    if name != NAME:
        return None
    utf8 = codecs.lookup("utf-8")
    kinds = {"incrementalencoder": utf8.incrementalencoder, "incrementaldecoder": octseq.LossyDecoder}
    return codecs.CodecInfo(utf8.encode, utf8.decode, name=NAME, **kinds)


class AsACodec(unittest.TestCase):
    def setUp(self) -> None:
        codecs.register(search)
        if hasattr(codecs, "unregister"):
            self.addCleanup(codecs.unregister, search)

    def test_it_is_an_incremental_decoder(self) -> None:
        self.assertIsInstance(octseq.LossyDecoder(), codecs.IncrementalDecoder)

    def test_iterdecode(self) -> None:
        for octets in broken_texts(100):
            pieces = [octets[offset : offset + 5] for offset in range(0, len(octets), 5)]
            self.assertEqual("".join(codecs.iterdecode(pieces, NAME, "replace")), octets.decode(errors="replace"))

    def test_text_files(self) -> None:
        octets = "\n".join(TEXTS).encode() * 300 + b"\xf0\x9f"
        with io.TextIOWrapper(io.BytesIO(octets), encoding=NAME, errors="replace", newline="") as file:
            self.assertEqual(file.read(), octets.decode(errors="replace"))

    def test_offsets_in_text_files(self) -> None:
        octets = "\n".join(TEXTS).encode() + b"\xff\xe2\x82\n"
        text = octets.decode(errors="replace")
        with io.TextIOWrapper(io.BytesIO(octets), encoding=NAME, errors="replace", newline="") as file:
            for count in range(0, len(text), 7):
                file.seek(0)
                self.assertEqual(file.read(count), text[:count])
                offset = file.tell()
                self.assertEqual(file.read(), text[count:])
                file.seek(offset)
                self.assertEqual(file.read(), text[count:])

    def test_line_ends(self) -> None:
        decoder = io.IncrementalNewlineDecoder(octseq.LossyDecoder(), translate=True)
        pieces = (b"a\r", b"\n\xe2\x82", b"\xac\r\n", b"\xe2")
        self.assertEqual("".join(map(decoder.decode, pieces)) + decoder.decode(b"", True), "a\n€\n\ufffd")


class InThreads(unittest.TestCase):
    def test_decoders_of_threads_share_nothing(self) -> None:
        texts = {}

        def read(number: int) -> None:
            octets = TEXTS[number].encode() * 200 + b"\xff"
            texts[number] = decode(octets[offset : offset + 11] for offset in range(0, len(octets), 11))

        threads = [threading.Thread(target=read, args=(number,)) for number in range(1, 7)]
        for thread in threads:
            thread.start()
        for thread in threads:
            thread.join()
        self.assertEqual(texts, {number: TEXTS[number] * 200 + "\ufffd" for number in range(1, 7)})


if __name__ == "__main__":
    unittest.main()
