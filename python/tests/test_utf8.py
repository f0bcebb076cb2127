"""is_utf8, first_fault and lossy, beside CPython's decoder and the Unicode Standard."""
import array
import mmap
import unittest

import octseq
from utf8_vectors import FIRST_OCTETS, STANDARD, TEXTS, broken_texts, fault_of, short_strings, three_octets


class OnOctets(unittest.TestCase):
    def check(self, octets: bytes) -> None:
        fault = fault_of(octets)
        if octseq.is_utf8(octets) is not (fault is None) or octseq.first_fault(octets) != fault:
            self.fail(f"{octets!r}: is_utf8, first_fault")
        if octseq.lossy(octets) != octets.decode(errors="replace"):
            self.fail(f"{octets!r}: lossy")

    def test_all_strings_of_at_most_two_octets(self) -> None:
        for octets in short_strings():
            self.check(octets)

    def test_all_strings_of_three_octets_by_class(self) -> None:
        # A first octet decides by its class alone which octets may follow. All 16.8 million strings would take
        # minutes one by one; these are all that follow each end of each class.
        for first in FIRST_OCTETS:
            for octets in three_octets(first):
                self.check(octets)

    def test_all_strings_of_three_octets_in_lines(self) -> None:
        # And here are all of them, each followed by a line feed, which is no part of a character.
        lines = bytearray(b"\n" * (4 << 16))
        lines[1::4] = b"".join(bytes([second]) * 256 for second in range(256))
        lines[2::4] = bytes(range(256)) * 256
        for first in range(256):
            lines[0::4] = bytes([first]) * (1 << 16)
            if octseq.lossy(lines) != lines.decode(errors="replace"):
                self.fail(f"strings that begin with {first}")

    def test_texts(self) -> None:
        for text in TEXTS:
            octets = text.encode()
            self.assertIs(octseq.is_utf8(octets), True)
            self.assertIsNone(octseq.first_fault(octets))
            self.assertEqual(octseq.lossy(octets), text)
            self.check(octets[:-1])

    def test_broken_texts(self) -> None:
        for octets in broken_texts(2_000):
            self.check(octets)

    def test_examples_of_the_standard(self) -> None:
        for octets, text in STANDARD:
            self.assertEqual(octseq.lossy(bytes.fromhex(octets)), text)
            self.assertIs(octseq.is_utf8(bytes.fromhex(octets)), False)

    def test_texts_that_grow_past_the_first_room(self) -> None:
        for octets in (b"\xff" * 100_000, b"a" * 70_000 + b"\xff" * 70_000):
            self.assertEqual(octseq.lossy(octets), octets.decode(errors="replace"))


class OfFaults(unittest.TestCase):
    def test_a_fault_has_names(self) -> None:
        fault = octseq.first_fault(b"abc\xe2\x82x")
        self.assertIsInstance(fault, octseq.Fault)
        self.assertEqual((fault.valid_up_to, fault.error_len), (3, 2))

    def test_the_end_within_a_character_has_no_length(self) -> None:
        self.assertEqual(octseq.first_fault(b"abc\xe2\x82"), octseq.Fault(3, None))


class OnOtherObjects(unittest.TestCase):
    def objects(self):
        octets = b"h\xc3\xa9 \xe2\x82"
        yield bytearray(octets)
        yield memoryview(octets)
        yield memoryview(b"??" + octets + b"??")[2:-2]
        yield memoryview(bytearray(octets))
        yield memoryview(bytes(reversed(octets)))[::-1]
        yield memoryview(b"".join(bytes([octet, 63]) for octet in octets))[::2]
        yield memoryview(octets).cast("H")
        yield memoryview(octets).cast("B", (2, 3))
        yield array.array("B", octets)
        with mmap.mmap(-1, len(octets)) as memory:
            memory[:] = octets
            yield memory

    def test_they_are_read_as_bytes_are(self) -> None:
        for data in self.objects():
            with self.subTest(type(data).__name__):
                self.assertIs(octseq.is_utf8(data), False)
                self.assertEqual(octseq.first_fault(data), (4, None))
                self.assertEqual(octseq.lossy(data), "hé \ufffd")

    def test_a_length_that_an_object_makes_up_is_not_used(self) -> None:
        class Longer(bytes):
            def __len__(self) -> int:
                return 1 << 40

        self.assertIs(octseq.is_utf8(Longer(b"abc")), True)
        self.assertIsNone(octseq.first_fault(Longer(b"abc")))
        self.assertEqual(octseq.lossy(Longer(b"a\xffc")), "a\ufffdc")

    def test_nothing_holds_a_buffer_after_a_call(self) -> None:
        octets = bytearray(b"a\xffb")
        self.assertEqual(octseq.lossy(octets), "a\ufffdb")
        octets.append(0x63)
        self.assertEqual(octseq.lossy(octets), "a\ufffdbc")

    def test_no_octets_at_all(self) -> None:
        for data in (b"", bytearray(), memoryview(b""), memoryview(b"abc")[3:]):
            self.assertIs(octseq.is_utf8(data), True)
            self.assertIsNone(octseq.first_fault(data))
            self.assertEqual(octseq.lossy(data), "")

    def test_what_has_no_octets_is_refused(self) -> None:
        for call in (octseq.is_utf8, octseq.first_fault, octseq.lossy, octseq.LossyDecoder().decode):
            for data in ("text", 5, None, [1, 2], object()):
                with self.assertRaises(TypeError):
                    call(data)

    def test_a_view_that_was_released_is_refused(self) -> None:
        view = memoryview(b"abc")
        view.release()
        for call in (octseq.is_utf8, octseq.first_fault, octseq.lossy, octseq.LossyDecoder().decode):
            with self.assertRaises(ValueError):
                call(view)


if __name__ == "__main__":
    unittest.main()
