"""What the calls of the C library are given, and what their statuses become."""
import sys
import threading
import unittest
from unittest import mock

import octseq
from corpus import samples
from octseq import _calls
from octseq._calls import Row, lib

TOLD = (1 << 8 * _calls.ffi.sizeof("size_t")) - 1
"""What a call says where a text would have more octets than a size can tell."""


class Room(unittest.TestCase):
    """Each call is made with the room that is guessed, none at all, and so is made again with what it takes."""

    def setUp(self) -> None:
        for unit in (_calls._OCTETS, _calls._ROWS):
            # (no room is kept)
            patch = mock.patch.object(unit, "few", -1)
            patch.start()
            self.addCleanup(patch.stop)
        self.octets, self.text = next(sample for sample in samples() if sample.text != "malformed\n")

    def test_texts(self) -> None:
        self.assertEqual(_calls.text(0, lib.octseq_dns_message_text, self.octets), self.text)
        self.assertEqual(_calls.text(0, lib.octseq_lossy, b"a\xffb"), "a\ufffdb")
        self.assertEqual(_calls.text(0, lib.octseq_dns_name_text, b"\x01a\x00", 0), "a.")

    def test_octets(self) -> None:
        self.assertEqual(_calls.octets(0, lib.octseq_dns_name_from_text, b"a.b."), b"\x01a\x01b\x00")
        self.assertEqual(_calls.octets(1, lib.octseq_dns_name_wire, b"\x01a\x00", 0), b"\x01a\x00")

    def test_rows(self) -> None:
        for room in (0, 1, 100):
            rows = _calls.dns_rows(self.octets, room)
            self.assertEqual(len(rows), len(self.text.splitlines()) - 1)
            self.assertEqual([row.section for row in rows], sorted(row.section for row in rows))

    def test_a_size_that_no_memory_has_is_refused(self) -> None:
        for told in (TOLD, sys.maxsize + 1):

            def call(out, room, written) -> int:
                self.assertEqual((len(out), room), (5, 5))
                written[0] = told
                return lib.OCTSEQ_NO_ROOM

            with self.assertRaises(MemoryError):
                _calls._filled(_calls._OCTETS, 5, call)


class KeptRoom(unittest.TestCase):
    """Room for a few is used again, by one call at a time."""

    def setUp(self) -> None:
        self.unit = _calls._Unit("uint8_t", 8)
        self.rooms: list = []

    def write(self, octet: int, inside=lambda: None):
        """A call that writes an octet eight times. Before it returns, `inside` is called."""

        def call(out, room, written) -> int:
            self.rooms.append(out)
            for at in range(8):
                out[at] = octet
            inside()
            written[0] = 8
            return lib.OCTSEQ_OK

        return _calls._filled(self.unit, 3, call)

    def test_it_is_used_again(self) -> None:
        self.assertEqual([self.write(octet) for octet in (1, 2)], [b"\1" * 8, b"\2" * 8])
        self.assertIs(*self.rooms)

    def test_a_call_within_a_call_has_another(self) -> None:
        self.assertEqual(self.write(1, lambda: self.write(2)), b"\1" * 8)
        self.assertIsNot(*self.rooms)
        self.assertEqual(self.write(3, lambda: self.write(4)), b"\3" * 8)
        self.assertEqual(len(self.unit.kept), 2)

    def test_threads_have_one_each(self) -> None:
        wrong: list = []

        def work(octet: int) -> None:
            for _ in range(2000):
                if self.write(octet) != bytes([octet]) * 8:
                    wrong.append(octet)

        threads = [threading.Thread(target=work, args=(octet,)) for octet in range(4)]
        for thread in threads:
            thread.start()
        for thread in threads:
            thread.join()
        self.assertEqual(wrong, [])


class Statuses(unittest.TestCase):
    RAISED = {
        "OCTSEQ_MALFORMED": (octseq.Malformed, ValueError),
        "OCTSEQ_IMMOVABLE": (octseq.Immovable, ValueError),
        "OCTSEQ_TOO_LONG": (octseq.TooLong, ValueError),
        "OCTSEQ_BAD_ROW": (octseq.BadRow, ValueError),
        "OCTSEQ_BAD_STATE": (octseq.BadState, ValueError),
        "OCTSEQ_UNSHOWN": (octseq.Unshown, RuntimeError),
        "OCTSEQ_MEMORY": (MemoryError, Exception),
    }

    def test_each_raises_its_own(self) -> None:
        for name, (raised, kind) in self.RAISED.items():
            self.assertTrue(issubclass(raised, kind))
            with self.assertRaises(raised):
                _calls._check(getattr(lib, name))

    def test_ok_raises_nothing(self) -> None:
        self.assertIsNone(_calls._check(lib.OCTSEQ_OK))

    def test_one_that_is_unknown(self) -> None:
        with self.assertRaisesRegex(RuntimeError, "99"):
            _calls._check(99)

    def test_rows_that_are_none(self) -> None:
        source = b"\x01a\x00\x01\x02\x03\x04"
        for row in (
            Row(0, 3, 4, 0, 1, 1, 0),
            Row(0, 3, 4, 0, 1, 1, 4),
            Row(9, 3, 4, 0, 1, 1, 1),
            Row(0, 3, 5, 0, 1, 1, 1),
            Row(0, sys.maxsize, sys.maxsize, 0, 1, 1, 1),
        ):
            with self.assertRaises(octseq.BadRow):
                _calls.dns_answer(bytes(12), 0, source, [row])


class Frozen(unittest.TestCase):
    def test_bytes_are_passed_as_they_are(self) -> None:
        octets = bytes(range(256))
        self.assertIs(_calls.frozen(octets), octets)

    def test_a_view_of_bytes_is_not_copied(self) -> None:
        octets = bytes(range(256))
        view = _calls.frozen(memoryview(octets)[3:])
        self.assertIs(view.obj, octets)
        self.assertEqual(bytes(_calls.ffi.buffer(_calls._pointer(view))), octets[3:])

    def test_what_may_change_is_copied(self) -> None:
        octets = bytearray(b"abc")
        for data in (octets, memoryview(octets), memoryview(octets).toreadonly(), memoryview(octets)[::-1]):
            self.assertIs(type(_calls.frozen(data)), bytes)


if __name__ == "__main__":
    unittest.main()
