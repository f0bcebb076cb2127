"""The two ways to call the C library, cffi and ctypes, take and refuse the same."""
import pathlib
import re
import subprocess
import sys
import unittest

import octseq
from octseq import _by_ctypes, _calls, _declared
from octseq._by_ctypes import ffi, lib

PACKAGE = pathlib.Path(octseq.__file__).parent
WITHOUT_CFFI = """
import sys
sys.modules["octseq._c"] = None
import octseq, octseq.bgp, octseq.dns
print(octseq.calls_by, octseq.lossy(b"a\\xff"), octseq.dns.make_query("a", "A", id=1).octets.hex())
"""


class Ways(unittest.TestCase):
    """What each way has. Where cffi isn't there, both are ctypes."""

    def test_which_it_is(self) -> None:
        way = _by_ctypes if octseq.calls_by == "ctypes" else sys.modules["octseq._c"]
        self.assertIs(_calls.lib, way.lib)
        self.assertIs(_calls.ffi, way.ffi)

    def test_without_cffi_ctypes_serves(self) -> None:
        ran = subprocess.run([sys.executable, "-c", WITHOUT_CFFI], capture_output=True, encoding="utf-8")
        query = "000101000001000000000000" "016100" "00010001"
        self.assertEqual((ran.stdout, ran.stderr), (f"ctypes a\ufffd {query}\n", ""))

    def test_all_calls_and_numbers(self) -> None:
        for name in _declared.CALLS:
            self.assertTrue(callable(getattr(_calls.lib, name)))
        for name, number in _declared.NUMBERS.items():
            self.assertEqual(getattr(_calls.lib, name), number)
        self.assertEqual(set(vars(lib)), {*_declared.CALLS, *_declared.NUMBERS})

    def test_structs_have_one_layout(self) -> None:
        for name in _declared.STRUCTS:
            self.assertEqual(ffi.sizeof(name), _calls.ffi.sizeof(name))
        self.assertEqual(ffi.sizeof("octseq_dns_row"), 40)
        self.assertEqual(ffi.sizeof("octseq_bgp_row"), 32)

    def test_only_calls_has_ffi_and_it_uses_what_both_have(self) -> None:
        for file in PACKAGE.rglob("*.py"):
            used = set(re.findall(r"\bffi\.(\w+)", file.read_text(encoding="utf-8")))
            if file.name == "_calls.py":
                self.assertLessEqual(used, set(vars(ffi)))
            else:
                self.assertEqual(used, set(), file)


class Refusals(unittest.TestCase):
    """What cffi refuses, ctypes refuses too, before the call. Each test goes through both."""

    def both(self):
        return ((_calls.ffi, _calls.lib), (ffi, lib))

    def test_numbers_that_a_type_has_not(self) -> None:
        for made, calls in self.both():
            out, written = made.new("uint8_t[]", 32), made.new("size_t *")
            for number in (-1, 1 << 16):
                with self.assertRaises(OverflowError):
                    calls.octseq_dns_rtype_text(number, out, 32, written)
            for size in (-1, 1 << 64):
                with self.assertRaises(OverflowError):
                    calls.octseq_is_utf8(b"", size)
            for number in ("1", 1.0, None):
                with self.assertRaises(TypeError):
                    calls.octseq_dns_rtype_text(number, out, 32, written)
            self.assertEqual(written[0], 0)

    def test_another_number_of_arguments(self) -> None:
        for _, calls in self.both():
            for arguments in ((), (b"",), (b"", 0, 0)):
                with self.assertRaises(TypeError):
                    calls.octseq_is_utf8(*arguments)

    def test_pointers_to_something_else(self) -> None:
        for made, calls in self.both():
            out, written, header = made.new("uint8_t[]", 8), made.new("size_t *"), made.new("octseq_dns_header *")
            for data in ("text", 4096, None, written, header, bytearray(8), [1.5]):
                with self.assertRaises(TypeError):
                    calls.octseq_is_utf8(data, 1)
            for wrong in (4096, out, header, made.new("uint32_t *"), "text"):
                with self.assertRaises(TypeError):
                    calls.octseq_dns_rtype_text(1, out, 8, wrong)
            with self.assertRaises(TypeError):
                calls.octseq_dns_message_header(bytes(12), 12, written)

    def test_nothing_is_written_to_octets_that_are_lent(self) -> None:
        with self.assertRaises(TypeError):
            lib.octseq_dns_rtype_text(1, b"12345678", 8, ffi.new("size_t *"))

    def test_fields_take_what_their_type_has(self) -> None:
        for made, _ in self.both():
            row, state = made.new("octseq_dns_row *"), made.new("octseq_lossy_state *")
            for field, number in (("ttl", 1 << 32), ("rtype", -1), ("name_at", 1 << 64)):
                with self.assertRaises(OverflowError):
                    setattr(row, field, number)
                self.assertEqual(getattr(row, field), 0)
            with self.assertRaises(OverflowError):
                made.new("octseq_dns_row[]", [(0, 0, 0, 0, 1 << 16, 0, 0)])
            with self.assertRaises(IndexError):
                state.octets = b"1234"
            with self.assertRaises(TypeError):
                row.ttl = "1"


class Made(unittest.TestCase):
    """What `new` makes, in both ways."""

    def both(self):
        return (_calls.ffi, ffi)

    def test_numbers(self) -> None:
        for made in self.both():
            one, some, zeros = made.new("uint16_t *", 7), made.new("uint32_t[]", [1, 2, 3]), made.new("size_t[]", 2)
            self.assertEqual((one[0], list(some), list(zeros)), (7, [1, 2, 3], [0, 0]))
            some[1] = 1 << 31
            self.assertEqual((some[1], len(some), made.unpack(some, 2)), (1 << 31, 3, [1, 1 << 31]))
            with self.assertRaises(IndexError):
                some[3]
            self.assertEqual(made.buffer(some)[:], b"\x01\0\0\0\0\0\0\x80\x03\0\0\0")

    def test_structs(self) -> None:
        for made in self.both():
            rows = made.new("octseq_dns_row[]", [(1, 2, 3, 4, 5, 6, 7), (8,)])
            self.assertEqual((rows[0].name_at, rows[0].section, rows[1].name_at, len(rows)), (1, 7, 8, 2))
            self.assertEqual([row.ttl for row in rows], [4, 0])
            self.assertEqual([row.ttl for row in rows[0:2]], [4, 0])
            self.assertEqual(made.buffer(rows, 48)[:][40:], b"\x08" + bytes(7))
            state = made.new("octseq_lossy_state *", {"octets": b"ab", "len": 2})
            self.assertEqual((bytes(state.octets[0:3]), state.len, state[0].len), (b"ab\0", 2, 2))
            with self.assertRaises(IndexError):
                rows[2]
            with self.assertRaises(KeyError):
                made.new("octseq_lossy_state *", {"size": 2})
            with self.assertRaises(ValueError):
                made.new("octseq_lossy_state *", [b"", 0, 0])

    def test_octets(self) -> None:
        for made in self.both():
            out = made.new_allocator(should_clear_after_alloc=False)(made.typeof("uint8_t[]"), 4)
            for at in range(4):
                out[at] = 0x61 + at
            self.assertEqual((made.buffer(out, 3)[:], str(made.buffer(out, 4), "utf-8")), (b"abc", "abcd"))
            self.assertEqual(bytes(made.buffer(made.from_buffer("uint8_t[]", memoryview(b"xyz")[1:]))), b"yz")

    def test_no_more_octets_than_there_are(self) -> None:
        for size in (-1, 5):
            with self.assertRaises(ValueError):
                ffi.buffer(ffi.new("uint8_t[]", 4), size)

    def test_a_pointer_to_nothing(self) -> None:
        for made, calls in ((_calls.ffi, _calls.lib), (ffi, lib)):
            written = made.new("size_t *")
            status = calls.octseq_lossy(b"a\xff", 2, made.NULL, 0, written)
            self.assertEqual((status, written[0]), (calls.OCTSEQ_NO_ROOM, 4))


if __name__ == "__main__":
    unittest.main()
