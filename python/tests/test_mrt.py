"""Records of MRT files: those of daemons, and others, beside what mrtparse makes of them."""
import bz2
import gzip
import io
import ipaddress
import pathlib
import tempfile
import tracemalloc
import unittest

from corpus import mrt_stream, mrt_texts
from octseq import Malformed, bgp, mrt

SEGMENTS = {"set": 1, "sequence": 2, "confed-sequence": 3, "confed-set": 4}
CHANGE = bytes.fromhex("6553f100 0010 0005 00000018 0000fde9 0000fdea 0007 0001 0a000001 0a000002 0003 0004")
"""A state change: 10.0.0.1 of AS 65001, at 10.0.0.2 of AS 65002, from 3 to 4."""


def after(words: list, word: str) -> str:
    """The word after another."""
    return words[words.index(word) + 1]


def path_of(lines: list):
    """The AS path of the lines of attributes, as types and AS numbers. None where they have none."""
    for words in map(str.split, lines):
        if words[0] == "attribute" and words[2] == "AS_PATH" and words[3:4] != ["\\#"]:
            found = []
            for word in words[3:]:
                if word in SEGMENTS:
                    found.append((SEGMENTS[word], []))
                else:
                    found[-1][1].append(int(word))
            return found
    return None


def said_of(path) -> object:
    return None if path is None else [(segment.kind, list(segment.asns)) for segment in path.segments]


class OnFiles(unittest.TestCase):
    @classmethod
    def setUpClass(cls) -> None:
        cls.stream, cls.texts = mrt_stream(), mrt_texts()
        cls.records = list(mrt.open(io.BytesIO(cls.stream)))

    def each(self, kind: type):
        """Each record of a class, with its lines."""
        return ((it, lines) for it, lines in zip(self.records, self.texts) if type(it) is kind)

    def test_there_are_as_many_as_the_other_reader_says(self) -> None:
        self.assertEqual(len(self.records), len(self.texts))
        self.assertGreater(len(self.records), 1200)
        self.assertEqual(b"".join(it.octets for it in self.records), self.stream)

    def test_their_classes(self) -> None:
        words = {"peers": mrt.PeerIndexTable, "rib": mrt.Rib, "record": mrt.OpaqueRecord}
        for record, lines in zip(self.records, self.texts):
            event = mrt.StateChange if " state " in lines[0] else mrt.Message
            self.assertIs(type(record), words.get(lines[0].split()[0], event))

    def test_opaque_ones(self) -> None:
        count = 0
        for record, lines in self.each(mrt.OpaqueRecord):
            words = lines[0].split()
            self.assertEqual([record.timestamp, record.type_code, record.subtype], [int(it) for it in words[1:4]])
            self.assertEqual(record.body, bytes.fromhex("".join(words[6:])))
            count += 1
        self.assertEqual(count, 307)

    def test_tables(self) -> None:
        count = 0
        for record, lines in self.each(mrt.PeerIndexTable):
            words = lines[0].split()
            self.assertEqual(str(record.collector), after(words, "collector"))
            self.assertEqual(f'view "{record.view_name.decode()}"', lines[0][lines[0].index("view ") :])
            self.assertEqual(len(record.peers), len(lines) - 1)
            for number, (peer, line) in enumerate(zip(record.peers, lines[1:])):
                words = line.split()
                self.assertEqual(int(words[1]), number)
                self.assertEqual(str(peer.bgp_id), after(words, "id"))
                self.assertEqual(peer.address, ipaddress.ip_address(after(words, "address")))
                self.assertEqual(peer.asn, int(after(words, "as")))
                count += 1
        self.assertEqual(count, 33)

    def test_ribs(self) -> None:
        families = {(4, 1): bgp.Family.IPV4_UNICAST, (4, 0): bgp.Family.IPV4_MULTICAST}
        families.update({(6, 1): bgp.Family.IPV6_UNICAST, (6, 0): bgp.Family.IPV6_MULTICAST})
        count = 0
        for record, lines in self.each(mrt.Rib):
            words = lines[0].split()
            self.assertEqual([record.timestamp, record.subtype], [int(words[1]), int(words[2])])
            self.assertEqual(record.sequence, int(after(words, "sequence")))
            self.assertEqual(record.prefix, ipaddress.ip_network(words[5]))
            self.assertEqual(ipaddress.ip_network(record.cidr), record.prefix)
            unicast = int(record.subtype in (2, 4, 8, 10))
            self.assertEqual(record.family, families[record.prefix.version, unicast])
            count += 1
        self.assertEqual(count, 438)

    def test_entries(self) -> None:
        count = 0
        for record, lines in self.each(mrt.Rib):
            starts = [at for at, line in enumerate(lines) if line.startswith("entry ")] + [len(lines)]
            self.assertEqual(len(record), len(starts) - 1)
            for entry, at, end in zip(record, starts, starts[1:]):
                self.check_entry(entry, lines[at].split(), lines[at + 1 : end])
                count += 1
        self.assertEqual(count, 437)

    def check_entry(self, entry: mrt.RibEntry, words: list, lines: list) -> None:
        shown = [line.split() for line in lines if line.startswith("attribute ")]
        self.assertEqual([entry.peer_index, entry.originated_time], [int(words[1]), int(words[3])])
        self.assertEqual(entry.path_id, int(words[5]) if len(words) > 4 else None)
        self.assertEqual(len(entry.attributes), len(shown))
        for attribute, words in zip(entry.attributes, shown):
            flags = attribute.flags
            said = ("O" if flags & 0x80 else "") + ("T" if flags & 0x40 else "") + ("P" if flags & 0x20 else "")
            self.assertEqual(said or "-", words[1])
            if words[2] == "MULTI_EXIT_DISC" and words[3] != "\\#":
                self.assertEqual((attribute.type_code, int.from_bytes(attribute.octets, "big")), (4, int(words[3])))
        self.assertEqual(said_of(entry.as_path), path_of(lines))

    def test_sessions(self) -> None:
        count = 0
        for kind in (mrt.Message, mrt.StateChange):
            for record, lines in self.each(kind):
                words = lines[0].split()
                time = str(record.timestamp)
                time += "" if record.microseconds is None else f".{record.microseconds:06}"
                self.assertEqual([time, str(record.subtype)], words[1:3])
                self.assertEqual(record.peer_address, ipaddress.ip_address(after(words, "peer")))
                self.assertEqual(record.local_address, ipaddress.ip_address(after(words, "local")))
                self.assertEqual([record.peer_asn, record.local_asn], [int(words[6]), int(words[10])])
                self.assertEqual(record.interface, int(after(words, "interface")))
                if kind is mrt.StateChange:
                    self.assertEqual([record.old_state, record.new_state], [int(it) for it in words[-2:]])
                count += 1
        self.assertEqual(count, 515)

    def test_messages(self) -> None:
        counts = [0, 0]
        for record, lines in self.each(mrt.Message):
            if lines[1:] == ["malformed"]:
                with self.assertRaises(Malformed):
                    record.message
            else:
                self.assertEqual(record.message.text.splitlines(), lines[1:])
            counts[lines[1:] == ["malformed"]] += 1
        self.assertGreater(counts[0], 300)
        self.assertEqual(counts[1], 40)

    def test_paths_of_messages(self) -> None:
        count = 0
        for record, lines in self.each(mrt.Message):
            if lines[1] == "update":
                self.assertEqual(said_of(record.message.as_path), path_of(lines))
                count += record.message.as_path is not None
        self.assertGreater(count, 150)

    def test_entries_know_their_peers(self) -> None:
        count = 0
        for record, _ in self.each(mrt.Rib):
            for entry in record:
                peers = record.table.peers
                number = entry.peer_index
                self.assertEqual(entry.peer, peers[number] if number < len(peers) else None)
                count += entry.peer is not None
        self.assertGreater(count, 300)


class Files(unittest.TestCase):
    def setUp(self) -> None:
        self.stream = mrt_stream()

    def octets_of(self, source) -> bytes:
        with mrt.open(source) as records:
            return b"".join(record.octets for record in records)

    def test_plain_and_compressed(self) -> None:
        for made in (self.stream, gzip.compress(self.stream), bz2.compress(self.stream)):
            self.assertEqual(self.octets_of(io.BytesIO(made)), self.stream)
            with tempfile.TemporaryDirectory() as folder:
                path = pathlib.Path(folder) / "updates"
                path.write_bytes(made)
                self.assertEqual(self.octets_of(path), self.stream)
                self.assertEqual(self.octets_of(str(path)), self.stream)

    def test_a_time_like_the_magic_of_bzip2(self) -> None:
        octets = b"BZh9" + CHANGE[4:]
        self.assertEqual(self.octets_of(io.BytesIO(octets)), octets)

    def test_empty_ones(self) -> None:
        for made in (b"", gzip.compress(b""), bz2.compress(b"")):
            self.assertEqual(self.octets_of(io.BytesIO(made)), b"")

    def test_the_file_of_a_caller_stays_open(self) -> None:
        file = io.BytesIO(CHANGE)
        with mrt.open(file) as records:
            self.assertEqual(len(list(records)), 1)
        self.assertFalse(file.closed)

    def test_cut_off(self) -> None:
        for end in range(1, len(CHANGE)):
            records = mrt.open(io.BytesIO(CHANGE + CHANGE[:end]))
            self.assertEqual(next(records).octets, CHANGE)
            with self.assertRaises(mrt.CutOff):
                next(records)
            self.assertEqual(list(records), [])

    def test_a_file_that_gives_little_at_a_time(self) -> None:
        class Slow(io.RawIOBase):
            def __init__(self, octets: bytes) -> None:
                self.octets = octets

            def readable(self) -> bool:
                return True

            def readinto(self, to) -> int:
                now, self.octets = self.octets[: min(7, len(to))], self.octets[7:]
                to[: len(now)] = now
                return len(now)

        self.assertEqual(self.octets_of(Slow(self.stream)), self.stream)

    def test_a_length_that_no_file_has_takes_no_memory(self) -> None:
        octets = CHANGE[:8] + b"\xff\xff\xff\xff" + bytes(100)
        tracemalloc.start()
        try:
            with self.assertRaises(mrt.CutOff):
                next(mrt.open(io.BytesIO(octets)))
            self.assertLess(tracemalloc.get_traced_memory()[1], 1 << 23)
        finally:
            tracemalloc.stop()

    def test_memory_stays_as_it_is(self) -> None:
        class Endless(io.RawIOBase):
            left = 0

            def readable(self) -> bool:
                return True

            def readinto(self, to) -> int:
                count = min(self.left, len(to) // len(CHANGE))
                self.left -= count
                to[: count * len(CHANGE)] = CHANGE * count
                return count * len(CHANGE)

        def most(times: int) -> int:
            file = Endless()
            file.left = times
            tracemalloc.start()
            try:
                self.assertEqual(sum(1 for _ in mrt.open(file)), times)
                return tracemalloc.get_traced_memory()[1]
            finally:
                tracemalloc.stop()

        most(10)
        self.assertLess(most(90_000), most(60_000) + (1 << 19))


class Values(unittest.TestCase):
    def test_a_state_change(self) -> None:
        (record,) = mrt.open(io.BytesIO(CHANGE))
        self.assertIs(type(record), mrt.StateChange)
        self.assertEqual((record.timestamp, record.type_code, record.subtype), (0x6553F100, 16, 5))
        self.assertEqual(mrt.State(record.old_state).name, "ACTIVE")
        self.assertEqual(mrt.State(record.new_state).name, "OPEN_SENT")
        self.assertIsNone(record.microseconds)
        self.assertEqual(repr(record), "<StateChange of 10.0.0.1 AS65001, 3 to 4, time 1700000000>")

    def test_a_path(self) -> None:
        octets = bytes.fromhex("0202 0000fde9 0000fdea 0101 00000007 0302 00000001 00000002 0402 00000003 00000004")
        path = bgp.path.parse_path(octets, 0)
        self.assertEqual(str(path), "65001 65002 {7} (1 2) [3,4]")
        self.assertEqual(path.asns, (65001, 65002, 7, 1, 2, 3, 4))
        self.assertIsNone(path.origin)
        self.assertEqual(bgp.path.parse_path(octets[:10], 0).origin, 65002)
        self.assertEqual(bgp.path.parse_path(b"\x02\x01\xfd\xe9", bgp.Session(False).flags()).asns, (65001,))
        self.assertEqual(bgp.path.parse_path(b"", 0).segments, ())
        for octets in (b"\x02", b"\x02\x00", b"\x05\x01\0\0\0\1", b"\x02\x01\0\0\0"):
            with self.assertRaises(Malformed):
                bgp.path.parse_path(octets, 0)

    def test_bits_after_a_prefix(self) -> None:
        octets = bytes.fromhex("6553f100 000d 0002 00000009 00000001 0c 0aff 0000")
        (record,) = mrt.open(io.BytesIO(octets))
        self.assertEqual((str(record.prefix), record.cidr), ("10.240.0.0/12", "10.240.0.0/12"))
        self.assertEqual(repr(record), "<Rib 10.240.0.0/12, 0 entries, time 1700000000>")
        self.assertTrue(record)
        self.assertEqual(record.entries, ())


if __name__ == "__main__":
    unittest.main()
