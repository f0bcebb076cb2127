"""BGP messages that were read: those of daemons beside what mrtparse makes of them, and what is none."""
import ipaddress
import unittest

from corpus import bgp_samples
from octseq import Malformed
from octseq.bgp import Family, Kind, Message, Prefix, Session
from octseq.bgp.path import parse_path
from octseq.bgp.session import ALL

MARKER = b"\xff" * 16
FIGURE = MARKER + bytes.fromhex("0029" "02" "0003" "100a01" "000d" "40010100" "800f06" "0002" "01" "102001" "080a")
"""An UPDATE: 10.1.0.0/16 is withdrawn, 10.0.0.0/8 is announced, and 2001::/16 isn't reached."""


def session_of(number: int) -> Session:
    """The session that a sample's number says."""
    return Session(number & 1 == 0, ALL if number & 2 else Family(0), number & 4 != 0)


def prefixes_of(word: str, lines: list) -> list:
    """The prefixes of the lines that begin with a word: each network, and its path id."""
    found = [line.split()[1:] for line in lines if line.startswith(word + " ")]
    return [(ipaddress.ip_network(words[0]), int(words[2]) if len(words) > 1 else None) for words in found]


class OnSamples(unittest.TestCase):
    @classmethod
    def setUpClass(cls) -> None:
        cls.samples = bgp_samples()
        cls.messages = [sample for sample in cls.samples if sample.text != "malformed\n"]

    def each(self):
        """Each message, with its lines."""
        return ((Message.from_wire(it.octets, session_of(it.session)), it.text.splitlines()) for it in self.messages)

    def test_there_are_as_many_as_the_crate_says(self) -> None:
        self.assertEqual(len(self.samples), 187 + 131)
        self.assertGreater(len(self.messages), 187)

    def test_their_text(self) -> None:
        for it in self.messages:
            self.assertEqual(Message.from_wire(it.octets, session=session_of(it.session)).text, it.text)

    def test_what_is_none_is_refused(self) -> None:
        refused = [it for it in self.samples if it.text == "malformed\n"]
        self.assertGreater(len(refused), 10)
        for it in refused:
            with self.assertRaises(Malformed):
                Message.from_wire(it.octets, session_of(it.session))

    def test_their_kind(self) -> None:
        for message, lines in self.each():
            self.assertEqual(message.kind.name.lower().replace("_", "-"), lines[0].split()[0])

    def test_their_prefixes(self) -> None:
        count = 0
        for message, lines in self.each():
            for word in ("withdrawn", "announced", "reached", "unreached"):
                prefixes = [(one.network, one.path_id) for one in getattr(message, word)]
                self.assertEqual(prefixes, prefixes_of(word, lines))
                count += len(prefixes)
        self.assertGreater(count, 250)

    def test_their_attributes(self) -> None:
        count = 0
        for message, lines in self.each():
            shown = [line.split() for line in lines if line.startswith("attribute ")]
            self.assertEqual(len(message.attributes), len(shown))
            self.assertEqual(message.reached, tuple(p for it in message.attributes for p in it.reached))
            self.assertEqual(message.unreached, tuple(p for it in message.attributes for p in it.unreached))
            for attribute, words in zip(message.attributes, shown):
                self.assertEqual(bool(attribute.flags & 0x80), "O" in words[1])
                self.assertEqual(bool(attribute.flags & 0x40), "T" in words[1])
                count += 1
        self.assertGreater(count, 250)

    def test_cut_off_they_are_none(self) -> None:
        for it in self.messages[:40]:
            for end in range(len(it.octets)):
                with self.assertRaises(Malformed):
                    Message.from_wire(it.octets[:end], session_of(it.session))
            with self.assertRaises(Malformed):
                Message.from_wire(it.octets + b"\x00", session_of(it.session))


class OfOneMessage(unittest.TestCase):
    def setUp(self) -> None:
        self.message = Message.from_wire(FIGURE)

    def test_its_prefixes(self) -> None:
        unicast = Family.IPV4_UNICAST
        self.assertEqual(self.message.withdrawn, (Prefix(ipaddress.ip_network("10.1.0.0/16"), unicast, None),))
        self.assertEqual(self.message.announced, (Prefix(ipaddress.ip_network("10.0.0.0/8"), unicast, None),))
        self.assertEqual(self.message.reached, ())
        self.assertEqual([str(prefix) for prefix in self.message.unreached], ["2001::/16"])
        self.assertEqual(self.message.unreached[0].family, Family.IPV6_UNICAST)

    def test_its_attributes(self) -> None:
        origin, unreach = self.message.attributes
        self.assertEqual((origin.flags, origin.type_code, origin.octets), (0x40, 1, b"\x00"))
        self.assertEqual((origin.reached, origin.unreached), ((), ()))
        self.assertEqual((unreach.flags, unreach.type_code), (0x80, 15))
        self.assertEqual(unreach.octets, bytes.fromhex("000201102001"))
        self.assertEqual(unreach.unreached, self.message.unreached)

    def test_it_shows_itself(self) -> None:
        self.assertEqual(repr(self.message), "<Message UPDATE, 41 octets>")
        self.assertEqual(str(self.message), self.message.text)
        self.assertEqual(self.message.kind, Kind.UPDATE)
        self.assertEqual(self.message.session, Session())

    def test_it_does_not_change_with_what_it_was_read_from(self) -> None:
        octets = bytearray(FIGURE)
        message = Message.from_wire(octets)
        octets[:] = bytes(len(octets))
        self.assertEqual(message.octets, FIGURE)
        self.assertEqual(message.text, self.message.text)

    def test_bits_after_a_prefix_have_no_meaning(self) -> None:
        (prefix,) = Message.from_wire(MARKER + bytes.fromhex("0019" "02" "0000" "0000" "04ff")).announced
        self.assertEqual(prefix.network, ipaddress.ip_network("240.0.0.0/4"))


class OfSessions(unittest.TestCase):
    PATH = MARKER + bytes.fromhex("001d" "02" "0000" "0000" "00000007" "080a")
    """An UPDATE that announces 10.0.0.0/8 with the path id 7."""

    def test_path_ids(self) -> None:
        for families in (Family.IPV4_UNICAST, Family.IPV4_UNICAST | Family.IPV6_MULTICAST, ALL):
            (prefix,) = Message.from_wire(self.PATH, Session(add_path=families)).announced
            self.assertEqual((str(prefix), prefix.path_id), ("10.0.0.0/8 path 7", 7))
        for families in (Family(0), Family.IPV4_MULTICAST, Family.IPV6_UNICAST, Family.IPV6_MULTICAST):
            with self.assertRaises(Malformed):
                Message.from_wire(self.PATH, Session(add_path=families))

    def test_as_numbers(self) -> None:
        octets = MARKER + bytes.fromhex("001e" "02" "0000" "0007" "400204" "0201fde8")
        narrow = Message.from_wire(octets, Session(four_octet_asn=False))
        self.assertEqual(narrow.text, "update\nattribute T AS_PATH sequence 65000\n")
        self.assertNotEqual(Message.from_wire(octets).text, narrow.text)

    def test_long_messages(self) -> None:
        octets = MARKER + bytes.fromhex("1001" "03" "0602") + bytes(4097 - 21)
        self.assertEqual(Message.from_wire(octets, Session(extended_message=True)).kind, Kind.NOTIFICATION)
        with self.assertRaises(Malformed):
            Message.from_wire(octets)

    def test_other_messages_have_no_parts(self) -> None:
        message = Message.from_wire(MARKER + bytes.fromhex("0013" "04"))
        self.assertEqual((message.kind, message.text), (Kind.KEEPALIVE, "keepalive\n"))
        self.assertEqual((message.attributes, message.withdrawn, message.announced), ((), (), ()))


class WrongInput(unittest.TestCase):
    def test_octets_that_are_no_message(self) -> None:
        for octets in (b"", bytes(19), b"\xff" * 19, MARKER, bytes(70_000), FIGURE * 2):
            with self.assertRaises(Malformed):
                Message.from_wire(octets)

    def test_what_has_no_octets(self) -> None:
        for data in ("text", 12, None, [0] * 19):
            with self.assertRaises(TypeError):
                Message.from_wire(data)


class OfPaths(unittest.TestCase):
    def test_segments(self) -> None:
        octets = bytes.fromhex("0202 0000fde9 0000fdea 0101 00000007 0302 00000001 00000002 0402 00000003 00000004")
        path = parse_path(octets, 0)
        self.assertEqual(str(path), "65001 65002 {7} (1 2) [3,4]")
        self.assertEqual(path.asns, (65001, 65002, 7, 1, 2, 3, 4))
        self.assertIsNone(path.origin)
        self.assertEqual(parse_path(octets[:10], 0).origin, 65002)
        self.assertEqual(parse_path(b"\x02\x01\xfd\xe9", Session(False).flags()).asns, (65001,))
        self.assertEqual(parse_path(b"", 0).segments, ())

    def test_what_is_no_path(self) -> None:
        for octets in (b"\x02", b"\x02\x00", b"\x05\x01\0\0\0\1", b"\x02\x01\0\0\0"):
            with self.assertRaises(Malformed):
                parse_path(octets, 0)


if __name__ == "__main__":
    unittest.main()
