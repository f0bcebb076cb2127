"""Names of DNS, beside the examples of RFC 1035 and RFC 4034."""
import itertools
import unittest

from octseq import Malformed
from octseq.dns import Name, NoParent

# RFC 4034, 6.1: names in their order.
ORDERED = [
    "example",
    "a.example",
    "yljkjljk.a.example",
    "Z.a.example",
    "zABC.a.EXAMPLE",
    "z.example",
    "\\001.z.example",
    "*.z.example",
    "\\200.z.example",
]

# RFC 1035, 4.1.4: F.ISI.ARPA is at 20, FOO.F.ISI.ARPA at 40, ARPA at 64 and the root at 92.
COMPRESSED = bytearray(93)
COMPRESSED[20:32] = b"\x01F\x03ISI\x04ARPA\x00"
COMPRESSED[40:46] = b"\x03FOO\xc0\x14"
COMPRESSED[64:66] = b"\xc0\x1a"
COMPRESSED[92:93] = b"\x00"

# Texts and the wire forms that they spell, by RFC 1035, 3.1 and 5.1.
SPELLED = [
    (".", b"\x00"),
    ("example.com.", b"\x07example\x03com\x00"),
    ("eXample.COM.", b"\x07eXample\x03COM\x00"),
    (r"a\.b.c.", b"\x03a.b\x01c\x00"),
    (r"a\\b.", b"\x03a\\b\x00"),
    (r"\000\255.", b"\x02\x00\xff\x00"),
    (r"\032.", b"\x01 \x00"),
    (r"\"\(\)\;\@\$.", b"\x06\"();@$\x00"),
    ("a" * 63 + ".", b"\x3f" + b"a" * 63 + b"\x00"),
    (("a" * 63 + ".") * 3 + "b" * 61 + ".", (b"\x3f" + b"a" * 63) * 3 + b"\x3d" + b"b" * 61 + b"\x00"),
    ("a." * 127, b"\x01a" * 127 + b"\x00"),
]


class Texts(unittest.TestCase):
    def test_a_text_spells_a_wire_form(self) -> None:
        for text, wire in SPELLED:
            self.assertEqual(Name.from_text(text).to_wire(), wire)

    def test_a_wire_form_has_a_text(self) -> None:
        for text, wire in SPELLED:
            self.assertEqual(Name.read(wire).to_text(), text)
            self.assertEqual(str(Name.read(wire)), text)

    def test_the_last_full_stop_may_be_missing(self) -> None:
        for text, wire in SPELLED[1:]:
            self.assertEqual(Name.from_text(text[:-1]).to_wire(), wire)
        self.assertEqual(Name.from_text(r"a\.").to_wire(), b"\x02a.\x00")
        self.assertEqual(Name.from_text("\\\\").to_wire(), b"\x01\\\x00")
        self.assertEqual(Name.from_text("").to_wire(), b"\x00")

    def test_octets_may_be_spelled_in_other_ways(self) -> None:
        self.assertEqual(Name.from_text(r"\097\b\..").to_wire(), b"\x03ab.\x00")

    def test_other_texts_spell_none(self) -> None:
        texts = ["..", ".a", "a..b", "a..", "\\", "a\\", r"\25.", r"\256.", r"\1a2.", "a b.", "é.", "a\n.", "a\x00."]
        texts += ["a" * 64 + ".", "a." * 128, ("a" * 63 + ".") * 3 + "b" * 62 + "."]
        for text in texts:
            with self.subTest(text), self.assertRaises(Malformed):
                Name.from_text(text)

    def test_a_malformed_text_is_a_value_error(self) -> None:
        with self.assertRaises(ValueError):
            Name.from_text("a..b")

    def test_a_name_shows_itself(self) -> None:
        self.assertEqual(repr(Name.from_text("a.b")), "<Name a.b.>")


class OfOctets(unittest.TestCase):
    def test_pointers_are_followed(self) -> None:
        for offset, wire in (
            (20, b"\x01F\x03ISI\x04ARPA\x00"),
            (40, b"\x03FOO\x01F\x03ISI\x04ARPA\x00"),
            (64, b"\x04ARPA\x00"),
            (92, b"\x00"),
        ):
            for octets in (bytes(COMPRESSED), COMPRESSED, memoryview(bytes(COMPRESSED))):
                self.assertEqual(Name.read(octets, offset).to_wire(), wire)

    def test_offsets_without_a_name(self) -> None:
        for octets, offset in (
            (b"", 0),
            (b"\x00", 1),
            (b"\x00", 2),
            (b"\x00", -1),
            (b"\x00", 1 << 70),
            (b"\x03ab", 0),
            (b"\x01a", 0),
            (b"\xc0", 0),
            (b"\xc0\x00", 0),
            (b"\xc0\x02\x00", 0),
            (b"\x40\x00", 0),
            (b"\x80\x00", 0),
        ):
            with self.subTest(octets=octets, offset=offset), self.assertRaises(Malformed):
                Name.read(octets, offset)

    def test_a_name_keeps_nothing_of_what_it_was_read_from(self) -> None:
        octets = bytearray(b"\x01a\x00")
        name = Name.read(octets)
        octets[1] = 0x62
        octets += b"more"
        self.assertEqual(name.to_text(), "a.")


class Order(unittest.TestCase):
    def test_the_order_of_the_standard(self) -> None:
        names = [Name.from_text(text) for text in ORDERED]
        for (here, one), (there, other) in itertools.product(enumerate(names), repeat=2):
            self.assertIs(one < other, here < there)
            self.assertIs(one <= other, here <= there)
            self.assertIs(one > other, here > there)
            self.assertIs(one >= other, here >= there)
            self.assertIs(one == other, here == there)
            self.assertIs(one != other, here != there)

    def test_names_are_sorted(self) -> None:
        names = [Name.from_text(text) for text in reversed(ORDERED)]
        self.assertEqual([name.to_text() for name in sorted(names)], [text + "." for text in ORDERED])

    def test_letters_of_either_case_are_one(self) -> None:
        one, other = Name.from_text("wWw.EXAMPLE.com"), Name.from_text("WwW.example.COM")
        self.assertEqual(one, other)
        self.assertEqual(hash(one), hash(other))
        self.assertEqual({one: 1}[other], 1)
        self.assertNotEqual(one.to_wire(), other.to_wire())

    def test_other_octets_have_no_case(self) -> None:
        for one, other in (("[", "{"), ("^", "~"), ("\\192", "\\224"), ("\\000", "\\@"), ("1", "Q")):
            self.assertNotEqual(Name.from_text(one), Name.from_text(other))

    def test_labels_are_compared_not_texts(self) -> None:
        self.assertNotEqual(Name.from_text(r"a\.b"), Name.from_text("a.b"))

    def test_a_name_is_no_text(self) -> None:
        name = Name.from_text("a")
        self.assertNotEqual(name, "a.")
        for compare in (name.__lt__, name.__le__, name.__gt__, name.__ge__):
            self.assertIs(compare("a."), NotImplemented)
        with self.assertRaises(TypeError):
            sorted([name, "a."])


class Relatives(unittest.TestCase):
    def test_labels(self) -> None:
        self.assertEqual(Name.from_text(r"www.a\.b.").labels, (b"www", b"a.b", b""))
        self.assertEqual(Name.from_text(".").labels, (b"",))

    def test_a_name_is_made_of_labels(self) -> None:
        for _, wire in SPELLED:
            labels = Name.read(wire).labels
            self.assertEqual(Name(labels).to_wire(), wire)
            self.assertEqual(Name(iter(labels)).to_wire(), wire)

    def test_labels_that_make_no_name(self) -> None:
        no_names = [(), (b"a",), (b"", b""), (b"a", b"", b"b", b""), (b"", b"a"), (b"a" * 64, b""), (b"a" * 192, b"")]
        for labels in (*no_names, (b"a" * 300, b""), (b"a",) * 128 + (b"",)):
            with self.subTest(labels), self.assertRaises(Malformed):
                Name(labels)
        for labels in (("a", ""), (5,), None, 5):
            with self.assertRaises(TypeError):
                Name(labels)

    def test_parents(self) -> None:
        name = Name.from_text("www.example.com")
        parents = []
        while name.to_wire() != b"\x00":
            name = name.parent()
            parents.append(name.to_text())
        self.assertEqual(parents, ["example.com.", "com.", "."])
        with self.assertRaises(NoParent):
            name.parent()

    def test_subdomains(self) -> None:
        for below, above, expected in (
            ("www.example.com", "example.com", True),
            ("www.example.com", "EXAMPLE.Com", True),
            ("example.com", "example.com", True),
            ("example.com", "com", True),
            ("example.com", ".", True),
            (".", ".", True),
            (".", "com", False),
            ("com", "example.com", False),
            ("badexample.com", "example.com", False),
            (r"bad\.example.com", "example.com", False),
            ("example.org", "example.com", False),
            ("com.example", "com", False),
        ):
            with self.subTest(below=below, above=above):
                self.assertIs(Name.from_text(below).is_subdomain(Name.from_text(above)), expected)


if __name__ == "__main__":
    unittest.main()
