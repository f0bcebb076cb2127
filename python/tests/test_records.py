"""Queries, responses and records that are made, and the mnemonics of types and classes."""
import unittest

from corpus import samples
from octseq import Immovable, Malformed, TooLong
from octseq.dns import (
    Flag,
    Message,
    Name,
    Record,
    Section,
    make_query,
    make_response,
    rdataclass_from_text,
    rdataclass_to_text,
    rdatatype_from_text,
    rdatatype_to_text,
)

# RFC 1035, 4.1: a header, and a question after it.
QUERY = bytes.fromhex("0007" "0000" "0001" "0000" "0000" "0000") + b"\x07example\x03com\x00" + b"\x00\x01\x00\x01"
# The flags QR and AA; one answer, whose name is a pointer to offset 12.
RESPONSE = (
    bytes.fromhex("0007" "8400" "0001" "0001" "0000" "0000")
    + QUERY[12:]
    + bytes.fromhex("c00c" "0001" "0001" "0000012c" "0004" "01020304")
)


class Queries(unittest.TestCase):
    def test_its_octets(self) -> None:
        for name in ("example.com.", "example.com", Name.from_text("example.com")):
            for rdtype, rdclass in (("A", "IN"), ("a", "in"), (1, 1), ("TYPE1", "CLASS1")):
                self.assertEqual(make_query(name, rdtype, rdclass, id=7, flags=0).octets, QUERY)

    def test_what_it_has_unless_told(self) -> None:
        query = make_query("example.com", "AAAA")
        self.assertEqual(query.flags, Flag.RD)
        self.assertEqual(query.questions[0].to_text(), "example.com. IN AAAA")
        self.assertEqual(query.to_text(), f"id {query.id} opcode 0 rcode 0 flags RD\nquestion example.com. IN AAAA\n")

    def test_its_number_is_random(self) -> None:
        numbers = {make_query("example.com", "A").id for _ in range(50)}
        self.assertGreater(len(numbers), 25)
        self.assertLessEqual(max(numbers), 65_535)

    def test_any_name_can_be_asked_for(self) -> None:
        for text in (".", r"a\.b.\000\255.", "a." * 127, r"\"\$."):
            self.assertEqual(make_query(text, "ANY", "CH").questions[0].name.to_text(), text)

    def test_the_longest_has_271_octets(self) -> None:
        self.assertEqual(len(make_query("a." * 127, "A").octets), 271)

    def test_what_is_refused(self) -> None:
        for name, rdtype, rdclass in (("a..b", "A", "IN"), ("a", "NOTYPE", "IN"), ("a", "A", "NOCLASS")):
            with self.assertRaises(Malformed):
                make_query(name, rdtype, rdclass)
        for rdtype, rdclass, number, flags in (
            (65_536, 1, 0, 0),
            (-1, 1, 0, 0),
            (1, 65_536, 0, 0),
            (1, 1, 65_536, 0),
            (1, 1, -1, 0),
            (1, 1, 0, 1 << 64),
        ):
            with self.assertRaises(ValueError):
                make_query("a", rdtype, rdclass, id=number, flags=flags)


class Responses(unittest.TestCase):
    def setUp(self) -> None:
        self.query = Message.from_wire(QUERY)

    def test_its_octets(self) -> None:
        record = Record("example.com.", "A", 300, bytes([1, 2, 3, 4]))
        self.assertEqual(make_response(self.query, [record], Flag.AA).octets, RESPONSE)

    def test_a_record_of_a_message_can_be_sent_on(self) -> None:
        records = Message.from_wire(RESPONSE).answers
        self.assertEqual(make_response(self.query, records, Flag.AA).octets, RESPONSE)

    def test_without_records(self) -> None:
        self.assertEqual(make_response(self.query).octets, QUERY[:2] + b"\x80\x00" + QUERY[4:])

    def test_what_its_flags_are(self) -> None:
        # Of the query it has the opcode, here 5, and RD; QR is set; all else is as told. The flag Z is left out.
        for of_query, told, expected in ((0x2800, 0x7FBF, 0xAEBF), (0x2900, 0x0000, 0xA900), (0x0000, 0x0003, 0x8003)):
            query = make_query("example.com", "A", id=1, flags=of_query)
            self.assertEqual(make_response(query, (), told).flags, expected)

    def test_each_record_is_in_its_section(self) -> None:
        record = Record("a.example", "AAAA", 1, bytes(15) + b"\x01")
        server = Record("example", "NS", 2, Name.from_text("b.example").to_wire(), section=Section.AUTHORITY)
        records = [record.in_section(Section.ADDITIONAL), server, record]
        self.assertEqual(
            make_response(self.query, records, 3).to_text(),
            "id 7 opcode 0 rcode 3 flags QR\n"
            "question example.com. IN A\n"
            "answer a.example. 1 IN AAAA ::1\n"
            "authority example. 2 IN NS b.example.\n"
            "additional a.example. 1 IN AAAA ::1\n",
        )

    def test_records_of_real_messages_sent_on(self) -> None:
        sent = 0
        for octets, text in samples():
            if text == "malformed\n":
                continue
            message = Message.from_wire(octets)
            records = [*message.additionals, *message.authorities, *message.answers]
            try:
                response = make_response(message, records)
            except Immovable:
                self.assertIn(" \\# ", text)
                continue
            self.assertEqual(response.to_text().splitlines()[1:], text.splitlines()[1:])
            sent += 1
        self.assertGreater(sent, 400)

    def test_records_of_several_messages(self) -> None:
        first = make_response(self.query, [Record("b.example.com", "NS", 1, b"\x02ns\x01b\x07example\x03com\x00")])
        second = make_response(self.query, [Record("a.example.com", "A", 2, bytes([1, 2, 3, 4]))])
        made = Record("c.example.com", "TXT", 3, b"\x05hello")
        response = make_response(self.query, [*first.answers, made, *second.answers, *first.answers])
        self.assertEqual(
            [record.to_text() for record in response.answers],
            [
                "b.example.com. 1 IN NS ns.b.example.com.",
                'c.example.com. 3 IN TXT "hello"',
                "a.example.com. 2 IN A 1.2.3.4",
                "b.example.com. 1 IN NS ns.b.example.com.",
            ],
        )
        with self.assertRaises(Immovable):
            make_response(self.query, [*second.answers, *first.answers])

    def test_it_may_be_too_long(self) -> None:
        record = Record("example.com", "TXT", 0, (b"\xff" + b"a" * 255) * 100)
        self.assertEqual(len(make_response(self.query, [record, record]).answers), 2)
        with self.assertRaises(TooLong):
            make_response(self.query, [record, record, record])

    def test_flags_that_are_too_large(self) -> None:
        for flags in (1 << 16, -1):
            with self.assertRaises(ValueError):
                make_response(self.query, (), flags)


class Records(unittest.TestCase):
    def test_what_it_has(self) -> None:
        record = Record("Example.com", "MX", 60, b"\x00\x0a\x04mail\x00", section=Section.ADDITIONAL)
        self.assertEqual(record.name.to_text(), "Example.com.")
        self.assertEqual((record.rdtype, record.rdclass, record.ttl, record.section), (15, 1, 60, 3))
        self.assertEqual(record.rdata.octets, b"\x00\x0a\x04mail\x00")
        self.assertIs(record.rdata.is_typed, True)
        self.assertEqual(record.to_text(), "Example.com. 60 IN MX 10 mail.")

    def test_addresses(self) -> None:
        self.assertEqual(Record(".", "A", 0, bytes([192, 0, 2, 1])).rdata.address, "192.0.2.1")
        # RFC 5952, 4.2.3: of two longest runs of zeros the first is left out.
        octets = bytes.fromhex("20010db8000000000001000000000001")
        self.assertEqual(Record(".", "AAAA", 0, octets).rdata.address, "2001:db8::1:0:0:1")

    def test_other_data_has_no_address(self) -> None:
        for rdtype, rdclass, data in (("A", "IN", b"abc"), ("A", "HS", b"abcd"), ("TXT", "IN", b"\x00")):
            with self.assertRaises(AttributeError):
                Record(".", rdtype, 0, data, rdclass=rdclass).rdata.address

    def test_data_that_is_not_of_its_type(self) -> None:
        for rdtype, data, text in (("A", b"abc", "\\# 3 616263"), ("TYPE65280", b"\xc0\x0c", "\\# 2 c00c")):
            rdata = Record(".", rdtype, 0, data).rdata
            self.assertIs(rdata.is_typed, False)
            self.assertEqual(rdata.to_text(), text)

    def test_data_is_taken_from_any_octets(self) -> None:
        data = bytearray(b"?\x05hello")
        record = Record(".", "TXT", 0, memoryview(data)[1:])
        data[2:] = b"other"
        self.assertEqual(record.rdata.to_text(), '"hello"')

    def test_pointers_in_data_are_refused(self) -> None:
        for data in (b"\x02ns\xc0\x00", b"\xc0\x00", b"\x02ns\xc0\x0c", b"\xff\xff", b"\x02ns"):
            with self.assertRaises(Immovable):
                Record("example.com", "NS", 0, data)

    def test_what_else_is_refused(self) -> None:
        with self.assertRaises(TooLong):
            Record("a", "TXT", 0, bytes(65_536))
        for ttl in (-1, 1 << 32):
            with self.assertRaises(ValueError):
                Record("a", "A", ttl, bytes(4))
        for section in (0, 4):
            with self.assertRaises(ValueError):
                Record("a", "A", 0, bytes(4), section=section)
            with self.assertRaises(ValueError):
                Record("a", "A", 0, bytes(4)).in_section(section)
        for data in ("text", 4, None):
            with self.assertRaises(TypeError):
                Record("a", "A", 0, data)


class Mnemonics(unittest.TestCase):
    # The registry "Domain Name System (DNS) Parameters" of IANA, and RFC 3597, 5.
    TYPES = {"A": 1, "NS": 2, "CNAME": 5, "SOA": 6, "PTR": 12, "MX": 15, "TXT": 16, "AAAA": 28, "SRV": 33, "OPT": 41}
    TYPES.update({"DS": 43, "RRSIG": 46, "DNSKEY": 48, "HTTPS": 65, "ANY": 255, "TYPE65280": 65_280})
    CLASSES = {"IN": 1, "CH": 3, "HS": 4, "NONE": 254, "ANY": 255, "CLASS5": 5, "CLASS65535": 65_535}

    def test_types(self) -> None:
        for text, number in self.TYPES.items():
            self.assertEqual(rdatatype_to_text(number), text)
            for spelled in (text, text.lower(), f"TYPE{number}"):
                self.assertEqual(rdatatype_from_text(spelled), number)

    def test_classes(self) -> None:
        for text, number in self.CLASSES.items():
            self.assertEqual(rdataclass_to_text(number), text)
            for spelled in (text, text.lower(), f"CLASS{number}"):
                self.assertEqual(rdataclass_from_text(spelled), number)

    def test_every_number_is_read_back(self) -> None:
        for number in range(0, 1 << 16, 7):
            self.assertEqual(rdatatype_from_text(rdatatype_to_text(number)), number)
            self.assertEqual(rdataclass_from_text(rdataclass_to_text(number)), number)

    def test_what_names_none(self) -> None:
        for text in ("", "A ", "NOTYPE", "TYPE", "TYPE65536", "TYPE-1", "CLASS", "CLASS99999", "é", "A\x00"):
            with self.assertRaises(Malformed):
                rdatatype_from_text(text)
            with self.assertRaises(Malformed):
                rdataclass_from_text(text)

    def test_numbers_that_are_too_large(self) -> None:
        for number in (-1, 1 << 16, 1 << 80):
            with self.assertRaises(ValueError):
                rdatatype_to_text(number)
            with self.assertRaises(ValueError):
                rdataclass_to_text(number)


if __name__ == "__main__":
    unittest.main()
