"""OPT records, and responses that are cut at a size. The octets of messages are those that dnspython 2.3 makes of the
same arguments."""
import unittest

from corpus import samples
from octseq import Immovable, Malformed, TooLong
from octseq.dns import EDNSFlag, Flag, Message, Option, Record, Section, make_query, make_response

COOKIE = Option(10, bytes(range(1, 9)))
NSID = Option(3, b"")
QUERY = bytes.fromhex(
    "123401000001000000000001076578616d706c6503636f6d00001c0001"
    "0000290578000080000010000a0008010203040506070800030000"
)
"""For the addresses of example.com, with both options, the flag DO and a payload of 1,400 octets."""
PLAIN = bytes.fromhex("000701000001000000000001076578616d706c6503636f6d0000010001" "00002904d0000000000000")
RESPONSE = bytes.fromhex(
    "000785070001000100000001076578616d706c6503636f6d0000010001"
    "c00c000100010000012c0004c0000201" "00002904d0010000000000"
)
"""One address, and an OPT record for the response code 23."""


class Queries(unittest.TestCase):
    def test_octets_of_one(self) -> None:
        query = make_query("example.com", "AAAA", id=0x1234, want_dnssec=True, payload=1400, options=[COOKIE, NSID])
        self.assertEqual(query.octets, QUERY)

    def test_each_way_to_ask_for_it(self) -> None:
        for word in ({"use_edns": 0}, {"use_edns": True}, {"payload": 1232}, {"ednsflags": 0}, {"options": []}):
            self.assertEqual(make_query("example.com", "A", id=7, **word).octets, PLAIN)
        for word in ({"want_dnssec": True}, {"ednsflags": EDNSFlag.DO}, {"ednsflags": 0x8000, "use_edns": 0}):
            query = make_query("example.com", "A", id=7, **word)
            self.assertEqual(query.octets, PLAIN[:-4] + b"\x80" + PLAIN[-3:])
        for word in ({}, {"use_edns": False}, {"use_edns": -1}, {"use_edns": False, "payload": 512}):
            query = make_query("example.com", "A", id=7, **word)
            self.assertEqual(query.octets, PLAIN[:11] + b"\x00" + PLAIN[12:29])

    def test_what_is_read_of_it(self) -> None:
        query = Message.from_wire(QUERY)
        self.assertEqual((query.edns, query.payload, query.ednsflags), (0, 1400, 0x8000))
        self.assertEqual(query.options, (COOKIE, NSID))
        self.assertEqual((query.options[0].otype, query.options[0].data), (10, bytes(range(1, 9))))
        plain = make_query("example.com", "A")
        self.assertEqual((plain.edns, plain.payload, plain.ednsflags, plain.options), (-1, 0, 0, ()))

    def test_data_that_is_no_options(self) -> None:
        for data in (b"\x00", b"\x00\x0a\x00", b"\x00\x0a\x00\x02\x01"):
            message = make_response(Message.from_wire(PLAIN), [Record(".", 41, 0, data, section=Section.ADDITIONAL)])
            with self.assertRaises(Malformed):
                message.options

    def test_what_is_refused(self) -> None:
        for word in (
            {"use_edns": 1},
            {"payload": 65_536},
            {"payload": -1},
            {"ednsflags": 65_536},
            {"options": [(65_536, b"")]},
            {"options": [(1, bytes(65_536))]},
        ):
            with self.assertRaises(ValueError):
                make_query("example.com", "A", **word)
        self.assertEqual(len(make_query("a", "A", options=[(1, bytes(65_501))]).octets), 65_535)
        for size in (65_502, 65_535):
            with self.assertRaises(TooLong):
                make_query("a", "A", options=[(1, bytes(size))])


class Responses(unittest.TestCase):
    def setUp(self) -> None:
        self.query = Message.from_wire(PLAIN)
        self.record = Record("example.com", "A", 300, bytes([192, 0, 2, 1]))

    def test_a_response_code_of_more_than_four_bits(self) -> None:
        response = make_response(self.query, [self.record], Flag.AA, rcode=23)
        self.assertEqual(response.octets, RESPONSE)
        self.assertEqual((response.rcode(), response.edns, response.ednsflags), (23, 0, 0x0100_0000))
        self.assertEqual(make_response(self.query, rcode=3).flags, 0x8103)
        self.assertEqual(make_response(self.query, flags=5).rcode(), 5)
        self.assertEqual(make_response(self.query, flags=5, rcode=0).rcode(), 0)
        self.assertEqual(make_response(self.query, rcode=4095).rcode(), 4095)
        for word in ({"rcode": 4096}, {"rcode": -1}, {"rcode": 16, "use_edns": False}):
            with self.assertRaises(ValueError):
                make_response(self.query, **word)

    def test_it_has_an_opt_record_where_it_is_asked_for(self) -> None:
        self.assertEqual(make_response(self.query).edns, -1)
        response = make_response(self.query, use_edns=0, payload=512, options=[COOKIE])
        self.assertEqual((response.edns, response.payload, response.options), (0, 512, (COOKIE,)))

    def test_it_is_cut_at_a_size(self) -> None:
        # 12 octets of header, 17 of question, 11 of OPT record, 16 of each record.
        records = [self.record] * 3
        for size, count in ((88, 3), (87, 2), (72, 2), (71, 1), (40, 0)):
            response = make_response(self.query, records, use_edns=0, max_size=size)
            self.assertEqual(len(response.octets), 40 + 16 * count)
            self.assertEqual((len(response.answers), response.edns), (count, 0))
            self.assertEqual(response.flags, 0x8100 if count == 3 else 0x8300)
        self.assertEqual(make_response(self.query, records, use_edns=0, max_size=39).octets[12:], PLAIN[12:29])
        with self.assertRaises(TooLong):
            make_response(self.query, records, max_size=28)
        with self.assertRaises(ValueError):
            make_response(self.query, records, max_size=65_536)

    def test_to_wire_cuts_it(self) -> None:
        last = [self.record.in_section(Section.ADDITIONAL), Record(".", 41, 0, b"", section=Section.ADDITIONAL)]
        response = make_response(self.query, [self.record, self.record, *last], Flag.AA | 3)
        self.assertEqual(len(response.octets), 88)
        self.assertEqual(response.to_wire(88), response.octets)
        cut = Message.from_wire(response.to_wire(87))
        self.assertEqual((len(cut.answers), len(cut.additionals), cut.edns), (2, 1, 0))
        self.assertEqual(cut.flags, 0x8503 | Flag.TC)
        self.assertEqual(len(response.to_wire(40)), 40)
        self.assertEqual(len(response.to_wire(39)), 29)
        for size, raised in ((28, TooLong), (0, TooLong), (-1, ValueError), (65_536, ValueError)):
            with self.assertRaises(raised):
                response.to_wire(size)

    def test_a_query_is_never_cut(self) -> None:
        self.assertEqual(self.query.to_wire(40), PLAIN)
        with self.assertRaises(TooLong):
            self.query.to_wire(39)

    def test_real_messages_that_are_cut(self) -> None:
        cut = 0
        for octets, text in samples():
            message = None if text == "malformed\n" else Message.from_wire(octets)
            if message is None or not message.flags & Flag.QR or len(octets) < 64:
                continue
            try:
                size = len(message.to_wire()) - 1
            except Immovable:
                continue
            found = Message.from_wire(message.to_wire(size))
            self.assertTrue(found.flags & Flag.TC)
            self.assertLessEqual(len(found.octets), size)
            lines = found.to_text().splitlines()[1:]
            self.assertTrue(set(lines) <= set(message.to_text().splitlines()[1:]))
            self.assertEqual(found.ednsflags, message.ednsflags)
            cut += 1
        self.assertGreater(cut, 200)


if __name__ == "__main__":
    unittest.main()
