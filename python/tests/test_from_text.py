"""Records and messages that are read from text. The octets of records are those that dnspython 2.3 makes of the same
text."""
import unittest

from corpus import samples
from octseq import Immovable, Malformed
from octseq.dns import Message, Record, Section, make_query, make_response

RECORDS = {
    "example.com. 300 IN MX 10 mail.example.com.": "000a046d61696c076578616d706c6503636f6d00",
    "example.com. IN 300 A 192.0.2.1": "c0000201",
    "example.com. 1 IN AAAA 2001:db8::1": "20010db8000000000000000000000001",
    "example.com. 1 IN TXT \"a b\" c \"\\\"\\200\"": "036120620163" "0222c8",
    "example.com. 1 IN SOA a. b. 1 2 3 4 5": "0161000162000000000100000002000000030000000400000005",
    "example.com. 1 IN SRV 1 2 3 a.": "000100020003016100",
    "example.com. 1 IN CAA 0 issue \"ca.example\"": "0005697373756563612e6578616d706c65",
    "example.com. 1 IN NSEC a. A MX RRSIG NSEC TYPE1234": "016100" "0006400100000003" "041b" + "00" * 26 + "20",
    "example.com. 1 CH TYPE65280 \\# 3 01 02ff": "0102ff",
}


class Records(unittest.TestCase):
    def test_their_data(self) -> None:
        for text, data in RECORDS.items():
            record = Record.from_text(text)
            self.assertEqual(record.rdata.octets.hex(), data)
            self.assertEqual((record.name.to_text(), record.section), ("example.com.", Section.ANSWER))

    def test_what_it_has(self) -> None:
        record = Record.from_text("a.example. 300 IN MX 10 mail.example.com.", section=Section.AUTHORITY)
        self.assertEqual((record.rdtype, record.rdclass, record.ttl, record.section), (15, 1, 300, Section.AUTHORITY))
        self.assertEqual(record.to_text(), "a.example. 300 IN MX 10 mail.example.com.")

    def test_one_in_a_response(self) -> None:
        query = make_query("example.com", "MX", id=7, flags=0)
        response = make_response(query, [Record.from_text("example.com. 300 IN MX 10 mail.example.com.")])
        answer = "c00c000f00010000012c0009000a046d61696cc00c"
        self.assertEqual(response.octets[29:].hex(), answer)

    def test_where_one_is_refused(self) -> None:
        for text, offset in (
            ("", 0),
            (" a. 1 IN A 1.2.3.4", 0),
            ("a 1 IN A 1.2.3.4", 0),
            ("a. IN IN A 1.2.3.4", 6),
            ("a. 4294967296 IN A 1.2.3.4", 3),
            ("a. 1 IN NOTYPE 1.2.3.4", 8),
            ("a. 1 IN A 1.2.3", 10),
            ("a. 1 IN A", 9),
            ("a. 1 IN MX 10 b. c.", 17),
            ("a. 1 IN A 1.2.3.4\n", 10),
        ):
            with self.assertRaises(Malformed) as caught:
                Record.from_text(text)
            self.assertEqual((caught.exception.line, caught.exception.offset), (1, offset))

    def test_how_that_is_shown(self) -> None:
        with self.assertRaises(Malformed) as caught:
            Record.from_text("a.\t1 IN A 1.2.3")
        self.assertEqual(
            str(caught.exception).splitlines(),
            ["line 1, offset 10: something else has to come here", "a.\t1 IN A 1.2.3", "  \t       ^"],
        )

    def test_what_is_refused_without_a_offset(self) -> None:
        with self.assertRaises(Malformed) as caught:
            Record.from_text("é. 1 IN A 1.2.3.4")
        self.assertEqual((caught.exception.line, caught.exception.offset), (None, None))
        with self.assertRaises(Immovable):
            Record.from_text("a. 1 IN NS \\# 2 c000")


class Messages(unittest.TestCase):
    def test_the_text_of_each_message_is_read_back(self) -> None:
        count = 0
        for _, text in samples():
            if text != "malformed\n":
                self.assertEqual(Message.from_text(text).to_text(), text)
                count += 1
        self.assertGreater(count, 400)

    def test_octets_of_one(self) -> None:
        message = Message.from_text(
            "id 7 opcode 0 rcode 0 flags QR AA\nquestion example.com. IN A\nanswer example.com. 300 IN A 1.2.3.4\n"
        )
        self.assertEqual(
            message.octets.hex(),
            "000784000001000100000000" "076578616d706c6503636f6d00" "00010001" "c00c000100010000012c000401020304",
        )

    def test_where_one_is_refused(self) -> None:
        head = "id 7 opcode 0 rcode 0 flags\n"
        for text, line, offset in (
            ("", 1, 0),
            (head[:-1], 1, 27),
            ("id 65536 opcode 0 rcode 0 flags\n", 1, 3),
            (head + "question a. IN\n", 2, 14),
            (head + "question a. IN A\nanswer a. 1 IN A 1.2.3\n", 3, 17),
            (head + "additional a. 1 IN A 1.2.3.4\nanswer a. 1 IN A 1.2.3.4\n", 3, 0),
        ):
            with self.assertRaises(Malformed) as caught:
                Message.from_text(text)
            self.assertEqual((caught.exception.line, caught.exception.offset), (line, offset))

    def test_how_that_is_shown(self) -> None:
        with self.assertRaises(Malformed) as caught:
            Message.from_text("id 7 opcode 0 rcode 0 flags RD\nquestion a. IM A\n")
        self.assertEqual(
            str(caught.exception).splitlines(),
            ["line 2, offset 12: something else has to come here", "question a. IM A", " " * 12 + "^"],
        )


if __name__ == "__main__":
    unittest.main()
