"""DNS messages that were read: real ones beside what dnspython makes of them, and what is none."""
import unittest

from corpus import samples
from octseq import Immovable, Malformed
from octseq.dns import Flag, Message, Name, Question, Record, Section

WORDS = ("question", "answer", "authority", "additional")
FIGURE = bytes.fromhex("000784000001000100000000" "076578616d706c6503636f6d00" "00010001") + bytes.fromhex(
    "c00c" "00010001" "0000012c" "0004" "01020304"
)
"""A response with the number 7: the address of example.com is 1.2.3.4, for 300 seconds."""


def lines_of(message: Message) -> list:
    """The lines of the questions and records of a message, made one by one."""
    sections = (message.questions, message.answers, message.authorities, message.additionals)
    return [f"{word} {entry.to_text()}" for word, section in zip(WORDS, sections) for entry in section]


class OnSamples(unittest.TestCase):
    @classmethod
    def setUpClass(cls) -> None:
        cls.samples = samples()
        cls.messages = [sample for sample in cls.samples if sample.text != "malformed\n"]

    def each(self):
        """Each message, with its lines."""
        return ((Message.from_wire(octets), text.splitlines()) for octets, text in self.messages)

    def test_there_are_as_many_as_the_page_says(self) -> None:
        self.assertEqual(len(self.samples), 620)
        self.assertGreater(len(self.messages), 400)

    def test_their_text(self) -> None:
        for octets, text in self.messages:
            self.assertEqual(Message.from_wire(octets).to_text(), text)

    def test_what_is_none_is_refused(self) -> None:
        refused = [sample.octets for sample in self.samples if sample.text == "malformed\n"]
        self.assertGreater(len(refused), 10)
        for octets in refused:
            with self.assertRaises(Malformed):
                Message.from_wire(octets)

    def test_their_headers(self) -> None:
        for message, lines in self.each():
            _, number, _, opcode, _, rcode, _, *flags = lines[0].split()
            self.assertEqual((message.id, message.opcode()), (int(number), int(opcode)))
            self.assertEqual(message.rcode() & 15, int(rcode))
            self.assertEqual([flag.name for flag in Flag if message.flags & flag], self.in_order(flags))

    def in_order(self, names) -> list:
        """Names of flags, in the order that they have in `Flag`."""
        return [flag.name for flag in Flag if flag.name in names]

    def test_their_entries_one_by_one(self) -> None:
        for message, lines in self.each():
            self.assertEqual(lines_of(message), lines[1:])

    def test_their_fields(self) -> None:
        for message, lines in self.each():
            records = [*message.answers, *message.authorities, *message.additionals]
            of_records = [line.split(" ", 5) for line in lines[1:] if not line.startswith("question")]
            self.assertEqual(len(records), len(of_records))
            for record, (word, name, ttl, _, _, data) in zip(records, of_records):
                self.assertEqual(record.section.name.lower(), word)
                self.assertEqual((record.name.to_text(), record.ttl), (name, int(ttl)))
                self.assertEqual(record.rdata.to_text(), data)
                self.assertIs(record.rdata.is_typed, not data.startswith("\\# "))

    def test_their_addresses(self) -> None:
        count = 0
        for message, _ in self.each():
            for record in (*message.answers, *message.authorities, *message.additionals):
                words = record.to_text().split()
                if words[2:4] in (["IN", "A"], ["IN", "AAAA"]) and words[4] != "\\#":
                    self.assertEqual(record.rdata.address, words[4])
                    count += 1
                else:
                    self.assertFalse(hasattr(record.rdata, "address"))
        self.assertGreater(count, 400)

    def test_written_anew_they_say_the_same(self) -> None:
        moved = 0
        for message, lines in self.each():
            try:
                written = message.to_wire()
            except Immovable:
                self.assertTrue(any(" \\# " in line and not line.endswith(" \\# 0") for line in lines))
                continue
            self.assertEqual(Message.from_wire(written).to_text().splitlines(), lines)
            moved += 1
        self.assertGreater(moved, 400)

    def test_cut_off_they_are_none(self) -> None:
        for octets, _ in self.messages[:40]:
            for end in range(len(octets)):
                with self.assertRaises(Malformed):
                    Message.from_wire(octets[:end])
            with self.assertRaises(Malformed):
                Message.from_wire(octets + b"\x00")


class OfOneMessage(unittest.TestCase):
    def setUp(self) -> None:
        self.message = Message.from_wire(FIGURE)

    def test_its_header(self) -> None:
        self.assertEqual((self.message.id, self.message.flags), (7, 0x8400))
        self.assertEqual((self.message.opcode(), self.message.rcode()), (0, 0))
        self.assertEqual(Flag(self.message.flags), Flag.QR | Flag.AA)

    def test_its_question(self) -> None:
        (question,) = self.message.questions
        self.assertIsInstance(question, Question)
        self.assertEqual(question.name, Name.from_text("example.com"))
        self.assertEqual((question.rdtype, question.rdclass), (1, 1))
        self.assertEqual(question.to_text(), "example.com. IN A")

    def test_its_record(self) -> None:
        (record,) = self.message.answers
        self.assertIsInstance(record, Record)
        self.assertEqual(record.name.labels, (b"example", b"com", b""))
        self.assertEqual((record.rdtype, record.rdclass, record.ttl, record.section), (1, 1, 300, Section.ANSWER))
        self.assertEqual((record.rdata.octets, record.rdata.address), (b"\x01\x02\x03\x04", "1.2.3.4"))
        self.assertEqual(str(record), "example.com. 300 IN A 1.2.3.4")

    def test_its_other_sections_are_empty(self) -> None:
        self.assertEqual((self.message.authorities, self.message.additionals), ((), ()))

    def test_it_shows_itself(self) -> None:
        self.assertEqual(repr(self.message), "<Message 7, 45 octets>")
        self.assertEqual(repr(self.message.answers[0]), "<Record example.com. 300 IN A 1.2.3.4>")
        self.assertEqual(repr(self.message.answers[0].rdata), "<Rdata IN A 1.2.3.4>")
        self.assertEqual(str(self.message), self.message.to_text())

    def test_it_does_not_change_with_what_it_was_read_from(self) -> None:
        octets = bytearray(FIGURE)
        message = Message.from_wire(octets)
        octets[:] = bytes(len(octets))
        octets.clear()
        self.assertEqual(message.octets, FIGURE)
        self.assertEqual(message.answers[0].to_text(), "example.com. 300 IN A 1.2.3.4")

    def test_a_record_lives_longer_than_its_message(self) -> None:
        record = Message.from_wire(bytearray(FIGURE)).answers[0]
        filler = [bytes(45) for _ in range(1_000)]
        self.assertEqual(len(filler), 1_000)
        self.assertEqual(record.to_text(), "example.com. 300 IN A 1.2.3.4")

    def test_questions_are_equal_by_what_is_asked(self) -> None:
        (question,) = self.message.questions
        (same,) = Message.from_wire(FIGURE.replace(b"example", b"EXAMPLE")).questions
        self.assertEqual(question, same)
        self.assertEqual(hash(question), hash(same))
        (other,) = Message.from_wire(FIGURE.replace(b"example", b"exbmple")).questions
        self.assertNotEqual(question, other)
        (kind,) = Message.from_wire(FIGURE[:26] + b"\x1c" + FIGURE[27:]).questions
        self.assertNotEqual(question, kind)
        self.assertNotEqual(question, "example.com. IN A")

    def test_the_response_code_is_that_of_an_opt_record_too(self) -> None:
        # RFC 6891, 6.1.3: the upper 8 bits are the first octet of the TTL. 16 is BADVERS.
        header = bytes.fromhex("0007" "8000" "0000" "0000" "0000" "0001")
        message = Message.from_wire(header + b"\x00" + bytes.fromhex("0029" "1000" "01000000" "0000"))
        self.assertEqual(message.rcode(), 16)
        self.assertEqual(message.flags & 15, 0)


class WrongInput(unittest.TestCase):
    def test_octets_that_are_no_message(self) -> None:
        for octets in (b"", bytes(11), bytes(13), b"\xff" * 12, b"\xff" * 100, bytes(70_000), FIGURE * 2):
            with self.assertRaises(Malformed):
                Message.from_wire(octets)

    def test_a_name_that_points_to_itself(self) -> None:
        with self.assertRaises(Malformed):
            Message.from_wire(FIGURE.replace(b"\xc0\x0c", b"\xc0\x1d"))

    def test_more_records_than_there_are(self) -> None:
        with self.assertRaises(Malformed):
            Message.from_wire(FIGURE[:4] + b"\xff" * 8 + FIGURE[12:])

    def test_what_has_no_octets(self) -> None:
        for data in ("text", 12, None, [0] * 12):
            with self.assertRaises(TypeError):
                Message.from_wire(data)
            with self.assertRaises(TypeError):
                Name.read(data)

    def test_a_view_that_was_released(self) -> None:
        view = memoryview(FIGURE)
        view.release()
        with self.assertRaises(ValueError):
            Message.from_wire(view)


if __name__ == "__main__":
    unittest.main()
