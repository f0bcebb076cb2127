"""The fields of data: of all records of the corpus, beside the text that dnspython makes of them, and by hand."""
import base64
import unittest

from corpus import samples
from octseq.dns import FieldKind, Message, Name, Option, Rdata, Record, Section, rdatatype_to_text

SECTIONS = (Section.ANSWER, Section.AUTHORITY, Section.ADDITIONAL)
KEYS = {
    "mandatory": 0,
    "alpn": 1,
    "no-default-alpn": 2,
    "port": 3,
    "ipv4hint": 4,
    "ech": 5,
    "ipv6hint": 6,
    "dohpath": 7,
    "ohttp": 8,
}


def quoted(octets: bytes) -> str:
    """A character string as the corpus has it (RFC 1035, 5.1)."""
    shown = (
        f"\\{chr(octet)}" if octet in b'"\\' else chr(octet) if 32 <= octet < 127 else f"\\{octet:03}"
        for octet in octets
    )
    return f'"{"".join(shown)}"'


def base64_of(octets: bytes) -> str:
    return base64.b64encode(octets).decode()


def base32hex_of(octets: bytes) -> str:
    alphabet, hexadecimal = b"ABCDEFGHIJKLMNOPQRSTUVWXYZ234567", b"0123456789abcdefghijklmnopqrstuv"
    return base64.b32encode(octets).translate(bytes.maketrans(alphabet, hexadecimal)).decode().rstrip("=")


def types_of(types) -> str:
    return " ".join(rdatatype_to_text(number) for number in types)


def words(*values) -> str:
    return " ".join(str(value) for value in values if value != "")


# The text of data by its attributes, as RFC 1035, 5.1, and the RFC of each type have it.
SHOWN = {
    "A": lambda d: d.address,
    "NS": lambda d: str(d.target),
    "CNAME": lambda d: str(d.target),
    "SOA": lambda d: words(d.mname, d.rname, d.serial, d.refresh, d.retry, d.expire, d.minimum),
    "PTR": lambda d: str(d.target),
    "HINFO": lambda d: words(quoted(d.cpu), quoted(d.os)),
    "MX": lambda d: words(d.preference, d.exchange),
    "TXT": lambda d: words(*map(quoted, d.strings)),
    "AAAA": lambda d: d.address,
    "SRV": lambda d: words(d.priority, d.weight, d.port, d.target),
    "NAPTR": lambda d: words(
        d.order, d.preference, quoted(d.flags), quoted(d.service), quoted(d.regexp), d.replacement
    ),
    "DNAME": lambda d: str(d.target),
    "DS": lambda d: words(d.key_tag, d.algorithm, d.digest_type, d.digest.hex()),
    "CDS": lambda d: words(d.key_tag, d.algorithm, d.digest_type, d.digest.hex()),
    "SSHFP": lambda d: words(d.algorithm, d.fp_type, d.fingerprint.hex()),
    "RRSIG": lambda d: words(
        types_of([d.type_covered]),
        d.algorithm,
        d.labels,
        d.original_ttl,
        d.expiration,
        d.inception,
        d.key_tag,
        d.signer,
        base64_of(d.signature),
    ),
    "NSEC": lambda d: words(d.next, types_of(d.types)),
    "DNSKEY": lambda d: words(d.flags, d.protocol, d.algorithm, base64_of(d.key)),
    "CDNSKEY": lambda d: words(d.flags, d.protocol, d.algorithm, base64_of(d.key)),
    "DHCID": lambda d: base64_of(d.data),
    "NSEC3": lambda d: words(
        d.algorithm, d.flags, d.iterations, d.salt.hex() or "-", base32hex_of(d.next), types_of(d.types)
    ),
    "NSEC3PARAM": lambda d: words(d.algorithm, d.flags, d.iterations, d.salt.hex() or "-"),
    "TLSA": lambda d: words(d.usage, d.selector, d.mtype, d.cert.hex()),
    "SMIMEA": lambda d: words(d.usage, d.selector, d.mtype, d.cert.hex()),
    "CSYNC": lambda d: words(d.serial, d.flags, types_of(d.types)),
    "CAA": lambda d: words(d.flags, d.tag.decode(), quoted(d.value)),
    "URI": lambda d: words(d.priority, d.weight, quoted(d.target)),
}


def key_of(word: str) -> int:
    """The key of a parameter that a text has (RFC 9460, 2.1)."""
    name = word.split("=")[0]
    return KEYS[name] if name in KEYS else int(name[3:])


class OnSamples(unittest.TestCase):
    @classmethod
    def setUpClass(cls) -> None:
        cls.records = []
        for octets, text in samples():
            if text != "malformed\n":
                message = Message.from_wire(octets)
                records = message.answers + message.authorities + message.additionals
                lines = text.splitlines()[1 + len(message.questions) :]
                cls.records += zip(records, (line.split(" ", 6) for line in lines))

    def test_what_they_say_by_their_names(self) -> None:
        shown = dict.fromkeys(SHOWN, 0)
        for record, line in self.records:
            if line[4] in SHOWN and not line[5].startswith("\\#"):
                self.assertEqual(SHOWN[line[4]](record.data), " ".join(line[5:]), line)
                shown[line[4]] += 1
        self.assertEqual([rdtype for rdtype, count in shown.items() if count == 0], [])
        self.assertGreater(sum(shown.values()), 1300)

    def test_the_parameters_of_services(self) -> None:
        count = 0
        for record, line in self.records:
            if line[4] in ("SVCB", "HTTPS") and not line[5].startswith("\\#"):
                self.assertEqual(record.data.priority, int(line[5]))
                target, *params = line[6].split(" ")
                self.assertEqual(str(record.data.target), target)
                self.assertEqual(list(record.data.params), [key_of(word) for word in params])
                count += 1
        self.assertEqual(count, 35)

    def test_what_has_no_form_is_octets(self) -> None:
        count = 0
        for record, line in self.records:
            if line[5] == "\\#" and line[4] != "OPT":
                size, *digits = line[6].split(" ")
                octets = bytes.fromhex("".join(digits))
                self.assertEqual(record.data.fields, ((FieldKind.OCTETS, octets),))
                self.assertEqual(len(octets), int(size))
                count += 1
        self.assertGreater(count, 10)

    def test_the_options_of_opt(self) -> None:
        count = 0
        for record, line in self.records:
            if line[4] == "OPT":
                made = b"".join(
                    option.otype.to_bytes(2, "big") + len(option.data).to_bytes(2, "big") + option.data
                    for option in record.data.options
                )
                self.assertEqual(made.hex(), "".join(line[6].split(" ")[1:]))
                count += 1
        self.assertEqual(count, 213)


def mx(name: str, preference: int = 10) -> Rdata:
    """The data of an MX."""
    return Record("example.com", "MX", 300, preference.to_bytes(2, "big") + Name.from_text(name).to_wire()).data


class ByHand(unittest.TestCase):
    def test_fields(self) -> None:
        data = mx("mail.example.com.")
        self.assertEqual(data.fields, ((FieldKind.NUMBER, 10), (FieldKind.NAME, Name.from_text("mail.example.com."))))
        self.assertEqual((data.preference, data.exchange.to_text()), (10, "mail.example.com."))

    def test_a_name_may_be_a_pointer(self) -> None:
        octets = (
            bytes.fromhex("000784000001000100000000" "076578616d706c6503636f6d00" "000f0001")
            + bytes.fromhex("c00c" "000f0001" "0000012c" "0009" "000a" "046d61696c" "c00c")
        )
        (record,) = Message.from_wire(octets).answers
        self.assertEqual(str(record.data.exchange), "mail.example.com.")
        self.assertEqual(record.data, mx("mail.example.com."))

    def test_equal_data(self) -> None:
        data = mx("mail.example.com.")
        self.assertEqual(data, mx("MAIL.example.com."))
        self.assertEqual(hash(data), hash(mx("MAIL.example.com.")))
        self.assertNotEqual(data, mx("mail.example.org."))
        self.assertNotEqual(data, mx("mail.example.com.", 11))
        self.assertNotEqual(data, 10)

    def test_its_repr(self) -> None:
        self.assertEqual(repr(mx("mail.example.com.")), "<Rdata IN MX 10 mail.example.com.>")

    def test_a_name_that_it_has_not(self) -> None:
        data = mx("mail.example.com.")
        with self.assertRaisesRegex(AttributeError, "MX data has no field 'address'"):
            data.address
        self.assertIn("exchange", dir(data))

    def test_data_without_the_form_of_its_type_has_no_names(self) -> None:
        (record,) = Message.from_wire(
            bytes.fromhex("000784000000000100000000" "00" "00010001" "0000012c" "0003" "010203")
        ).answers
        self.assertEqual(record.data.fields, ((FieldKind.OCTETS, b"\x01\x02\x03"),))
        with self.assertRaises(AttributeError):
            record.data.address

    def test_options(self) -> None:
        # (RFC 7873, 4: a client cookie)
        octets = bytes.fromhex("000784000000000000000001" "00" "0029" "04d0" "00000000" "000c")
        octets += bytes.fromhex("000a0008" "0102030405060708")
        (record,) = Message.from_wire(octets).additionals
        self.assertEqual(record.data.options, (Option(10, bytes(range(1, 9))),))
        self.assertEqual(record.data.fields, ((FieldKind.PARAMETER, Option(10, bytes(range(1, 9)))),))

    def test_options_that_are_cut_off(self) -> None:
        octets = bytes.fromhex("000784000000000000000001" "00" "0029" "04d0" "00000000" "0005" "000a0008" "01")
        (record,) = Message.from_wire(octets).additionals
        self.assertEqual(record.data.fields, ((FieldKind.OCTETS, bytes.fromhex("000a000801")),))
        with self.assertRaises(AttributeError):
            record.data.options


if __name__ == "__main__":
    unittest.main()
