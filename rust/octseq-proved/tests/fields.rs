//! The fields of data, with octets and values of the RFCs; none needs `alloc`.
use octseq_proved::NoRoom;
use octseq_proved::dns::{Class, Data, Error, Field, FieldRow, Message, Name, Row, Rtype};
use std::net::IpAddr;

fn data(octets: &[u8], rtype: u16) -> Data<'_> {
    Data::new(octets, 0..octets.len(), Rtype(rtype), Class::IN).unwrap()
}

/// Fails where data of a type hasn't these fields.
fn judge(octets: &[u8], rtype: u16, fields: &[Field<'_>]) {
    let mut room = [FieldRow::default(); 16];
    let mut found = data(octets, rtype).fields_in(&mut room).unwrap();
    for field in fields {
        assert_eq!(found.next(), Some(*field), "TYPE{rtype}");
    }
    assert_eq!(found.next(), None, "TYPE{rtype}");
}

fn name(wire: &[u8]) -> Field<'_> {
    Field::Name(Name::new(wire, 0).unwrap())
}

fn address(text: &str) -> Field<'static> {
    Field::Address(text.parse::<IpAddr>().unwrap())
}

#[test]
fn addresses() {
    judge(b"\xC0\0\x02\x01", 1, &[address("192.0.2.1")]);
    judge(b"\x20\x01\x0D\xB8\0\0\0\0\0\0\0\0\0\0\0\x01", 28, &[address("2001:db8::1")]);
}

/// The SOA of RFC 1035, 5.3, and the MX below it.
#[test]
fn numbers_and_names() {
    let soa = b"\x06VENERA\x03ISI\x03EDU\0\x0EAction.domains\x03ISI\x03EDU\0\
        \0\0\0\x14\0\0\x1C\x20\0\0\x02\x58\0\x36\xEE\x80\0\0\0\x3C";
    let numbers = [20, 7200, 600, 3_600_000, 60].map(Field::Number);
    let names = [name(b"\x06venera\x03isi\x03edu\0"), name(b"\x0Eaction.domains\x03isi\x03edu\0")];
    judge(soa, 6, &[names[0], names[1], numbers[0], numbers[1], numbers[2], numbers[3], numbers[4]]);
    judge(b"\0\x0A\x06VENERA\x03ISI\x03EDU\0", 15, &[Field::Number(10), names[0]]);
}

/// Strings, the examples of RFC 1035, 3.3.14, RFC 8659, 4.2, and RFC 2915.
#[test]
fn strings() {
    judge(b"\x0Cprinter=lpr5\0\x01\xFF", 16, &[b"printer=lpr5" as &[u8], b"", b"\xFF"].map(Field::String));
    let caa = b"\0\x05issueca1.example.net";
    judge(caa, 257, &[Field::Number(0), Field::String(b"issue"), Field::Octets(b"ca1.example.net")]);
    let rule = b"!^urn:cid:.+@([^\\.]+\\.)(.*)$!\\2!i";
    let mut naptr = [0; 7 + 33 + 1];
    naptr[..7].copy_from_slice(b"\0\x64\0\x0A\0\0\x21");
    naptr[7..40].copy_from_slice(rule);
    let numbers = [100, 10].map(Field::Number);
    let texts = [b"" as &[u8], b"", rule].map(Field::String);
    judge(&naptr, 35, &[numbers[0], numbers[1], texts[0], texts[1], texts[2], name(b"\0")]);
}

/// The DS of RFC 4034, 5.4.
#[test]
fn octets() {
    let digest = b"\x2B\xB1\x83\xAF\x5F\x22\x58\x81\x79\xA5\x3B\x0A\x98\x63\x1F\xAD\x1A\x29\x21\x18";
    let mut ds = [0; 24];
    ds[..4].copy_from_slice(b"\xEC\x45\x05\x01");
    ds[4..].copy_from_slice(digest);
    let numbers = [60485, 5, 1].map(Field::Number);
    judge(&ds, 43, &[numbers[0], numbers[1], numbers[2], Field::Octets(digest)]);
}

/// The NSEC of RFC 4034, 4.3, and the first NSEC3 of RFC 5155, A.
#[test]
fn types() {
    let mut nsec = [0; 18 + 37];
    nsec[..18].copy_from_slice(b"\x04host\x07example\x03com\0");
    nsec[18..28].copy_from_slice(b"\0\x06\x40\x01\0\0\0\x03\x04\x1B");
    nsec[54] = 0x20;
    let mut room = [FieldRow::default(); 2];
    let mut fields = data(&nsec, 47).fields_in(&mut room).unwrap();
    assert_eq!(fields.next(), Some(name(b"\x04host\x07example\x03com\0")));
    let Some(Field::Types(types)) = fields.next() else { panic!() };
    assert!(types.iter().eq([1, 15, 46, 47, 1234].map(Rtype)));
    assert!(types.contains(Rtype(1234)) && !types.contains(Rtype(1235)) && !types.contains(Rtype(0)));
    assert_eq!(types.octets(), &nsec[18..]);
    let nsec3 = b"\x01\x01\0\x0C\x04\xAA\xBB\xCC\xDD\x14\x17\x4E\xB2\x40\x9F\xE2\x8B\xCB\x48\x87\xA1\x83\x6F\x95\
        \x7F\x0A\x84\x25\xE2\x7B\0\x07\x22\x01\0\0\0\x02\x90";
    let mut room = [FieldRow::default(); 6];
    let mut fields = data(nsec3, 50).fields_in(&mut room).unwrap();
    assert!(fields.by_ref().take(3).eq([1, 1, 12].map(Field::Number)));
    assert_eq!(fields.next(), Some(Field::String(b"\xAA\xBB\xCC\xDD")));
    assert_eq!(fields.next(), Some(Field::String(&nsec3[10..30])));
    let Some(Field::Types(types)) = fields.next() else { panic!() };
    assert!(types.iter().eq([2, 6, 15, 46, 48, 51].map(Rtype)));
}

/// A window of which all bits are set has 256 types, and the last one may be 65535.
#[test]
fn all_types_of_a_window() {
    let mut csync = [0xFF; 6 + 34];
    csync[7] = 32;
    let mut room = [FieldRow::default(); 3];
    let Some(Field::Types(types)) = data(&csync, 62).fields_in(&mut room).unwrap().nth(2) else { panic!() };
    assert!(types.iter().eq((0xFF00..=0xFFFF).map(Rtype)));
}

/// The third SVCB of ServiceMode in RFC 9460, D.2, and the one with several parameters.
#[test]
fn parameters() {
    let parameter = |key, value| Field::Parameter { key, value };
    let hello = b"\0\x01\x03foo\x07example\x03com\0\x02\x9B\0\x05hello";
    judge(hello, 64, &[Field::Number(1), name(b"\x03foo\x07example\x03com\0"), parameter(667, b"hello")]);
    let svcb = b"\0\x10\x03foo\x07example\x03org\0\0\0\0\x04\0\x01\0\x04\0\x01\0\x09\x02h2\x05h3-19\0\x04\0\x04\
        \xC0\0\x02\x01";
    let target = name(b"\x03foo\x07example\x03org\0");
    let parameters = [parameter(0, b"\0\x01\0\x04"), parameter(1, b"\x02h2\x05h3-19"), parameter(4, b"\xC0\0\x02\x01")];
    judge(svcb, 65, &[Field::Number(16), target, parameters[0], parameters[1], parameters[2]]);
}

/// A client cookie (RFC 7873, 4), and padding (RFC 7830, 3).
#[test]
fn options() {
    let opt = b"\0\x0A\0\x08\x01\x02\x03\x04\x05\x06\x07\x08\0\x0C\0\0";
    let options = [
        Field::Parameter { key: 10, value: b"\x01\x02\x03\x04\x05\x06\x07\x08" },
        Field::Parameter { key: 12, value: b"" },
    ];
    judge(opt, 41, &options);
    judge(b"", 41, &[]);
    judge(&opt[..15], 41, &[Field::Octets(&opt[..15])]);
}

#[test]
fn what_has_no_form_is_octets() {
    judge(b"\xC0\0\x02", 1, &[Field::Octets(b"\xC0\0\x02")]);
    judge(b"\0\xFF", 65280, &[Field::Octets(b"\0\xFF")]);
    judge(b"", 65280, &[Field::Octets(b"")]);
}

/// The target of an MX is `mail` and a pointer to offset 12.
const ANSWER: &[u8; 50] = b"\0\x07\x84\0\0\x01\0\x01\0\0\0\0\x07example\x03com\0\0\x0F\0\x01\
    \xC0\x0C\0\x0F\0\x01\0\0\x01\x2C\0\x09\0\x0A\x04mail\xC0\x0C";

#[test]
fn names_may_be_pointers() {
    let mut room = [Row::default(); 2];
    let record = Message::new(ANSWER).unwrap().entries_in(&mut room).unwrap().nth(1).unwrap();
    let data = record.data().unwrap();
    let mut room = [FieldRow::default(); 3];
    let number = FieldRow { at: 0, len: 0, number: 10, kind: 0 };
    assert_eq!(data.fields_into(&mut room).unwrap(), [number, FieldRow { at: 43, len: 7, number: 0, kind: 1 }]);
    assert_eq!(room[2], FieldRow::default());
    let field = data.fields_in(&mut room).unwrap().nth(1);
    assert_eq!(field, Some(name(b"\x04mail\x07example\x03com\0")));
    assert_eq!(data.fields_into(&mut room[..1]), Err(Error::NoRoom(NoRoom { needed: 2 })));
    assert_eq!(data.fields_in(&mut []).err(), Some(Error::NoRoom(NoRoom { needed: 2 })));
}

#[cfg(feature = "alloc")]
mod with_vectors {
    use super::{Field, data};

    #[test]
    fn data_of_many_fields() {
        let texts = [b"\x02no" as &[u8]; 40].concat();
        assert_eq!(data(&texts, 16).fields().unwrap(), [Field::String(b"no"); 40]);
        assert_eq!(data(b"\0\x0A\0", 15).fields().unwrap().len(), 2);
    }

    #[test]
    fn fields_have_a_debug_form() {
        let fields = data(b"\0\0\x01\x40", 47).fields().unwrap();
        assert_eq!(format!("{fields:?}"), "[Name(Name(.)), Types({Rtype(1)})]");
    }
}
