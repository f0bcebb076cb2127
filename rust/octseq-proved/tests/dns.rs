//! DNS names, data and messages, with texts and vectors.
#![cfg(feature = "alloc")]
use octseq_proved::dns::{Class, Data, Error, Message, Name, Row, Rtype, flags, query};
use std::collections::HashSet;

/// The names of RFC 4034, 6.1, in the order that it gives.
const ORDERED: [&[u8]; 9] = [
    b"\x07example\0",
    b"\x01a\x07example\0",
    b"\x08yljkjljk\x01a\x07example\0",
    b"\x01Z\x01a\x07example\0",
    b"\x04zABC\x01a\x07EXAMPLE\0",
    b"\x01z\x07example\0",
    b"\x01\x01\x01z\x07example\0",
    b"\x01*\x01z\x07example\0",
    b"\x01\xC8\x01z\x07example\0",
];

fn name(wire: &[u8]) -> Name<'_> {
    Name::new(wire, 0).unwrap()
}

#[test]
fn names_have_the_canonical_order() {
    for (at, one) in ORDERED.iter().enumerate() {
        for (other_at, other) in ORDERED.iter().enumerate() {
            assert_eq!(name(one).cmp(&name(other)), at.cmp(&other_at), "{at} {other_at}");
            assert_eq!(name(one) == name(other), at == other_at, "{at} {other_at}");
        }
    }
}

#[test]
fn letters_of_either_case_are_one() {
    let spelled = ["example.com.", "EXAMPLE.com.", "eXaMpLe.CoM.", "example.org."];
    let wires = spelled.map(|text| {
        let mut room = [0; 255];
        Name::from_text(text, &mut room).unwrap().wire().unwrap()
    });
    let names: HashSet<Name<'_>> = wires.iter().map(|wire| name(wire)).collect();
    assert_eq!(names.len(), 2);
    assert!(names.contains(&name(b"\x07EXAMPLE\x03COM\0")));
    assert!(!names.contains(&name(b"\x07example\x03con\0")));
}

#[test]
fn names_are_shown() {
    assert_eq!(name(b"\0").text().unwrap(), ".");
    assert_eq!(name(b"\x03a.b\x01\xFF\0").to_string(), "a\\.b.\\255.");
    assert_eq!(format!("{:>4} {:?}", name(b"\x01a\0"), name(b"\x01a\0")), "  a. Name(a.)");
    let mut longest = Vec::new();
    for len in [63, 63, 63, 61] {
        longest.push(len);
        longest.extend(vec![0; usize::from(len)]);
    }
    longest.push(0);
    assert_eq!(name(&longest).to_string().len(), 1004);
    assert_eq!(name(&longest).text().unwrap(), name(&longest).to_string());
}

#[test]
fn data_is_shown() {
    let data = |octets, rtype| Data::new(octets, 0..octets.len(), rtype, Class::IN).unwrap();
    let address = data(b"\x20\x01\x0D\xB8\0\0\0\0\0\0\0\0\0\0\0\x01", Rtype::AAAA);
    assert!(address.is_typed());
    assert_eq!(address.text().unwrap(), "2001:db8::1");
    let unknown = data(b"\x00\xFF", Rtype(65280));
    assert!(!unknown.is_typed());
    assert_eq!((unknown.to_string(), data(b"", Rtype(65280)).text().unwrap()), ("\\# 2 00ff".into(), "\\# 0".into()));
    assert_eq!(format!("{unknown:?}"), "Data(IN TYPE65280 [0, 255])");
    let long = data(&[0; 1000], Rtype(65280));
    assert_eq!(long.text().unwrap(), format!("\\# 1000 {}", "00".repeat(1000)));
}

#[test]
fn types_and_classes_are_shown() {
    let shown = [
        (Rtype::A, "A"),
        (Rtype::NS, "NS"),
        (Rtype::CNAME, "CNAME"),
        (Rtype::SOA, "SOA"),
        (Rtype::PTR, "PTR"),
        (Rtype::MX, "MX"),
        (Rtype::TXT, "TXT"),
        (Rtype::AAAA, "AAAA"),
        (Rtype::SRV, "SRV"),
        (Rtype::OPT, "OPT"),
        (Rtype::ANY, "ANY"),
        (Rtype(65535), "TYPE65535"),
    ];
    for (rtype, text) in shown {
        assert_eq!((rtype.to_string().as_str(), text.parse()), (text, Ok(rtype)));
    }
    let shown =
        [(Class::IN, "IN"), (Class::CH, "CH"), (Class::NONE, "NONE"), (Class::ANY, "ANY"), (Class(5), "CLASS5")];
    for (class, text) in shown {
        assert_eq!((class.to_string().as_str(), text.parse()), (text, Ok(class)));
    }
}

#[test]
fn a_message_of_many_records_is_written_and_read() {
    let query = query(1, 0, ".", Rtype::TXT, Class::IN).unwrap();
    assert_eq!(query, b"\0\x01\0\0\0\x01\0\0\0\0\0\0\0\0\x10\0\x01");
    let message = Message::new(&query).unwrap();
    let row = Row { name_at: 0, data_at: 1, data_len: 250, ttl: 9, rtype: Rtype(65280), rclass: Class::IN, section: 3 };
    let source = [0; 251];
    let answer = message.answer(flags::AA | 5, &source, &[row; 200]).unwrap();
    assert_eq!(answer.len(), 17 + 200 * (11 + 250));
    let answer = Message::new(&answer).unwrap();
    assert_eq!((answer.header().flags, answer.header().rcode(), answer.header().arcount), (0x8405, 5, 200));
    let entries = answer.entries().unwrap();
    assert_eq!(entries.len(), 201);
    assert!(entries[1..].iter().all(|entry| entry.data().unwrap().octets() == [0; 250]));
    assert_eq!(answer.rewrite().unwrap(), answer.octets());
    assert_eq!(message.answer(0, &source, &[row; 300]), Err(Error::TooLong));
    assert_eq!(message.answer(0, &source, &[Row { data_at: 2, ..row }]), Err(Error::BadRow));
}

#[test]
fn data_of_an_unknown_form_is_not_moved() {
    let query = query(1, 0, ".", Rtype::NS, Class::IN).unwrap();
    let row = Row { name_at: 0, data_at: 1, data_len: 1, ttl: 9, rtype: Rtype::NS, rclass: Class::IN, section: 1 };
    assert_eq!(Message::new(&query).unwrap().answer(0, b"\0\x07", &[row]), Err(Error::Immovable));
    let broken = b"\0\x01\x80\0\0\0\0\x01\0\0\0\0\0\0\x02\0\x01\0\0\0\x09\0\x01\x07";
    assert_eq!(Message::new(broken).unwrap().rewrite(), Err(Error::Immovable));
}

#[test]
fn messages_and_entries_have_a_debug_form() {
    let query = query(1, 0, ".", Rtype::TXT, Class::IN).unwrap();
    let message = Message::new(&query).unwrap();
    assert_eq!(format!("{message:?}"), format!("Message({query:?})"));
    let row = Row { name_at: 12, rtype: Rtype::TXT, rclass: Class::IN, ..Row::default() };
    assert_eq!(format!("{:?}", message.entries().unwrap()), format!("[Entry({row:?})]"));
}

#[test]
fn errors_are_shown() {
    assert_eq!(query(1, 0, "a", Rtype::A, Class::IN).unwrap_err().to_string(), "malformed");
    let refused = Error::MalformedText { line: 2, offset: 14 };
    let errors = [refused, Error::Immovable, Error::TooLong, Error::BadRow, Error::Memory, Error::Unshown];
    let lines = [
        "line 2, offset 14: something else has to come here",
        "data of an unknown form can't be moved",
        "a message of too many octets",
        "a row that is none of a record",
        "a request for memory was refused",
        "no text could be made",
    ];
    assert_eq!(errors.map(|error| error.to_string()), lines);
}
