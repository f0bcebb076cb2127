//! The calls that write into a room, which need no `alloc`.
use octseq_proved::dns::{Class, Data, Error, Header, Message, Name, Row, Rtype, Section, flags, query_into};
use octseq_proved::utf8::{Fault, LossyPieces, first_fault, from_utf8, is_utf8, lossy_into};
use octseq_proved::{NoRoom, dns};

/// The query for the address of `example.com.`, written down by RFC 1035, 4.1.
const QUERY: &[u8; 29] = b"\x12\x34\x01\0\0\x01\0\0\0\0\0\0\x07example\x03com\0\0\x01\0\x01";

/// Its answer, 192.0.2.1, whose name is a pointer to offset 12.
const ANSWER: &[u8; 45] = b"\x12\x34\x81\x80\0\x01\0\x01\0\0\0\0\x07example\x03com\0\0\x01\0\x01\
    \xC0\x0C\0\x01\0\x01\0\0\x01\x2C\0\x04\xC0\0\x02\x01";

/// A name and then an address.
const SOURCE: &[u8; 17] = b"\x07example\x03com\0\xC0\0\x02\x01";

/// The record that they make.
const ADDRESS: Row =
    Row { name_at: 0, data_at: 13, data_len: 4, ttl: 300, rtype: Rtype::A, rclass: Class::IN, section: 1 };

const fn no_room(needed: usize) -> Error {
    Error::NoRoom(NoRoom { needed })
}

#[test]
fn faults_are_told() {
    assert!(is_utf8("é".as_bytes()) && !is_utf8(b"\xC3"));
    assert_eq!(from_utf8("é".as_bytes()), Ok("é"));
    assert_eq!(first_fault(b"a\xFFb"), Some(Fault { valid_up_to: 1, error_len: Some(1) }));
    assert_eq!(from_utf8(b"a\xE2\x82"), Err(Fault { valid_up_to: 1, error_len: None }));
}

#[test]
fn a_lossy_text_is_in_the_front_of_its_room() {
    let mut room = [b'-'; 8];
    assert_eq!(lossy_into(b"a\xFFb", &mut room).unwrap(), "a\u{FFFD}b");
    assert_eq!(&room, b"a\xEF\xBF\xBDb---");
    assert_eq!(lossy_into(b"\xFF\xFF\xFF", &mut room), Err(NoRoom { needed: 9 }));
    assert_eq!(&room, b"a\xEF\xBF\xBDb---");
    assert_eq!(lossy_into(b"", &mut []).unwrap(), "");
}

#[test]
fn pieces_wait_for_a_whole_character() {
    let mut room = [0; 3];
    let mut pieces = LossyPieces::new();
    assert_eq!(pieces.feed(b"\xE2\x82", &mut room).unwrap(), "");
    assert_eq!(pieces.feed(b"\xAC", &mut room[..2]), Err(NoRoom { needed: 3 }));
    assert_eq!(pieces.feed(b"\xAC", &mut room).unwrap(), "€");
    assert_eq!(pieces.feed(b"\xF0\x9F\x98", &mut room).unwrap(), "");
    assert_eq!(pieces.end(&mut []), Err(NoRoom { needed: 3 }));
    assert_eq!(pieces.end(&mut room).unwrap(), "\u{FFFD}");
    assert_eq!(pieces.end(&mut room).unwrap(), "");
}

#[test]
fn a_query_is_written() {
    let mut room = [0; 29];
    let written = query_into(0x1234, flags::RD, "example.com.", Rtype::A, Class::IN, &mut room);
    assert_eq!(written.unwrap(), QUERY);
    let written = query_into(0x1234, flags::RD, "example.com.", Rtype::A, Class::IN, &mut room[..28]);
    assert_eq!(written, Err(no_room(29)));
    let written = query_into(0x1234, flags::RD, "example..com.", Rtype::A, Class::IN, &mut room);
    assert_eq!(written, Err(Error::Malformed));
}

#[test]
fn an_answer_is_written() {
    let query = Message::new(QUERY).unwrap();
    let mut room = [0; 45];
    assert_eq!(query.answer_into(flags::RA, SOURCE, &[ADDRESS], &mut room).unwrap(), ANSWER);
    assert_eq!(query.answer_into(flags::RA, SOURCE, &[ADDRESS], &mut room[..44]), Err(no_room(45)));
}

#[test]
fn rows_that_are_none_make_no_answer() {
    let query = Message::new(QUERY).unwrap();
    let wrong = [
        Row { name_at: 17, ..ADDRESS },
        Row { name_at: usize::MAX, ..ADDRESS },
        Row { data_at: 14, ..ADDRESS },
        Row { data_len: usize::MAX, ..ADDRESS },
        Row { section: Section::Question.into(), ..ADDRESS },
        Row { section: 4, ..ADDRESS },
    ];
    for row in wrong {
        assert_eq!(query.answer_into(0, SOURCE, &[ADDRESS, row], &mut [0; 512]), Err(Error::BadRow), "{row:?}");
    }
}

#[test]
fn an_answer_is_read() {
    let message = Message::new(ANSWER).unwrap();
    let header = Header { id: 0x1234, flags: 0x8180, qdcount: 1, ancount: 1, nscount: 0, arcount: 0 };
    assert_eq!(message.header(), header);
    assert_eq!((header.opcode(), header.rcode(), header.entry_count()), (0, 0, 2));
    assert_eq!(message.octets(), ANSWER);
    let mut room = [Row::default(); 3];
    let question = Row { name_at: 12, rtype: Rtype::A, rclass: Class::IN, ..Row::default() };
    let record = Row { name_at: 29, data_at: 41, ..ADDRESS };
    assert_eq!(message.rows_into(&mut room).unwrap(), [question, record]);
    assert_eq!(room[2], Row::default());
    assert_eq!(message.rows_into(&mut room[..1]), Err(no_room(2)));
    assert_eq!(message.entries_in(&mut []).err(), Some(no_room(2)));
}

#[test]
fn entries_are_read_in_a_room() {
    let mut room = [Row::default(); 2];
    let mut entries = Message::new(ANSWER).unwrap().entries_in(&mut room).unwrap();
    let question = entries.next().unwrap();
    assert_eq!((question.section(), question.row().name_at), (Section::Question, 12));
    assert!(question.data().is_none());
    let record = entries.next().unwrap();
    assert_eq!((record.section(), record.ttl()), (Section::Answer, 300));
    assert_eq!((record.rtype(), record.class()), (Rtype::A, Class::IN));
    assert_eq!((record.name().offset(), record.name()), (29, question.name()));
    let data = record.data().unwrap();
    assert!(data.is_typed());
    assert_eq!(data.octets(), [192, 0, 2, 1]);
    assert_eq!((data.rtype(), data.class()), (Rtype::A, Class::IN));
    assert_eq!(data.text_into(&mut [0; 9]).unwrap(), "192.0.2.1");
    assert_eq!(data.text_into(&mut [0; 8]), Err(no_room(9)));
    assert!(entries.next().is_none());
}

#[test]
fn a_message_is_shown_and_rewritten() {
    let message = Message::new(ANSWER).unwrap();
    let lines = "id 4660 opcode 0 rcode 0 flags QR RD RA\n\
                 question example.com. IN A\n\
                 answer example.com. 300 IN A 192.0.2.1\n";
    assert_eq!(message.text_into(&mut [0; 512]).unwrap(), lines);
    assert_eq!(message.text_into(&mut []), Err(no_room(lines.len())));
    assert_eq!(message.rewrite_into(&mut [0; 45]).unwrap(), ANSWER);
    assert_eq!(message.rewrite_into(&mut []), Err(no_room(45)));
}

#[test]
fn fronts_of_a_message_are_none() {
    for len in 0..ANSWER.len() {
        assert_eq!(Message::new(&ANSWER[..len]).err(), Some(Error::Malformed), "{len}");
    }
}

/// The header, the question and the record are at the offsets 0, 12 and 29.
#[test]
fn messages_stop_at_the_first_part_that_is_not_there() {
    assert_eq!(dns::first_fault(ANSWER), None);
    for len in 0..ANSWER.len() {
        let offset = [0, 12, 29][usize::from(len >= 12) + usize::from(len >= 29)];
        assert_eq!(dns::first_fault(&ANSWER[..len]), Some(offset), "{len}");
    }
    let mut longer = [0; 65536];
    longer[..45].copy_from_slice(ANSWER);
    assert_eq!(dns::first_fault(&longer[..46]), Some(45));
    assert_eq!(dns::first_fault(&longer[..65535]), Some(45));
    assert_eq!(dns::first_fault(&longer), Some(65535));
}

#[test]
fn a_name_is_read_and_written() {
    let mut room = [0; 255];
    let name = Name::from_text("eXample.com.", &mut room).unwrap();
    assert_eq!(name.octets(), b"\x07eXample\x03com\0");
    assert_eq!(name.wire_into(&mut [0; 13]).unwrap(), b"\x07eXample\x03com\0");
    assert_eq!(name.wire_into(&mut [0; 12]), Err(no_room(13)));
    assert_eq!(name.text_into(&mut [0; 12]).unwrap(), "eXample.com.");
    assert_eq!(name.text_into(&mut [0; 11]), Err(no_room(12)));
    let pointer = Name::new(ANSWER, 29).unwrap();
    assert_eq!(pointer.wire_into(&mut [0; 13]).unwrap(), b"\x07example\x03com\0");
    assert_eq!(pointer, name);
}

#[test]
fn what_is_no_name_is_refused() {
    for offset in [28, 44, 45, usize::MAX] {
        assert_eq!(Name::new(ANSWER, offset).err(), Some(Error::Malformed), "{offset}");
    }
    assert_eq!(Name::new(b"\xC0\0", 0).err(), Some(Error::Malformed));
    for text in ["", "example.com", "..", "a..b.", "\\256."] {
        assert_eq!(Name::from_text(text, &mut [0; 255]).err(), Some(Error::Malformed), "{text}");
    }
    assert_eq!(Name::from_text("a.", &mut [0; 2]).err(), Some(no_room(3)));
}

#[test]
fn data_is_within_its_octets() {
    assert_eq!(Data::new(SOURCE, 13..18, Rtype::A, Class::IN).err(), Some(Error::Malformed));
    assert_eq!(Data::new(SOURCE, usize::MAX..usize::MAX, Rtype::A, Class::IN).err(), Some(Error::Malformed));
    let data = Data::new(SOURCE, 14..17, Rtype::A, Class::IN).unwrap();
    assert!(!data.is_typed());
    assert_eq!(data.text_into(&mut [0; 64]).unwrap(), "\\# 3 000201");
}

#[test]
fn types_and_classes_are_parsed() {
    assert_eq!(("aaaa".parse(), "TYPE1234".parse()), (Ok(Rtype::AAAA), Ok(Rtype(1234))));
    assert_eq!(("in".parse(), "CLASS5".parse()), (Ok(Class::IN), Ok(Class(5))));
    assert_eq!("AAAAA".parse::<Rtype>(), Err(Error::Malformed));
    assert_eq!("TYPE65536".parse::<Rtype>(), Err(Error::Malformed));
    assert_eq!("".parse::<Class>(), Err(Error::Malformed));
}
