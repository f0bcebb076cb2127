//! Records and messages that are read from text. The octets of records are those that dnspython 2.3 makes of the same
//! text.
use octseq_proved::NoRoom;
use octseq_proved::dns::{Class, Entry, Error, Message, Row, Rtype, Section};
use octseq_proved::dns::{message_from_text_into, record_from_text_into};

const TEXT: &str = "example.com. 300 IN MX 10 mail.example.com.";
const RECORD: &[u8; 43] = b"\x07example\x03com\0\0\x0F\0\x01\0\0\x01\x2C\0\x14\0\x0A\x04mail\x07example\x03com\0";

/// The header of messages that are refused further on.
macro_rules! with_header {
    ($text:literal) => {
        concat!("id 7 opcode 0 rcode 0 flags\n", $text)
    };
}

const fn no_room(needed: usize) -> Error {
    Error::NoRoom(NoRoom { needed })
}

#[test]
fn a_record_is_written() {
    let mut room = [b'-'; 44];
    assert_eq!(record_from_text_into(TEXT, &mut room).unwrap(), RECORD);
    assert_eq!(room[43], b'-');
    let mut room = [b'-'; 42];
    assert_eq!(record_from_text_into(TEXT, &mut room), Err(no_room(43)));
    assert_eq!(room, [b'-'; 42]);
    assert_eq!(
        record_from_text_into(". IN 1 A 1.2.3.4", &mut room).unwrap(),
        b"\0\0\x01\0\x01\0\0\0\x01\0\x04\x01\x02\x03\x04"
    );
    let unknown = record_from_text_into(". 0 CH TYPE65280 \\# 2 ab CD", &mut room);
    assert_eq!(unknown.unwrap(), b"\0\xFF\0\0\x03\0\0\0\0\0\x02\xAB\xCD");
}

#[test]
fn a_record_is_refused_at_a_word() {
    let refused = [
        ("", 0),
        (" a. 1 IN A 1.2.3.4", 0),
        ("a 1 IN A 1.2.3.4", 0),
        ("é. 1 IN A 1.2.3.4", 0),
        ("a. x IN A 1.2.3.4", 3),
        ("a. IN IN A 1.2.3.4", 6),
        ("a. 4294967296 IN A 1.2.3.4", 3),
        ("a. 1 IN NOTYPE 1.2.3.4", 8),
        ("a. 1 IN A 1.2.3", 10),
        ("a. 1 IN A", 9),
        ("a. 1 IN A 1.2.3.4 x", 18),
        ("a. 1 IN MX 10 b. c.", 17),
        ("a. 1 IN A 1.2.3.4\n", 10),
    ];
    for (text, offset) in refused {
        let mut room = [b'-'; 99];
        let wanted = Err(Error::MalformedText { line: 1, offset });
        assert_eq!(record_from_text_into(text, &mut room), wanted, "{text}");
        assert_eq!(room, [b'-'; 99], "{text}");
    }
}

#[test]
fn the_octets_of_a_record_are_read() {
    let record = Entry::of_record(RECORD, Section::Authority).unwrap();
    let row = Row { name_at: 0, data_at: 23, data_len: 20, ttl: 300, rtype: Rtype::MX, rclass: Class::IN, section: 2 };
    assert_eq!((record.row(), record.source()), (row, &RECORD[..]));
    assert_eq!((record.section(), record.data().unwrap().octets()), (Section::Authority, &RECORD[23..]));
    assert_eq!(record.name().wire_into(&mut [0; 13]).unwrap(), b"\x07example\x03com\0");
    let record = Entry::of_record(b"\0\xFF\0\x01\x02\xFE\xDC\xBA\x98\0\0", Section::Answer).unwrap();
    assert_eq!((record.rtype(), record.class(), record.ttl()), (Rtype(0xFF00), Class(0x0102), 0xFEDC_BA98));
    for len in 0..RECORD.len() {
        assert_eq!(Entry::of_record(&RECORD[..len], Section::Answer).err(), Some(Error::Malformed), "{len}");
    }
    let wrong: [&[u8]; 3] = [
        b"\0\0\x01\0\x01\0\0\0\x01\0\x04\x01\x02\x03\x04\x05",
        b"\xC0\x02\0\0\x01\0\x01\0\0\0\x01\0\x04\x01\x02\x03\x04",
        b"\xC0\x00\0\0\x01\0\x01\0\0\0\x01\0\x04\x01\x02\x03\x04",
    ];
    for octets in wrong {
        assert_eq!(Entry::of_record(octets, Section::Answer).err(), Some(Error::Malformed), "{octets:?}");
    }
    assert_eq!(Entry::of_record(RECORD, Section::Question).err(), Some(Error::BadRow));
}

/// The name of the record, which is that of the question, becomes a pointer.
#[test]
fn a_record_of_text_is_in_an_answer() {
    let mut room = [0; 64];
    let octets = record_from_text_into(TEXT, &mut room).unwrap();
    let record = Entry::of_record(octets, Section::Answer).unwrap();
    let query = Message::new(b"\0\x07\0\0\0\x01\0\0\0\0\0\0\x07example\x03com\0\0\x0F\0\x01").unwrap();
    let mut answer = [0; 64];
    let answer = query.answer_into(0, record.source(), &[record.row()], &mut answer).unwrap();
    assert_eq!(answer[29..], *b"\xC0\x0C\0\x0F\0\x01\0\0\x01\x2C\0\x09\0\x0A\x04mail\xC0\x0C");
}

const ANSWER: &str =
    "id 7 opcode 0 rcode 0 flags QR AA\nquestion example.com. IN A\nanswer example.com. 300 IN A 1.2.3.4\n";

const OCTETS: &[u8; 45] = b"\0\x07\x84\0\0\x01\0\x01\0\0\0\0\x07example\x03com\0\0\x01\0\x01\
    \xC0\x0C\0\x01\0\x01\0\0\x01\x2C\0\x04\x01\x02\x03\x04";

#[test]
fn a_message_is_written() {
    let mut room = [b'-'; 46];
    assert_eq!(message_from_text_into(ANSWER, &mut room).unwrap(), OCTETS);
    assert_eq!(room[45], b'-');
    let mut room = [b'-'; 44];
    assert_eq!(message_from_text_into(ANSWER, &mut room), Err(no_room(45)));
    assert_eq!(room, [b'-'; 44]);
}

#[test]
fn a_message_is_refused_at_a_word_of_a_line() {
    let refused = [
        ("", 1, 0),
        ("id 7 opcode 0 rcode 0 flags", 1, 27),
        ("id 65536 opcode 0 rcode 0 flags\n", 1, 3),
        ("id 7 opcode 16 rcode 0 flags\n", 1, 12),
        ("id 7 opcode 0 rcode 0 flags RD QR\n", 1, 31),
        (with_header!("\n"), 2, 0),
        (with_header!("question a. IN\n"), 2, 14),
        (with_header!("question a. IN A\nanswer a. 1 IN A 1.2.3\n"), 3, 17),
        (with_header!("additional a. 1 IN A 1.2.3.4\nanswer a. 1 IN A 1.2.3.4\n"), 3, 0),
    ];
    for (text, line, offset) in refused {
        let mut room = [b'-'; 99];
        let wanted = Err(Error::MalformedText { line, offset });
        assert_eq!(message_from_text_into(text, &mut room), wanted, "{text}");
        assert_eq!(room, [b'-'; 99], "{text}");
    }
}

#[cfg(feature = "alloc")]
mod with_vectors {
    use super::{ANSWER, OCTETS, RECORD, TEXT};
    use octseq_proved::dns::{Class, Rtype};
    use octseq_proved::dns::{Entry, Error, Message, Section, message_from_text, query, record_from_text};
    use std::{fs, path::Path};

    /// Lines for `example.com.`, and the data of their records in hexadecimal.
    const DATA: [(&str, &str); 9] = [
        ("300 IN MX 10 mail.example.com.", "000a046d61696c076578616d706c6503636f6d00"),
        ("IN 300 A 192.0.2.1", "c0000201"),
        ("1 IN AAAA 2001:db8::1", "20010db8000000000000000000000001"),
        ("1 IN TXT \"a b\" c \"\\\"\\200\"", "03612062016302 22c8"),
        ("1 IN SOA a. b. 1 2 3 4 5", "016100 016200 0000000100000002000000030000000400000005"),
        ("1 IN SRV 1 2 3 a.", "000100020003 016100"),
        ("1 IN CAA 0 issue \"ca.example\"", "00056973737565 63612e6578616d706c65"),
        (
            "1 IN NSEC a. A MX RRSIG NSEC TYPE1234",
            "016100 0006400100000003 041b 0000000000000000000000000000000000000000000000000000 20",
        ),
        ("1 CH TYPE65280 \\# 3 01 02ff", "0102ff"),
    ];

    fn hexadecimal(octets: &[u8]) -> String {
        octets.iter().map(|octet| format!("{octet:02x}")).collect()
    }

    #[test]
    fn records_have_their_data() {
        for (text, data) in DATA {
            let octets = record_from_text(&format!("example.com. {text}")).unwrap();
            let record = Entry::of_record(&octets, Section::Answer).unwrap();
            assert_eq!(hexadecimal(record.data().unwrap().octets()), data.replace(' ', ""), "{text}");
            assert_eq!(record.name().to_string(), "example.com.");
        }
        assert_eq!(record_from_text(TEXT).unwrap(), RECORD);
        assert_eq!(record_from_text("a. 1 IN A 1.2.3"), Err(Error::MalformedText { line: 1, offset: 10 }));
    }

    /// Twelve addresses have 192 octets, and 36 in the text.
    #[test]
    fn a_record_may_have_more_octets_than_its_text() {
        let text = format!("a. 1 IN SVCB 1 . ipv6hint=::{}", ",::".repeat(11));
        let octets = record_from_text(&text).unwrap();
        assert_eq!(octets.len(), 3 + 10 + 3 + 4 + 192);
        assert!(octets.len() > text.len() + 100);
        assert!(octets[20..].iter().all(|octet| *octet == 0));
    }

    /// A pointer leads to an offset of the record: at 0 is its name, at 2 the end of that, at 13 the pointer itself.
    #[test]
    fn data_that_is_given_as_octets_may_have_pointers() {
        let query = query(7, 0, ".", Rtype::NS, Class::IN).unwrap();
        for (offset, data) in [(0, Ok("a.")), (2, Ok(".")), (13, Err(Error::Immovable)), (15, Err(Error::Immovable))] {
            let octets = record_from_text(&format!("a. 1 IN NS \\# 2 c0{offset:02x}")).unwrap();
            let record = Entry::of_record(&octets, Section::Answer).unwrap();
            let answer = Message::new(&query).unwrap().answer(0, record.source(), &[record.row()]);
            let shown =
                answer.map(|octets| Message::new(&octets).unwrap().entries().unwrap()[1].data().unwrap().text());
            assert_eq!(shown, data.map(|text| Ok(text.into())), "{offset}");
        }
    }

    /// Data of 65,535 octets is the longest, and so is a message of that many: 23 octets come before its data.
    #[test]
    fn long_texts_are_refused() {
        for (len, message_len) in [(65512, Some(65535)), (65513, None), (65535, None)] {
            let record = format!(". 0 IN TYPE65280 \\# {len} {}", "aa".repeat(len));
            assert_eq!(record_from_text(&record).map(|octets| octets.len()), Ok(11 + len));
            let text = format!("id 7 opcode 0 rcode 0 flags\nanswer {record}\n");
            let message = message_from_text(&text).map(|octets| octets.len());
            assert_eq!(message, message_len.ok_or(Error::TooLong), "{len}");
        }
        let strings = "\"\" ".repeat(65536);
        assert_eq!(record_from_text(&format!(". 0 IN TXT {}", strings.trim_end())), Err(Error::TooLong));
    }

    #[test]
    fn a_message_is_made() {
        assert_eq!(message_from_text(ANSWER).unwrap(), OCTETS);
        let refused = message_from_text("id 7 opcode 0 rcode 0 flags RD\nquestion a. IM A\n").unwrap_err();
        assert_eq!(refused, Error::MalformedText { line: 2, offset: 12 });
        assert_eq!(refused.to_string(), "line 2, offset 12: something else has to come here");
    }

    /// The lines of messages of real traffic are those that the readers of dnspython make of them.
    #[test]
    fn the_lines_of_messages_are_read_back() {
        let file = Path::new(env!("CARGO_MANIFEST_DIR")).join("../../crates/octseq_dns_messages/stdout");
        let text = fs::read_to_string(file).unwrap();
        let mut count = 0;
        for lines in text.split_inclusive("\n\n").filter_map(|lines| lines.strip_suffix("\n\n")) {
            if lines == "malformed" {
                continue;
            }
            let lines = format!("{lines}\n");
            let octets = message_from_text(&lines).unwrap();
            assert_eq!(Message::new(&octets).unwrap().text().unwrap(), lines);
            count += 1;
        }
        assert!(count > 400, "{count}");
    }
}
