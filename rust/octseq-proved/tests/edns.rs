//! Queries with an OPT record, and answers within a limit. The octets of queries are those that dnspython 2.3 makes.
use octseq_proved::NoRoom;
use octseq_proved::dns::{Class, Edns, Error, Message, Row, Rtype, flags, query_edns_into};

/// For the addresses of `example.com.`, with the flag DO and a payload of 1,400 octets.
const QUERY: &[u8; 56] = b"\x12\x34\x01\0\0\x01\0\0\0\0\0\x01\x07example\x03com\0\0\x1C\0\x01\
    \0\0\x29\x05\x78\0\0\x80\0\0\x10\0\x0A\0\x08\x01\x02\x03\x04\x05\x06\x07\x08\0\x03\0\0";

/// A client cookie (RFC 7873, 4), and an empty NSID (RFC 5001, 2.1).
const OPTIONS: &[u8] = QUERY.split_at(40).1;

const EDNS: Edns<'_> = Edns { payload: 1400, flags: Edns::DO, options: OPTIONS };

fn ask<'room>(name: &str, edns: Edns<'_>, room: &'room mut [u8]) -> Result<&'room mut [u8], Error> {
    query_edns_into(0x1234, flags::RD, name, Rtype::AAAA, Class::IN, edns, room)
}

#[test]
fn a_query_has_an_opt_record() {
    assert_eq!(ask("example.com.", EDNS, &mut [0; 56]).unwrap(), QUERY);
    assert_eq!(ask("example.com.", EDNS, &mut [0; 55]), Err(Error::NoRoom(NoRoom { needed: 56 })));
    let mut room = [0; 40];
    let plain = ask("example.com.", Edns::new(1232), &mut room).unwrap();
    assert_eq!(plain[..29], QUERY[..29]);
    assert_eq!(plain[29..], *b"\0\0\x29\x04\xD0\0\0\0\0\0\0");
}

#[test]
fn what_is_no_name_or_no_options_is_refused() {
    assert_eq!(ask("example.com", EDNS, &mut [0; 99]), Err(Error::Malformed));
    for len in 0..=OPTIONS.len() {
        let is_written = ask("example.com.", Edns { options: &OPTIONS[..len], ..EDNS }, &mut [0; 99]).is_ok();
        assert_eq!(is_written, [0, 12, 16].contains(&len), "{len}");
    }
}

/// A query for the root has 28 octets besides its options.
#[test]
fn a_query_has_at_most_65535_octets() {
    let mut options = [0; 65508];
    let (mut room, needed) = ([0; 65535], 65535);
    for (len, written) in [(65507, Ok(needed)), (65508, Err(Error::TooLong))] {
        options[2..4].copy_from_slice(&(len as u16 - 4).to_be_bytes());
        let edns = Edns { options: &options[..len], ..EDNS };
        assert_eq!(ask(".", edns, &mut room).map(|query| query.len()), written);
    }
}

/// Three addresses of a name: 12 octets of header, 17 of the first record, 16 of each other.
#[test]
fn an_answer_is_cut_at_a_limit() {
    let query = Message::new(b"\0\x07\x01\0\0\0\0\0\0\0\0\0").unwrap();
    let source = b"\x01a\0\x01\x02\x03\x04";
    let row = Row { name_at: 0, data_at: 3, data_len: 4, ttl: 9, rtype: Rtype::A, rclass: Class::IN, section: 1 };
    let rows = [row; 3];
    let mut room = [0; 65];
    for limit in 0..70 {
        let count = [12, 29, 45, 61].iter().filter(|len| **len <= limit).count();
        let answer = query.answer_within_into(flags::AA, source, &rows, limit, &mut room);
        let Some(count) = count.checked_sub(1) else {
            assert_eq!(answer, Err(Error::TooLong), "{limit}");
            continue;
        };
        let truncated = if count < 3 { flags::TC } else { 0 };
        let mut other = [0; 65];
        let wanted = query.answer_into(flags::AA | truncated, source, &rows[..count], &mut other);
        assert_eq!(answer, wanted, "{limit}");
    }
    let cut = b"\0\x07\x87\0\0\0\0\x02\0\0\0\0\x01a\0\0\x01\0\x01\0\0\0\x09\0\x04\x01\x02\x03\x04\
        \xC0\x0C\0\x01\0\x01\0\0\0\x09\0\x04\x01\x02\x03\x04";
    assert_eq!(query.answer_within_into(flags::AA, source, &rows, 60, &mut room).unwrap(), cut);
    let no_room = Err(Error::NoRoom(NoRoom { needed: 45 }));
    assert_eq!(query.answer_within_into(flags::AA, source, &rows, 60, &mut room[..44]), no_room);
    let wrong = [row, Row { section: 0, ..row }];
    assert_eq!(query.answer_within_into(flags::AA, source, &wrong, 60, &mut room), Err(Error::BadRow));
}

#[cfg(feature = "alloc")]
mod with_vectors {
    use super::{EDNS, Edns, Message, OPTIONS, QUERY};
    use octseq_proved::dns::{Class, Error, Field, Row, Rtype, flags, query_edns};

    #[test]
    fn a_query_is_read() {
        let octets = query_edns(0x1234, flags::RD, "example.com.", Rtype::AAAA, Class::IN, EDNS).unwrap();
        assert_eq!(octets, QUERY);
        let entries = Message::new(&octets).unwrap().entries().unwrap();
        let (row, data) = (entries[1].row(), entries[1].data().unwrap());
        assert_eq!((row.rtype, row.rclass, row.ttl), (Rtype::OPT, Class(1400), 0x8000));
        let options = [Field::Parameter { key: 10, value: &OPTIONS[4..12] }, Field::Parameter { key: 3, value: b"" }];
        assert_eq!(data.fields().unwrap(), options);
        let cut = Edns { options: b"\0\x0A\0", ..EDNS };
        assert_eq!(query_edns(7, 0, ".", Rtype::A, Class::IN, cut), Err(Error::Malformed));
    }

    /// The questions have 29 octets, the first row 11 and each other 261.
    #[test]
    fn an_answer_keeps_the_first_rows() {
        let query = Message::new(QUERY).unwrap();
        let opt = Row { rtype: Rtype::OPT, rclass: Class(1232), section: 3, ..Row::default() };
        let row = Row { data_at: 1, data_len: 250, rtype: Rtype(65280), rclass: Class::IN, section: 1, ..opt };
        let answer = query.answer_within(0, &[0; 251], &[opt, row, row, row, row, row], 1232).unwrap();
        let answer = Message::new(&answer).unwrap();
        assert_eq!((answer.octets().len(), answer.header().flags), (40 + 4 * 261, 0x8300));
        assert_eq!((answer.header().ancount, answer.header().arcount), (4, 1));
        assert_eq!(query.answer_within(0, &[0; 251], &[opt], 28), Err(Error::TooLong));
    }
}
