//! The records of MRT files: some that are written down here, and those of four daemons, with the lines that the
//! readers of mrtparse make of them.
use octseq_proved::NoRoom;
use octseq_proved::bgp::{self, Prefix};
use octseq_proved::mrt::{Error, Header, Kind, Row, attributes_into, rows_into};
use std::net::IpAddr;

/// A state change: 10.0.0.1 of AS 65001, at 10.0.0.2 of AS 65002, from 3 to 4.
const CHANGE: &[u8; 36] = b"\x65\x53\xF1\0\0\x10\0\x05\0\0\0\x18\0\0\xFD\xE9\0\0\xFD\xEA\0\x07\0\x01\
    \x0A\0\0\x01\x0A\0\0\x02\0\x03\0\x04";

/// The table of the collector 10.0.0.9, whose view is `v`: 10.0.0.1 of AS 65001, and 2001:db8::1 of AS 65536.
const TABLE: &[u8; 57] = b"\x65\x53\xF1\0\0\x0D\0\x01\0\0\0\x2D\x0A\0\0\x09\0\x01v\0\x02\
    \0\x0A\0\0\x01\x0A\0\0\x01\xFD\xE9\
    \x03\x0A\0\0\x02\x20\x01\x0D\xB8\0\0\0\0\0\0\0\0\0\0\0\x01\0\x01\0\0";

/// The RIB of 10.240.0.0/12, whose octets have bits after that. Its entries are of the peer 1, with an ORIGIN and the
/// AS path 65001, and of the peer 7, with an AS_PATH that is none.
const RIB: &[u8; 57] = b"\x65\x53\xF1\0\0\x0D\0\x02\0\0\0\x2D\0\0\0\x05\x0C\x0A\xFF\0\x02\
    \0\x01\x65\x53\xF0\xFF\0\x0D\x40\x01\x01\0\x40\x02\x06\x02\x01\0\0\xFD\xE9\
    \0\x07\x65\x53\xF0\xFE\0\x07\x40\x02\x04\x02\x01\0\x01";

const fn no_room(needed: usize) -> Error {
    Error::NoRoom(NoRoom { needed })
}

fn address(text: &str) -> Option<IpAddr> {
    Some(text.parse().unwrap())
}

#[test]
fn headers_are_read_at_the_front() {
    let header = Header { len: 36, timestamp: 1_700_000_000, type_code: 16, subtype: 5 };
    for len in 0..CHANGE.len() {
        let wanted = if len < 12 { Err(Error::Malformed) } else { Ok(header) };
        assert_eq!(Header::new(&CHANGE[..len]), wanted, "{len}");
    }
    let longest = Header { len: 4_294_967_307, timestamp: 0, type_code: 0, subtype: 0 };
    assert_eq!(Header::new(b"\0\0\0\0\0\0\0\0\xFF\xFF\xFF\xFF"), Ok(longest));
}

#[test]
fn a_state_change_is_one_row() {
    let mut room = [Row::default(); 2];
    let [row] = *rows_into(CHANGE, &mut room).unwrap() else { panic!("more rows") };
    assert_eq!((row.kind(), row.asn, row.local_asn, row.index, row.afi), (Kind::StateChange, 65001, 65002, 7, 1));
    assert_eq!((row.address(), row.local_address()), (address("10.0.0.1"), address("10.0.0.2")));
    assert_eq!((row.old_state, row.new_state, row.has_number, row.session), (3, 4, 0, 0));
    assert_eq!((row.octets(CHANGE), row.prefix(CHANGE)), (&b""[..], None));
    assert_eq!(room[1], Row::default());
    assert_eq!(rows_into(CHANGE, &mut []), Err(no_room(1)));
    assert_eq!(attributes_into(CHANGE, &mut []), Ok(&mut [][..]));
}

#[test]
fn a_table_has_a_row_for_each_peer() {
    let mut room = [Row::default(); 3];
    assert_eq!(rows_into(TABLE, &mut room[..2]), Err(no_room(3)));
    assert_eq!(room, [Row::default(); 3]);
    let rows = rows_into(TABLE, &mut room).unwrap();
    assert_eq!((rows[0].kind(), rows[0].id, rows[0].count), (Kind::PeerIndexTable, 0x0A00_0009, 2));
    assert_eq!((rows[0].octets(TABLE), rows[0].address()), (&b"v"[..], None));
    assert_eq!((rows[1].kind(), rows[1].id, rows[1].asn), (Kind::Peer, 0x0A00_0001, 65001));
    assert_eq!((rows[1].address(), rows[1].local_address()), (address("10.0.0.1"), None));
    assert_eq!((rows[2].kind(), rows[2].id, rows[2].asn), (Kind::Peer, 0x0A00_0002, 65536));
    assert_eq!((rows[2].address(), rows[2].afi), (address("2001:db8::1"), 2));
}

#[test]
fn a_rib_has_a_row_for_each_entry_and_attribute() {
    let mut room = [Row::default(); 3];
    let rows = rows_into(RIB, &mut room).unwrap();
    assert_eq!((rows[0].kind(), rows[0].id, rows[0].count, rows[0].safi), (Kind::Rib, 5, 2, 1));
    let prefix = Prefix { address: [10, 240, 0, 0].into(), bits: 12, is_multicast: false, path_id: None };
    assert_eq!((rows[0].octets(RIB), rows[0].prefix(RIB)), (&b"\x0A\xFF"[..], Some(prefix)));
    let entry = Row { kind: 4, count: 2, time: 0x6553_F0FF, index: 1, ..Row::default() };
    let other = Row { count: 1, time: 0x6553_F0FE, index: 7, ..entry };
    assert_eq!((rows[1], rows[2]), (entry, other));
    assert_eq!((entry.kind(), entry.address(), entry.prefix(RIB)), (Kind::RibEntry, None, None));

    let mut room = [bgp::Row::default(); 4];
    assert_eq!(attributes_into(RIB, &mut room[..2]), Err(no_room(3)));
    assert_eq!(room, [bgp::Row::default(); 4]);
    let origin = bgp::Row { at: 32, len: 1, kind: 1, flags: 0x40, type_code: 1, ..bgp::Row::default() };
    let path = bgp::Row { at: 36, len: 6, type_code: 2, ..origin };
    let attributes = attributes_into(RIB, &mut room).unwrap();
    assert_eq!(attributes, [origin, path, bgp::Row { at: 53, len: 4, ..path }]);
}

#[test]
fn other_records_are_opaque() {
    let octets = b"\x65\x53\xF1\0\0\x0C\0\x01\0\0\0\x02\x0A\xFF";
    let mut room = [Row::default(); 1];
    let row = Row { at: 12, len: 2, ..Row::default() };
    assert_eq!(rows_into(octets, &mut room).unwrap(), [row]);
    assert_eq!((row.kind(), row.octets(octets)), (Kind::Opaque, &b"\x0A\xFF"[..]));
}

#[test]
fn what_is_not_one_record_is_refused() {
    for octets in [&CHANGE[..], TABLE, RIB] {
        let longer = [octets, b"\0"].concat();
        for len in (0..octets.len()).chain([longer.len()]) {
            let (mut room, mut attributes) = ([Row::default(); 4], [bgp::Row::default(); 4]);
            assert_eq!(rows_into(&longer[..len], &mut room), Err(Error::Malformed), "{len}");
            assert_eq!(attributes_into(&longer[..len], &mut attributes), Err(Error::Malformed), "{len}");
        }
    }
    assert_eq!(
        (Error::Malformed.to_string(), no_room(3).to_string()),
        ("malformed".into(), NoRoom { needed: 3 }.to_string())
    );
}

#[cfg(feature = "std")]
mod paths;

#[cfg(feature = "alloc")]
mod with_vectors {
    use super::{CHANGE, RIB, TABLE, address};
    use octseq_proved::bgp::{self, Session};
    use octseq_proved::mrt::{Body, Error, Event, Peer, Record, State, StateChange, attributes, rows};

    fn record(octets: &[u8]) -> Record {
        Record::new(octets.into()).unwrap()
    }

    #[test]
    fn a_state_change_has_its_values() {
        let record = record(CHANGE);
        assert_eq!((record.octets(), record.header().timestamp), (&CHANGE[..], 1_700_000_000));
        let Body::StateChange(change) = record.body() else { panic!("{record:?}") };
        let event = Event {
            microseconds: None,
            peer_asn: 65001,
            local_asn: 65002,
            interface_index: 7,
            peer_address: address("10.0.0.1").unwrap(),
            local_address: address("10.0.0.2").unwrap(),
        };
        assert_eq!(change, StateChange { event, old_state: State::ACTIVE, new_state: State::OPEN_SENT });
        assert_eq!(record.rows(), rows(CHANGE).unwrap());
        assert!(record.attributes().is_empty());
    }

    #[test]
    fn states_have_names() {
        let shown: Vec<_> = (0..8).map(|number| State(number).to_string()).collect();
        let names = ["0", "Idle", "Connect", "Active", "OpenSent", "OpenConfirm", "Established", "7"];
        assert_eq!(shown, names);
    }

    #[test]
    fn a_table_has_its_peers() {
        let record = record(TABLE);
        let Body::PeerIndexTable(table) = record.body() else { panic!("{record:?}") };
        assert_eq!((table.collector_bgp_id(), table.view_name()), ([10, 0, 0, 9].into(), &b"v"[..]));
        let peers = [("10.0.0.1", 1, 65001), ("2001:db8::1", 2, 65536)].map(|(text, number, asn)| Peer {
            bgp_id: [10, 0, 0, number].into(),
            address: address(text).unwrap(),
            asn,
        });
        assert_eq!(table.peers().len(), 2);
        assert!(table.peers().eq(peers));
        assert_eq!([0, 1, 2, u16::MAX].map(|index| table.peer(index)), [Some(peers[0]), Some(peers[1]), None, None]);
    }

    #[test]
    fn a_rib_has_its_entries() {
        let record = record(RIB);
        let Body::Rib(rib) = record.body() else { panic!("{record:?}") };
        assert_eq!((rib.sequence_number(), rib.prefix().to_string().as_str()), (5, "10.240.0.0/12"));
        assert!(rib.table().is_none());
        assert_eq!(rib.entries().len(), 2);
        let [entry, other] = rib.entries().collect::<Vec<_>>()[..] else { panic!("{record:?}") };
        assert_eq!((entry.peer_index(), entry.originated_time(), entry.path_id()), (1, 0x6553_F0FF, None));
        let values: Vec<_> = entry.attributes().map(|part| (part.row().type_code, part.octets())).collect();
        assert_eq!(values, [(1, &b"\0"[..]), (2, b"\x02\x01\0\0\xFD\xE9")]);
        assert_eq!((entry.value_of(1), entry.value_of(3)), (Some(&b"\0"[..]), None));
        assert_eq!(entry.as_path().unwrap().unwrap().to_string(), "65001");
        assert_eq!((other.peer_index(), other.value_of(2)), (7, Some(&b"\x02\x01\0\x01"[..])));
        assert_eq!(other.as_path(), Err(bgp::Error::Malformed));
        assert_eq!((entry.peer(), other.peer()), (None, None));
        assert_eq!(record.attributes(), attributes(RIB).unwrap());
    }

    /// A KEEPALIVE in a BGP4MP_ET record of AS numbers of two octets, whose time has 9 microseconds.
    #[test]
    fn a_message_has_its_session() {
        let octets =
            b"\x65\x53\xF1\0\0\x11\0\x01\0\0\0\x27\0\0\0\x09\xFD\xE9\xFD\xEA\0\x07\0\x01\x0A\0\0\x01\x0A\0\0\x02\
            \xFF\xFF\xFF\xFF\xFF\xFF\xFF\xFF\xFF\xFF\xFF\xFF\xFF\xFF\xFF\xFF\0\x13\x04";
        let record = record(octets);
        let Body::Message(message) = record.body() else { panic!("{record:?}") };
        assert_eq!(message.session, Session { extended_message: true, ..Session::LEGACY });
        assert_eq!((message.event.microseconds, message.event.peer_asn), (Some(9), 65001));
        assert_eq!(message.octets, &octets[32..]);
        let read = message.message().unwrap();
        assert_eq!((read.to_string().as_str(), read.as_path()), ("keepalive\n", Ok(None)));
        let mut broken = *octets;
        broken[50] = 2;
        let record = Record::new(broken.into()).unwrap();
        let Body::Message(message) = record.body() else { panic!("{record:?}") };
        assert_eq!(message.message().err(), Some(bgp::Error::Malformed));
    }

    #[test]
    fn what_is_not_one_record_makes_none() {
        for len in 0..RIB.len() {
            let refused = (Record::new(RIB[..len].into()), rows(&RIB[..len]), attributes(&RIB[..len]));
            assert_eq!(refused, (Err(Error::Malformed), Err(Error::Malformed), Err(Error::Malformed)), "{len}");
        }
    }
}

#[cfg(feature = "std")]
mod of_files {
    use super::{CHANGE, RIB, TABLE, paths};
    use octseq_proved::bgp;
    use octseq_proved::mrt::{Body, Error, Event, Message, PeerIndexTable, ReadError, Reader, Record, Rib, RibEntry};
    use std::io::{self, ErrorKind, Read};
    use std::{fs, net::IpAddr, path::Path};

    fn file(name: &str) -> Vec<u8> {
        fs::read(Path::new(env!("CARGO_MANIFEST_DIR")).join("../../crates/octseq_mrt_tests").join(name)).unwrap()
    }

    /// Calls with each record and its lines.
    fn with_each(mut call: impl FnMut(&Record, &[&str])) {
        let (stream, text) = (file("stdin"), String::from_utf8(file("stdout")).unwrap());
        let mut records = Reader::new(&stream[..]);
        for lines in text.split_terminator("\n\n") {
            let record = records.next().unwrap().unwrap();
            call(&record, &lines.split('\n').collect::<Vec<_>>());
        }
        assert!(records.next().is_none() && records.next().is_none());
    }

    /// The word of a line that follows another.
    fn after<'line>(line: &'line str, word: &str) -> &'line str {
        line.split(' ').skip_while(|one| *one != word).nth(1).unwrap()
    }

    fn number(word: &str) -> u32 {
        word.parse().unwrap()
    }

    fn address(word: &str) -> IpAddr {
        word.parse().unwrap()
    }

    #[test]
    fn there_are_as_many_records_as_the_other_reader_says() {
        let (mut count, mut octets) = (0, Vec::new());
        with_each(|record, _| {
            assert_eq!(record.header().len, record.octets().len());
            octets.extend_from_slice(record.octets());
            count += 1;
        });
        assert!(count > 1200);
        assert_eq!(octets, file("stdin"));
    }

    #[test]
    fn opaque_records_have_their_octets() {
        let mut count = 0;
        with_each(|record, lines| {
            let words: Vec<_> = lines[0].split(' ').collect();
            let Body::Opaque(octets) = record.body() else { return assert_ne!(words[0], "record") };
            let header = record.header();
            let numbers = [header.timestamp, header.type_code.into(), header.subtype.into()];
            assert_eq!((words[0], numbers), ("record", [1, 2, 3].map(|at| number(words[at]))));
            let digits: String = octets.iter().map(|octet| format!("{octet:02x}")).collect();
            assert_eq!(digits, words[6..].concat());
            count += 1;
        });
        assert_eq!(count, 307);
    }

    fn judge_table(table: PeerIndexTable<'_>, lines: &[&str]) {
        assert_eq!(table.collector_bgp_id().to_string(), after(lines[0], "collector"));
        let name = std::str::from_utf8(table.view_name()).unwrap();
        assert!(lines[0].ends_with(&format!(" view \"{name}\"")));
        assert_eq!(table.peers().len(), lines.len() - 1);
        for (at, (peer, line)) in table.peers().zip(&lines[1..]).enumerate() {
            assert_eq!((number(after(line, "peer")), table.peer(at as u16)), (at as u32, Some(peer)));
            assert_eq!((peer.bgp_id.to_string().as_str(), peer.asn), (after(line, "id"), number(after(line, "as"))));
            assert_eq!(peer.address, address(after(line, "address")));
        }
    }

    #[test]
    fn tables_have_their_peers() {
        let mut count = 0;
        with_each(|record, lines| match record.body() {
            Body::PeerIndexTable(table) => {
                judge_table(table, lines);
                count += table.peers().len();
            }
            _ => assert!(!lines[0].starts_with("peers ")),
        });
        assert_eq!(count, 33);
    }

    fn judge_rib(record: &Record, rib: Rib<'_>, line: &str) {
        let words: Vec<_> = line.split(' ').collect();
        let header = record.header();
        assert_eq!([header.timestamp, header.subtype.into()], [number(words[1]), number(words[2])]);
        assert_eq!(rib.sequence_number(), number(after(line, "sequence")));
        assert_eq!(rib.prefix().to_string(), words[5]);
        assert_eq!(rib.prefix().is_multicast, ![2, 4, 8, 10].contains(&header.subtype));
    }

    fn judge_entry(entry: RibEntry<'_>, lines: &[&str]) {
        assert_eq!(u32::from(entry.peer_index()), number(after(lines[0], "entry")));
        assert_eq!(entry.originated_time(), number(after(lines[0], "time")));
        let path_id = lines[0].contains(" path ").then(|| number(after(lines[0], "path")));
        assert_eq!(entry.path_id(), path_id);
        let shown: Vec<_> = lines.iter().filter(|line| line.starts_with("attribute ")).collect();
        assert_eq!(entry.attributes().len(), shown.len());
        for (attribute, line) in entry.attributes().zip(shown) {
            let (flags, words) = (attribute.row().flags, line.split(' ').collect::<Vec<_>>());
            let letters =
                [(0x80, "O"), (0x40, "T"), (0x20, "P")].map(|(bit, letter)| if flags & bit > 0 { letter } else { "" });
            assert_eq!(letters.concat(), words[1].replace('-', ""));
            if words[2] == "MULTI_EXIT_DISC" && words[3] != "\\#" {
                assert_eq!((attribute.row().type_code, attribute.octets()), (4, &number(words[3]).to_be_bytes()[..]));
            }
        }
        paths::judge(entry.as_path(), paths::shown(lines.iter().copied(), "AS_PATH"));
    }

    #[test]
    fn ribs_have_their_entries() {
        let (mut ribs, mut entries) = (0, 0);
        with_each(|record, lines| {
            let Body::Rib(rib) = record.body() else { return assert!(!lines[0].starts_with("rib ")) };
            judge_rib(record, rib, lines[0]);
            let starts: Vec<_> = (1..lines.len()).filter(|at| lines[*at].starts_with("entry ")).collect();
            assert_eq!(rib.entries().len(), starts.len());
            let ends = starts.iter().copied().skip(1).chain([lines.len()]);
            for (entry, (start, end)) in rib.entries().zip(starts.iter().copied().zip(ends)) {
                judge_entry(entry, &lines[start..end]);
                entries += 1;
            }
            ribs += 1;
        });
        assert_eq!((ribs, entries), (438, 437));
    }

    #[test]
    fn entries_know_their_peers() {
        let (mut peers, mut known, mut unknown) = (Vec::new(), 0, 0);
        with_each(|record, lines| match record.body() {
            Body::PeerIndexTable(_) => peers = lines[1..].iter().map(|line| address(after(line, "address"))).collect(),
            Body::Rib(rib) => {
                for entry in rib.entries() {
                    let address = peers.get(usize::from(entry.peer_index())).copied();
                    assert_eq!(entry.peer().map(|peer| peer.address), address);
                    (known, unknown) =
                        (known + usize::from(address.is_some()), unknown + usize::from(address.is_none()));
                }
            }
            _ => (),
        });
        assert!(known > 300, "{known}, {unknown}");
        assert_eq!(known + unknown, 437);
    }

    fn judge_event(record: &Record, event: Event, line: &str) {
        let words: Vec<_> = line.split(' ').collect();
        let microseconds = event.microseconds.map_or(String::new(), |number| format!(".{number:06}"));
        assert_eq!(format!("{}{microseconds}", record.header().timestamp), words[1]);
        assert_eq!(record.header().subtype.to_string(), words[2]);
        assert_eq!((event.peer_address, event.peer_asn), (address(after(line, "peer")), number(words[6])));
        assert_eq!((event.local_address, event.local_asn), (address(after(line, "local")), number(words[10])));
        assert_eq!(u32::from(event.interface_index), number(after(line, "interface")));
    }

    /// Whether it has an AS path.
    fn judge_message(message: Message<'_>, lines: &[&str]) -> bool {
        if lines == ["malformed"] {
            assert_eq!(message.message().err(), Some(bgp::Error::Malformed));
            return false;
        }
        let read = message.message().unwrap();
        assert_eq!(read.text().unwrap(), lines.join("\n") + "\n");
        let path = read.as_path();
        let has_path = path.as_ref().is_ok_and(|path| path.is_some());
        paths::judge(path, paths::shown(lines.iter().copied(), "AS_PATH"));
        has_path
    }

    #[test]
    fn messages_and_state_changes_have_their_lines() {
        let (mut messages, mut malformed, mut with_paths, mut changes) = (0, 0, 0, 0);
        with_each(|record, lines| match record.body() {
            Body::StateChange(change) => {
                judge_event(record, change.event, lines[0]);
                let states = format!(" state {} {}", change.old_state.0, change.new_state.0);
                assert!(lines[0].ends_with(&states) && lines.len() == 1);
                changes += 1;
            }
            Body::Message(message) => {
                judge_event(record, message.event, lines[0]);
                with_paths += usize::from(judge_message(message, &lines[1..]));
                malformed += usize::from(lines[1] == "malformed");
                messages += 1;
            }
            _ => assert!(!lines[0].starts_with("bgp4mp ")),
        });
        assert_eq!((messages + changes, malformed), (515, 40));
        assert!(messages > 340 && with_paths > 150, "{messages}, {with_paths}");
    }

    /// What a reader says of a file that has these octets.
    fn read(octets: &[u8]) -> Vec<Result<Record, ReadError>> {
        Reader::new(octets).collect()
    }

    #[test]
    fn a_table_is_of_the_ribs_after_it() {
        let octets = [&RIB[..], TABLE, RIB, CHANGE, RIB].concat();
        let mut asns = Vec::new();
        for record in Reader::new(&octets[..]) {
            if let Body::Rib(rib) = record.unwrap().body() {
                let [entry, other] = rib.entries().collect::<Vec<_>>()[..] else { panic!("{rib:?}") };
                assert_eq!((rib.table().is_some(), other.peer()), (entry.peer().is_some(), None));
                asns.push(entry.peer().map(|peer| peer.asn));
            }
        }
        assert_eq!(asns, [None, Some(65536), Some(65536)]);
    }

    #[test]
    fn a_file_that_ends_inside_a_record_is_cut_off() {
        assert!(read(b"").is_empty());
        for len in 1..CHANGE.len() {
            let records = read(&[CHANGE, &CHANGE[..len]].concat());
            let [Ok(record), Err(ReadError::CutOff { len: cut })] = &records[..] else { panic!("{records:?}") };
            assert_eq!((record.octets(), *cut), (&CHANGE[..], len));
        }
        let error = read(&CHANGE[..20]).remove(0).unwrap_err();
        assert_eq!(error.to_string(), "the file ends inside a record, after 20 of its octets");
        assert!(std::error::Error::source(&error).is_none());
    }

    /// A source that gives a few octets at a time, and is interrupted between them.
    struct Slow<'octets> {
        octets: &'octets [u8],
        is_interrupted: bool,
    }

    impl Read for Slow<'_> {
        fn read(&mut self, to: &mut [u8]) -> io::Result<usize> {
            self.is_interrupted = !self.is_interrupted;
            if self.is_interrupted {
                return Err(ErrorKind::Interrupted.into());
            }
            let len = to.len().min(7);
            self.octets.read(&mut to[..len])
        }
    }

    #[test]
    fn a_file_may_give_little_at_a_time() {
        let stream = file("stdin");
        let records = Reader::new(Slow { octets: &stream, is_interrupted: false });
        let octets: Vec<_> = records.flat_map(|record| record.unwrap().octets().to_vec()).collect();
        assert_eq!(octets, stream);
    }

    /// A source that fails.
    struct Broken;

    impl Read for Broken {
        fn read(&mut self, _: &mut [u8]) -> io::Result<usize> {
            Err(io::Error::other("broken"))
        }
    }

    #[test]
    fn errors_of_the_file_are_passed_on() {
        let mut records = Reader::new(CHANGE.chain(&CHANGE[..5]).chain(Broken));
        assert!(records.next().unwrap().is_ok());
        let error = records.next().unwrap().unwrap_err();
        assert!(matches!(&error, ReadError::Io(error) if error.to_string() == "broken"));
        assert_eq!(error.to_string(), "broken");
        assert!(std::error::Error::source(&error).is_some());
        assert!(records.next().is_none());
        let error = ReadError::Record(Error::Malformed);
        assert!(error.to_string() == "malformed" && std::error::Error::source(&error).is_some());
    }
}
