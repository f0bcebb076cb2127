//! 318 BGP messages, of which 187 are of daemons and captures, with the lines that the readers of mrtparse make of
//! them; and one message, part by part, in each session.
use octseq_proved::NoRoom;
use octseq_proved::bgp::{AddPath, AsPath, Error, Hop, Kind, Message, Row, SegmentKind, Session, first_fault};

/// 10.1.0.0/16 is withdrawn, 10.0.0.0/8 is announced, and 2001::/16 isn't reached.
const UPDATE: &[u8; 41] =
    b"\xFF\xFF\xFF\xFF\xFF\xFF\xFF\xFF\xFF\xFF\xFF\xFF\xFF\xFF\xFF\xFF\0\x29\x02\0\x03\x10\x0A\x01\
    \0\x0D\x40\x01\x01\0\x80\x0F\x06\0\x02\x01\x10\x20\x01\x08\x0A";

/// 10.0.0.0/8 is announced, with the path id 7.
const PATH: &[u8; 29] = b"\xFF\xFF\xFF\xFF\xFF\xFF\xFF\xFF\xFF\xFF\xFF\xFF\xFF\xFF\xFF\xFF\0\x1D\x02\0\0\0\0\
    \0\0\0\x07\x08\x0A";

const fn no_room(needed: usize) -> Error {
    Error::NoRoom(NoRoom { needed })
}

#[test]
fn parts_are_read_in_a_room() {
    let message = Message::new(UPDATE, Session::MODERN).unwrap();
    assert_eq!((message.part_count(), message.octets(), message.session()), (5, &UPDATE[..], Session::MODERN));
    let mut room = [Row::default(); 6];
    assert_eq!(message.rows_into(&mut room[..4]), Err(no_room(5)));
    assert_eq!(room, [Row::default(); 6]);
    let parts: [_; 5] = {
        let mut parts = message.parts_in(&mut room).unwrap();
        core::array::from_fn(|_| parts.next().unwrap())
    };
    let kinds = [Kind::Withdrawn, Kind::Attribute, Kind::Attribute, Kind::Unreached, Kind::Announced];
    assert_eq!(parts.map(|part| part.kind()), kinds);
    let origin = Row { at: 29, len: 1, kind: 1, flags: 0x40, type_code: 1, ..Row::default() };
    assert_eq!((parts[1].row(), parts[1].octets(), parts[1].prefix()), (origin, &[0][..], None));
    let unreached = Row { at: 37, len: 2, kind: 4, afi: 2, safi: 1, bits: 16, ..Row::default() };
    assert_eq!(parts[3].row(), unreached);
    let prefix = parts[3].prefix().unwrap();
    assert_eq!((prefix.bits, prefix.path_id, prefix.is_multicast), (16, None, false));
    assert_eq!(room[5], Row::default());
}

#[test]
fn a_message_is_shown() {
    let lines = "announced 10.0.0.0/8 path 7\n";
    let session = Session { add_path: AddPath::all(true), ..Session::MODERN };
    let message = Message::new(PATH, session).unwrap();
    let mut room = [0; 64];
    assert_eq!(message.text_into(&mut room).unwrap().strip_prefix("update\n"), Some(lines));
    assert_eq!(message.text_into(&mut []), Err(no_room(7 + lines.len())));
}

#[test]
fn each_part_of_a_session_counts() {
    let families = |number: u8| {
        let [ipv4_unicast, ipv4_multicast, ipv6_unicast, ipv6_multicast] = [1, 2, 4, 8].map(|bit| number & bit != 0);
        AddPath { ipv4_unicast, ipv4_multicast, ipv6_unicast, ipv6_multicast }
    };
    for number in 0..16 {
        let session = Session { add_path: families(number), ..Session::LEGACY };
        let is_read = Message::new(PATH, session).is_ok();
        assert_eq!(is_read, number & 1 == 1, "{number}");
    }
    let mut long = [0; 4097];
    long[..16].fill(0xFF);
    long[16..21].copy_from_slice(b"\x10\x01\x03\x06\x02");
    assert_eq!(Message::new(&long, Session::MODERN).err(), Some(Error::Malformed));
    assert!(Message::new(&long, Session { extended_message: true, ..Session::MODERN }).is_ok());
}

#[test]
fn fronts_of_a_message_are_none() {
    for len in 0..UPDATE.len() {
        assert_eq!(Message::new(&UPDATE[..len], Session::MODERN).err(), Some(Error::Malformed), "{len}");
    }
}

/// Its parts are at the offsets 19, 21, 24, 26, 30 and 39: the length of the withdrawn prefixes and one of them, that
/// of the attributes and two of them, and a prefix.
#[test]
fn updates_stop_at_the_first_part_that_is_not_there() {
    assert_eq!(first_fault(UPDATE, Session::MODERN), None);
    for len in 0..UPDATE.len() {
        assert_eq!(first_fault(&UPDATE[..len], Session::MODERN), Some(0), "{len}");
    }
    let wrong = [(0, 0, 0), (16, 1, 0), (18, 6, 0), (19, 1, 19), (21, 33, 21), (25, 255, 24), (28, 255, 26)];
    for (at, octet, offset) in wrong.into_iter().chain([(32, 255, 30), (39, 16, 39), (39, 33, 39)]) {
        let mut octets = *UPDATE;
        octets[at] = octet;
        assert_eq!(first_fault(&octets, Session::MODERN), Some(offset), "{at} {octet}");
    }
    let session = Session { add_path: AddPath::all(true), ..Session::MODERN };
    assert_eq!((first_fault(PATH, session), first_fault(PATH, Session::MODERN)), (None, Some(28)));
}

/// An OPEN of one parameter, which is at offset 29, a KEEPALIVE, a NOTIFICATION and a ROUTE-REFRESH.
#[test]
fn other_messages_stop_after_their_header_or_at_a_parameter() {
    let messages: [(&[u8], _); 9] = [
        (b"\x01\x04\xFC\0\0\xB4\x0A\0\0\x01\x04\x02\x02\x06\0", None),
        (b"\x01\x04\xFC\0\0\xB4\x0A\0\0\x01\x04\x02\x03\x06\0", Some(29)),
        (b"\x01\x04\xFC\0\0\xB4\x0A\0\0\x01\x05\x02\x02\x06\0", Some(28)),
        (b"\x04", None),
        (b"\x04\0", Some(19)),
        (b"\x03\x06\x02", None),
        (b"\x03\x06", Some(19)),
        (b"\x05\0\x01\0\x01", None),
        (b"\x05\0\x01\0", Some(19)),
    ];
    for (after, offset) in messages {
        let (mut octets, len) = ([0xFF; 34], 18 + after.len());
        octets[16..18].copy_from_slice(&(len as u16).to_be_bytes());
        octets[18..len].copy_from_slice(after);
        assert_eq!(first_fault(&octets[..len], Session::MODERN), offset, "{after:?}");
    }
}

/// A segment of each type: 65001 and 65002, 7, 1 and 2, 3 and 4.
const SEGMENTS: &[u8; 36] = b"\x02\x02\0\0\xFD\xE9\0\0\xFD\xEA\x01\x01\0\0\0\x07\
    \x03\x02\0\0\0\x01\0\0\0\x02\x04\x02\0\0\0\x03\0\0\0\x04";

#[test]
fn paths_are_read_in_a_room() {
    let mut room = [Hop::default(); 8];
    assert_eq!(AsPath::new_in(SEGMENTS, Session::MODERN, &mut room[..6]), Err(no_room(7)));
    assert_eq!(room, [Hop::default(); 8]);
    let path = AsPath::new_in(SEGMENTS, Session::MODERN, &mut room).unwrap();
    let hops = [(65001, 2, 2), (65002, 2, 2), (7, 1, 1), (1, 3, 2), (2, 3, 2), (3, 4, 2), (4, 4, 2)];
    assert_eq!(path.hops(), hops.map(|(asn, kind, count)| Hop { asn, kind, count }));
    assert!(path.asns().eq(hops.map(|(asn, ..)| asn)));
    let kinds = [SegmentKind::Sequence, SegmentKind::Set, SegmentKind::ConfedSequence, SegmentKind::ConfedSet];
    assert!(path.segments().map(|segment| segment.kind()).eq(kinds));
    assert!(path.segments().map(|segment| segment.asns().len()).eq([2, 1, 2, 2]));
    assert_eq!(path.origin(), None);
    assert_eq!(room[7], Hop::default());
}

#[test]
fn paths_have_an_origin_where_they_end_in_a_sequence() {
    let mut room = [Hop::default(); 3];
    let path = AsPath::new_in(&SEGMENTS[..10], Session::MODERN, &mut room).unwrap();
    assert_eq!(path.origin(), Some(65002));
    let path = AsPath::new_in(&SEGMENTS[..16], Session::MODERN, &mut room).unwrap();
    assert_eq!(path.origin(), None);
    let path = AsPath::new_in(b"\x02\x01\xFD\xE9", Session::LEGACY, &mut room).unwrap();
    assert_eq!((path.origin(), path.hops().len()), (Some(65001), 1));
    let path = AsPath::new_in(b"", Session::MODERN, &mut []).unwrap();
    assert_eq!((path.origin(), path.segments().count()), (None, 0));
}

/// Two sequences in a row are two segments, of which one may have 255 AS numbers.
#[test]
fn segments_of_one_type_are_apart() {
    let mut octets = [2; 2 + 510 + 4];
    (octets[1], octets[513]) = (255, 1);
    let mut room = [Hop::default(); 256];
    let path = AsPath::new_in(&octets, Session::LEGACY, &mut room).unwrap();
    assert!(path.segments().map(|segment| segment.asns().len()).eq([255, 1]));
}

#[test]
fn octets_that_are_no_path_are_refused() {
    let wrong: [&[u8]; 5] = [b"\x02", b"\x02\0", b"\x05\x01\0\0\0\x01", b"\x02\x01\0\0\0", b"\x02\x01\0\0\0\x01\0"];
    for octets in wrong {
        let mut room = [Hop::default(); 2];
        assert_eq!(AsPath::new_in(octets, Session::MODERN, &mut room), Err(Error::Malformed), "{octets:?}");
        assert_eq!(room, [Hop::default(); 2]);
    }
    assert_eq!(AsPath::new_in(SEGMENTS, Session::LEGACY, &mut []), Err(Error::Malformed));
}

#[cfg(feature = "alloc")]
mod paths;

#[cfg(feature = "alloc")]
#[test]
fn a_path_is_shown() {
    let path = AsPath::new(SEGMENTS, Session::MODERN).unwrap();
    assert_eq!(path.to_string(), "65001 65002 {7} (1 2) [3,4]");
    assert_eq!(AsPath::new(b"", Session::MODERN).unwrap().to_string(), "");
    assert_eq!(AsPath::new(b"\x02\0", Session::MODERN), Err(Error::Malformed));
}

#[cfg(feature = "alloc")]
mod of_daemons {
    use super::paths;
    use octseq_proved::bgp::{AddPath, AsPath, Error, Kind, Message, Part, Session, first_fault};
    use std::{fs, path::Path};

    fn file(name: &str) -> Vec<u8> {
        let folder = Path::new(env!("CARGO_MANIFEST_DIR")).join("../../crates/octseq_bgp_messages");
        fs::read(folder.join(name)).unwrap()
    }

    /// Calls with each message, its session and its lines, and answers how many there were.
    fn with_each(mut call: impl FnMut(&[u8], Session, &str)) -> usize {
        let (stream, text) = (file("stdin"), String::from_utf8(file("stdout")).unwrap());
        let (mut rest, mut lines, mut count) = (&stream[..], text.split_inclusive("\n\n"), 0);
        while let Some(([number, upper, lower], after)) = rest.split_first_chunk::<3>() {
            let (message, after) = after.split_at(u16::from_be_bytes([*upper, *lower]).into());
            let session = Session {
                four_octet_asn: number & 1 == 0,
                add_path: AddPath::all(number & 2 != 0),
                extended_message: number & 4 != 0,
            };
            call(message, session, lines.next().unwrap().strip_suffix('\n').unwrap());
            (rest, count) = (after, count + 1);
        }
        assert!(lines.next().unwrap().starts_with("cuts "));
        count
    }

    /// The line of a prefix.
    fn line(part: Part<'_>) -> Option<String> {
        let word = match part.kind() {
            Kind::Withdrawn => "withdrawn",
            Kind::Announced => "announced",
            Kind::Reached => "reached",
            Kind::Unreached => "unreached",
            Kind::Attribute => return None,
        };
        Some(format!("{word} {}", part.prefix().unwrap()))
    }

    #[test]
    fn messages_have_their_lines() {
        let count = with_each(|octets, session, lines| match Message::new(octets, session) {
            Ok(message) => {
                assert_eq!(message.text().unwrap(), lines);
                assert_eq!(message.to_string(), lines);
                assert_eq!(first_fault(octets, session), None);
            }
            Err(error) => {
                assert_eq!((error, lines), (Error::Malformed, "malformed\n"));
                assert!(first_fault(octets, session).unwrap() <= octets.len());
            }
        });
        assert_eq!(count, 318);
    }

    #[test]
    fn parts_have_their_lines() {
        with_each(|octets, session, lines| {
            if !lines.starts_with("update\n") {
                return;
            }
            let parts = Message::new(octets, session).unwrap().parts().unwrap();
            assert_eq!(parts.len(), lines.lines().count() - 1);
            for (part, shown) in parts.into_iter().zip(lines.lines().skip(1)) {
                match line(part) {
                    Some(line) => assert_eq!(line, shown),
                    None => assert!(shown.starts_with("attribute ")),
                }
            }
        });
    }

    #[test]
    fn paths_have_their_lines() {
        let mut counts = [0; 3];
        with_each(|octets, session, lines| {
            if let Ok(message) = Message::new(octets, session) {
                let (path, shown) = (message.as_path(), paths::shown(lines.lines(), "AS_PATH"));
                counts[path.as_ref().map_or(2, |path| usize::from(path.is_some()))] += 1;
                paths::judge(path, shown);
            }
        });
        assert!(counts[0] > 100 && counts[1] == 152 && counts[2] == 5, "{counts:?}");
    }

    /// AS numbers of an AS4_PATH have four octets in each session.
    #[test]
    fn paths_of_four_octets_have_their_lines() {
        let mut count = 0;
        with_each(|octets, session, lines| {
            let parts = Message::new(octets, session).and_then(Message::parts).unwrap_or_default();
            let value = parts.into_iter().find(|part| part.row().type_code == 17).map(Part::octets);
            count += usize::from(value.is_some());
            let path = value.map(|octets| AsPath::new(octets, Session::MODERN)).transpose();
            paths::judge(path, paths::shown(lines.lines(), "AS4_PATH"));
        });
        assert_eq!(count, 6);
    }
}
