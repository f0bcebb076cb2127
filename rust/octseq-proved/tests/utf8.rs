//! UTF-8, with the standard library as the judge.
#![cfg(feature = "alloc")]
use octseq_proved::NoRoom;
use octseq_proved::utf8::{Fault, LossyPieces, first_fault, from_utf8, is_utf8, lossy, lossy_into};
use std::borrow::Cow;

/// The first octets of a class of characters each, its ends at the least, and octets that begin none.
const LEADS: [u8; 20] = [
    0x00, 0x41, 0x7F, 0x80, 0xBF, 0xC0, 0xC1, 0xC2, 0xDF, 0xE0, 0xE1, 0xEC, 0xED, 0xEE, 0xEF, 0xF0, 0xF1, 0xF3, 0xF4,
    0xF5,
];

/// Octets at the ends of what may follow a first one, and some first ones.
const ENDS: [u8; 14] = [0x41, 0x7F, 0x80, 0x8F, 0x90, 0x9F, 0xA0, 0xBF, 0xC2, 0xE0, 0xED, 0xF0, 0xF4, 0xFF];

/// Fails where the crate and the standard library don't answer alike.
fn judge(octets: &[u8]) {
    let judged = std::str::from_utf8(octets);
    let fault = judged.err().map(|error| Fault { valid_up_to: error.valid_up_to(), error_len: error.error_len() });
    assert_eq!(first_fault(octets), fault, "{octets:X?}");
    assert_eq!(from_utf8(octets).ok(), judged.ok(), "{octets:X?}");
    assert_eq!(is_utf8(octets), judged.is_ok(), "{octets:X?}");
    assert_eq!(lossy(octets), String::from_utf8_lossy(octets), "{octets:X?}");
}

#[test]
fn all_strings_of_two_octets() {
    judge(b"");
    for one in 0..=255 {
        judge(&[one]);
        for other in 0..=255 {
            judge(&[one, other]);
        }
    }
}

#[test]
fn three_octets_after_each_class_of_the_first() {
    for lead in LEADS {
        for pair in 0..=u16::MAX {
            let [one, other] = pair.to_be_bytes();
            judge(&[lead, one, other]);
        }
    }
}

#[test]
fn four_and_five_octets_at_the_ends_of_their_ranges() {
    for lead in LEADS {
        for one in ENDS {
            for other in ENDS {
                for third in ENDS {
                    judge(&[lead, one, other, third]);
                    judge(&[b'a', lead, one, other, third]);
                }
            }
        }
    }
}

#[test]
fn what_is_well_formed_is_borrowed() {
    assert!(matches!(lossy("né".as_bytes()), Cow::Borrowed("né")));
    assert!(matches!(lossy(b"n\xC3"), Cow::Owned(_)));
}

/// Numbers that look random, the same ones in each run (xorshift, 64 bits).
struct Numbers(u64);

impl Numbers {
    /// The next number below a limit.
    fn below(&mut self, limit: usize) -> usize {
        self.0 ^= self.0 << 13;
        self.0 ^= self.0 >> 7;
        self.0 ^= self.0 << 17;
        (self.0 % limit as u64) as usize
    }

    /// Octets in which whole characters, broken ones and single octets take turns.
    fn octets(&mut self) -> Vec<u8> {
        let parts: [&[u8]; 8] =
            [b"abc", "é".as_bytes(), "€".as_bytes(), "😀".as_bytes(), b"\xF0\x9F", b"\xE2\x82", b"\xC3", b"\xED\xA0"];
        let count = self.below(12);
        let mut octets = Vec::new();
        for _ in 0..count {
            match self.below(parts.len() + 1) {
                at if at < parts.len() => octets.extend_from_slice(parts[at]),
                _ => octets.push(self.below(256) as u8),
            }
        }
        octets
    }
}

#[test]
fn pieces_are_together_the_text_of_the_whole() {
    let mut numbers = Numbers(0x0C75_E900_0000_0001);
    for _ in 0..20_000 {
        let octets = numbers.octets();
        let mut pieces = LossyPieces::new();
        let mut text = String::from("front ");
        let mut rest = &octets[..];
        while !rest.is_empty() {
            let (piece, after) = rest.split_at(1 + numbers.below(rest.len().min(5)));
            pieces.feed_to(piece, &mut text);
            rest = after;
        }
        pieces.end_to(&mut text);
        assert_eq!(text, format!("front {}", String::from_utf8_lossy(&octets)), "{octets:X?}");
    }
}

#[test]
fn a_room_is_enough_from_the_length_of_the_text_on() {
    let mut numbers = Numbers(0x0C75_E900_0000_0002);
    for _ in 0..2_000 {
        let octets = numbers.octets();
        let judged = String::from_utf8_lossy(&octets);
        for len in 0..judged.len() + 2 {
            let mut room = vec![b'-'; len];
            match lossy_into(&octets, &mut room) {
                Ok(text) => assert_eq!(text, &*judged, "{octets:X?}"),
                Err(NoRoom { needed }) => assert!(needed == judged.len() && len < needed, "{octets:X?}"),
            }
            let front = if len < judged.len() { 0 } else { judged.len() };
            assert!(room[front..].iter().all(|octet| *octet == b'-'), "{octets:X?}");
        }
    }
}

#[test]
fn faults_are_shown() {
    assert_eq!(from_utf8(b"ab\xFF").unwrap_err().to_string(), "ill-formed UTF-8 at offset 2, 1 octets");
    let cut = "the octets end within a character that begins at offset 1";
    assert_eq!(from_utf8(b"a\xC3").unwrap_err().to_string(), cut);
    assert_eq!(NoRoom { needed: 9 }.to_string(), "too little room: it takes 9");
}
