//! A reader of DNS messages.
//!
//! A message is checked once. Who reads it then passes its names without following their pointers.
use super::messages::split_message;
use std::ops::Range;

/// How many octets a name has at most, and how many pointers are followed in one.
const NAME_MAX: usize = 255;
const POINTERS_MAX: usize = 127;

/// Where the labels end that begin at a place, and the octet that is there: 0, or the first of a pointer.
#[inline]
fn labels_end(octets: &[u8], place: usize) -> Option<(usize, u8)> {
    let mut at = place;
    loop {
        let size = *octets.get(at)?;
        if !(1..=63).contains(&size) {
            return Some((at, size));
        }
        at += 1 + usize::from(size);
    }
}

/// Where the pointer leads whose two octets these are.
#[inline]
pub fn led_to(first: u8, second: u8) -> usize {
    usize::from(first & 0x3F) << 8 | usize::from(second)
}

/// Where the name at a place ends for who reads on, if there is a name.
#[inline]
pub fn name_end(octets: &[u8], place: usize) -> Option<usize> {
    let (at, last) = labels_end(octets, place)?;
    let len = at - place + 1;
    if len > NAME_MAX {
        return None;
    }
    match last {
        0 => Some(at + 1),
        _ => is_name_after(octets, place, at, len).then_some(at + 2),
    }
}

/// Whether what is at an offset, after labels that begin at another, goes on as a name by a pointer. So many octets of
/// the name are before it.
#[inline]
fn is_name_after(octets: &[u8], place: usize, behind: usize, before: usize) -> bool {
    let (mut start, mut at, mut len, mut pointers) = (place, behind, before, 0);
    while let Some(&first) = octets.get(at) {
        match first {
            0 => return true,
            1..=63 => {
                len += 1 + usize::from(first);
                at += 1 + usize::from(first);
            }
            _ => {
                let Some(&second) = octets.get(at + 1) else { return false };
                let to = led_to(first, second);
                pointers += 1;
                if first < 0xC0 || to >= start || pointers > POINTERS_MAX {
                    return false;
                }
                (start, at) = (to, to);
            }
        }
        if len > NAME_MAX {
            return false;
        }
    }
    false
}

/// Where a name ends that was checked.
#[inline]
fn checked_name_end(octets: &[u8], place: usize) -> Option<usize> {
    let (at, last) = labels_end(octets, place)?;
    Some(if last == 0 { at + 1 } else { at + 2 })
}

/// A question: the place of its name, its type and its class.
pub struct Question {
    pub qname: usize,
    pub qtype: u16,
    pub qclass: u16,
}

impl Question {
    /// The question at a place whose name ends there, and where it ends itself.
    #[inline]
    fn parse(octets: &[u8], qname: usize, name_end: usize) -> Option<(Question, usize)> {
        let four = u32::from_be_bytes(*octets.get(name_end..)?.first_chunk()?);
        Some((Question { qname, qtype: (four >> 16) as u16, qclass: four as u16 }, name_end + 4))
    }
}

/// A record: the place of its owner, its numbers, and where its data is.
pub struct Record {
    pub owner: usize,
    pub rtype: u16,
    pub class: u16,
    pub ttl: u32,
    pub data: Range<usize>,
}

impl Record {
    /// The record at a place whose owner ends there. It ends where its data does.
    #[inline]
    fn parse(octets: &[u8], owner: usize, owner_end: usize) -> Option<Record> {
        let numbers = octets.get(owner_end..)?.first_chunk::<10>()?;
        let (eight, size) = numbers.split_first_chunk::<8>()?;
        let eight = u64::from_be_bytes(*eight);
        let start = owner_end + 10;
        let data = start..start + usize::from(u16::from_be_bytes([size[0], size[1]]));
        if data.end > octets.len() {
            return None;
        }
        Some(Record { owner, rtype: (eight >> 48) as u16, class: (eight >> 32) as u16, ttl: eight as u32, data })
    }
}

/// A message that was checked: how many entries its sections have, and where the first record is.
pub struct Message<'a> {
    octets: &'a [u8],
    questions: u16,
    records: u32,
    first_record: usize,
}

impl<'a> Message<'a> {
    pub fn parse(octets: &'a [u8]) -> Option<Self> {
        if octets.len() > 65_535 {
            return None;
        }
        let header = octets.first_chunk::<12>()?;
        let count = |at: usize| u16::from_be_bytes([header[at], header[at + 1]]);
        let (questions, records) = (count(4), [6, 8, 10].map(|at| u32::from(count(at))).iter().sum());
        let mut at = 12;
        for _ in 0..questions {
            at = Question::parse(octets, at, name_end(octets, at)?)?.1;
        }
        let first_record = at;
        for _ in 0..records {
            at = Record::parse(octets, at, name_end(octets, at)?)?.data.end;
        }
        (at == octets.len()).then_some(Message { octets, questions, records, first_record })
    }

    /// The questions, in their order.
    #[inline]
    pub fn questions(&self) -> impl Iterator<Item = Question> {
        let (octets, mut at) = (self.octets, 12);
        (0..self.questions).map_while(move |_| {
            let (question, end) = Question::parse(octets, at, checked_name_end(octets, at)?)?;
            at = end;
            Some(question)
        })
    }

    /// The records of all sections, in their order.
    #[inline]
    pub fn records(&self) -> impl Iterator<Item = Record> {
        let (octets, mut at) = (self.octets, self.first_record);
        (0..self.records).map_while(move |_| {
            let record = Record::parse(octets, at, checked_name_end(octets, at)?)?;
            at = record.data.end;
            Some(record)
        })
    }

    /// What the message holds, as one number.
    fn sum(&self) -> u64 {
        let mut sum = u64::from(u16::from_be_bytes([self.octets[0], self.octets[1]]));
        for question in self.questions() {
            sum = sum.wrapping_add(sum_of_name(self.octets, question.qname))
                .wrapping_add(u64::from(question.qtype))
                .wrapping_add(u64::from(question.qclass));
        }
        for record in self.records() {
            sum = sum.wrapping_add(sum_of_name(self.octets, record.owner))
                .wrapping_add(u64::from(record.rtype))
                .wrapping_add(u64::from(record.class))
                .wrapping_add(u64::from(record.ttl))
                .wrapping_add(record.data.len() as u64);
        }
        sum
    }
}

/// The octets of the labels of a name that was checked, each weighed by its place in its label.
fn sum_of_name(octets: &[u8], place: usize) -> u64 {
    let (mut at, mut sum) = (place, 0_u64);
    loop {
        let first = octets[at];
        match first {
            0 => return sum,
            1..=63 => {
                let label = &octets[at + 1..][..usize::from(first)];
                let of_label = |sum: u64, &octet: &u8| sum.wrapping_mul(31).wrapping_add(u64::from(octet));
                sum = sum.wrapping_add(label.iter().fold(u64::from(first), of_label));
                at += 1 + label.len();
            }
            _ => at = led_to(first, octets[at + 1]),
        }
    }
}

/// How many of the messages of a stream are read.
#[inline(never)]
pub fn checked(stream: &[u8]) -> u64 {
    let (mut rest, mut sum) = (stream, 0);
    while let Some((octets, after)) = split_message(rest) {
        sum += u64::from(Message::parse(octets).is_some());
        rest = after;
    }
    sum
}

/// What the messages of a stream hold, as one number.
#[inline(never)]
pub fn read(stream: &[u8]) -> u64 {
    let (mut rest, mut sum) = (stream, 0_u64);
    while let Some((octets, after)) = split_message(rest) {
        sum = sum.wrapping_add(Message::parse(octets).map_or(0, |message| message.sum()));
        rest = after;
    }
    sum
}
