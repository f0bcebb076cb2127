//! Times the reading and writing of BGP messages beside code by hand, and the reading of records of MRT.
//!
//! Both readers must agree first: on each message in each of eight sessions, on each of its cuts, and on each message
//! with an octet changed.
mod bgp;

use std::hint::black_box;
use std::time::Instant;

unsafe extern "C" {
    fn octseq_bgp_checked(stream: *const u8, len: usize) -> u64;
    fn octseq_bgp_read(stream: *const u8, len: usize) -> u64;
    fn octseq_bgp_addresses(stream: *const u8, len: usize) -> u64;
    fn octseq_bgp_announced(prefixes: *const u8, len: usize) -> u64;
    fn octseq_mrt_records(file: *const u8, len: usize) -> u64;
    fn octseq_mrt_read(file: *const u8, len: usize) -> u64;
}

type OfOctets = unsafe extern "C" fn(*const u8, usize) -> u64;

/// What is timed: its name, ours, and the one by hand.
const TASKS: [(&str, OfOctets, fn(&[u8]) -> u64); 3] = [
    ("checked", octseq_bgp_checked, bgp::checked),
    ("and walked", octseq_bgp_read, bgp::read),
    ("and addresses", octseq_bgp_addresses, bgp::addresses),
];

/// What an octet is changed to.
const CHANGES: [u8; 5] = [0x00, 0x01, 0x7F, 0x80, 0xFF];

/// Longer messages are neither cut off nor changed.
const LONGEST: usize = 512;

/// How many times each is timed, ours and the other in turn. The best of each counts.
const ROUNDS: usize = 301;

/// How many nanoseconds a time takes, at least.
const TIME: f64 = 2e5;

fn call(of: OfOctets, octets: &[u8]) -> u64 {
    unsafe { of(octets.as_ptr(), octets.len()) }
}

/// A message with the octet of its session and its length before it.
fn entry_of(session: u8, message: &[u8]) -> Vec<u8> {
    let [upper, lower] = (message.len() as u16).to_be_bytes();
    [&[session, upper, lower], message].concat()
}

/// The messages of a stream, each with its session.
fn messages_of(mut stream: &[u8]) -> Vec<(u8, &[u8])> {
    let mut messages = Vec::new();
    while let Some((&[session, upper, lower], after)) = stream.split_first_chunk::<3>() {
        let (message, rest) = after.split_at(u16::from_be_bytes([upper, lower]).into());
        messages.push((session, message));
        stream = rest;
    }
    messages
}

fn cuts_of(message: &[u8]) -> impl Iterator<Item = Vec<u8>> {
    (0..message.len()).map(|size| {
        let mut cut = message.to_vec();
        let len = (size as u16).to_be_bytes();
        cut.iter_mut().skip(16).zip(len).for_each(|(octet, new)| *octet = new);
        cut.truncate(size);
        cut
    })
}

fn changes_of(message: &[u8]) -> impl Iterator<Item = Vec<u8>> {
    let places = (0..message.len()).flat_map(|place| CHANGES.map(|octet| (place, octet)));
    places.map(|(place, octet)| {
        let mut changed = message.to_vec();
        changed[place] = octet;
        changed
    })
}

/// Ends where both don't answer the same of a message, and answers whether it is one.
fn agree(session: u8, message: &[u8]) -> u64 {
    let stream = entry_of(session, message);
    for (what, ours, by_hand) in TASKS {
        let (one, other) = (call(ours, &stream), by_hand(&stream));
        assert_eq!(one, other, "{what}, session {session}: {message:02x?}");
    }
    bgp::checked(&stream)
}

/// Reads each message in all sessions, cut, and changed, by both.
fn agree_on_all(messages: &[(u8, &[u8])]) {
    let (mut count, mut whole) = (0, 0);
    let mut look = |session, message: &[u8]| {
        count += 1;
        whole += agree(session, message);
    };
    for &(session, message) in messages {
        (0..8).for_each(|session| look(session, message));
        if message.len() <= LONGEST {
            cuts_of(message).chain(changes_of(message)).for_each(|other| look(session, &other));
        }
    }
    println!("both agree on {count} messages, cut ones and changed ones, of which {whole} are read\n");
}

/// The nanoseconds that ours takes, and those of the other.
fn times(ours: impl Fn() -> u64, other: impl Fn() -> u64) -> (f64, f64) {
    let calls = calls_of(&ours);
    let (mut one, mut two) = (f64::MAX, f64::MAX);
    for _ in 0..ROUNDS {
        one = one.min(nanoseconds(&ours, calls));
        two = two.min(nanoseconds(&other, calls));
    }
    (one, two)
}

/// How many calls take the time.
fn calls_of(work: impl Fn() -> u64) -> usize {
    (TIME / nanoseconds(&work, 1).max(1.0)).ceil().clamp(1.0, 1e5) as usize
}

fn nanoseconds(work: impl Fn() -> u64, calls: usize) -> f64 {
    let start = Instant::now();
    for _ in 0..calls {
        black_box(work());
    }
    start.elapsed().as_secs_f64() * 1e9 / calls as f64
}

/// Tells the times of a stream.
fn tell(name: &str, messages: &[(u8, &[u8])]) {
    let stream: Vec<u8> = messages.iter().flat_map(|&(session, message)| entry_of(session, message)).collect();
    let count = messages.len();
    let cells = TASKS.map(|(_, ours, by_hand)| {
        let (one, other) = times(|| call(ours, black_box(&stream)), || by_hand(black_box(&stream)));
        format!("{:.0} / {:.0} | {:.2}", one / count as f64, other / count as f64, one / other)
    });
    println!("| {name} | {count} | {} | {} |", stream.len() - 3 * count, cells.join(" | "));
}

/// An UPDATE, or what has its type.
fn update(withdrawn: &[u8], attributes: &[u8], announced: &[u8]) -> Vec<u8> {
    let part = |octets: &[u8]| [&(octets.len() as u16).to_be_bytes(), octets].concat();
    let body = [&part(withdrawn), &part(attributes), announced].concat();
    let len = (19 + body.len() as u16).to_be_bytes();
    [&[255; 16], &len[..], &[2], &body].concat()
}

/// UPDATEs that are full of one kind of thing each: their names, their sessions, and their octets.
fn full() -> Vec<(&'static str, u8, Vec<u8>)> {
    let ipv4: Vec<u8> = (0..1000_u16).flat_map(|n| [24, 10, (n >> 8) as u8, n as u8]).collect();
    let paths: Vec<u8> = (0..500_u16).flat_map(|n| [0, 0, 0, 7, 22, 10, n as u8, 4]).collect();
    let ipv6: Vec<u8> = (0..500_u16).flat_map(|n| [48, 32, 1, 13, 184, (n >> 8) as u8, n as u8]).collect();
    let reach = [&[0, 2, 1, 16][..], &[32; 16], &[0], &ipv6].concat();
    let segment = [&[2, 240][..], &[0, 1, 226, 64].repeat(240)].concat();
    let long = |kind: u8, value: &[u8]| [&[0x50, kind], &(value.len() as u16).to_be_bytes()[..], value].concat();
    let communities = [long(8, &[253, 233, 0, 7].repeat(240)), long(32, &[0, 0, 253, 233].repeat(240))].concat();
    let small = [0x40, 5, 4, 0, 0, 0, 100].repeat(500);
    vec![
        ("1,000 IPv4 prefixes", 0, update(&[], &[], &ipv4)),
        ("500 with path ids", 2, update(&[], &[], &paths)),
        ("500 IPv6 prefixes reached", 0, update(&[], &long(14, &reach), &[])),
        ("a path of 960 AS numbers", 0, update(&[], &long(2, &segment.repeat(4)), &[])),
        ("240 communities, 80 large ones", 0, update(&[], &communities, &[])),
        ("500 attributes LOCAL_PREF", 0, update(&[], &small, &[])),
    ]
}

/// Tells the times of UPDATEs that are written, with so many prefixes each.
fn tell_written() {
    println!("\n| UPDATE written | ours / by hand, ns | ratio |\n|---|---|---|");
    for count in [1, 10, 100, 500, 1000_u16] {
        let prefixes: Vec<u8> = (0..count).flat_map(|n| [24, 10, (n >> 8) as u8, n as u8]).collect();
        assert_eq!(call(octseq_bgp_announced, &prefixes), bgp::announced(&prefixes), "{count} prefixes");
        let (one, other) =
            times(|| call(octseq_bgp_announced, black_box(&prefixes)), || bgp::announced(black_box(&prefixes)));
        let written = bgp::WRITTEN as f64;
        println!("| {count} prefixes | {:.0} / {:.0} | {:.2} |", one / written, other / written, one / other);
    }
}

/// Tells how many megabytes of records a second are read.
fn tell_records(path: &str) {
    let file = std::fs::read(path).expect("the file is there");
    let count = call(octseq_mrt_records, &file);
    assert!(count > 0, "{path}: records don't fill it");
    println!("\n{path}: {count} records, {} octets", file.len());
    for (what, of) in [("records", octseq_mrt_records as OfOctets), ("and walked", octseq_mrt_read)] {
        let taken = (0..7).map(|_| nanoseconds(|| call(of, &file), 1)).fold(f64::MAX, f64::min);
        println!("{what}: {:.3} s, {:.0} MB a second", taken / 1e9, file.len() as f64 * 1e3 / taken);
    }
}

fn main() {
    let mut paths = std::env::args().skip(1);
    let path = paths.next().expect("the messages are in a file");
    let stream = std::fs::read(path).expect("the file is there");
    let messages = messages_of(&stream);
    agree_on_all(&messages);
    let full = full();
    for (_, session, message) in &full {
        assert_eq!(agree(*session, message), 1);
    }
    let names = TASKS.map(|(what, ..)| format!("{what}: ours / by hand, ns a message | ratio |"));
    println!("| messages | count | octets | {}", names.join(" "));
    println!("|---|---|---|{}", "---|".repeat(6));
    tell("all", &messages);
    for (name, kind) in [("OPEN", 1), ("UPDATE", 2), ("NOTIFICATION", 3), ("KEEPALIVE", 4), ("ROUTE-REFRESH", 5)] {
        let typed: Vec<_> = messages.iter().copied().filter(|(_, message)| message.get(18) == Some(&kind)).collect();
        tell(name, &typed);
    }
    for (name, session, message) in &full {
        tell(name, &[(*session, message)]);
    }
    tell_written();
    paths.for_each(|path| tell_records(&path));
}
