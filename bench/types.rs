//! Times the reading of records of each type, and the text of the messages that have them.
mod timing;

use std::collections::BTreeMap;
use timing::seconds;

unsafe extern "C" {
    fn octseq_dns_checked(stream: *const u8, len: usize) -> u64;
    fn octseq_dns_typed(stream: *const u8, len: usize, number: u16) -> u64;
    fn octseq_dns_shown(stream: *const u8, len: usize) -> u64;
}

/// The types, by IANA's numbers.
const TYPES: [(&str, u16); 26] = [
    ("A", 1), ("NS", 2), ("CNAME", 5), ("SOA", 6), ("HINFO", 13), ("MX", 15), ("TXT", 16), ("AAAA", 28), ("SRV", 33),
    ("NAPTR", 35), ("DNAME", 39), ("DS", 43), ("SSHFP", 44), ("RRSIG", 46), ("NSEC", 47), ("DNSKEY", 48),
    ("NSEC3", 50), ("NSEC3PARAM", 51), ("TLSA", 52), ("SMIMEA", 53), ("CDS", 59), ("CDNSKEY", 60), ("SVCB", 64),
    ("HTTPS", 65), ("URI", 256), ("CAA", 257),
];

/// The messages of a stream, each with the two octets of its length before it.
fn messages_of(mut stream: &[u8]) -> Vec<&[u8]> {
    let mut messages = Vec::new();
    while let Some(len) = stream.first_chunk::<2>() {
        let (message, after) = stream.split_at(2 + usize::from(u16::from_be_bytes(*len)));
        messages.push(message);
        stream = after;
    }
    messages
}

/// The messages that have typed data of a type, one after another, and how many records of that type they have.
fn with_type(messages: &[&[u8]], number: u16) -> (Vec<u8>, usize, u64) {
    let typed = |message: &[u8]| unsafe { octseq_dns_typed(message.as_ptr(), message.len(), number) };
    let found: Vec<&[u8]> = messages.iter().copied().filter(|message| typed(message) > 0).collect();
    let records = found.iter().map(|message| typed(message)).sum();
    (found.concat(), found.len(), records)
}

fn main() {
    let path = std::env::args().nth(1).expect("the messages are in a file");
    let stream = std::fs::read(path).expect("the file is there");
    let messages = messages_of(&stream);
    println!("| type | records | messages | octets | checked | and its data read, a record | text, a message |");
    println!("|---|---|---|---|---|---|---|");
    for (number, name) in TYPES.map(|(name, number)| (number, name)).into_iter().collect::<BTreeMap<_, _>>() {
        let (octets, count, records) = with_type(&messages, number);
        if records == 0 {
            continue;
        }
        let (at, len) = (octets.as_ptr(), octets.len());
        let checked = seconds(|| unsafe { octseq_dns_checked(at, len) });
        let typed = seconds(|| unsafe { octseq_dns_typed(at, len, number) });
        let shown = seconds(|| unsafe { octseq_dns_shown(at, len) });
        println!("| {name} | {records} | {count} | {len} | {:.2} \u{b5}s | {:.0} ns | {:.2} \u{b5}s |",
            checked * 1e6 / count as f64, (typed - checked).max(0.0) * 1e9 / records as f64, shown * 1e6 / count as f64);
    }
}
