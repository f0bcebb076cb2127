//! The rows of formats: calls of `octseq_format` beside readers and writers by hand.
use crate::formats;
use crate::inputs::{Disorder, random};
use crate::report::{Bench, Section};
use std::hint::black_box;

unsafe extern "C" {
    fn octseq_ntp_by_format(octets: *const u8, len: usize) -> u64;
    fn octseq_ntp_by_calls(octets: *const u8, len: usize) -> u64;
    fn octseq_ntp_written(octets: *const u8, len: usize) -> u64;
    fn octseq_hello_by_format(octets: *const u8, len: usize) -> u64;
    fn octseq_hello_written(octets: *const u8, len: usize) -> u64;
    fn octseq_datagrams_by_format(octets: *const u8, len: usize) -> u64;
    fn octseq_datagrams_written(octets: *const u8, len: usize) -> u64;
    fn octseq_cbor_by_format(octets: *const u8, len: usize) -> u64;
    fn octseq_cbor_written(octets: *const u8, len: usize) -> u64;
}

type Ours = unsafe extern "C" fn(*const u8, usize) -> u64;
type ByHand = fn(&[u8]) -> u64;

/// The octets of each line, which is hexadecimal.
fn lines_of(text: &str) -> Vec<Vec<u8>> {
    let octet = |digits: &[u8]| {
        let digits = str::from_utf8(digits).expect("a line is text");
        u8::from_str_radix(digits, 16).expect("a line is hexadecimal")
    };
    text.lines().map(|line| line.as_bytes().chunks(2).map(octet).collect()).collect()
}

/// A hundred datagrams of IPv4 that have options, each after its length in two octets: three of scapy 2.5.0, in turn.
fn datagrams() -> Vec<u8> {
    let lines = lines_of(include_str!("inputs/datagrams.hex"));
    let listed = |line: &Vec<u8>| [&(line.len() as u16).to_be_bytes(), line.as_slice()].concat();
    lines.iter().cycle().take(100).flat_map(listed).collect()
}

/// Lines of items of CBOR in no order, so many: those of RFC 8949, appendix A, and two that aren't the shortest.
fn items(count: usize) -> Vec<u8> {
    let lines = lines_of(include_str!("inputs/cbor.hex"));
    let mut disorder = Disorder::new();
    (0..count).flat_map(|_| lines[disorder.below(lines.len() as u64) as usize].clone()).collect()
}

/// Headers of NTP and ClientHellos, a hundred of each, one after another; datagrams; and heads of CBOR.
pub fn add(bench: &mut Bench) {
    const HEADERS: &str = "100 headers of NTP";
    const HELLOS: &str = "100 ClientHellos of TLS";
    const DATAGRAMS: &str = "100 datagrams of IPv4 with options";
    const ITEMS: &str = "heads of CBOR in no order";
    let headers = random(4800);
    let hellos = lines_of(include_str!("inputs/hellos.hex")).concat().repeat(25);
    let (datagrams, items) = (datagrams(), items(256));
    let (reader, writer) = ("a reader over slices, by hand", "a writer over slices, by hand");
    let rows: [(&str, &str, &str, Ours, ByHand, &[u8]); 9] = [
        ("read by their format", HEADERS, "a reader of 48 octets, by hand", octseq_ntp_by_format, formats::headers,
            &headers),
        ("read by calls of a parser", HEADERS, "the same", octseq_ntp_by_calls, formats::headers, &headers),
        ("read and written", HEADERS, "a writer of 48 octets, by hand", octseq_ntp_written, formats::headers_written,
            &headers),
        ("checked and read", HELLOS, reader, octseq_hello_by_format, formats::hellos, &hellos),
        ("checked and read", DATAGRAMS, reader, octseq_datagrams_by_format, formats::datagrams, &datagrams),
        ("checked and read", ITEMS, reader, octseq_cbor_by_format, formats::items, &items),
        ("read and written", HELLOS, writer, octseq_hello_written, formats::hellos_written, &hellos),
        ("read and written", DATAGRAMS, writer, octseq_datagrams_written, formats::datagrams_written, &datagrams),
        ("read and written", ITEMS, writer, octseq_cbor_written, formats::items_written, &items),
    ];
    for (what, given, beside, call, rust, octets) in rows {
        let mut section = Section::new("formats", what, given, beside);
        let (octets, theirs) = (octets.to_vec(), octets.to_vec());
        section.add(given, octets.len(),
            move || unsafe { call(octets.as_ptr(), octets.len()) }, move || rust(black_box(&theirs)));
        bench.add(section);
    }
}
