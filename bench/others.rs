//! Times DNS messages by trust-dns-proto and by ldns, beside those by hand and ours, where ours is linked.
#[allow(dead_code)] // compare.rs uses the rest
mod dns;
mod timing;

use dns::messages::{messages_of, split_message, stream_of};
use std::ffi::{c_int, c_void};
use std::hint::black_box;
use timing::seconds;
use trust_dns_proto::op::Message;

#[link(name = "ldns")]
unsafe extern "C" {
    fn ldns_wire2pkt(packet: *mut *mut c_void, octets: *const u8, len: usize) -> c_int;
    fn ldns_pkt2wire(octets: *mut *mut u8, packet: *const c_void, len: *mut usize) -> c_int;
    fn ldns_pkt_free(packet: *mut c_void);
    fn free(octets: *mut c_void);
}

/// What somebody does with the messages of a stream, as one number.
type OfStream = fn(&[u8]) -> u64;

/// What is timed of all, by name: ours first, where it is linked.
const ROWS: [(&str, &[(&str, OfStream)]); 3] = [
    ("checked", &[
        #[cfg(ours)]
        ("octseq", ours::checked),
        ("by hand", dns::read::checked),
    ]),
    ("checked and read", &[
        #[cfg(ours)]
        ("octseq", ours::read),
        ("by hand", dns::read::read),
        ("trust-dns-proto, `from_vec`", read_by_trust_dns),
        ("ldns, `ldns_wire2pkt`", read_by_ldns),
    ]),
    ("written anew", &[
        #[cfg(ours)]
        ("octseq", ours::written),
        ("by hand", dns::write::written),
        ("trust-dns-proto, `from_vec`, `to_vec`", written_by_trust_dns),
        ("ldns, `ldns_wire2pkt`, `ldns_pkt2wire`", written_by_ldns),
    ]),
];

#[cfg(ours)]
mod ours {
    unsafe extern "C" {
        fn octseq_dns_checked(stream: *const u8, len: usize) -> u64;
        fn octseq_dns_read(stream: *const u8, len: usize) -> u64;
        fn octseq_dns_written(stream: *const u8, len: usize) -> u64;
    }

    pub fn checked(stream: &[u8]) -> u64 {
        unsafe { octseq_dns_checked(stream.as_ptr(), stream.len()) }
    }

    pub fn read(stream: &[u8]) -> u64 {
        unsafe { octseq_dns_read(stream.as_ptr(), stream.len()) }
    }

    pub fn written(stream: &[u8]) -> u64 {
        unsafe { octseq_dns_written(stream.as_ptr(), stream.len()) }
    }
}

/// A packet of ldns.
struct Packet(*mut c_void);

impl Packet {
    fn read(octets: &[u8]) -> Option<Packet> {
        let mut packet = std::ptr::null_mut();
        let status = unsafe { ldns_wire2pkt(&mut packet, octets.as_ptr(), octets.len()) };
        (status == 0).then_some(Packet(packet))
    }

    /// Writes it, and hands its octets to a call.
    fn write<T>(&self, call: impl Fn(&[u8]) -> T) -> Option<T> {
        let (mut octets, mut len) = (std::ptr::null_mut(), 0);
        if unsafe { ldns_pkt2wire(&mut octets, self.0, &mut len) } != 0 {
            return None;
        }
        let answer = call(unsafe { std::slice::from_raw_parts(octets, len) });
        unsafe { free(octets.cast()) };
        Some(answer)
    }
}

impl Drop for Packet {
    fn drop(&mut self) {
        unsafe { ldns_pkt_free(self.0) }
    }
}

/// How many octets, or messages, come of the messages of a stream.
fn sum_over(mut stream: &[u8], of_message: impl Fn(&[u8]) -> Option<usize>) -> u64 {
    let mut sum = 0;
    while let Some((octets, after)) = split_message(stream) {
        sum += of_message(octets).unwrap_or(0) as u64;
        stream = after;
    }
    sum
}

fn read_by_trust_dns(stream: &[u8]) -> u64 {
    sum_over(stream, |octets| Message::from_vec(octets).ok().map(|_| 1))
}

fn read_by_ldns(stream: &[u8]) -> u64 {
    sum_over(stream, |octets| Packet::read(octets).map(|_| 1))
}

fn written_by_trust_dns(stream: &[u8]) -> u64 {
    sum_over(stream, |octets| Some(Message::from_vec(octets).ok()?.to_vec().ok()?.len()))
}

fn written_by_ldns(stream: &[u8]) -> u64 {
    sum_over(stream, |octets| Packet::read(octets)?.write(<[u8]>::len))
}

/// Whether what the others write of a message says what it says: the writer by hand makes the same of both.
fn is_alike(message: &[u8]) -> bool {
    let anew = |octets: &[u8]| dns::write::Writer::new().rewrite(octets).ok().map(<[u8]>::to_vec);
    let wanted = anew(message);
    let by_trust_dns = || Message::from_vec(message).ok()?.to_vec().ok();
    let by_ldns = || Packet::read(message)?.write(<[u8]>::to_vec);
    wanted.is_some()
        && by_trust_dns().and_then(|octets| anew(&octets)) == wanted
        && by_ldns().and_then(|octets| anew(&octets)) == wanted
}

/// A line for each side: the least time of many rounds in turn, and that over the first side's.
fn tell(what: &str, sides: &[(&str, OfStream)], stream: &[u8], count: usize) {
    let mut least = vec![f64::MAX; sides.len()];
    for _ in 0..15 {
        for (least, (_, work)) in least.iter_mut().zip(sides) {
            *least = least.min(seconds(|| work(black_box(stream))));
        }
    }
    for (seconds, (name, _)) in least.iter().zip(sides) {
        println!("| {what} | {name} | {:.0} | {:.2} |", seconds * 1e9 / count as f64, seconds / least[0]);
    }
}

fn main() {
    let messages = messages_of(include_str!("inputs/messages.hex"));
    let well_formed = dns::read::checked(&stream_of(&messages));
    let kept: Vec<&Vec<u8>> = messages.iter().filter(|message| is_alike(message)).collect();
    let (stream, count) = (stream_of(&kept), kept.len());
    assert!(count > 0, "no message is written alike");
    assert_eq!(read_by_trust_dns(&stream), count as u64);
    assert_eq!(read_by_ldns(&stream), count as u64);
    #[cfg(ours)]
    for (what, sides) in ROWS {
        assert_eq!((sides[0].1)(&stream), (sides[1].1)(&stream), "{what}: ours answers otherwise than by hand");
    }
    println!("Of {} messages {well_formed} are well formed. All write {count} of them so that they say the same, \
        {} octets:\n", messages.len(), stream.len() - 2 * count);
    println!("| what | by | ns a message | over the first |\n|---|---|---|---|");
    for (what, sides) in ROWS {
        tell(what, sides, &stream, count);
    }
}
