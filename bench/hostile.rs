//! Times messages that are meant to be slow for a writer that compresses names, beside as many octets of real traffic,
//! and a message of 1,600 records with different owners, written.
#[path = "dns/messages.rs"]
#[allow(dead_code)] // compare.rs uses the rest
mod messages;
mod timing;

use messages::{messages_of, owners, stream_of};
use timing::seconds;

unsafe extern "C" {
    fn octseq_dns_checked(stream: *const u8, len: usize) -> u64;
    fn octseq_dns_rewritten(octets: *const u8, len: usize) -> u64;
    fn octseq_dns_pushed(names: *const u8, len: usize) -> u64;
}

type OfOctets = unsafe extern "C" fn(*const u8, usize) -> u64;

/// How many records with different owners are written.
const RECORDS: usize = 1600;

/// How many times what as many octets of traffic take a message may take.
const RATIO_MAX: f64 = 60.0;

fn call(of: OfOctets, octets: &[u8]) -> u64 {
    unsafe { of(octets.as_ptr(), octets.len()) }
}

/// A message by its name, on a line of its own: the name, a tab, and the octets in hexadecimal.
fn message_of(line: &str) -> (&str, Vec<u8>) {
    let (name, digits) = line.split_once('\t').expect("a line has a tab");
    let digit = |at| u8::from_str_radix(&digits[at..at + 2], 16).expect("a message is hexadecimal");
    (name, (0..digits.len()).step_by(2).map(digit).collect())
}

/// Tells a message: its octets, those that it has anew, and its times, beside that of an octet of traffic. Answers how
/// many times what as many octets of traffic take it takes.
fn tell(name: &str, message: &[u8], each: f64) -> f64 {
    let anew = call(octseq_dns_rewritten, message);
    assert!(anew > 0, "{name}: not written anew");
    let alone = stream_of(&[message]);
    let taken = seconds(|| call(octseq_dns_rewritten, message));
    let checked = seconds(|| call(octseq_dns_checked, &alone));
    let ratio = taken / (each * message.len() as f64);
    println!("| {name} | {} | {anew} | {:.2} | {:.2} | {ratio:.1} |", message.len(), taken * 1e3, checked * 1e3);
    ratio
}

fn main() {
    let path = std::env::args().nth(1).expect("the messages are in a file");
    let lines = std::fs::read_to_string(path).expect("the file is text");
    let mut traffic = messages_of(include_str!("inputs/messages.hex"));
    traffic.retain(|message| call(octseq_dns_rewritten, message) > 0);
    let size: usize = traffic.iter().map(|message| message.len()).sum();
    let whole = seconds(|| traffic.iter().map(|message| call(octseq_dns_rewritten, message)).sum());
    let each = whole / size as f64;
    let (count, all, megabyte) = (traffic.len(), whole * 1e3, each * 1e9);
    println!("{count} messages of traffic, {size} octets, written anew: {all:.3} ms, {megabyte:.1} ms a megabyte\n");
    println!("| message | octets | octets anew | milliseconds | of which checked | times traffic |");
    println!("|---|---|---|---|---|---|");
    let ratios = lines.lines().map(message_of).map(|(name, message)| tell(name, &message, each));
    let greatest = ratios.fold(0.0, f64::max);
    println!("\nThe slowest takes {greatest:.1} times what as many octets of traffic take; {RATIO_MAX} are meant.");
    let owners = owners(RECORDS);
    assert_ne!(call(octseq_dns_pushed, &owners), 0, "the records are not written");
    let taken = seconds(|| call(octseq_dns_pushed, &owners));
    println!("{RECORDS} records with different owners, pushed: {:.3} ms; 1 is meant.", taken * 1e3);
}
