//! Times `octseq` beside Rust's own, on the same inputs in one process.
//!
//! Each call of ours crosses into the library, and Rust's loops over what is pushed stand in functions that aren't
//! compiled into their callers either. Both read what they push from memory, by lengths that the compiler doesn't know,
//! and both look at what a builder holds.
mod dns;
mod format_rows;
mod formats;
mod inputs;
mod report;

use inputs::*;
use report::{Bench, Section};
use std::hint::black_box;

unsafe extern "C" {
    fn octseq_valid_up_to(octets: *const u8, len: usize) -> usize;
    fn octseq_faults(octets: *const u8, len: usize) -> usize;
    fn octseq_copy_len(octets: *const u8, len: usize) -> usize;
    fn octseq_lossy_len(octets: *const u8, len: usize) -> usize;
    fn octseq_lossy_len_of_slice(octets: *const u8, len: usize) -> usize;
    fn octseq_lossy_digest(octets: *const u8, len: usize) -> u64;
    fn octseq_lossy_digest_of_slice(octets: *const u8, len: usize) -> u64;
    fn octseq_push(numbers: *const u32, count: usize) -> usize;
    fn octseq_push_array(numbers: *const u32, count: usize) -> usize;
    fn octseq_push_str(more: *const u8, len: usize, times: usize) -> usize;
    fn octseq_push_str_array(more: *const u8, len: usize, times: usize) -> usize;
    fn octseq_push_fronts(text: *const u8, len: usize, lens: *const u8, count: usize) -> usize;
    fn octseq_pop(text: *const u8, len: usize, times: usize) -> u64;
    fn octseq_sum_u16_be(octets: *const u8, len: usize) -> u64;
    fn octseq_sum_u32_le(octets: *const u8, len: usize) -> u64;
    fn octseq_sum_u64_be(octets: *const u8, len: usize) -> u64;
    fn octseq_sum_chunks_u16_be(octets: *const u8, len: usize) -> u64;
    fn octseq_sum_chunks_u32_le(octets: *const u8, len: usize) -> u64;
    fn octseq_sum_chunks_u64_be(octets: *const u8, len: usize) -> u64;
    fn octseq_dns_checked(octets: *const u8, len: usize) -> u64;
    fn octseq_dns_read(octets: *const u8, len: usize) -> u64;
    fn octseq_dns_written(octets: *const u8, len: usize) -> u64;
    fn octseq_dns_pushed(owners: *const u8, len: usize) -> u64;
}

type Sum = unsafe extern "C" fn(*const u8, usize) -> u64;

type OfOctets = unsafe extern "C" fn(*const u8, usize) -> usize;
type OfNumbers = unsafe extern "C" fn(*const u32, usize) -> usize;
type OfTimes = unsafe extern "C" fn(*const u8, usize, usize) -> usize;

/// The place up to which octets are well formed.
fn valid_up_to(octets: &[u8]) -> usize {
    match std::str::from_utf8(octets) {
        Ok(text) => text.len(),
        Err(error) => error.valid_up_to(),
    }
}

/// How many faults there are, where the search goes on after each.
#[inline(never)]
fn faults(octets: &[u8]) -> usize {
    let (mut rest, mut faults) = (octets, 0);
    while let Err(error) = std::str::from_utf8(rest) {
        faults += 1;
        let Some(len) = error.error_len() else { break };
        rest = &rest[error.valid_up_to() + len..];
    }
    faults
}

fn lossy_len(octets: &[u8]) -> usize {
    String::from_utf8_lossy(octets).into_owned().len()
}

/// The length of the octets, and the one in their middle, so that somebody reads what was pushed.
fn taken(octets: &[u8]) -> usize {
    octets.get(octets.len() / 2).map_or(0, |&octet| octets.len() + usize::from(octet))
}

#[inline(never)]
fn push(numbers: &[u32]) -> usize {
    let mut text = String::new();
    for &number in numbers {
        let Some(ch) = char::from_u32(number) else { continue };
        text.push(ch);
    }
    taken(text.as_bytes())
}

#[inline(never)]
fn push_256(numbers: &[u32]) -> usize {
    let mut text = String::with_capacity(256);
    let mut total = 0;
    for &number in numbers {
        let Some(ch) = char::from_u32(number) else { continue };
        if text.len() + ch.len_utf8() > 256 {
            total += taken(text.as_bytes());
            text.clear();
        }
        text.push(ch);
    }
    total + taken(text.as_bytes())
}

#[inline(never)]
fn push_str(octets: &[u8], times: usize) -> usize {
    let more = std::str::from_utf8(octets).unwrap_or("");
    let mut text = String::new();
    for _ in 0..times {
        text.push_str(more);
    }
    taken(text.as_bytes())
}

/// Pushes the front of a text for each of these lengths.
#[inline(never)]
fn push_fronts(octets: &[u8], lens: &[u8]) -> usize {
    let whole = std::str::from_utf8(octets).unwrap_or("");
    let mut text = String::new();
    for &len in lens {
        let Some((more, _)) = whole.split_at_checked(usize::from(len)) else { continue };
        text.push_str(more);
    }
    taken(text.as_bytes())
}

#[inline(never)]
fn push_str_256(octets: &[u8], times: usize) -> usize {
    let more = std::str::from_utf8(octets).unwrap_or("");
    let mut text = String::with_capacity(256);
    let mut total = 0;
    for _ in 0..times {
        if text.len() + more.len() > 256 {
            total += taken(text.as_bytes());
            text.clear();
        }
        text.push_str(more);
    }
    total + taken(text.as_bytes())
}

/// Pushes a text and pops its characters, so many times. That the octets are a text is tested once.
#[inline(never)]
fn pop(octets: &[u8], times: usize) -> u64 {
    let whole = std::str::from_utf8(octets).unwrap_or("");
    let mut text = String::new();
    let mut sum = 0_u64;
    for _ in 0..times {
        text.push_str(whole);
        while let Some(ch) = text.pop() {
            sum = sum.wrapping_add(u64::from(ch));
        }
    }
    sum
}

/// The sum of the integers of `N` octets each, by chunks.
fn sum<const N: usize>(octets: &[u8], value: impl Fn([u8; N]) -> u64) -> u64 {
    let mut sum = 0_u64;
    for chunk in octets.chunks_exact(N) {
        sum = sum.wrapping_add(value(chunk.try_into().unwrap()));
    }
    sum
}

/// Hands octets to a call of ours.
fn ours(call: OfOctets, octets: &[u8]) -> usize {
    unsafe { call(octets.as_ptr(), octets.len()) }
}

const FROM_UTF8: &str = "`str::from_utf8`";
const RESUMED: &str = "`str::from_utf8`, resumed after each fault";
const LOSSY: &str = "`String::from_utf8_lossy(..).into_owned()`";

/// The phrases, by their scripts.
const PHRASES: [(&str, &str); 9] = [("ASCII", ASCII), ("1% not ASCII", RARE), ("Latin", LATIN), ("Cyrillic", CYRILLIC),
    ("Greek", GREEK), ("Thai", THAI), ("Chinese", CHINESE), ("emoji", EMOJI), ("wide", WIDE)];

const SIZES: [(&str, usize); 3] = [("4 KiB", 4 << 10), ("64 KiB", 64 << 10), ("1 MiB", 1 << 20)];

/// Well-formed texts, each of which is searched from its begin.
fn whole_texts(bench: &mut Bench, pages: &[Pages]) {
    let mut add = |given: &str, texts: Vec<(&str, Vec<u8>)>| {
        let mut section = Section::new("finding the first fault", "`first_fault`", given, FROM_UTF8);
        for (name, octets) in texts {
            let theirs = octets.clone();
            section.add(name, octets.len(),
                move || ours(octseq_valid_up_to, &octets), move || valid_up_to(black_box(&theirs)));
        }
        bench.add(section);
    };
    add("a phrase again and again, 4 KiB", PHRASES.map(|(name, text)| (name, filled(text, 4096))).into());
    add("a phrase again and again, 64 MiB", vec![("ASCII", filled(ASCII, 64 << 20))]);
    for (size, len) in SIZES {
        let texts = WORDS.iter().map(|words| (words.name, words.text(len))).collect();
        add(&format!("words in no order, {size}"), texts);
    }
    for (size, len) in &SIZES[1..] {
        if !pages.is_empty() {
            let texts = pages.iter().map(|page| (page.language, cut(page.text.clone(), *len))).collect();
            add(&format!("man pages, {size}"), texts);
        }
    }
}

/// The sum over pieces of a text of the places up to which they are well formed.
fn sum_of_pieces(octets: &[u8], pieces: &[(usize, usize)], of_piece: impl Fn(&[u8]) -> usize) -> usize {
    pieces.iter().map(|&(start, end)| of_piece(&octets[start..end])).sum()
}

/// Texts of 7 to 40 octets, or a few less, so that the last character is whole: the same one again and again, and
/// pieces of a text that differ in length.
fn short_texts(bench: &mut Bench) {
    const LENGTHS: [usize; 8] = [7, 10, 15, 16, 20, 24, 31, 40];
    for (name, text) in PHRASES {
        let given = format!("a phrase, 7 to 40 octets, {name}");
        let mut section = Section::new("finding the first fault", "`first_fault`", &given, FROM_UTF8);
        for len in LENGTHS {
            let octets = filled(text, len);
            let theirs = octets.clone();
            section.add(&format!("{len}"), octets.len(),
                move || ours(octseq_valid_up_to, &octets), move || valid_up_to(black_box(&theirs)));
        }
        bench.add(section);
    }
    let given = "words in no order, 7 to 40 octets, lengths in no order";
    let mut section = Section::new("finding the first fault", "`first_fault`", given, FROM_UTF8);
    for words in &WORDS {
        let octets = words.text(64 << 10);
        let pieces = pieces(&octets);
        let (theirs, same) = (octets.clone(), pieces.clone());
        section.add(words.name, octets.len(),
            move || sum_of_pieces(&octets, &pieces, |piece| ours(octseq_valid_up_to, piece)),
            move || sum_of_pieces(black_box(&theirs), &same, valid_up_to));
    }
    bench.add(section);
}

/// Texts with faults, where the search goes on after each.
fn damaged_texts(bench: &mut Bench) {
    let mut add = |given: &str, texts: Vec<(&str, Vec<u8>)>| {
        let mut section = Section::new("finding the first fault", "`first_fault`", given, RESUMED);
        for (name, octets) in texts {
            let theirs = octets.clone();
            section.add(name, octets.len(), move || ours(octseq_faults, &octets), move || faults(black_box(&theirs)));
        }
        bench.add(section);
    };
    let texts = [("ASCII", ASCII), ("Latin", LATIN), ("Chinese", CHINESE)];
    add("a damaged phrase again and again, 4 KiB",
        texts.map(|(name, text)| (name, damaged(filled(text, 4096), 50))).into());
    add("octets of no order, 4 KiB", vec![("octets of no order", random(4096))]);
}

/// What a lossy reading is given: texts with one octet in about 50 replaced, and octets of no order.
fn lossy_inputs(pages: &[Pages]) -> Vec<(String, Vec<(&'static str, Vec<u8>)>)> {
    let mut inputs = Vec::new();
    for (size, len) in [("4 KiB", 4 << 10), ("16 MiB", 16 << 20)] {
        let phrases = [("ASCII", ASCII), ("Latin", LATIN), ("wide", WIDE), ("Thai", THAI), ("emoji", EMOJI)];
        let phrases = phrases.map(|(name, text)| (name, harmed(filled(text, len), 50)));
        inputs.push((format!("a damaged phrase again and again, {size}"), phrases.into()));
        inputs.push((format!("octets of no order, {size}"), vec![("octets of no order", random(len))]));
    }
    let words = WORDS.iter().map(|words| (words.name, harmed(words.text(64 << 10), 50))).collect();
    inputs.push(("damaged words in no order, 64 KiB".into(), words));
    for (size, len) in &SIZES[1..] {
        let texts = pages.iter().map(|page| (page.language, harmed(cut(page.text.clone(), *len), 50)));
        inputs.push((format!("damaged man pages, {size}"), texts.collect()));
    }
    inputs.retain(|(_, texts)| !texts.is_empty());
    inputs
}

fn lossy(bench: &mut Bench, pages: &[Pages]) {
    // What is read, by which call, the digest of the text, and whether its time has that of a copy of the source in it.
    let readings: &[(&str, OfOctets, Sum, bool)] = &[
        ("`try_copy_lossy`", octseq_lossy_len_of_slice, octseq_lossy_digest_of_slice, false),
        ("`try_from_utf8_lossy` of a copy", octseq_lossy_len, octseq_lossy_digest, true),
    ];
    for &(reading, call, digest, copies) in readings {
        // (of a copy it is the same reading, so a size is enough)
        for (given, texts) in lossy_inputs(pages).into_iter().filter(|(given, _)| !copies || given.ends_with("64 KiB")) {
            let mut section = Section::new("lossy reading", reading, &given, LOSSY);
            for (name, octets) in texts {
                let text = dns::messages::digest(String::from_utf8_lossy(&octets).as_bytes());
                assert_eq!(sum_of(digest, &octets), text, "{reading}, {given}: {name}");
                let (copied, theirs) = (octets.clone(), octets.clone());
                section.add(name, octets.len(),
                    move || ours(call, &octets), move || lossy_len(black_box(&theirs)));
                if copies {
                    section.apart(move || ours(octseq_copy_len, &copied));
                }
            }
            bench.add(section);
        }
    }
}

fn pushes(bench: &mut Bench) {
    const COUNT: usize = 1 << 14;
    let kinds = || [("ASCII", numbers(ASCII, COUNT)), ("Latin", numbers(LATIN, COUNT)),
        ("wide", numbers(WIDE, COUNT)), ("in no order", mixed(COUNT))];
    let builders: [(&str, &str, OfNumbers, fn(&[u32]) -> usize); 2] = [
        ("`Vec<u8>`", "`String::push`", octseq_push, push),
        ("`Array<256>`", "`String` of capacity 256", octseq_push_array, push_256),
    ];
    for (builder, beside, call, rust) in builders {
        for (kind, numbers) in kinds() {
            let given = format!("characters, {kind}");
            let mut section = Section::new("pushing", &format!("`try_push` onto {builder}"), &given, beside);
            let theirs = numbers.clone();
            section.add(kind, numbers.len(),
                move || unsafe { call(numbers.as_ptr(), numbers.len()) }, move || rust(black_box(&theirs)));
            bench.add(section);
        }
    }
}

/// Texts of one length, 1,024 times each, and texts whose lengths are in no order.
fn pushed_texts(bench: &mut Bench) {
    const VEC: &str = "`try_push_str` onto `Vec<u8>`";
    let rows: [(&str, &str, &str, OfTimes, fn(&[u8], usize) -> usize, &[usize]); 3] = [
        (VEC, "1 to 12 octets", "`String::push_str`", octseq_push_str, push_str, &[1, 2, 3, 4, 5, 6, 7, 8, 10, 12]),
        (VEC, "16 to 100 octets", "`String::push_str`", octseq_push_str, push_str, &[16, 20, 24, 32, 40, 64, 100]),
        ("`try_push_str` onto `Array<256>`", "1 to 100 octets", "`String` of capacity 256", octseq_push_str_array,
            push_str_256, &[1, 3, 5, 8, 12, 20, 40, 100]),
    ];
    for (what, given, beside, call, rust, lens) in rows {
        let mut section = Section::new("pushing", what, &format!("a text again and again, {given}"), beside);
        for &len in lens {
            let times = 1024;
            let octets = filled(ASCII, len);
            let theirs = octets.clone();
            section.add(&format!("{len}"), times,
                move || unsafe { call(octets.as_ptr(), black_box(len), black_box(times)) },
                move || rust(black_box(&theirs), black_box(times)));
        }
        bench.add(section);
    }
    for greatest in [12, 40, 100] {
        let (octets, lens) = (filled(ASCII, 100), lengths(1 << 14, greatest));
        let (theirs, same) = (octets.clone(), lens.clone());
        let given = format!("texts of 1 to {greatest} octets, lengths in no order");
        let mut section = Section::new("pushing", VEC, &given, "`String::push_str`");
        section.add(&format!("1 to {greatest}"), lens.len(),
            move || unsafe { octseq_push_fronts(octets.as_ptr(), octets.len(), lens.as_ptr(), lens.len()) },
            move || push_fronts(black_box(&theirs), black_box(&same)));
        bench.add(section);
    }
}

fn pops(bench: &mut Bench) {
    let phrase = |text| filled(text, 4096);
    let words = |name| WORDS.iter().find(|words| words.name == name).expect("there are such words").text(4096);
    let texts = [("a phrase, ASCII", phrase(ASCII)), ("a phrase, Latin", phrase(LATIN)),
        ("a phrase, wide", phrase(WIDE)), ("words in no order, Latin", words("Latin")),
        ("words in no order, wide", words("wide"))];
    for (given, octets) in texts {
        let times = 16;
        let characters = std::str::from_utf8(&octets).unwrap().chars().count();
        let mut section = Section::new("popping", "`pop` off `Vec<u8>`", given, "`String::pop`");
        let theirs = octets.clone();
        section.add(given, times * characters,
            move || unsafe { octseq_pop(octets.as_ptr(), octets.len(), black_box(times)) },
            move || pop(black_box(&theirs), black_box(times)));
        bench.add(section);
    }
}

fn integers(bench: &mut Bench) {
    let beside = "`chunks_exact` with `from_be_bytes`, `from_le_bytes`";
    let ways: [(&str, [Sum; 3]); 2] = [
        ("integers of 2, 4 and 8 octets", [octseq_sum_u16_be, octseq_sum_u32_le, octseq_sum_u64_be]),
        ("integers of 2, 4 and 8 octets, by `peek_chunks`",
            [octseq_sum_chunks_u16_be, octseq_sum_chunks_u32_le, octseq_sum_chunks_u64_be]),
    ];
    for (way, calls) in ways {
        let mut section = Section::new("parsing", way, "4 KiB of no order", beside);
        let widths: [(&str, fn(&[u8]) -> u64); 3] = [
            ("`u16`, big-endian", |octets| sum(octets, |o| u16::from_be_bytes(o).into())),
            ("`u32`, little-endian", |octets| sum(octets, |o| u32::from_le_bytes(o).into())),
            ("`u64`, big-endian", |octets| sum(octets, u64::from_be_bytes)),
        ];
        for ((name, rust), call) in widths.into_iter().zip(calls) {
            let octets = random(4096);
            let theirs = octets.clone();
            section.add(name, octets.len(),
                move || unsafe { call(octets.as_ptr(), octets.len()) }, move || rust(black_box(&theirs)));
        }
        bench.add(section);
    }
}

/// Hands a stream to a call of ours.
fn sum_of(call: Sum, stream: &[u8]) -> u64 {
    unsafe { call(stream.as_ptr(), stream.len()) }
}

/// Tries that ours and those by hand answer alike on each message, cut at each length and with each octet changed. The
/// writer by hand doesn't know some types, so their messages are left out.
fn try_alike(messages: &[Vec<u8>]) {
    let mut writer = dns::write::Writer::new();
    for message in messages {
        for changed in [message.clone()].into_iter().chain(dns::messages::changed(message)) {
            let stream = dns::messages::stream_of(&[&changed]);
            let said = format!("{changed:02x?}");
            assert_eq!(sum_of(octseq_dns_checked, &stream), dns::read::checked(&stream), "checked: {said}");
            assert_eq!(sum_of(octseq_dns_read, &stream), dns::read::read(&stream), "read: {said}");
            if writer.rewrite(&changed).err() != Some(dns::write::Refused::Unknown) {
                assert_eq!(sum_of(octseq_dns_written, &stream), dns::write::written(&stream), "written: {said}");
            }
        }
    }
}

/// Messages: real traffic, one that takes as long as its size allows, and one of many owners. What is written is
/// compared by a digest.
fn messages(bench: &mut Bench) {
    const RECORDS: usize = 1600;
    const TRAFFIC: &str = "363 messages of traffic";
    let messages = dns::messages::messages_of(include_str!("inputs/messages.hex"));
    assert_eq!(messages.len(), 363);
    try_alike(&messages);
    let traffic = dns::messages::stream_of(&messages);
    let malformed = 363 - dns::read::checked(&traffic);
    bench.note(format!("Of the 363 messages {malformed} are malformed, which takes less time."));
    let hostile = dns::messages::stream_of(&[dns::messages::hostile()]);
    let (reader, writer) = ("a reader over slices, by hand", "a writer over slices, by hand, kept for all messages");
    let rows: [(&str, &str, &str, Sum, fn(&[u8]) -> u64, &[u8]); 6] = [
        ("checked", TRAFFIC, reader, octseq_dns_checked, dns::read::checked, &traffic),
        ("checked", "a hostile message", reader, octseq_dns_checked, dns::read::checked, &hostile),
        ("checked and read", TRAFFIC, reader, octseq_dns_read, dns::read::read, &traffic),
        ("checked and read", "a hostile message", reader, octseq_dns_read, dns::read::read, &hostile),
        ("written anew", TRAFFIC, writer, octseq_dns_written, dns::write::written, &traffic),
        ("written", "1,600 records with owners that differ", "a writer over slices, by hand", octseq_dns_pushed,
            dns::write::answered, &dns::messages::owners(RECORDS)),
    ];
    for (what, given, beside, call, rust, octets) in rows {
        let mut section = Section::new("DNS messages", what, given, beside);
        assert_ne!(rust(octets), 0, "{what}, {given}: nothing is answered");
        let (octets, theirs) = (octets.to_vec(), octets.to_vec());
        section.add(given, octets.len(), move || sum_of(call, &octets), move || rust(black_box(&theirs)));
        bench.add(section);
    }
}

/// What is said of the man pages: of which packages they are.
fn note_on_pages(folder: &str, pages: &[Pages]) -> String {
    if pages.is_empty() {
        return "There were no man pages, so the rows of them are left out.".into();
    }
    let versions = std::fs::read_to_string(format!("{folder}/versions")).unwrap_or_default();
    format!("The man pages are of Debian's {}.", versions.trim().replace('\n', ", "))
}

fn main() {
    let mut words = std::env::args().skip(1);
    let folder = words.next().expect("the folder of man pages is named, which may be empty");
    let pages = pages(&folder);
    let mut bench = Bench::default();
    bench.note(note_on_pages(&folder, &pages));
    whole_texts(&mut bench, &pages);
    short_texts(&mut bench);
    damaged_texts(&mut bench);
    lossy(&mut bench, &pages);
    pushes(&mut bench);
    pushed_texts(&mut bench);
    pops(&mut bench);
    integers(&mut bench);
    messages(&mut bench);
    format_rows::add(&mut bench);
    bench.measure(3);
    bench.tell();
    if let (Some(docs), Some(when)) = (words.next(), words.next()) {
        bench.write(&docs, &when).expect("docs/SPEED.md and docs/speed.svg are written");
    }
}
