//! 620 messages, of which 483 are of real traffic, with the lines that the readers of dnspython make of them.
#![cfg(feature = "alloc")]
use octseq_proved::dns::{Entry, Error, Field, Message, Rtype, first_fault};
use std::{fs, path::Path};

fn file(name: &str) -> Vec<u8> {
    let folder = Path::new(env!("CARGO_MANIFEST_DIR")).join("../../crates/octseq_dns_messages");
    fs::read(folder.join(name)).unwrap()
}

/// The messages, each of which has its length in the two octets before it.
fn messages(stream: &[u8]) -> Vec<&[u8]> {
    let mut messages = Vec::new();
    let mut rest = stream;
    while let Some((len, after)) = rest.split_first_chunk::<2>() {
        let (message, after) = after.split_at(u16::from_be_bytes(*len).into());
        messages.push(message);
        rest = after;
    }
    messages
}

/// Calls with each message and its lines, and answers how many there were. An empty line is after those of each.
fn with_each(mut call: impl FnMut(&[u8], &str)) -> usize {
    let (stream, text) = (file("stdin"), String::from_utf8(file("stdout")).unwrap());
    let messages = messages(&stream);
    let mut lines = text.split_inclusive("\n\n");
    for message in &messages {
        call(message, lines.next().unwrap().strip_suffix('\n').unwrap());
    }
    assert!(lines.next().unwrap().starts_with("cuts "));
    messages.len()
}

/// The line of an entry, made of what it answers.
fn line(entry: Entry<'_>) -> String {
    let (section, name, class, rtype) = (entry.section(), entry.name(), entry.class(), entry.rtype());
    match entry.data() {
        None => format!("{section} {name} {class} {rtype}\n"),
        Some(data) => format!("{section} {name} {} {class} {rtype} {data}\n", entry.ttl()),
    }
}

#[test]
fn messages_have_their_lines() {
    let count = with_each(|octets, lines| match Message::new(octets) {
        Ok(message) => {
            assert_eq!(message.text().unwrap(), lines);
            assert_eq!(message.to_string(), lines);
        }
        Err(error) => assert_eq!((error, lines), (Error::Malformed, "malformed\n")),
    });
    assert_eq!(count, 620);
}

#[test]
fn entries_have_their_lines() {
    with_each(|octets, lines| {
        if let Ok(message) = Message::new(octets) {
            let after_header = lines.split_once('\n').unwrap().1;
            let shown: String = message.entries().unwrap().into_iter().map(line).collect();
            assert_eq!(shown, after_header);
        }
    });
}

#[test]
fn messages_that_are_rewritten_have_the_same_lines() {
    let mut rewritten = 0;
    with_each(|octets, lines| match Message::new(octets).map(Message::rewrite) {
        Ok(Ok(octets)) => {
            assert_eq!(Message::new(&octets).unwrap().text().unwrap(), lines);
            rewritten += 1;
        }
        Ok(Err(error)) => assert_eq!(error, Error::Immovable),
        Err(error) => assert_eq!(error, Error::Malformed),
    });
    assert!(rewritten > 483);
}

/// A message that is cut within an entry stops where that begins, and one with an octet more where it ends.
#[test]
fn messages_that_are_cut_stop_where_they_are_cut() {
    with_each(|octets, _| {
        let Ok(message) = Message::new(octets) else {
            assert!(first_fault(octets).unwrap() <= octets.len());
            return;
        };
        assert_eq!(first_fault(octets), None);
        assert!((0..12).all(|len| first_fault(&octets[..len]) == Some(0)));
        let starts: Vec<_> = message.entries().unwrap().iter().map(|entry| entry.row().name_at).collect();
        let ends = starts.iter().copied().skip(1).chain([octets.len()]);
        for (start, end) in starts.iter().copied().zip(ends) {
            assert_eq!(first_fault(&octets[..start]), Some(start));
            assert_eq!(first_fault(&octets[..end - 1]), Some(start));
        }
        let longer = [octets, b"\0"].concat();
        assert_eq!(first_fault(&longer), Some(octets.len()));
    });
}

/// Calls with each record, the mnemonic of its type, and the text of its data.
fn with_each_record(mut call: impl FnMut(Entry<'_>, &str, &str)) {
    with_each(|octets, lines| {
        let entries = Message::new(octets).and_then(Message::entries).unwrap_or_default();
        for (entry, line) in entries.into_iter().zip(lines.lines().skip(1)) {
            if let [_, _, _, _, rtype, text] = line.splitn(6, ' ').collect::<Vec<_>>()[..] {
                call(entry, rtype, text);
            }
        }
    });
}

/// The types whose text has a word for each of their fields, with a letter for how a field is shown: `.` as it is, `r`
/// as a type, `q` quoted, `g` as text, `x` in hexadecimal, `-` in hexadecimal or as a dash, `b` in base64, `h` in
/// base32hex. The last letter is that of all fields that follow, too.
const FORMS: [(&str, &str); 27] = [
    ("A", "."),
    ("NS", "."),
    ("CNAME", "."),
    ("SOA", "."),
    ("PTR", "."),
    ("HINFO", "q"),
    ("MX", "."),
    ("TXT", "q"),
    ("AAAA", "."),
    ("SRV", "."),
    ("NAPTR", "..qqq."),
    ("DNAME", "."),
    ("DS", "...x"),
    ("SSHFP", "..x"),
    ("RRSIG", "r.......b"),
    ("NSEC", "."),
    ("DNSKEY", "...b"),
    ("DHCID", "b"),
    ("NSEC3", "...-h."),
    ("NSEC3PARAM", "...-"),
    ("TLSA", "...x"),
    ("SMIMEA", "...x"),
    ("CDS", "...x"),
    ("CDNSKEY", "...b"),
    ("CSYNC", "."),
    ("URI", "..q"),
    ("CAA", ".gq"),
];

/// A character string as the lines have it (RFC 1035, 5.1).
fn quoted(octets: &[u8]) -> String {
    let shown = octets.iter().map(|octet| match octet {
        b'"' | b'\\' => format!("\\{}", char::from(*octet)),
        0x20..0x7F => char::from(*octet).to_string(),
        _ => format!("\\{octet:03}"),
    });
    format!("\"{}\"", shown.collect::<String>())
}

fn hexadecimal(octets: &[u8]) -> String {
    octets.iter().map(|octet| format!("{octet:02x}")).collect()
}

/// Octets in letters of 5 or 6 bits each, without padding (RFC 4648).
fn in_letters(octets: &[u8], bits: usize, alphabet: &[u8]) -> String {
    let bit = |at: usize| octets.get(at / 8).map_or(0, |octet| usize::from(octet >> (7 - at % 8) & 1));
    let number = |start| (start..start + bits).fold(0, |number, at| 2 * number + bit(at));
    (0..8 * octets.len()).step_by(bits).map(|start| char::from(alphabet[number(start)])).collect()
}

fn base64(octets: &[u8]) -> String {
    let alphabet = b"ABCDEFGHIJKLMNOPQRSTUVWXYZabcdefghijklmnopqrstuvwxyz0123456789+/";
    in_letters(octets, 6, alphabet) + ["", "==", "="][octets.len() % 3]
}

/// The word of a field, or words.
fn words(field: Field<'_>, letter: char) -> String {
    match (field, letter) {
        (Field::Number(number), '.') => number.to_string(),
        (Field::Number(number), 'r') => Rtype(number.try_into().unwrap()).to_string(),
        (Field::Name(name), '.') => name.to_string(),
        (Field::Types(types), '.') => types.iter().map(|rtype| rtype.to_string()).collect::<Vec<_>>().join(" "),
        (Field::String(b""), '-') => "-".into(),
        (Field::String(octets), 'g') => String::from_utf8(octets.into()).unwrap(),
        (Field::String(octets), 'h') => in_letters(octets, 5, b"0123456789abcdefghijklmnopqrstuv"),
        (Field::String(octets) | Field::Octets(octets), 'q') => quoted(octets),
        (Field::String(octets) | Field::Octets(octets), 'x' | '-') => hexadecimal(octets),
        (Field::Octets(octets), 'b') => base64(octets),
        _ => panic!("{field:?} in the way {letter}"),
    }
}

#[test]
fn fields_are_the_words_of_their_lines() {
    let mut counts = [0; FORMS.len()];
    with_each_record(|record, rtype, text| {
        let form = FORMS.iter().position(|(known, _)| *known == rtype);
        let Some(at) = form.filter(|_| !text.starts_with("\\#")) else { return };
        let fields = record.data().unwrap().fields().unwrap();
        if let [Field::Address(address)] = fields[..] {
            assert_eq!(text.parse(), Ok(address));
        } else {
            let letters = FORMS[at].1.chars().chain(FORMS[at].1.chars().last().into_iter().cycle());
            let words: Vec<_> = fields.into_iter().zip(letters).map(|(field, letter)| words(field, letter)).collect();
            assert_eq!(words.join(" ").trim_end(), text);
        }
        counts[at] += 1;
    });
    assert!(counts.iter().all(|count| *count > 0), "{counts:?}");
    assert!(counts.iter().sum::<usize>() > 1300, "{counts:?}");
}

/// The key of a parameter's word (RFC 9460, 2.1 and 14.3.2; RFC 9461, 5; RFC 9540, 4).
fn key_of(word: &str) -> u16 {
    let known = ["mandatory", "alpn", "no-default-alpn", "port", "ipv4hint", "ech", "ipv6hint", "dohpath", "ohttp"];
    let name = word.split('=').next().unwrap();
    match known.iter().position(|known| *known == name) {
        Some(key) => key as u16,
        None => name.strip_prefix("key").unwrap().parse().unwrap(),
    }
}

#[test]
fn parameters_have_the_keys_of_their_lines() {
    let mut count = 0;
    with_each_record(|record, rtype, text| {
        if !["SVCB", "HTTPS"].contains(&rtype) || text.starts_with("\\#") {
            return;
        }
        let mut words = text.split(' ');
        let mut fields = record.data().unwrap().fields().unwrap().into_iter();
        assert_eq!(fields.next(), words.next().map(|word| Field::Number(word.parse().unwrap())));
        let Some(Field::Name(target)) = fields.next() else { panic!("no target") };
        assert_eq!(Some(target.to_string().as_str()), words.next());
        let keys = fields.map(|field| match field {
            Field::Parameter { key, .. } => key,
            _ => panic!("{field:?}"),
        });
        assert!(keys.eq(words.map(key_of)), "{text}");
        count += 1;
    });
    assert_eq!(count, 35);
}

/// A parameter or an option in hexadecimal: its key, its length and its octets.
fn option(field: Field<'_>) -> String {
    let Field::Parameter { key, value } = field else { panic!("{field:?}") };
    format!("{key:04x}{:04x}{}", value.len(), hexadecimal(value))
}

#[test]
fn options_and_unknown_data_are_in_their_lines() {
    let (mut of_opt, mut others) = (0, 0);
    with_each_record(|record, rtype, text| {
        let Some(digits) = text.strip_prefix("\\#") else { return };
        let digits: String = digits.split(' ').skip(2).collect();
        let fields = record.data().unwrap().fields().unwrap();
        if rtype == "OPT" {
            assert_eq!(fields.into_iter().map(option).collect::<String>(), digits);
            of_opt += 1;
        } else {
            let [Field::Octets(octets)] = fields[..] else { panic!("{fields:?}") };
            assert_eq!(hexadecimal(octets), digits);
            others += 1;
        }
    });
    assert_eq!(of_opt, 213);
    assert!(others > 10);
}
