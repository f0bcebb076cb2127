//! Messages that are read and written: real traffic, the same cut and changed, and some that are made.

/// The first message of a stream, and what is after it. Each message is after its length in two octets.
pub fn split_message(stream: &[u8]) -> Option<(&[u8], &[u8])> {
    let (len, after) = stream.split_first_chunk::<2>()?;
    after.split_at_checked(usize::from(u16::from_be_bytes(*len)))
}

/// The messages of a text, one a line in hexadecimal.
pub fn messages_of(text: &str) -> Vec<Vec<u8>> {
    let octets_of = |line: &str| {
        let digits = |at| u8::from_str_radix(&line[at..at + 2], 16).expect("a line is hexadecimal");
        (0..line.len()).step_by(2).map(digits).collect()
    };
    text.lines().map(octets_of).collect()
}

/// Messages as a stream.
pub fn stream_of<M: AsRef<[u8]>>(messages: &[M]) -> Vec<u8> {
    let mut stream = Vec::new();
    for message in messages {
        let message = message.as_ref();
        stream.extend((message.len() as u16).to_be_bytes());
        stream.extend(message);
    }
    stream
}

/// A message cut at each of its lengths, and with each of its octets changed to others.
pub fn changed(message: &[u8]) -> Vec<Vec<u8>> {
    const OTHERS: [u8; 8] = [0x00, 0x01, 0x3F, 0x40, 0xBF, 0xC0, 0xC1, 0xFF];
    let mut changed: Vec<Vec<u8>> = (0..message.len()).map(|len| message[..len].to_vec()).collect();
    for place in 0..message.len() {
        for octet in OTHERS {
            let mut other = message.to_vec();
            other[place] = octet;
            changed.push(other);
        }
    }
    changed
}

/// A message of almost 65,535 octets whose questions all ask for the name that takes longest: 127 labels, each before a
/// pointer. The chain is in the labels of the first three questions.
pub fn hostile() -> Vec<u8> {
    const CARRIERS: usize = 3;
    let mut octets = vec![0; 12];
    let (mut elements, mut last) = (0, None::<usize>);
    for _ in 0..CARRIERS {
        for size in [63_usize, 63, 63, 61] {
            octets.push(size as u8);
            let end = octets.len() + size;
            while octets.len() + 4 <= end && elements < 127 {
                let place = octets.len();
                let to = last.map_or([0, 0], |to| [0xC0 | (to >> 8) as u8, to as u8]);
                octets.extend([1, b'a', to[0], to[1]]);
                (elements, last) = (elements + 1, Some(place));
            }
            octets.resize(end, b'b');
        }
        octets.extend([0, 0, 1, 0, 1]);
    }
    let to = last.expect("there is an element");
    let mut count = CARRIERS as u16;
    while octets.len() + 6 <= 65_535 {
        octets.extend([0xC0 | (to >> 8) as u8, to as u8, 0, 1, 0, 1]);
        count += 1;
    }
    octets[4..6].copy_from_slice(&count.to_be_bytes());
    octets
}

/// So many owners, one after another in plain form: each of three labels, of which the first differs.
pub fn owners(count: usize) -> Vec<u8> {
    let owner = |index| format!("\x06h{:05}\x07example\x03com\0", index * 7919 % 100_000).into_bytes();
    (0..count).flat_map(owner).collect()
}

/// A number of octets, which differs where they do: eight of them at a time, and then one by one.
pub fn digest(octets: &[u8]) -> u64 {
    const WEIGHT: u64 = 0x9E37_79B9_7F4A_7C15;
    let (eights, rest) = octets.as_chunks::<8>();
    let of_eight = |sum: u64, eight: &[u8; 8]| sum.wrapping_mul(WEIGHT).wrapping_add(u64::from_be_bytes(*eight));
    let sum = eights.iter().fold(octets.len() as u64, of_eight);
    rest.iter().fold(sum, |sum, &octet| sum.wrapping_mul(31).wrapping_add(u64::from(octet)))
}
