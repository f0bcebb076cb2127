//! Readers and writers of formats, written plainly over slices: what `octseq_format` is timed beside.

fn u32_at(octets: &[u8; 48], at: usize) -> u32 {
    u32::from_be_bytes(octets[at..at + 4].try_into().unwrap())
}

fn u64_at(octets: &[u8; 48], at: usize) -> u64 {
    u64::from_be_bytes(octets[at..at + 8].try_into().unwrap())
}

pub struct Ntp {
    leap_indicator: u8,
    version: u8,
    mode: u8,
    stratum: u8,
    poll: i8,
    precision: i8,
    root_delay: u32,
    root_dispersion: u32,
    reference_id: u32,
    timestamps: (u64, u64, u64, u64),
}

impl Ntp {
    /// The next header: one test of the length.
    fn parse(octets: &mut &[u8]) -> Option<Ntp> {
        let (head, rest) = octets.split_first_chunk::<48>()?;
        *octets = rest;
        Some(Ntp {
            leap_indicator: head[0] >> 6,
            version: head[0] >> 3 & 7,
            mode: head[0] & 7,
            stratum: head[1],
            poll: head[2] as i8,
            precision: head[3] as i8,
            root_delay: u32_at(head, 4),
            root_dispersion: u32_at(head, 8),
            reference_id: u32_at(head, 12),
            timestamps: (u64_at(head, 16), u64_at(head, 24), u64_at(head, 32), u64_at(head, 40)),
        })
    }

    fn sum(&self) -> u64 {
        let bits = self.leap_indicator ^ self.version ^ self.mode;
        let octets = bits ^ self.stratum ^ self.poll as u8 ^ self.precision as u8;
        let numbers = self.root_delay ^ self.root_dispersion ^ self.reference_id;
        let (a, b, c, d) = self.timestamps;
        u64::from(octets) ^ u64::from(numbers) ^ a ^ b ^ c ^ d
    }

    fn write(&self, content: &mut [u8; 48]) {
        content[0] = self.leap_indicator << 6 | self.version << 3 | self.mode;
        content[1] = self.stratum;
        content[2] = self.poll as u8;
        content[3] = self.precision as u8;
        content[4..8].copy_from_slice(&self.root_delay.to_be_bytes());
        content[8..12].copy_from_slice(&self.root_dispersion.to_be_bytes());
        content[12..16].copy_from_slice(&self.reference_id.to_be_bytes());
        content[16..24].copy_from_slice(&self.timestamps.0.to_be_bytes());
        content[24..32].copy_from_slice(&self.timestamps.1.to_be_bytes());
        content[32..40].copy_from_slice(&self.timestamps.2.to_be_bytes());
        content[40..48].copy_from_slice(&self.timestamps.3.to_be_bytes());
    }
}

#[inline(never)]
pub fn headers(octets: &[u8]) -> u64 {
    let mut rest = octets;
    let mut sum: u64 = 0;
    while let Some(ntp) = Ntp::parse(&mut rest) {
        sum = sum.wrapping_add(ntp.sum());
    }
    sum
}

/// Each header is made first, and appended at once. All are appended to one content.
#[inline(never)]
pub fn headers_written(octets: &[u8]) -> u64 {
    let mut rest = octets;
    let mut content = Vec::with_capacity(octets.len());
    while let Some(ntp) = Ntp::parse(&mut rest) {
        let mut header = [0; 48];
        ntp.write(&mut header);
        content.extend_from_slice(&header);
    }
    sum_of_content(&content)
}

fn number<const N: usize>(octets: &mut &[u8]) -> Option<usize> {
    let (head, rest) = octets.split_first_chunk::<N>()?;
    *octets = rest;
    Some(head.iter().fold(0, |n, octet| n << 8 | usize::from(*octet)))
}

fn split<'a>(octets: &mut &'a [u8], len: usize) -> Option<&'a [u8]> {
    let (part, rest) = octets.split_at_checked(len)?;
    *octets = rest;
    Some(part)
}

fn part<'a, const N: usize>(octets: &mut &'a [u8]) -> Option<&'a [u8]> {
    let len = number::<N>(octets)?;
    split(octets, len)
}

pub struct Hello<'a> {
    record: u16,
    version: u16,
    random: &'a [u8; 32],
    session: &'a [u8],
    suites: &'a [u8],
    compression: &'a [u8],
    extensions: &'a [u8],
}

impl<'a> Hello<'a> {
    /// The next ClientHello, checked whole.
    fn parse(octets: &mut &'a [u8]) -> Option<Self> {
        if number::<1>(octets)? != 22 {
            return None;
        }
        let record = number::<2>(octets)? as u16;
        let mut message = part::<2>(octets)?;
        if number::<1>(&mut message)? != 1 {
            return None;
        }
        let mut body = part::<3>(&mut message)?;
        let version = number::<2>(&mut body)? as u16;
        let (random, mut body) = body.split_first_chunk::<32>()?;
        let session = part::<1>(&mut body)?;
        let suites = part::<2>(&mut body)?;
        let compression = part::<1>(&mut body)?;
        let extensions = part::<2>(&mut body)?;
        let mut checked = extensions;
        while !checked.is_empty() {
            number::<2>(&mut checked)?;
            part::<2>(&mut checked)?;
        }
        let is_whole = message.is_empty() && body.is_empty() && suites.len() % 2 == 0;
        is_whole.then_some(Hello { record, version, random, session, suites, compression, extensions })
    }

    fn sum(&self) -> Option<u64> {
        let mut sum = u64::from(self.record ^ self.version);
        for suite in self.suites.as_chunks::<2>().0 {
            sum = sum.wrapping_add(u16::from_be_bytes(*suite).into());
        }
        let mut rest = self.extensions;
        while let Some(kind) = number::<2>(&mut rest) {
            let data = part::<2>(&mut rest)?;
            sum = sum.wrapping_add(kind as u64).wrapping_add(data.len() as u64);
        }
        Some(sum)
    }

    /// Its lists are copied whole.
    fn write(&self, content: &mut Vec<u8>) {
        let lists = self.session.len() + self.suites.len() + self.compression.len() + self.extensions.len();
        let body = 2 + 32 + 1 + 2 + 1 + 2 + lists;
        content.push(22);
        content.extend_from_slice(&self.record.to_be_bytes());
        content.extend_from_slice(&(4 + body as u16).to_be_bytes());
        content.push(1);
        content.extend_from_slice(&(body as u32).to_be_bytes()[1..]);
        content.extend_from_slice(&self.version.to_be_bytes());
        content.extend_from_slice(self.random);
        content.push(self.session.len() as u8);
        content.extend_from_slice(self.session);
        content.extend_from_slice(&(self.suites.len() as u16).to_be_bytes());
        content.extend_from_slice(self.suites);
        content.push(self.compression.len() as u8);
        content.extend_from_slice(self.compression);
        content.extend_from_slice(&(self.extensions.len() as u16).to_be_bytes());
        content.extend_from_slice(self.extensions);
    }
}

#[inline(never)]
pub fn hellos(octets: &[u8]) -> u64 {
    let mut rest = octets;
    let mut sum: u64 = 0;
    while let Some(more) = Hello::parse(&mut rest).and_then(|hello| hello.sum()) {
        sum = sum.wrapping_add(more);
    }
    sum
}

#[inline(never)]
pub fn hellos_written(octets: &[u8]) -> u64 {
    let mut rest = octets;
    let mut content = Vec::new();
    let mut sum: u64 = 0;
    while let Some(hello) = Hello::parse(&mut rest) {
        content.clear();
        hello.write(&mut content);
        sum = sum.wrapping_add(u64::from_be_bytes(*content.last_chunk().unwrap())).wrapping_add(content.len() as u64);
    }
    sum
}

/// The length of octets, and the first of them.
fn sum_of_part(octets: &[u8]) -> u64 {
    octets.first().map_or(0, |&octet| octets.len() as u64 ^ u64::from(octet))
}

/// The length of a content, and its octets, eight at a time.
fn sum_of_content(content: &[u8]) -> u64 {
    let eights = content.as_chunks::<8>().0.iter().map(|eight| u64::from_be_bytes(*eight));
    eights.fold(content.len() as u64, u64::wrapping_add)
}

pub struct Datagram<'a> {
    first: u8,
    service: u8,
    total: u16,
    id: u16,
    offset: u16,
    hops: u8,
    protocol: u8,
    checksum: u16,
    addresses: [[u8; 4]; 2],
    options: &'a [u8],
    payload: &'a [u8],
}

impl<'a> Datagram<'a> {
    /// The number of octets of options, by the first octet of a datagram.
    fn options_len(first: u8) -> Option<usize> {
        let is_header = first >> 4 == 4 && first & 15 >= 5;
        is_header.then(|| 4 * usize::from(first & 15) - 20)
    }

    /// All of the octets: two tests of the length.
    fn parse(octets: &'a [u8]) -> Option<Self> {
        let (head, rest) = octets.split_first_chunk::<20>()?;
        let (options, payload) = rest.split_at_checked(Self::options_len(head[0])?)?;
        Some(Datagram {
            first: head[0],
            service: head[1],
            total: u16::from_be_bytes([head[2], head[3]]),
            id: u16::from_be_bytes([head[4], head[5]]),
            offset: u16::from_be_bytes([head[6], head[7]]),
            hops: head[8],
            protocol: head[9],
            checksum: u16::from_be_bytes([head[10], head[11]]),
            addresses: [head[12..16].try_into().unwrap(), head[16..20].try_into().unwrap()],
            options,
            payload,
        })
    }

    fn sum(&self) -> u64 {
        let octets = self.first ^ self.service ^ self.hops ^ self.protocol;
        let numbers = self.total ^ self.id ^ self.offset ^ self.checksum;
        let addresses = u32::from_be_bytes(self.addresses[0]) ^ u32::from_be_bytes(self.addresses[1]);
        let parts = sum_of_part(self.options) ^ sum_of_part(self.payload);
        u64::from(octets) ^ u64::from(numbers) ^ u64::from(addresses) ^ parts
    }

    /// The header is made first, and appended at once.
    fn write(&self, content: &mut Vec<u8>) -> Option<()> {
        if self.options.len() != Self::options_len(self.first)? {
            return None;
        }
        let mut head = [0; 20];
        head[0] = self.first;
        head[1] = self.service;
        head[2..4].copy_from_slice(&self.total.to_be_bytes());
        head[4..6].copy_from_slice(&self.id.to_be_bytes());
        head[6..8].copy_from_slice(&self.offset.to_be_bytes());
        head[8] = self.hops;
        head[9] = self.protocol;
        head[10..12].copy_from_slice(&self.checksum.to_be_bytes());
        head[12..16].copy_from_slice(&self.addresses[0]);
        head[16..20].copy_from_slice(&self.addresses[1]);
        content.extend_from_slice(&head);
        content.extend_from_slice(self.options);
        content.extend_from_slice(self.payload);
        Some(())
    }
}

/// Datagrams, each after its length in two octets.
#[inline(never)]
pub fn datagrams(octets: &[u8]) -> u64 {
    let mut rest = octets;
    let mut sum: u64 = 0;
    while let Some(datagram) = part::<2>(&mut rest).and_then(Datagram::parse) {
        sum = sum.wrapping_add(datagram.sum());
    }
    sum
}

/// All datagrams are appended to one content.
#[inline(never)]
pub fn datagrams_written(octets: &[u8]) -> u64 {
    let mut rest = octets;
    let mut content = Vec::with_capacity(octets.len());
    while let Some(datagram) = part::<2>(&mut rest).and_then(Datagram::parse) {
        if datagram.write(&mut content).is_none() {
            break;
        }
    }
    sum_of_content(&content)
}

/// An item of CBOR: its argument, which is the length of a string, and is 0 if there is none.
pub struct Item<'a> {
    first: u8,
    argument: u64,
    string: &'a [u8],
}

impl<'a> Item<'a> {
    fn is_string(first: u8) -> bool {
        matches!(first >> 5, 2 | 3)
    }

    /// The octets of a string: their number is in its first octet, or comes next.
    fn string(first: u8, octets: &mut &'a [u8]) -> Option<&'a [u8]> {
        match first & 31 {
            len @ 0..=23 => split(octets, len.into()),
            24 => part::<1>(octets),
            25 => part::<2>(octets),
            26 => part::<4>(octets),
            27 => part::<8>(octets),
            31 => Some(&[]),
            _ => None,
        }
    }

    /// The next item.
    fn parse(octets: &mut &'a [u8]) -> Option<Self> {
        let first = number::<1>(octets)? as u8;
        if Self::is_string(first) {
            let string = Self::string(first, octets)?;
            return Some(Item { first, argument: string.len() as u64, string });
        }
        let argument = match first & 31 {
            information @ 0..=23 => information.into(),
            24 => number::<1>(octets)? as u64,
            25 => number::<2>(octets)? as u64,
            26 => number::<4>(octets)? as u64,
            27 => number::<8>(octets)? as u64,
            31 if matches!(first, 0x9F | 0xBF | 0xFF) => 0,
            _ => return None,
        };
        let is_simple = first != 0xF8 || argument >= 32;
        is_simple.then_some(Item { first, argument, string: &[] })
    }

    fn sum(&self) -> u64 {
        let octet = self.string.first().copied().unwrap_or(0);
        u64::from(self.first).wrapping_add(self.argument ^ u64::from(octet))
    }

    /// The argument and the string have to be what the first octet says.
    fn write(&self, content: &mut Vec<u8>) -> Option<()> {
        let Item { first, argument, string } = *self;
        if Self::is_string(first) && argument != string.len() as u64 {
            return None;
        }
        match first & 31 {
            information @ 0..=23 if argument == information.into() => content.push(first),
            24 if first == 0xF8 && argument < 32 => return None,
            24 => content.extend_from_slice(&[first, argument.try_into().ok()?]),
            25 => write_head(content, first, u16::try_from(argument).ok()?.to_be_bytes()),
            26 => write_head(content, first, u32::try_from(argument).ok()?.to_be_bytes()),
            27 => write_head(content, first, argument.to_be_bytes()),
            31 if matches!(first, 0x5F | 0x7F | 0x9F | 0xBF | 0xFF) => content.push(first),
            _ => return None,
        }
        if !string.is_empty() {
            content.extend_from_slice(string);
        }
        Some(())
    }
}

/// Appends a first octet, and the number after it.
fn write_head<const N: usize>(content: &mut Vec<u8>, first: u8, number: [u8; N]) {
    content.push(first);
    content.extend_from_slice(&number);
}

#[inline(never)]
pub fn items(octets: &[u8]) -> u64 {
    let mut rest = octets;
    let mut sum: u64 = 0;
    while let Some(item) = Item::parse(&mut rest) {
        sum = sum.wrapping_add(item.sum());
    }
    sum
}

/// All items are appended to one content.
#[inline(never)]
pub fn items_written(octets: &[u8]) -> u64 {
    let mut rest = octets;
    let mut content = Vec::with_capacity(octets.len());
    while let Some(item) = Item::parse(&mut rest) {
        if item.write(&mut content).is_none() {
            break;
        }
    }
    sum_of_content(&content)
}
