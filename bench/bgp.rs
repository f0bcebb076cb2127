//! A reader of BGP messages, written by hand over slices: what `octseq_bgp` is timed beside. It makes the same checks,
//! in one pass: where a message is walked, what it says is summed while it is checked.

/// What is added for each value that has the form of its type.
const TYPED: u64 = 0x1_0000_0000;

/// What two speakers agreed on.
#[derive(Clone, Copy)]
pub struct Session {
    wide: bool,
    add_path: bool,
    extended: bool,
}

impl Session {
    pub fn of_number(number: u8) -> Self {
        Session { wide: number & 1 == 0, add_path: number & 2 != 0, extended: number & 4 != 0 }
    }
}

/// The first message of a stream, with its session, and what is after it.
#[inline(always)]
fn split_message(stream: &[u8]) -> Option<(Session, &[u8], &[u8])> {
    let (&[number, upper, lower], after) = stream.split_first_chunk::<3>()?;
    let (octets, rest) = after.split_at_checked(usize::from(u16::from_be_bytes([upper, lower])))?;
    Some((Session::of_number(number), octets, rest))
}

/// How many of the messages of a stream are read.
#[inline(never)]
pub fn checked(stream: &[u8]) -> u64 {
    let (mut rest, mut sum) = (stream, 0);
    while let Some((session, octets, after)) = split_message(rest) {
        sum += u64::from(message::<Check>(octets, session).is_some());
        rest = after;
    }
    sum
}

/// What the messages of a stream say, as one number.
#[inline(never)]
pub fn read(stream: &[u8]) -> u64 {
    let (mut rest, mut sum) = (stream, 0_u64);
    while let Some((session, octets, after)) = split_message(rest) {
        sum = sum.wrapping_add(message::<Walk>(octets, session).unwrap_or(0));
        rest = after;
    }
    sum
}

/// The addresses of the prefixes of the messages of a stream, as one number.
#[inline(never)]
pub fn addresses(stream: &[u8]) -> u64 {
    let (mut rest, mut sum) = (stream, 0_u64);
    while let Some((session, octets, after)) = split_message(rest) {
        sum = sum.wrapping_add(message::<Addresses>(octets, session).unwrap_or(0));
        rest = after;
    }
    sum
}

/// What is done with what is read. The compiler makes a reader of each.
trait Task {
    /// Whether all that a message says is summed.
    const WALKS: bool;

    /// Whether prefixes of any family are read.
    const REACHES: bool;

    /// The number of a prefix of so many bits: its octets, and those with all that follows.
    fn prefix<const MOST: u8>(path: u32, len: u8, octets: &[u8], ahead: &[u8]) -> u64;
}

struct Check;

impl Task for Check {
    const WALKS: bool = false;
    const REACHES: bool = false;

    #[inline(always)]
    fn prefix<const MOST: u8>(_: u32, _: u8, _: &[u8], _: &[u8]) -> u64 {
        0
    }
}

struct Walk;

impl Task for Walk {
    const WALKS: bool = true;
    const REACHES: bool = true;

    #[inline(always)]
    fn prefix<const MOST: u8>(path: u32, len: u8, octets: &[u8], _: &[u8]) -> u64 {
        u64::from(path) + u64::from(len) + sum_of_octets(octets)
    }
}

struct Addresses;

impl Task for Addresses {
    const WALKS: bool = false;
    const REACHES: bool = true;

    #[inline(always)]
    fn prefix<const MOST: u8>(_: u32, len: u8, octets: &[u8], ahead: &[u8]) -> u64 {
        if MOST == 32 { ipv4(len, octets, ahead) << 32 } else { ipv6(len, octets, ahead) }
    }
}

/// An IPv4 address of so many bits, read at once where four octets are ahead.
#[inline(always)]
fn ipv4(len: u8, octets: &[u8], ahead: &[u8]) -> u64 {
    let address = match ahead.first_chunk::<4>() {
        Some(four) => u32::from_be_bytes(*four),
        None => octets.iter().zip([24, 16, 8, 0]).map(|(octet, place)| u32::from(*octet) << place).sum(),
    };
    u64::from(address) & !(u64::from(u32::MAX) >> len)
}

/// The sum of the halves of an IPv6 address of so many bits, read at once where sixteen octets are ahead.
#[inline(always)]
fn ipv6(len: u8, octets: &[u8], ahead: &[u8]) -> u64 {
    let address = match ahead.first_chunk::<16>() {
        Some(sixteen) => u128::from_be_bytes(*sixteen),
        None => {
            let mut address = [0; 16];
            address.iter_mut().zip(octets).for_each(|(to, octet)| *to = *octet);
            u128::from_be_bytes(address)
        }
    };
    let masked = address & !u128::MAX.checked_shr(len.into()).unwrap_or(0);
    ((masked >> 64) as u64).wrapping_add(masked as u64)
}

#[inline(always)]
fn sum_of_octets(octets: &[u8]) -> u64 {
    octets.iter().map(|octet| u64::from(*octet)).sum()
}

/// What a message says, if octets are one.
#[inline(always)]
fn message<T: Task>(octets: &[u8], session: Session) -> Option<u64> {
    let (header, body) = octets.split_first_chunk::<19>()?;
    let (marker, header) = header.split_first_chunk::<16>()?;
    let &[upper, lower, kind] = header.first_chunk::<3>()?;
    let is_short_enough = octets.len() <= 4096 || session.extended && kind != 1 && kind != 4;
    if u128::from_ne_bytes(*marker) != u128::MAX
        || usize::from(u16::from_be_bytes([upper, lower])) != octets.len()
        || !is_short_enough
    {
        return None;
    }
    match kind {
        2 => Some(update::<T>(body, session)?.wrapping_add(if T::WALKS { 2 } else { 0 })),
        1 => open::<T>(body),
        3 => {
            let (&[code, subcode], data) = body.split_first_chunk::<2>()?;
            Some(if T::WALKS { u64::from(code) + u64::from(subcode) + sum_of_octets(data) + 3 } else { 0 })
        }
        4 => body.is_empty().then_some(if T::WALKS { 4 } else { 0 }),
        5 => {
            let (&[upper, lower, subtype, safi], orf) = body.split_first_chunk::<4>()?;
            let numbers = u64::from(u16::from_be_bytes([upper, lower])) + u64::from(subtype) + u64::from(safi);
            Some(if T::WALKS { numbers + sum_of_octets(orf) + 5 } else { 0 })
        }
        _ => None,
    }
}

/// Octets after their length of two octets, and what follows.
#[inline(always)]
fn split_part(octets: &[u8]) -> Option<(&[u8], &[u8])> {
    let (len, after) = octets.split_first_chunk::<2>()?;
    after.split_at_checked(u16::from_be_bytes(*len).into())
}

#[inline(always)]
fn update<T: Task>(body: &[u8], session: Session) -> Option<u64> {
    let (withdrawn, after) = split_part(body)?;
    let (path_attributes, announced) = split_part(after)?;
    let sum = prefixes::<T>(withdrawn, false, session)?;
    let sum = sum.wrapping_add(attributes::<T>(path_attributes, session)?);
    Some(sum.wrapping_add(prefixes::<T>(announced, false, session)?))
}

/// Prefixes that fill octets, of IPv6 or of IPv4.
#[inline(always)]
fn prefixes<T: Task>(octets: &[u8], ipv6: bool, session: Session) -> Option<u64> {
    match (ipv6, session.add_path) {
        (false, false) => prefixes_of::<T, 32, false>(octets),
        (false, true) => prefixes_of::<T, 32, true>(octets),
        (true, false) => prefixes_of::<T, 128, false>(octets),
        (true, true) => prefixes_of::<T, 128, true>(octets),
    }
}

fn prefixes_of<T: Task, const MOST: u8, const PATH: bool>(octets: &[u8]) -> Option<u64> {
    let before = if PATH { 4 } else { 0 };
    let (mut at, mut sum) = (0, 0_u64);
    while at < octets.len() {
        let len = *octets.get(at + before)?;
        if len > MOST {
            return None;
        }
        // That the octet of the length is counted here takes a step out of the way to the next one.
        let end = at + before + (usize::from(len) + 15) / 8;
        if end > octets.len() {
            return None;
        }
        let own = &octets[at + before + 1..end];
        let path = if PATH { u32::from_be_bytes(*octets[at..].first_chunk()?) } else { 0 };
        sum = sum.wrapping_add(T::prefix::<MOST>(path, len, own, &octets[at + before + 1..]));
        at = end;
    }
    Some(sum)
}

#[inline(always)]
fn attributes<T: Task>(octets: &[u8], session: Session) -> Option<u64> {
    let (mut list, mut sum) = (octets, 0_u64);
    while !list.is_empty() {
        let (&[flags, kind, short], after) = list.split_first_chunk::<3>()?;
        let (size, after) = if flags & 0x10 == 0 {
            (usize::from(short), after)
        } else {
            let (&lower, after) = after.split_first()?;
            (usize::from(u16::from_be_bytes([short, lower])), after)
        };
        let (value, after) = after.split_at_checked(size)?;
        if T::WALKS {
            let typed = typed::<T>(kind, value, session).map(|sum| sum.wrapping_add(TYPED));
            let sum_of_value = typed.unwrap_or_else(|| sum_of_octets(value));
            sum = sum.wrapping_add(u64::from(flags) + u64::from(kind)).wrapping_add(sum_of_value);
        } else if T::REACHES && (kind == 14 || kind == 15) {
            sum = sum.wrapping_add(typed::<T>(kind, value, session).unwrap_or(0));
        }
        list = after;
    }
    Some(sum)
}

/// What the value of a type says, if octets have its form.
#[inline(always)]
fn typed<T: Task>(kind: u8, value: &[u8], session: Session) -> Option<u64> {
    match kind {
        1 => match *value {
            [origin @ 0..=2] => Some(origin.into()),
            _ => None,
        },
        2 => path(value, session.wide),
        3 | 4 | 5 | 9 => Some(u32::from_be_bytes(value.try_into().ok()?).into()),
        6 => value.is_empty().then_some(0),
        7 if session.wide => aggregator(value),
        7 => {
            let &[upper, lower, a, b, c, d] = <&[u8; 6]>::try_from(value).ok()?;
            Some(u64::from(u16::from_be_bytes([upper, lower])) + u64::from(u32::from_be_bytes([a, b, c, d])))
        }
        8 | 10 => items::<4>(value, |octets| u32::from_be_bytes(octets).into()),
        14 => reach::<T>(value, session),
        15 => unreach::<T>(value, session),
        16 => items::<8>(value, u64::from_be_bytes),
        17 => path(value, true),
        18 => aggregator(value),
        32 => items::<12>(value, |[a, b, c, d, e, f, g, h, i, j, k, l]| {
            u64::from(u32::from_be_bytes([a, b, c, d]))
                + u64::from(u32::from_be_bytes([e, f, g, h]))
                + u64::from(u32::from_be_bytes([i, j, k, l]))
        }),
        _ => None,
    }
}

#[inline(always)]
fn aggregator(value: &[u8]) -> Option<u64> {
    let &[a, b, c, d, e, f, g, h] = <&[u8; 8]>::try_from(value).ok()?;
    Some(u64::from(u32::from_be_bytes([a, b, c, d])) + u64::from(u32::from_be_bytes([e, f, g, h])))
}

/// Items of one size that fill octets, one at least.
#[inline(always)]
fn items<const N: usize>(value: &[u8], number: impl Fn([u8; N]) -> u64) -> Option<u64> {
    let (items, after) = value.as_chunks::<N>();
    (!items.is_empty() && after.is_empty())
        .then(|| items.iter().fold(0, |sum: u64, item| sum.wrapping_add(number(*item))))
}

/// The segments of a path, each with one number at least.
#[inline(always)]
fn path(value: &[u8], wide: bool) -> Option<u64> {
    let (mut list, mut sum) = (value, 0_u64);
    while !list.is_empty() {
        let (&[kind, count], after) = list.split_first_chunk::<2>()?;
        let width = if wide { 4 } else { 2 };
        let (asns, after) = after.split_at_checked(usize::from(count) * width)?;
        if !(1..=4).contains(&kind) || count == 0 {
            return None;
        }
        sum = sum.wrapping_add(kind.into());
        sum = sum.wrapping_add(if wide {
            items::<4>(asns, |asn| u32::from_be_bytes(asn).into())?
        } else {
            items::<2>(asns, |asn| u16::from_be_bytes(asn).into())?
        });
        list = after;
    }
    Some(sum)
}

/// A family of two numbers: whether it is IPv6, and the sum of both.
#[inline(always)]
fn family(afi: u16, safi: u8) -> Option<(bool, u64)> {
    (matches!(afi, 1 | 2) && matches!(safi, 1 | 2)).then(|| (afi == 2, u64::from(afi) + u64::from(safi)))
}

#[inline(always)]
fn reach<T: Task>(value: &[u8], session: Session) -> Option<u64> {
    let (&[upper, lower, safi, size], after) = value.split_first_chunk::<4>()?;
    let (next_hop, after) = after.split_at_checked(size.into())?;
    let (_reserved, list) = after.split_first()?;
    let (ipv6, sum) = family(u16::from_be_bytes([upper, lower]), safi)?;
    if !(size == 16 || size == 32 || size == 4 && !ipv6) {
        return None;
    }
    let sum = if T::WALKS { sum + sum_of_octets(next_hop) } else { 0 };
    Some(sum.wrapping_add(prefixes::<T>(list, ipv6, session)?))
}

#[inline(always)]
fn unreach<T: Task>(value: &[u8], session: Session) -> Option<u64> {
    let (&[upper, lower, safi], list) = value.split_first_chunk::<3>()?;
    let (ipv6, sum) = family(u16::from_be_bytes([upper, lower]), safi)?;
    let sum = if T::WALKS { sum } else { 0 };
    Some(sum.wrapping_add(prefixes::<T>(list, ipv6, session)?))
}

#[inline(always)]
fn open<T: Task>(body: &[u8]) -> Option<u64> {
    let (&[version, a, b, c, d, e, f, g, h, len], after) = body.split_first_chunk::<10>()?;
    let numbers = u64::from(version)
        + u64::from(u16::from_be_bytes([a, b]))
        + u64::from(u16::from_be_bytes([c, d]))
        + u64::from(u32::from_be_bytes([e, f, g, h]));
    let sum = match *after {
        [255, ref after @ ..] if len > 0 => {
            let (list, []) = split_part(after)? else { return None };
            parameters::<T, true>(list)?
        }
        _ if usize::from(len) == after.len() => parameters::<T, false>(after)?,
        _ => return None,
    };
    Some(if T::WALKS { sum.wrapping_add(numbers + 1) } else { 0 })
}

#[inline(always)]
fn parameters<T: Task, const LONG: bool>(octets: &[u8]) -> Option<u64> {
    let (mut list, mut sum) = (octets, 0_u64);
    while !list.is_empty() {
        let (&kind, after) = list.split_first()?;
        let (value, after) = if LONG { split_part(after)? } else { split_short_part(after)? };
        if T::WALKS {
            let typed = (kind == 2).then(|| capabilities(value)).flatten().map(|sum| sum.wrapping_add(TYPED));
            sum = sum.wrapping_add(kind.into()).wrapping_add(typed.unwrap_or_else(|| sum_of_octets(value)));
        }
        list = after;
    }
    Some(sum)
}

/// Octets after their length of one octet, and what follows.
#[inline(always)]
fn split_short_part(octets: &[u8]) -> Option<(&[u8], &[u8])> {
    let (&len, after) = octets.split_first()?;
    after.split_at_checked(len.into())
}

#[inline(always)]
fn capabilities(octets: &[u8]) -> Option<u64> {
    let (mut list, mut sum) = (octets, 0_u64);
    while !list.is_empty() {
        let (&code, after) = list.split_first()?;
        let (value, after) = split_short_part(after)?;
        let typed = capability(code, value).map(|sum| sum.wrapping_add(TYPED));
        sum = sum.wrapping_add(code.into()).wrapping_add(typed.unwrap_or_else(|| sum_of_octets(value)));
        list = after;
    }
    Some(sum)
}

/// What a capability of a code says, if octets have its form.
#[inline(always)]
fn capability(code: u8, value: &[u8]) -> Option<u64> {
    match code {
        1 => {
            let &[upper, lower, _reserved, safi] = <&[u8; 4]>::try_from(value).ok()?;
            Some(u64::from(u16::from_be_bytes([upper, lower])) + u64::from(safi))
        }
        2 | 6 | 70 => value.is_empty().then_some(0),
        64 => {
            let (bits, list) = value.split_first_chunk::<2>()?;
            let families = if list.is_empty() { 0 } else { items::<4>(list, tuple)? };
            Some(families + u64::from(u16::from_be_bytes(*bits) % 4096))
        }
        65 => Some(u32::from_be_bytes(value.try_into().ok()?).into()),
        69 => {
            let are_paths = value.as_chunks::<4>().0.iter().all(|item| (1..=3).contains(&item[3]));
            are_paths.then(|| items::<4>(value, tuple)).flatten()
        }
        _ => None,
    }
}

#[inline(always)]
fn tuple([upper, lower, safi, flags]: [u8; 4]) -> u64 {
    u64::from(u16::from_be_bytes([upper, lower])) + u64::from(safi) + u64::from(flags)
}

/// How many times one call writes a message.
pub const WRITTEN: usize = 64;

/// Appends an attribute of at most 255 octets.
#[inline(always)]
fn push_attribute(message: &mut Vec<u8>, kind: u8, value: &[u8]) {
    message.extend_from_slice(&[0x40, kind, value.len() as u8]);
    message.extend_from_slice(value);
}

/// Appends an IPv4 prefix, if it has at most 32 bits and the message at most 4,096 octets with it. Bits after its
/// length are 0.
#[inline(always)]
fn push_prefix(message: &mut Vec<u8>, len: u8, address: [u8; 4]) -> Option<()> {
    if len > 32 {
        return None;
    }
    let octets = (usize::from(len) + 7) / 8;
    if message.len() + 1 + octets > 4096 {
        return None;
    }
    let address = u64::from(u32::from_be_bytes(address)) & !(u64::from(u32::MAX) >> len);
    message.push(len);
    message.extend_from_slice(&(address as u32).to_be_bytes()[..octets]);
    Some(())
}

/// Writes an UPDATE that announces prefixes of four octets each, in place of what a vector holds.
#[inline(never)]
fn write_announced(message: &mut Vec<u8>, prefixes: &[u8], asns: &[u32]) -> Option<()> {
    message.clear();
    message.extend_from_slice(&[255; 16]);
    message.extend_from_slice(&[0, 0, 2, 0, 0, 0, 0]);
    push_attribute(message, 1, &[0]);
    message.extend_from_slice(&[0x40, 2, 2 + 4 * asns.len() as u8, 2, asns.len() as u8]);
    asns.iter().for_each(|asn| message.extend_from_slice(&asn.to_be_bytes()));
    push_attribute(message, 3, &[192, 0, 2, 1]);
    let size = (message.len() as u16 - 23).to_be_bytes();
    message[21..23].copy_from_slice(&size);
    for four in prefixes.as_chunks::<4>().0 {
        push_prefix(message, four[0], [four[1], four[2], four[3], 0])?;
    }
    let len = (message.len() as u16).to_be_bytes();
    message[16..18].copy_from_slice(&len);
    Some(())
}

/// The octets of an UPDATE that announces prefixes of four octets each, as one number. It is written several times.
#[inline(never)]
pub fn announced(prefixes: &[u8]) -> u64 {
    let mut message = Vec::with_capacity(4096);
    for _ in 0..WRITTEN {
        if write_announced(&mut message, prefixes, std::hint::black_box(&[64500, 64501, 64502])).is_none() {
            return 0;
        }
    }
    sum_of_octets(&message)
}
