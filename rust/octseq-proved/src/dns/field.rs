//! The fields of data.
use super::{Name, Rtype};
use core::fmt;
use core::net::IpAddr;

/// A field of data, as numbers. Offsets are counted from the first octet of what the data was read from.
#[repr(C)]
#[derive(Clone, Copy, Debug, Default, PartialEq, Eq)]
pub struct FieldRow {
    /// Where its octets begin, after a length that it has before them; 0 of a number.
    pub at: usize,
    /// How many octets there are; of a name those at its offset, of a number 0.
    pub len: usize,
    /// The number, or the key of a parameter or the code of an option; else 0.
    pub number: u32,
    /// 0 of a number, 1 of a name, 2 of an address, 3 of a character string, 4 of octets, 5 of a set of types, 6 of a
    /// parameter or an option.
    pub kind: u32,
}

/// A field of data.
#[derive(Clone, Copy, Debug, PartialEq, Eq, Hash)]
pub enum Field<'octets> {
    /// A number of one, two or four octets: a preference, a time, a record type.
    Number(u32),
    /// A domain name.
    Name(Name<'octets>),
    /// An address.
    Address(IpAddr),
    /// A character string, without the octet of its length (RFC 1035, 3.3).
    String(&'octets [u8]),
    /// Octets that are no other field: a key, a digest, a signature, unknown data.
    Octets(&'octets [u8]),
    /// A set of record types.
    Types(Types<'octets>),
    /// A parameter of SVCB or HTTPS (RFC 9460, 2.2), or an option of OPT (RFC 6891, 6.1.2).
    Parameter {
        /// The key of the parameter, or the code of the option.
        key: u16,
        /// The octets that follow its length.
        value: &'octets [u8],
    },
}

impl<'octets> Field<'octets> {
    /// The field of a row whose offsets are in a message's octets.
    pub(super) fn of(message: &'octets [u8], row: FieldRow) -> Field<'octets> {
        let FieldRow { at, len, number, kind } = row;
        let octets = message.get(at..at.saturating_add(len)).unwrap_or_default();
        match kind {
            0 => Field::Number(number),
            1 => Field::Name(Name::at(message, at)),
            2 => address(octets).map_or(Field::Octets(octets), Field::Address),
            3 => Field::String(octets),
            5 => Field::Types(Types { octets }),
            6 => Field::Parameter { key: number as u16, value: octets },
            _ => Field::Octets(octets),
        }
    }
}

/// The address that 4 or 16 octets are.
fn address(octets: &[u8]) -> Option<IpAddr> {
    match octets.len() {
        4 => <[u8; 4]>::try_from(octets).ok().map(IpAddr::from),
        _ => <[u8; 16]>::try_from(octets).ok().map(IpAddr::from),
    }
}

/// A set of record types (RFC 4034, 4.1.2).
#[derive(Clone, Copy, PartialEq, Eq, Hash)]
pub struct Types<'octets> {
    octets: &'octets [u8],
}

impl<'octets> Types<'octets> {
    /// Its octets: blocks of a window's number, a length, and that many octets of bits.
    pub fn octets(self) -> &'octets [u8] {
        self.octets
    }

    /// Its types, in ascending order.
    pub fn iter(self) -> impl Iterator<Item = Rtype> + use<'octets> {
        self.blocks().flat_map(|(window, bits)| {
            let numbers = (0..=u8::MAX).map(move |low| Rtype(u16::from_be_bytes([window, low])));
            let is_in = bits.iter().flat_map(|octet| (0..8).map(move |bit| octet & (0x80 >> bit) != 0));
            numbers.zip(is_in).filter_map(|(rtype, is_in)| is_in.then_some(rtype))
        })
    }

    /// Whether it has a type.
    pub fn contains(self, rtype: Rtype) -> bool {
        self.iter().any(|one| one == rtype)
    }

    /// Each window, and its bits.
    fn blocks(self) -> impl Iterator<Item = (u8, &'octets [u8])> + use<'octets> {
        let mut rest = self.octets;
        core::iter::from_fn(move || {
            let ([window, len], after) = rest.split_first_chunk::<2>()?;
            let (bits, after) = after.split_at_checked((*len).into())?;
            rest = after;
            Some((*window, bits))
        })
    }
}

/// Its types.
impl fmt::Debug for Types<'_> {
    fn fmt(&self, f: &mut fmt::Formatter<'_>) -> fmt::Result {
        f.debug_set().entries(self.iter()).finish()
    }
}
