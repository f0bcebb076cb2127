//! AS paths.
use super::{Error, Session, done};
use crate::calls;
use core::fmt;

#[cfg(feature = "alloc")]
use crate::filled;
#[cfg(feature = "alloc")]
use alloc::vec::Vec;

/// An AS number of an AS path.
#[repr(C)]
#[derive(Clone, Copy, Debug, Default, PartialEq, Eq, Hash)]
pub struct Hop {
    /// The AS number.
    pub asn: u32,
    /// The [`SegmentKind`] of its segment, as a number.
    pub kind: u16,
    /// How many AS numbers its segment has: this one and those around it.
    pub count: u16,
}

/// The types of segments (RFC 4271, 4.3; RFC 5065, 3).
#[repr(u16)]
#[derive(Clone, Copy, Debug, PartialEq, Eq, Hash)]
pub enum SegmentKind {
    /// AS_SET: the route went through these, in no known order.
    Set = 1,
    /// AS_SEQUENCE: it went through these, the last one first.
    Sequence = 2,
    /// AS_CONFED_SEQUENCE: a sequence of members of the local confederation.
    ConfedSequence = 3,
    /// AS_CONFED_SET: a set of members of the local confederation.
    ConfedSet = 4,
}

/// A segment of an AS path.
#[derive(Clone, Copy, Debug, PartialEq, Eq, Hash)]
pub struct Segment<'hops> {
    hops: &'hops [Hop],
}

impl<'hops> Segment<'hops> {
    /// Its type.
    pub fn kind(self) -> SegmentKind {
        match self.hops.first().map_or(0, |hop| hop.kind) {
            1 => SegmentKind::Set,
            2 => SegmentKind::Sequence,
            3 => SegmentKind::ConfedSequence,
            _ => SegmentKind::ConfedSet,
        }
    }

    /// Its AS numbers, at least one, in the order of the octets.
    pub fn asns(self) -> impl ExactSizeIterator<Item = u32> + use<'hops> {
        self.hops.iter().map(|hop| hop.asn)
    }
}

/// Its AS numbers: `1 2` of a sequence, `{1,2}` of a set, `(1 2)` and `[1,2]` of those of a confederation.
impl fmt::Display for Segment<'_> {
    fn fmt(&self, f: &mut fmt::Formatter<'_>) -> fmt::Result {
        let (before, between, after) = match self.kind() {
            SegmentKind::Set => ("{", ",", "}"),
            SegmentKind::Sequence => ("", " ", ""),
            SegmentKind::ConfedSequence => ("(", " ", ")"),
            SegmentKind::ConfedSet => ("[", ",", "]"),
        };
        f.write_str(before)?;
        for (at, asn) in self.asns().enumerate() {
            write!(f, "{}{asn}", if at == 0 { "" } else { between })?;
        }
        f.write_str(after)
    }
}

/// An AS path (RFC 4271, 4.3; RFC 5065, 3): its AS numbers, in a slice or a vector.
#[derive(Clone, Copy, Debug, PartialEq, Eq, Hash)]
pub struct AsPath<Hops> {
    hops: Hops,
}

impl<'room> AsPath<&'room [Hop]> {
    /// The AS path that octets are: those of the value of an AS_PATH of a session. Those of an AS4_PATH (RFC 6793, 3)
    /// and of an AS_PATH of a RIB are read in [`Session::MODERN`]. The room is for the AS numbers.
    ///
    /// # Errors
    ///
    /// [`Error::Malformed`]: they are none. [`Error::NoRoom`] where there are more AS numbers than rows.
    pub fn new_in(octets: &[u8], session: Session, room: &'room mut [Hop]) -> Result<Self, Error> {
        let count = done(calls::bgp_as_path(octets, session.flags(), room))?;
        Ok(AsPath { hops: &room[..count] })
    }
}

#[cfg(feature = "alloc")]
impl AsPath<Vec<Hop>> {
    /// As [`new_in`](AsPath::new_in), and it makes a vector.
    ///
    /// # Errors
    ///
    /// [`Error::Malformed`]: they are none.
    pub fn new(octets: &[u8], session: Session) -> Result<Self, Error> {
        let width = if session.four_octet_asn { 4 } else { 2 };
        let hops = filled(octets.len() / width, done, |room| calls::bgp_as_path(octets, session.flags(), room))?;
        Ok(AsPath { hops })
    }
}

impl<Hops: AsRef<[Hop]>> AsPath<Hops> {
    /// All its AS numbers, each with the type of its segment, in the order of the octets. A path within one's own AS
    /// has none.
    pub fn hops(&self) -> &[Hop] {
        self.hops.as_ref()
    }

    /// All its AS numbers, whatever segments they are in.
    pub fn asns(&self) -> impl ExactSizeIterator<Item = u32> {
        self.hops().iter().map(|hop| hop.asn)
    }

    /// Its segments.
    pub fn segments(&self) -> impl Iterator<Item = Segment<'_>> {
        let mut rest = self.hops();
        core::iter::from_fn(move || {
            let count = usize::from(rest.first()?.count).clamp(1, rest.len());
            let (hops, after) = rest.split_at(count);
            rest = after;
            Some(Segment { hops })
        })
    }

    /// The AS number that the route began with: the last one, if it is in a sequence.
    pub fn origin(&self) -> Option<u32> {
        let last = self.hops().last()?;
        (last.kind == SegmentKind::Sequence as u16).then_some(last.asn)
    }
}

/// Its segments.
impl<Hops: AsRef<[Hop]>> fmt::Display for AsPath<Hops> {
    fn fmt(&self, f: &mut fmt::Formatter<'_>) -> fmt::Result {
        for (at, segment) in self.segments().enumerate() {
            write!(f, "{}{segment}", if at == 0 { "" } else { " " })?;
        }
        Ok(())
    }
}
