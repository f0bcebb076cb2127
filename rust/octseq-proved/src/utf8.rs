//! UTF-8: what is well-formed, and texts of what isn't (the Unicode Standard, 3.9).
use crate::NoRoom;
use crate::calls::{self, LossyState, NO_ROOM, OK};
use core::{error, fmt, str};

#[cfg(feature = "alloc")]
use alloc::{borrow::Cow, string::String};

/// Where octets stop being well-formed UTF-8. It has the numbers of [`core::str::Utf8Error`].
#[derive(Clone, Copy, Debug, PartialEq, Eq)]
pub struct Fault {
    /// The first ill-formed part begins here; all octets before it are well-formed.
    pub valid_up_to: usize,
    /// How many octets that part has, 1 to 3, or `None` where the octets end within a character.
    pub error_len: Option<usize>,
}

impl fmt::Display for Fault {
    fn fmt(&self, f: &mut fmt::Formatter<'_>) -> fmt::Result {
        match self.error_len {
            Some(len) => write!(f, "ill-formed UTF-8 at offset {}, {len} octets", self.valid_up_to),
            None => write!(f, "the octets end within a character that begins at offset {}", self.valid_up_to),
        }
    }
}

impl error::Error for Fault {}

/// Whether octets are well-formed UTF-8.
pub fn is_utf8(octets: &[u8]) -> bool {
    calls::is_utf8(octets)
}

/// Where octets stop being well-formed UTF-8, or `None`: nowhere.
pub fn first_fault(octets: &[u8]) -> Option<Fault> {
    match calls::utf8_fault(octets) {
        (OK, _, _) => None,
        (_, valid_up_to, error_len) => Some(Fault { valid_up_to, error_len: (error_len > 0).then_some(error_len) }),
    }
}

/// Octets as the text that they are.
///
/// # Errors
///
/// The fault, where they aren't well-formed UTF-8.
pub fn from_utf8(octets: &[u8]) -> Result<&str, Fault> {
    match first_fault(octets) {
        // SAFETY: the call found no fault, and so the octets are well-formed UTF-8.
        None => Ok(unsafe { str::from_utf8_unchecked(octets) }),
        Some(fault) => Err(fault),
    }
}

/// The text in the front of a room, after a call that writes lossy texts.
///
/// The text isn't checked again: that a lossy text is well-formed is what the call is there for and what is proved of
/// it, and a check is as much work as the call.
fn front((status, written): calls::Written, room: &mut [u8]) -> Result<&mut str, NoRoom> {
    match status {
        // SAFETY: after OK, the first `written` octets of the room are the lossy text, which is well-formed UTF-8.
        OK => Ok(unsafe { str::from_utf8_unchecked_mut(&mut room[..written]) }),
        NO_ROOM => Err(NoRoom { needed: written }),
        // A text of more octets than can be told. No slice of this process has as many.
        _ => Err(NoRoom { needed: usize::MAX }),
    }
}

/// Octets as a text, written to the front of a room: each maximal ill-formed part becomes one U+FFFD, which has 3
/// octets. The rest of the room is as it was.
///
/// # Errors
///
/// [`NoRoom`] where the text has more octets than the room; the room is then as it was.
pub fn lossy_into<'room>(octets: &[u8], room: &'room mut [u8]) -> Result<&'room mut str, NoRoom> {
    front(calls::lossy(octets, room), room)
}

/// Octets as a text: themselves where they are well-formed UTF-8, else a text of its own in which each maximal
/// ill-formed part is one U+FFFD.
#[cfg(feature = "alloc")]
pub fn lossy(octets: &[u8]) -> Cow<'_, str> {
    match from_utf8(octets) {
        Ok(text) => Cow::Borrowed(text),
        Err(_) => {
            let mut text = String::new();
            append(&mut text, octets.len(), |room| lossy_into(octets, room).map(|text| text.len()));
            Cow::Owned(text)
        }
    }
}

/// Appends what a call writes to a text that has room for `first` octets more, and for as many as it takes where those
/// are too few. The call writes a text to the front of its room and answers how many octets it has, or nothing.
#[cfg(feature = "alloc")]
fn append(text: &mut String, first: usize, mut call: impl FnMut(&mut [u8]) -> Result<usize, NoRoom>) {
    let start = text.len();
    // SAFETY: whenever this function returns or panics, what was appended is a text that `call` wrote, or zeros, or
    // the one and then the other. All of them are well-formed UTF-8.
    let octets = unsafe { text.as_mut_vec() };
    octets.resize(start.saturating_add(first), 0);
    let mut written = call(&mut octets[start..]);
    if let Err(NoRoom { needed }) = written {
        octets.resize(start.saturating_add(needed), 0);
        written = call(&mut octets[start..]);
    }
    // The second call has as much room as the first one asked for, so that it isn't refused.
    octets.truncate(start + written.unwrap_or(0));
}

/// A lossy text of octets that come in pieces. However they are cut, what is fed and the end are together the text that
/// [`lossy_into`] makes of all of them.
///
/// It has at most three octets, those of a character that isn't whole yet.
#[derive(Clone, Debug, Default)]
pub struct LossyPieces {
    state: LossyState,
}

impl LossyPieces {
    /// A text of which no piece is there yet.
    pub const fn new() -> LossyPieces {
        LossyPieces { state: LossyState::START }
    }

    /// The text of the next piece, in the front of a room.
    ///
    /// # Errors
    ///
    /// [`NoRoom`] where the text has more octets than the room. Then nothing has changed, and the same piece may be fed
    /// again.
    pub fn feed<'room>(&mut self, piece: &[u8], room: &'room mut [u8]) -> Result<&'room mut str, NoRoom> {
        front(calls::lossy_piece(&mut self.state, piece, room), room)
    }

    /// What is left once no piece follows, in the front of a room: one U+FFFD, which has 3 octets, where a character
    /// isn't whole, else nothing. After it, another text may begin.
    ///
    /// # Errors
    ///
    /// [`NoRoom`] where the text has more octets than the room. Then nothing has changed.
    pub fn end<'room>(&mut self, room: &'room mut [u8]) -> Result<&'room mut str, NoRoom> {
        front(calls::lossy_end(&mut self.state, room), room)
    }

    /// Appends the text of the next piece.
    #[cfg(feature = "alloc")]
    pub fn feed_to(&mut self, piece: &[u8], text: &mut String) {
        append(text, piece.len().saturating_add(3), |room| self.feed(piece, room).map(|text| text.len()));
    }

    /// Appends what is left once no piece follows. After it, another text may begin.
    #[cfg(feature = "alloc")]
    pub fn end_to(&mut self, text: &mut String) {
        append(text, 3, |room| self.end(room).map(|text| text.len()));
    }
}
