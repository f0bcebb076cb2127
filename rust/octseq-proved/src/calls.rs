//! The calls of `octseq.h`, each with a slice in the place of a pointer and its length. All calls of C are here.
//!
//! What the header asks of a caller holds of each of them by the types of their arguments:
//!
//! - A slice names as many octets, or rows, as its length says, and is borrowed until the call returns. Nobody writes
//!   to what is borrowed shared, and nobody else reads or writes what is borrowed alone, so that what is written
//!   overlaps no other argument. The pointer of an empty slice is not NULL, and isn't read.
//! - No slice has more than `isize::MAX` octets, all of its items together, and that is `PTRDIFF_MAX`.
//! - A reference to one thing is a pointer to it, and isn't NULL.
//! - The two calls that read text request memory by the program's malloc, realloc and free. Code that puts others in
//!   the place of these is `unsafe`, and so is code that runs in a signal handler, or in the forked child of a process
//!   with threads: it answers for what these functions do, and for what it calls.
//!
//! `usize` is `size_t` on each target that the library is built for.

use crate::dns::{Class, Edns, FieldRow, Header, Row, Rtype};
use crate::{bgp, mrt};
use core::mem::{align_of, offset_of, size_of};

/// `OCTSEQ_OK`.
pub const OK: u32 = 0;
/// `OCTSEQ_NO_ROOM`.
pub const NO_ROOM: u32 = 1;
/// `OCTSEQ_MALFORMED`.
pub const MALFORMED: u32 = 2;
/// `OCTSEQ_IMMOVABLE`.
pub const IMMOVABLE: u32 = 4;
/// `OCTSEQ_TOO_LONG`.
pub const TOO_LONG: u32 = 5;
/// `OCTSEQ_BAD_ROW`.
pub const BAD_ROW: u32 = 6;
/// `OCTSEQ_MEMORY`.
pub const MEMORY: u32 = 9;

/// `octseq_lossy_state`: all zeros before the first piece.
#[repr(C)]
#[derive(Clone, Debug, Default)]
pub struct LossyState {
    octets: [u8; 3],
    len: u8,
}

impl LossyState {
    /// The state before the first piece.
    pub const START: LossyState = LossyState { octets: [0; 3], len: 0 };
}

const _: () = {
    assert!(size_of::<LossyState>() == 4 && align_of::<LossyState>() == 1);
    assert!(offset_of!(LossyState, octets) == 0 && offset_of!(LossyState, len) == 3);

    assert!(size_of::<Header>() == 12 && align_of::<Header>() == align_of::<u16>());
    assert!(offset_of!(Header, id) == 0 && offset_of!(Header, flags) == 2);
    assert!(offset_of!(Header, qdcount) == 4 && offset_of!(Header, ancount) == 6);
    assert!(offset_of!(Header, nscount) == 8 && offset_of!(Header, arcount) == 10);

    const WORD: usize = size_of::<usize>();
    assert!(size_of::<Row>() == (3 * WORD + 12).next_multiple_of(WORD) && align_of::<Row>() == align_of::<usize>());
    assert!(offset_of!(Row, name_at) == 0 && offset_of!(Row, data_at) == WORD && offset_of!(Row, data_len) == 2 * WORD);
    assert!(offset_of!(Row, ttl) == 3 * WORD && offset_of!(Row, rtype) == 3 * WORD + 4);
    assert!(offset_of!(Row, rclass) == 3 * WORD + 6 && offset_of!(Row, section) == 3 * WORD + 8);
    assert!(size_of::<FieldRow>() == 2 * WORD + 8 && align_of::<FieldRow>() == align_of::<usize>());
    assert!(offset_of!(FieldRow, at) == 0 && offset_of!(FieldRow, len) == WORD);
    assert!(offset_of!(FieldRow, number) == 2 * WORD && offset_of!(FieldRow, kind) == 2 * WORD + 4);
    assert!(size_of::<bgp::Row>() == 2 * WORD + 16 && align_of::<bgp::Row>() == align_of::<usize>());
    assert!(offset_of!(bgp::Row, at) == 0 && offset_of!(bgp::Row, len) == WORD);
    assert!(offset_of!(bgp::Row, kind) == 2 * WORD && offset_of!(bgp::Row, path_id) == 2 * WORD + 4);
    assert!(offset_of!(bgp::Row, has_path_id) == 2 * WORD + 8 && offset_of!(bgp::Row, afi) == 2 * WORD + 10);
    assert!(offset_of!(bgp::Row, safi) == 2 * WORD + 12 && offset_of!(bgp::Row, bits) == 2 * WORD + 13);
    assert!(offset_of!(bgp::Row, flags) == 2 * WORD + 14 && offset_of!(bgp::Row, type_code) == 2 * WORD + 15);
    assert!(size_of::<bgp::Hop>() == 8 && align_of::<bgp::Hop>() == align_of::<u32>());
    assert!(offset_of!(bgp::Hop, asn) == 0 && offset_of!(bgp::Hop, kind) == 4 && offset_of!(bgp::Hop, count) == 6);
    assert!(size_of::<Rtype>() == 2 && size_of::<Class>() == 2);
};

const _: () = {
    use mrt::{Header, Row};
    const WORD: usize = size_of::<usize>();
    assert!(size_of::<Header>() == WORD + 8 && align_of::<Header>() == align_of::<usize>());
    assert!(offset_of!(Header, len) == 0 && offset_of!(Header, timestamp) == WORD);
    assert!(offset_of!(Header, type_code) == WORD + 4 && offset_of!(Header, subtype) == WORD + 6);

    const NUMBERS: usize = 3 * WORD;
    assert!(size_of::<Row>() == NUMBERS + 72 && align_of::<Row>() == align_of::<usize>());
    assert!(offset_of!(Row, at) == 0 && offset_of!(Row, len) == WORD && offset_of!(Row, count) == 2 * WORD);
    assert!(offset_of!(Row, kind) == NUMBERS && offset_of!(Row, id) == NUMBERS + 4);
    assert!(offset_of!(Row, time) == NUMBERS + 8 && offset_of!(Row, asn) == NUMBERS + 12);
    assert!(offset_of!(Row, local_asn) == NUMBERS + 16 && offset_of!(Row, session) == NUMBERS + 20);
    assert!(offset_of!(Row, old_state) == NUMBERS + 24 && offset_of!(Row, new_state) == NUMBERS + 28);
    assert!(offset_of!(Row, index) == NUMBERS + 32 && offset_of!(Row, afi) == NUMBERS + 34);
    assert!(offset_of!(Row, safi) == NUMBERS + 36 && offset_of!(Row, bits) == NUMBERS + 37);
    assert!(offset_of!(Row, has_number) == NUMBERS + 38 && offset_of!(Row, addr_len) == NUMBERS + 39);
    assert!(offset_of!(Row, addr) == NUMBERS + 40 && offset_of!(Row, local_addr) == NUMBERS + 56);
};

unsafe extern "C" {
    fn octseq_is_utf8(octets: *const u8, len: usize) -> u32;
    fn octseq_utf8_fault(octets: *const u8, len: usize, valid_up_to: *mut usize, error_len: *mut usize) -> u32;
    fn octseq_lossy(octets: *const u8, len: usize, out: *mut u8, room: usize, written: *mut usize) -> u32;
    fn octseq_lossy_piece(
        state: *mut LossyState,
        piece: *const u8,
        len: usize,
        out: *mut u8,
        room: usize,
        written: *mut usize,
    ) -> u32;
    fn octseq_lossy_end(state: *mut LossyState, out: *mut u8, room: usize, written: *mut usize) -> u32;
    fn octseq_dns_message_header(octets: *const u8, len: usize, header: *mut Header) -> u32;
    fn octseq_dns_message_fault(octets: *const u8, len: usize, offset: *mut usize) -> u32;
    fn octseq_dns_rows(octets: *const u8, len: usize, out: *mut Row, room: usize, count: *mut usize) -> u32;
    fn octseq_dns_message_text(octets: *const u8, len: usize, out: *mut u8, room: usize, written: *mut usize) -> u32;
    fn octseq_dns_rewrite(octets: *const u8, len: usize, out: *mut u8, room: usize, written: *mut usize) -> u32;
    fn octseq_dns_query(
        id: u16,
        flags: u16,
        name: *const u8,
        name_len: usize,
        qtype: u16,
        qclass: u16,
        out: *mut u8,
        room: usize,
        written: *mut usize,
    ) -> u32;
    fn octseq_dns_query_edns(
        id: u16,
        flags: u16,
        name: *const u8,
        name_len: usize,
        qtype: u16,
        qclass: u16,
        payload: u16,
        edns_flags: u16,
        options: *const u8,
        options_len: usize,
        out: *mut u8,
        room: usize,
        written: *mut usize,
    ) -> u32;
    fn octseq_dns_answer(
        query: *const u8,
        query_len: usize,
        flags: u16,
        source: *const u8,
        source_len: usize,
        rows: *const Row,
        count: usize,
        out: *mut u8,
        room: usize,
        written: *mut usize,
    ) -> u32;
    fn octseq_dns_answer_within(
        query: *const u8,
        query_len: usize,
        flags: u16,
        source: *const u8,
        source_len: usize,
        rows: *const Row,
        count: usize,
        limit: u16,
        out: *mut u8,
        room: usize,
        written: *mut usize,
    ) -> u32;
    fn octseq_dns_record_from_text(
        text: *const u8,
        len: usize,
        out: *mut u8,
        room: usize,
        written: *mut usize,
        offset: *mut usize,
    ) -> u32;
    fn octseq_dns_message_from_text(
        text: *const u8,
        len: usize,
        out: *mut u8,
        room: usize,
        written: *mut usize,
        line: *mut usize,
        offset: *mut usize,
    ) -> u32;
    fn octseq_dns_name_text(
        octets: *const u8,
        len: usize,
        offset: usize,
        out: *mut u8,
        room: usize,
        written: *mut usize,
    ) -> u32;
    fn octseq_dns_name_wire(
        octets: *const u8,
        len: usize,
        offset: usize,
        out: *mut u8,
        room: usize,
        written: *mut usize,
    ) -> u32;
    fn octseq_dns_name_from_text(text: *const u8, len: usize, out: *mut u8, room: usize, written: *mut usize) -> u32;
    fn octseq_dns_name_compare(
        one: *const u8,
        one_len: usize,
        one_offset: usize,
        other: *const u8,
        other_len: usize,
        other_offset: usize,
        order: *mut i32,
    ) -> u32;
    fn octseq_dns_data_is_typed(
        octets: *const u8,
        len: usize,
        data_at: usize,
        data_len: usize,
        rtype: u16,
        rclass: u16,
    ) -> u32;
    fn octseq_dns_data_text(
        octets: *const u8,
        len: usize,
        data_at: usize,
        data_len: usize,
        rtype: u16,
        rclass: u16,
        out: *mut u8,
        room: usize,
        written: *mut usize,
    ) -> u32;
    fn octseq_dns_data_fields(
        octets: *const u8,
        len: usize,
        data_at: usize,
        data_len: usize,
        rtype: u16,
        rclass: u16,
        out: *mut FieldRow,
        room: usize,
        count: *mut usize,
    ) -> u32;
    fn octseq_dns_rtype_text(rtype: u16, out: *mut u8, room: usize, written: *mut usize) -> u32;
    fn octseq_dns_class_text(rclass: u16, out: *mut u8, room: usize, written: *mut usize) -> u32;
    fn octseq_dns_rtype_from_text(text: *const u8, len: usize, rtype: *mut u16) -> u32;
    fn octseq_dns_class_from_text(text: *const u8, len: usize, rclass: *mut u16) -> u32;
    fn octseq_bgp_message_fault(octets: *const u8, len: usize, session: u32, offset: *mut usize) -> u32;
    fn octseq_bgp_rows(
        octets: *const u8,
        len: usize,
        session: u32,
        out: *mut bgp::Row,
        room: usize,
        count: *mut usize,
    ) -> u32;
    fn octseq_bgp_message_text(
        octets: *const u8,
        len: usize,
        session: u32,
        out: *mut u8,
        room: usize,
        written: *mut usize,
    ) -> u32;
    fn octseq_bgp_as_path(
        octets: *const u8,
        len: usize,
        session: u32,
        out: *mut bgp::Hop,
        room: usize,
        count: *mut usize,
    ) -> u32;
    fn octseq_mrt_record_header(octets: *const u8, len: usize, header: *mut mrt::Header) -> u32;
    fn octseq_mrt_rows(octets: *const u8, len: usize, out: *mut mrt::Row, room: usize, count: *mut usize) -> u32;
    fn octseq_mrt_attributes(octets: *const u8, len: usize, out: *mut bgp::Row, room: usize, count: *mut usize) -> u32;
}

/// What a call answers that writes: its status, and what it says was written, or is needed.
pub type Written = (u32, usize);

/// Where a text is refused: the line, from 1 on, and the offset in it.
pub type TextOffset = (usize, usize);

pub fn is_utf8(octets: &[u8]) -> bool {
    // SAFETY: `octets` is a slice that is borrowed for the call.
    unsafe { octseq_is_utf8(octets.as_ptr(), octets.len()) != 0 }
}

/// The status, `valid_up_to` and `error_len`.
pub fn utf8_fault(octets: &[u8]) -> (u32, usize, usize) {
    let (mut valid_up_to, mut error_len) = (0, 0);
    // SAFETY: `octets` is a slice that is borrowed for the call; the two others are variables, each of its own.
    let status = unsafe { octseq_utf8_fault(octets.as_ptr(), octets.len(), &mut valid_up_to, &mut error_len) };
    (status, valid_up_to, error_len)
}

pub fn lossy(octets: &[u8], out: &mut [u8]) -> Written {
    let mut written = 0;
    // SAFETY: `octets` and `out` are slices that are borrowed for the call, `out` alone; `written` is a variable.
    let status = unsafe { octseq_lossy(octets.as_ptr(), octets.len(), out.as_mut_ptr(), out.len(), &mut written) };
    (status, written)
}

pub fn lossy_piece(state: &mut LossyState, piece: &[u8], out: &mut [u8]) -> Written {
    let mut written = 0;
    // SAFETY: `piece` and `out` are slices that are borrowed for the call, `out` and `state` alone; `written` is a
    // variable. The layout of the state is checked above.
    let status =
        unsafe { octseq_lossy_piece(state, piece.as_ptr(), piece.len(), out.as_mut_ptr(), out.len(), &mut written) };
    (status, written)
}

pub fn lossy_end(state: &mut LossyState, out: &mut [u8]) -> Written {
    let mut written = 0;
    // SAFETY: `out` is a slice, and it and `state` are borrowed alone for the call; `written` is a variable. The
    // layout of the state is checked above.
    let status = unsafe { octseq_lossy_end(state, out.as_mut_ptr(), out.len(), &mut written) };
    (status, written)
}

/// The status, and the header, which is all zeros where there is none.
pub fn message_header(octets: &[u8]) -> (u32, Header) {
    let mut header = Header::default();
    // SAFETY: `octets` is a slice that is borrowed for the call; `header` is a variable, whose layout is checked above.
    let status = unsafe { octseq_dns_message_header(octets.as_ptr(), octets.len(), &mut header) };
    (status, header)
}

/// The status, and where reading the octets as a message stops.
pub fn message_fault(octets: &[u8]) -> (u32, usize) {
    let mut offset = 0;
    // SAFETY: `octets` is a slice that is borrowed for the call; `offset` is a variable.
    let status = unsafe { octseq_dns_message_fault(octets.as_ptr(), octets.len(), &mut offset) };
    (status, offset)
}

pub fn rows(octets: &[u8], out: &mut [Row]) -> Written {
    let mut count = 0;
    // SAFETY: `octets` and `out` are slices that are borrowed for the call, `out` alone; `count` is a variable. The
    // layout of a row is checked above, and any numbers make a row.
    let status = unsafe { octseq_dns_rows(octets.as_ptr(), octets.len(), out.as_mut_ptr(), out.len(), &mut count) };
    (status, count)
}

pub fn message_text(octets: &[u8], out: &mut [u8]) -> Written {
    let mut written = 0;
    // SAFETY: `octets` and `out` are slices that are borrowed for the call, `out` alone; `written` is a variable.
    let status =
        unsafe { octseq_dns_message_text(octets.as_ptr(), octets.len(), out.as_mut_ptr(), out.len(), &mut written) };
    (status, written)
}

pub fn rewrite(octets: &[u8], out: &mut [u8]) -> Written {
    let mut written = 0;
    // SAFETY: `octets` and `out` are slices that are borrowed for the call, `out` alone; `written` is a variable.
    let status =
        unsafe { octseq_dns_rewrite(octets.as_ptr(), octets.len(), out.as_mut_ptr(), out.len(), &mut written) };
    (status, written)
}

pub fn query(id: u16, flags: u16, name: &str, rtype: Rtype, class: Class, out: &mut [u8]) -> Written {
    let (name, room) = (name.as_bytes(), out.len());
    let mut written = 0;
    // SAFETY: `name` and `out` are slices that are borrowed for the call, `out` alone; `written` is a variable.
    let status = unsafe {
        let out = out.as_mut_ptr();
        octseq_dns_query(id, flags, name.as_ptr(), name.len(), rtype.0, class.0, out, room, &mut written)
    };
    (status, written)
}

pub fn query_edns(
    id: u16,
    flags: u16,
    name: &str,
    rtype: Rtype,
    class: Class,
    edns: Edns<'_>,
    out: &mut [u8],
) -> Written {
    let (name, options) = (name.as_bytes(), edns.options);
    let mut written = 0;
    // SAFETY: `name`, `options` and `out` are slices that are borrowed for the call, `out` alone; `written` is a
    // variable.
    let status = unsafe {
        octseq_dns_query_edns(
            id,
            flags,
            name.as_ptr(),
            name.len(),
            rtype.0,
            class.0,
            edns.payload,
            edns.flags,
            options.as_ptr(),
            options.len(),
            out.as_mut_ptr(),
            out.len(),
            &mut written,
        )
    };
    (status, written)
}

pub fn answer(query: &[u8], flags: u16, source: &[u8], rows: &[Row], out: &mut [u8]) -> Written {
    let mut written = 0;
    // SAFETY: `query`, `source`, `rows` and `out` are slices that are borrowed for the call, `out` alone; `written` is
    // a variable. The layout of a row is checked above.
    let status = unsafe {
        octseq_dns_answer(
            query.as_ptr(),
            query.len(),
            flags,
            source.as_ptr(),
            source.len(),
            rows.as_ptr(),
            rows.len(),
            out.as_mut_ptr(),
            out.len(),
            &mut written,
        )
    };
    (status, written)
}

pub fn answer_within(query: &[u8], flags: u16, source: &[u8], rows: &[Row], limit: u16, out: &mut [u8]) -> Written {
    let mut written = 0;
    // SAFETY: `query`, `source`, `rows` and `out` are slices that are borrowed for the call, `out` alone; `written` is
    // a variable. The layout of a row is checked above.
    let status = unsafe {
        octseq_dns_answer_within(
            query.as_ptr(),
            query.len(),
            flags,
            source.as_ptr(),
            source.len(),
            rows.as_ptr(),
            rows.len(),
            limit,
            out.as_mut_ptr(),
            out.len(),
            &mut written,
        )
    };
    (status, written)
}

/// What was written, and where the text is refused.
pub fn record_from_text(text: &str, out: &mut [u8]) -> (Written, TextOffset) {
    let text = text.as_bytes();
    let (mut written, mut offset) = (0, 0);
    // SAFETY: `text` and `out` are slices that are borrowed for the call, `out` alone; the two others are variables,
    // each of its own.
    let status = unsafe {
        let (out, room) = (out.as_mut_ptr(), out.len());
        octseq_dns_record_from_text(text.as_ptr(), text.len(), out, room, &mut written, &mut offset)
    };
    ((status, written), (1, offset))
}

/// What was written, and where the text is refused.
pub fn message_from_text(text: &str, out: &mut [u8]) -> (Written, TextOffset) {
    let text = text.as_bytes();
    let (mut written, mut line, mut offset) = (0, 0, 0);
    // SAFETY: `text` and `out` are slices that are borrowed for the call, `out` alone; the three others are variables,
    // each of its own.
    let status = unsafe {
        let (out, room) = (out.as_mut_ptr(), out.len());
        octseq_dns_message_from_text(text.as_ptr(), text.len(), out, room, &mut written, &mut line, &mut offset)
    };
    ((status, written), (line, offset))
}

pub fn name_text(octets: &[u8], offset: usize, out: &mut [u8]) -> Written {
    let mut written = 0;
    // SAFETY: `octets` and `out` are slices that are borrowed for the call, `out` alone; `written` is a variable. Any
    // offset may be asked.
    let status = unsafe {
        octseq_dns_name_text(octets.as_ptr(), octets.len(), offset, out.as_mut_ptr(), out.len(), &mut written)
    };
    (status, written)
}

pub fn name_wire(octets: &[u8], offset: usize, out: &mut [u8]) -> Written {
    let mut written = 0;
    // SAFETY: `octets` and `out` are slices that are borrowed for the call, `out` alone; `written` is a variable. Any
    // offset may be asked.
    let status = unsafe {
        octseq_dns_name_wire(octets.as_ptr(), octets.len(), offset, out.as_mut_ptr(), out.len(), &mut written)
    };
    (status, written)
}

pub fn name_from_text(text: &str, out: &mut [u8]) -> Written {
    let text = text.as_bytes();
    let mut written = 0;
    // SAFETY: `text` and `out` are slices that are borrowed for the call, `out` alone; `written` is a variable.
    let status =
        unsafe { octseq_dns_name_from_text(text.as_ptr(), text.len(), out.as_mut_ptr(), out.len(), &mut written) };
    (status, written)
}

/// The status, and the order of the name at an offset of `one` and that at an offset of `other`.
pub fn name_compare(one: &[u8], one_offset: usize, other: &[u8], other_offset: usize) -> (u32, i32) {
    let mut order = 0;
    // SAFETY: `one` and `other` are slices that are borrowed for the call; `order` is a variable. Any offsets may be
    // asked.
    let status = unsafe {
        let (one, one_len) = (one.as_ptr(), one.len());
        octseq_dns_name_compare(one, one_len, one_offset, other.as_ptr(), other.len(), other_offset, &mut order)
    };
    (status, order)
}

pub fn data_is_typed(octets: &[u8], data_at: usize, data_len: usize, rtype: Rtype, class: Class) -> bool {
    // SAFETY: `octets` is a slice that is borrowed for the call. Any offsets may be asked.
    unsafe { octseq_dns_data_is_typed(octets.as_ptr(), octets.len(), data_at, data_len, rtype.0, class.0) != 0 }
}

pub fn data_text(
    octets: &[u8],
    data_at: usize,
    data_len: usize,
    rtype: Rtype,
    class: Class,
    out: &mut [u8],
) -> Written {
    let mut written = 0;
    // SAFETY: `octets` and `out` are slices that are borrowed for the call, `out` alone; `written` is a variable. Any
    // offsets may be asked.
    let status = unsafe {
        octseq_dns_data_text(
            octets.as_ptr(),
            octets.len(),
            data_at,
            data_len,
            rtype.0,
            class.0,
            out.as_mut_ptr(),
            out.len(),
            &mut written,
        )
    };
    (status, written)
}

pub fn data_fields(
    octets: &[u8],
    data_at: usize,
    data_len: usize,
    rtype: Rtype,
    class: Class,
    out: &mut [FieldRow],
) -> Written {
    let mut count = 0;
    // SAFETY: `octets` and `out` are slices that are borrowed for the call, `out` alone; `count` is a variable. The
    // layout of a row is checked above, and any numbers make a row. Any offsets may be asked.
    let status = unsafe {
        octseq_dns_data_fields(
            octets.as_ptr(),
            octets.len(),
            data_at,
            data_len,
            rtype.0,
            class.0,
            out.as_mut_ptr(),
            out.len(),
            &mut count,
        )
    };
    (status, count)
}

pub fn rtype_text(rtype: Rtype, out: &mut [u8]) -> Written {
    let mut written = 0;
    // SAFETY: `out` is a slice that is borrowed alone for the call; `written` is a variable.
    let status = unsafe { octseq_dns_rtype_text(rtype.0, out.as_mut_ptr(), out.len(), &mut written) };
    (status, written)
}

pub fn class_text(class: Class, out: &mut [u8]) -> Written {
    let mut written = 0;
    // SAFETY: `out` is a slice that is borrowed alone for the call; `written` is a variable.
    let status = unsafe { octseq_dns_class_text(class.0, out.as_mut_ptr(), out.len(), &mut written) };
    (status, written)
}

/// The status and the number.
pub fn rtype_from_text(text: &str) -> (u32, Rtype) {
    let mut number = 0;
    // SAFETY: the text's octets are a slice that is borrowed for the call; `number` is a variable.
    let status = unsafe { octseq_dns_rtype_from_text(text.as_ptr(), text.len(), &mut number) };
    (status, Rtype(number))
}

/// The status and the number.
pub fn class_from_text(text: &str) -> (u32, Class) {
    let mut number = 0;
    // SAFETY: the text's octets are a slice that is borrowed for the call; `number` is a variable.
    let status = unsafe { octseq_dns_class_from_text(text.as_ptr(), text.len(), &mut number) };
    (status, Class(number))
}

/// The status, and where reading the octets as a message of a session stops.
pub fn bgp_message_fault(octets: &[u8], session: u32) -> (u32, usize) {
    let mut offset = 0;
    // SAFETY: `octets` is a slice that is borrowed for the call; `offset` is a variable. Any session may be asked.
    let status = unsafe { octseq_bgp_message_fault(octets.as_ptr(), octets.len(), session, &mut offset) };
    (status, offset)
}

pub fn bgp_rows(octets: &[u8], session: u32, out: &mut [bgp::Row]) -> Written {
    let mut count = 0;
    // SAFETY: `octets` and `out` are slices that are borrowed for the call, `out` alone; `count` is a variable. The
    // layout of a row is checked above, and any numbers make a row. Any session may be asked.
    let status =
        unsafe { octseq_bgp_rows(octets.as_ptr(), octets.len(), session, out.as_mut_ptr(), out.len(), &mut count) };
    (status, count)
}

pub fn bgp_message_text(octets: &[u8], session: u32, out: &mut [u8]) -> Written {
    let mut written = 0;
    // SAFETY: `octets` and `out` are slices that are borrowed for the call, `out` alone; `written` is a variable. Any
    // session may be asked.
    let status = unsafe {
        octseq_bgp_message_text(octets.as_ptr(), octets.len(), session, out.as_mut_ptr(), out.len(), &mut written)
    };
    (status, written)
}

pub fn bgp_as_path(octets: &[u8], session: u32, out: &mut [bgp::Hop]) -> Written {
    let mut count = 0;
    // SAFETY: `octets` and `out` are slices that are borrowed for the call, `out` alone; `count` is a variable. The
    // layout of a row is checked above, and any numbers make a row. Any session may be asked.
    let status =
        unsafe { octseq_bgp_as_path(octets.as_ptr(), octets.len(), session, out.as_mut_ptr(), out.len(), &mut count) };
    (status, count)
}

/// The status, and the header, which is all zeros where there is none.
pub fn mrt_record_header(octets: &[u8]) -> (u32, mrt::Header) {
    let mut header = mrt::Header::default();
    // SAFETY: `octets` is a slice that is borrowed for the call; `header` is a variable, whose layout is checked above.
    let status = unsafe { octseq_mrt_record_header(octets.as_ptr(), octets.len(), &mut header) };
    (status, header)
}

pub fn mrt_rows(octets: &[u8], out: &mut [mrt::Row]) -> Written {
    let mut count = 0;
    // SAFETY: `octets` and `out` are slices that are borrowed for the call, `out` alone; `count` is a variable. The
    // layout of a row is checked above, and any numbers make a row.
    let status = unsafe { octseq_mrt_rows(octets.as_ptr(), octets.len(), out.as_mut_ptr(), out.len(), &mut count) };
    (status, count)
}

pub fn mrt_attributes(octets: &[u8], out: &mut [bgp::Row]) -> Written {
    let mut count = 0;
    // SAFETY: `octets` and `out` are slices that are borrowed for the call, `out` alone; `count` is a variable. The
    // layout of a row is checked above, and any numbers make a row.
    let status =
        unsafe { octseq_mrt_attributes(octets.as_ptr(), octets.len(), out.as_mut_ptr(), out.len(), &mut count) };
    (status, count)
}
