//! Safe calls of octseq: well-formed UTF-8, lossy texts, DNS and BGP messages, MRT files.
//!
//! What a call answers is computed by `liboctseq.a`, whose calls are proved to return and to answer what `octseq.h`
//! says, for all octets. What is in this crate isn't proved: it turns slices into pointers and lengths, and statuses
//! into results.
//!
//! Each call needs no more than `core`: texts and messages are written into a room that the caller lends. The feature
//! `alloc` has the same calls with a [`String`](https://doc.rust-lang.org/alloc/string/) or a vector in the room's
//! offset, and the feature `std`, which is a default and has `alloc` in it, the reader of MRT files.
#![no_std]
#![deny(unsafe_op_in_unsafe_fn, missing_docs)]

#[cfg(feature = "alloc")]
extern crate alloc;
#[cfg(feature = "std")]
extern crate std;

pub mod bgp;
mod calls;
pub mod dns;
pub mod mrt;
pub mod utf8;

use core::{error, fmt};

/// There was too little room. Nothing was written.
#[derive(Clone, Copy, Debug, PartialEq, Eq)]
pub struct NoRoom {
    /// How many octets, or rows, it takes.
    pub needed: usize,
}

impl fmt::Display for NoRoom {
    fn fmt(&self, f: &mut fmt::Formatter<'_>) -> fmt::Result {
        write!(f, "too little room: it takes {}", self.needed)
    }
}

impl error::Error for NoRoom {}

/// What a call writes, as a vector that has room for `first` octets or rows, and for as many as it takes where those
/// are too few. `done` tells how many were written, or why none.
#[cfg(feature = "alloc")]
fn filled<T: Clone + Default, E>(
    first: usize,
    done: impl Fn(calls::Written) -> Result<usize, E>,
    mut call: impl FnMut(&mut [T]) -> calls::Written,
) -> Result<alloc::vec::Vec<T>, E> {
    let mut room = alloc::vec![T::default(); first];
    let mut answer = call(&mut room);
    if let (calls::NO_ROOM, needed) = answer {
        room.resize(needed, T::default());
        answer = call(&mut room);
    }
    room.truncate(done(answer)?);
    Ok(room)
}
