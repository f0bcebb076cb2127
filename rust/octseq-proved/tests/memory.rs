//! Requests for memory that are refused, and how much memory a reader of files takes.
#![cfg(all(feature = "std", target_env = "gnu"))]
use octseq_proved::dns::{Error, message_from_text_into, record_from_text, record_from_text_into};
use octseq_proved::mrt::{ReadError, Reader};
use std::alloc::{GlobalAlloc, Layout, System};
use std::cell::Cell;
use std::ffi::c_void;
use std::io::{self, Read};
use std::ptr::null_mut;

thread_local! {
    /// How many requests of the thread are fulfilled before one is refused. None is, if it is negative.
    static LEFT: Cell<isize> = const { Cell::new(-1) };
    /// How many octets the thread has requested and not given back, and the most that it had.
    static TAKEN: Cell<(isize, isize)> = const { Cell::new((0, 0)) };
}

unsafe extern "C" {
    fn __libc_malloc(size: usize) -> *mut c_void;
    fn __libc_realloc(block: *mut c_void, size: usize) -> *mut c_void;
}

fn is_refused() -> bool {
    let left = LEFT.get();
    LEFT.set(if left < 0 { left } else { left - 1 });
    left == 0
}

/// That of the C library, which the calls that read text request memory of.
#[unsafe(no_mangle)]
extern "C" fn malloc(size: usize) -> *mut c_void {
    // SAFETY: it is the same function by another name.
    if is_refused() { null_mut() } else { unsafe { __libc_malloc(size) } }
}

/// # Safety
///
/// As for that of the C library.
#[unsafe(no_mangle)]
unsafe extern "C" fn realloc(block: *mut c_void, size: usize) -> *mut c_void {
    // SAFETY: it is the same function by another name, and the caller keeps what that asks for.
    if is_refused() { null_mut() } else { unsafe { __libc_realloc(block, size) } }
}

/// The system's allocator, which counts for each thread.
struct Counting;

#[global_allocator]
static COUNTING: Counting = Counting;

fn count(size: isize) {
    let (now, most) = TAKEN.get();
    TAKEN.set((now + size, most.max(now + size)));
}

// SAFETY: it is the system's allocator.
unsafe impl GlobalAlloc for Counting {
    unsafe fn alloc(&self, layout: Layout) -> *mut u8 {
        count(layout.size() as isize);
        // SAFETY: the caller keeps what the system's allocator asks for.
        unsafe { System.alloc(layout) }
    }

    unsafe fn dealloc(&self, block: *mut u8, layout: Layout) {
        count(-(layout.size() as isize));
        // SAFETY: the caller keeps what the system's allocator asks for.
        unsafe { System.dealloc(block, layout) }
    }
}

/// What a call answers if a request for memory is refused after so many. None may be made meanwhile but by the call.
fn refusing<T>(after: isize, call: impl FnOnce() -> T) -> T {
    LEFT.set(after);
    let answer = call();
    LEFT.set(-1);
    answer
}

const TEXT: &str = "a. 1 IN NSEC b. A MX TYPE1234 CAA";

#[test]
fn each_request_may_be_refused() {
    let octets = record_from_text(TEXT).unwrap();
    let mut refused = 0;
    loop {
        let mut room = [b'-'; 99];
        match refusing(refused, || record_from_text_into(TEXT, &mut room)) {
            Ok(written) => break assert_eq!(written, octets),
            Err(error) => assert_eq!((error, room), (Error::Memory, [b'-'; 99])),
        }
        refused += 1;
    }
    assert!(refused > 0);
    let text = format!("id 7 opcode 0 rcode 0 flags\nanswer {TEXT}\n");
    let mut room = [b'-'; 99];
    assert_eq!(refusing(0, || message_from_text_into(&text, &mut room)), Err(Error::Memory));
    assert_eq!(room, [b'-'; 99]);
}

#[test]
fn an_address_takes_no_memory() {
    let mut room = [0; 17];
    let record = refusing(0, || record_from_text_into("a. 1 IN A 1.2.3.4", &mut room)).unwrap();
    assert_eq!(record, b"\x01a\0\0\x01\0\x01\0\0\0\x01\0\x04\x01\x02\x03\x04");
}

/// A table without peers, a RIB without entries, and a state change.
const RECORDS: &[u8; 77] = b"\x65\x53\xF1\0\0\x0D\0\x01\0\0\0\x08\x0A\0\0\x09\0\0\0\0\
    \x65\x53\xF1\0\0\x0D\0\x02\0\0\0\x09\0\0\0\x05\x0C\x0A\xFF\0\0\
    \x65\x53\xF1\0\0\x10\0\x05\0\0\0\x18\0\0\xFD\xE9\0\0\xFD\xEA\0\x07\0\x01\x0A\0\0\x01\x0A\0\0\x02\0\x03\0\x04";

/// A file that has them many times.
struct Endless {
    left: usize,
}

impl Read for Endless {
    fn read(&mut self, to: &mut [u8]) -> io::Result<usize> {
        let count = self.left.min(to.len() / RECORDS.len());
        self.left -= count;
        to[..count * RECORDS.len()].copy_from_slice(&RECORDS.repeat(count));
        Ok(count * RECORDS.len())
    }
}

/// The most memory that reading a file takes, beside what is there already, and the number of its records.
fn taken(file: impl Read) -> (isize, Result<usize, ReadError>) {
    let (before, _) = TAKEN.get();
    TAKEN.set((before, before));
    let count = Reader::new(file).try_fold(0, |count, record| record.map(|_| count + 1));
    (TAKEN.get().1 - before, count)
}

#[test]
fn memory_stays_as_it_is() {
    let (few, count) = taken(Endless { left: 2_000 });
    assert_eq!(count.unwrap(), 6_000);
    let (many, count) = taken(Endless { left: 40_000 });
    assert_eq!((many, count.unwrap()), (few, 120_000));
}

#[test]
fn a_length_that_no_file_has_takes_no_memory() {
    let mut octets = [0; 112];
    octets[8..12].fill(0xFF);
    let (most, count) = taken(&octets[..]);
    assert!(matches!(count, Err(ReadError::CutOff { len: 112 })));
    assert!(most < 1 << 18, "{most}");
}
