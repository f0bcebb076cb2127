//! A reader of MRT files.
use super::{Body, Error, Header, Record};
use alloc::{sync::Arc, vec::Vec};
use core::{error, fmt, iter::FusedIterator};
use std::io::{self, BufReader, Read};

/// How many octets are read at a time.
const BLOCK: usize = 1 << 16;

/// How many octets a header has.
const HEADER: usize = 12;

/// Why a reader has no next record.
#[derive(Debug)]
pub enum ReadError {
    /// The file couldn't be read.
    Io(io::Error),
    /// The file ends inside a record.
    CutOff {
        /// How many octets of the record are there.
        len: usize,
    },
    /// The octets that a header counts aren't a record. None are known that lead here.
    Record(Error),
}

impl fmt::Display for ReadError {
    fn fmt(&self, f: &mut fmt::Formatter<'_>) -> fmt::Result {
        match self {
            ReadError::Io(error) => error.fmt(f),
            ReadError::CutOff { len } => write!(f, "the file ends inside a record, after {len} of its octets"),
            ReadError::Record(error) => error.fmt(f),
        }
    }
}

impl error::Error for ReadError {
    fn source(&self) -> Option<&(dyn error::Error + 'static)> {
        match self {
            ReadError::Io(error) => Some(error),
            ReadError::CutOff { .. } => None,
            ReadError::Record(error) => Some(error),
        }
    }
}

impl From<io::Error> for ReadError {
    fn from(error: io::Error) -> ReadError {
        ReadError::Io(error)
    }
}

/// An iterator over the records of a file that isn't compressed. It holds a block of the file, the last table of peers,
/// and no other record. It reads as much as a block in advance. After an error it has no more records.
///
/// ```no_run
/// use octseq_proved::mrt::{Body, ReadError, Reader};
///
/// fn show(file: std::fs::File) -> Result<(), ReadError> {
///     for record in Reader::new(file) {
///         if let Body::Rib(rib) = record?.body() {
///             println!("{}: {} routes", rib.prefix(), rib.entries().len());
///         }
///     }
///     Ok(())
/// }
/// ```
#[derive(Debug)]
pub struct Reader<R> {
    source: BufReader<R>,
    table: Option<Arc<Record>>,
    is_over: bool,
}

impl<R: Read> Reader<R> {
    /// The records of a file, from where it is.
    pub fn new(source: R) -> Reader<R> {
        Reader { source: BufReader::with_capacity(BLOCK, source), table: None, is_over: false }
    }

    /// The next record. `None`: the file has ended.
    fn read(&mut self) -> Result<Option<Record>, ReadError> {
        let mut octets = Vec::with_capacity(HEADER);
        self.fill(&mut octets, HEADER)?;
        if octets.is_empty() {
            return Ok(None);
        }
        let len = Header::new(&octets).map_or(HEADER, |header| header.len);
        octets.reserve_exact(len.min(BLOCK).saturating_sub(octets.len()));
        self.fill(&mut octets, len)?;
        if octets.len() < len {
            return Err(ReadError::CutOff { len: octets.len() });
        }
        let record = Record::new(octets).map_err(ReadError::Record)?;
        Ok(Some(self.after_table(record)))
    }

    /// The record with the table that came before it. A table is kept for those after it.
    fn after_table(&mut self, record: Record) -> Record {
        match record.body() {
            Body::PeerIndexTable(_) => self.table = Some(Arc::new(record.clone())),
            Body::Rib(_) => return record.after(self.table.clone()),
            _ => (),
        }
        record
    }

    /// Appends what the file has next, until there are `len` octets, or it ends. It takes memory for what is there, and
    /// not for a length that no file has.
    fn fill(&mut self, octets: &mut Vec<u8>, len: usize) -> io::Result<()> {
        let missing = len.saturating_sub(octets.len()) as u64;
        self.source.by_ref().take(missing).read_to_end(octets).map(drop)
    }
}

impl<R: Read> Iterator for Reader<R> {
    type Item = Result<Record, ReadError>;

    fn next(&mut self) -> Option<Self::Item> {
        if self.is_over {
            return None;
        }
        let next = self.read().transpose();
        self.is_over = !matches!(next, Some(Ok(_)));
        next
    }
}

impl<R: Read> FusedIterator for Reader<R> {}
