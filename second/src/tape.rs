//! The tape: records of 52 bytes, each one call.

use std::fmt;

/// The longest tape there is, 64 KiB.
pub const MAX_TAPE: usize = 64 * 1_024;
/// Bytes in a tape record.
pub const ENTRY: usize = 52;
/// Bytes of a tape record that are arguments.
pub const ARGUMENTS: usize = 48;
/// The first two bytes of every record.
const MARK: [u8; 2] = [0x43, 0x56];

/// A good record, lent from the tape.
#[derive(Clone, Copy, Debug, PartialEq, Eq)]
pub struct Entry<'t> {
    pub call: u8,
    pub hart: u8,
    /// The 48 argument bytes, as that part of the tape.
    pub arguments: &'t [u8; ARGUMENTS],
}

impl Entry<'_> {
    /// The arguments a0 to a5.
    pub fn args(&self) -> [u64; 6] {
        let mut args = [0; 6];
        for (arg, word) in args.iter_mut().zip(self.arguments.chunks_exact(8)) {
            *arg = u64::from_le_bytes(word.try_into().expect("a chunk is a word"));
        }
        args
    }
}

/// Why a record doesn't read.
#[derive(Clone, Copy, Debug, PartialEq, Eq)]
pub enum Bad {
    /// Fewer than 52 bytes are left, but not 0. Tested first.
    Short,
    /// The mark is wrong.
    Mark,
}

impl fmt::Display for Bad {
    fn fmt(&self, f: &mut fmt::Formatter) -> fmt::Result {
        f.write_str(match self {
            Bad::Short => "short",
            Bad::Mark => "mark",
        })
    }
}

/// Walks a lent tape and remembers its place.
#[derive(Clone, Debug)]
pub struct Tape<'t> {
    bytes: &'t [u8],
    place: usize,
}

impl<'t> Tape<'t> {
    pub fn new(bytes: &'t [u8]) -> Self {
        Tape { bytes, place: 0 }
    }

    /// How many bytes have been walked.
    pub fn place(&self) -> usize {
        self.place
    }

    /// Left open: the reader's place after a bad record. As "a record that
    /// doesn't read ends the run", it stands at the tape's end, and nothing
    /// more is read.
    fn end(&mut self, bad: Bad) -> Option<Result<Entry<'t>, Bad>> {
        self.place = self.bytes.len();
        Some(Err(bad))
    }
}

impl<'t> Iterator for Tape<'t> {
    type Item = Result<Entry<'t>, Bad>;

    fn next(&mut self) -> Option<Self::Item> {
        let left = self.bytes.get(self.place..)?;
        if left.is_empty() {
            return None;
        }
        let entry: &[u8; ENTRY] = match left.get(..ENTRY).and_then(|entry| entry.try_into().ok()) {
            Some(entry) => entry,
            None => return self.end(Bad::Short),
        };
        let [m0, m1, call, hart, arguments @ ..] = entry;
        if [*m0, *m1] != MARK {
            return self.end(Bad::Mark);
        }
        self.place += ENTRY;
        Some(Ok(Entry {
            call: *call,
            hart: *hart,
            arguments,
        }))
    }
}

/// The bytes of one record, for whoever writes tapes.
pub fn entry(call: u8, hart: u8, args: [u64; 6]) -> [u8; ENTRY] {
    let mut bytes = [0; ENTRY];
    let (head, words) = bytes.split_at_mut(ENTRY - ARGUMENTS);
    head.copy_from_slice(&[MARK[0], MARK[1], call, hart]);
    for (word, arg) in words.chunks_exact_mut(8).zip(args) {
        word.copy_from_slice(&arg.to_le_bytes());
    }
    bytes
}
