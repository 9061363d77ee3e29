//! The two ledgers behind one trait, each with a table of its own.

use second::{Answer, Ledger};

/// One call, as a host makes it.
#[derive(Clone, Copy, Debug, PartialEq, Eq)]
pub struct Call {
    pub number: u64,
    pub hart: u64,
    pub args: [u64; 6],
}

/// `roadbellow_reply` of include/roadbellow.h.
#[repr(C)]
#[derive(Clone, Copy, Debug, PartialEq, Eq)]
pub struct Reply {
    pub error: i64,
    pub value: u64,
}

const LEDGER_WORDS: usize = 426;
/// Where ledgers and tables begin, in both engines: what it takes to clear them
/// depends on it.
const ALIGNED: usize = 64;

/// A ledger that begins on a line of the cache.
#[repr(align(64))]
#[derive(Clone)]
struct Aligned<T>(T);

/// The bytes of a table, which begin on a line of the cache.
struct Table {
    bytes: Vec<u8>,
    start: usize,
}

impl Table {
    fn zeros(pages: usize) -> Table {
        let bytes = vec![0; 8 * pages + ALIGNED];
        let start = bytes.as_ptr().align_offset(ALIGNED);
        Table { bytes, start }
    }

    fn len(&self) -> usize {
        self.bytes.len() - ALIGNED
    }

    fn lent(&mut self) -> &mut [u8] {
        let end = self.start + self.len();
        &mut self.bytes[self.start..end]
    }

    fn shown(&self) -> &[u8] {
        &self.bytes[self.start..self.start + self.len()]
    }
}

impl Clone for Table {
    fn clone(&self) -> Table {
        let mut table = Table::zeros(self.len() / 8);
        table.lent().copy_from_slice(self.shown());
        table
    }
}

extern "C" {
    fn roadbellow_call(
        ledger: *mut u32,
        table: *mut u8,
        table_bytes: usize,
        number: u64,
        hart: u64,
        a0: u64,
        a1: u64,
        a2: u64,
        a3: u64,
        a4: u64,
        a5: u64,
    ) -> Reply;
}

pub trait Engine: Clone {
    const NAME: &'static str;

    /// A ledger that is not open and a table of zeros. No table is null.
    fn fresh(pages: usize) -> Self;

    fn call(&mut self, call: &Call) -> Reply;

    fn table(&self) -> &[u8];
}

/// The proved ledger, through its C entry.
#[derive(Clone)]
pub struct Proved {
    ledger: Box<Aligned<[u32; LEDGER_WORDS]>>,
    table: Table,
}

impl Engine for Proved {
    const NAME: &'static str = "proved";

    fn fresh(pages: usize) -> Self {
        Proved {
            ledger: Box::new(Aligned([0; LEDGER_WORDS])),
            table: Table::zeros(pages),
        }
    }

    #[inline]
    fn call(&mut self, call: &Call) -> Reply {
        let [a0, a1, a2, a3, a4, a5] = call.args;
        let table = self.table.lent();
        // The words and the bytes are this engine's own and are lent whole, with
        // their lengths; they do not overlap.
        unsafe {
            roadbellow_call(
                self.ledger.0.as_mut_ptr(),
                table.as_mut_ptr(),
                table.len(),
                call.number,
                call.hart,
                a0,
                a1,
                a2,
                a3,
                a4,
                a5,
            )
        }
    }

    fn table(&self) -> &[u8] {
        self.table.shown()
    }
}

/// The second ledger.
#[derive(Clone)]
pub struct Second {
    ledger: Box<Aligned<Ledger>>,
    table: Table,
}

impl Engine for Second {
    const NAME: &'static str = "second";

    fn fresh(pages: usize) -> Self {
        Second {
            ledger: Box::new(Aligned(Ledger::new())),
            table: Table::zeros(pages),
        }
    }

    #[inline]
    fn call(&mut self, call: &Call) -> Reply {
        let table = self.table.lent();
        let answer: Answer = self.ledger.0.call(table, call.number, call.hart, call.args);
        Reply {
            error: answer.error(),
            value: answer.value(),
        }
    }

    fn table(&self) -> &[u8] {
        self.table.shown()
    }
}
