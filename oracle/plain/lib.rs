//! Document 01's records, check and numbering in plain Rust, written from the document.

pub mod check;
pub mod numbering;

pub use check::check;

/// Bytes of a record.
pub const RECORD: usize = 128;

/// Buses, branches, generators and segments.
#[derive(Clone, Copy, Debug, PartialEq, Eq)]
pub struct Counts {
    pub n: u64,
    pub m: u64,
    pub k: u64,
    pub s: u64,
}

impl Counts {
    /// How many records; for counts within the limits.
    pub fn records(self) -> u64 {
        self.n + self.m + self.k + self.s
    }
}

/// A refusal: its number and the value it returns.
#[derive(Clone, Copy, Debug, PartialEq, Eq)]
pub struct Refused {
    pub number: u64,
    pub value: u64,
}

pub fn refused<T>(number: u64, value: u64) -> Result<T, Refused> {
    Err(Refused { number, value })
}
