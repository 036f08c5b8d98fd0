//! The record check: 1, 2, then record by record 3, 4, 5, lastly the sum of the counts.

use crate::{refused, Counts, Refused, RECORD};

/// The most buses, branches, generators and segments.
pub const LIMITS: [u64; 4] = [4096, 8192, 4096, 65536];

fn number(record: &[u8; RECORD], at: usize) -> u64 {
    u32::from_le_bytes([record[at], record[at + 1], record[at + 2], record[at + 3]]) as u64
}

/// Bytes 2-3.
pub fn count(record: &[u8; RECORD]) -> u64 {
    u16::from_le_bytes([record[2], record[3]]) as u64
}

fn all_zero(bytes: &[u8]) -> bool {
    bytes.iter().all(|&b| b == 0)
}

/// The kind, the flags that are known, and no other bits than the named ones.
fn well_formed(kind: u8, r: &[u8; RECORD]) -> bool {
    let (flags, unused) = match kind {
        1 => (0b01, all_zero(&r[2..4]) && all_zero(&r[8..16]) && all_zero(&r[64..])),
        2 => (0b11, all_zero(&r[2..4])),
        3 => (0b11, all_zero(&r[12..16]) && all_zero(&r[72..]) && (r[1] & 2 != 0 || count(r) == 0)),
        _ => (0, all_zero(&r[2..16]) && all_zero(&r[32..])),
    };
    r[0] == kind && r[1] & !flags == 0 && unused
}

/// What a record of this kind refuses.
fn record(n: u64, kind: u8, at: u64, r: &[u8; RECORD]) -> Result<(), Refused> {
    if !well_formed(kind, r) {
        return refused(3, at);
    }
    let (first, second) = (number(r, 8), number(r, 12));
    match kind {
        2 if first >= n || second >= n => refused(4, at),
        2 if first == second => refused(5, at),
        3 if first >= n => refused(4, at),
        _ => Ok(()),
    }
}

/// Numbers 1 and 2.
fn sizes(c: Counts, length: usize) -> Result<(), Refused> {
    for (which, (count, limit)) in [c.n, c.m, c.k, c.s].into_iter().zip(LIMITS).enumerate() {
        if count > limit {
            return refused(1, which as u64);
        }
    }
    if length as u64 != RECORD as u64 * c.records() {
        return refused(2, length as u64);
    }
    Ok(())
}

/// Whether the records are accepted.
pub fn check(c: Counts, bytes: &[u8]) -> Result<(), Refused> {
    sizes(c, bytes.len())?;
    let (records, _) = bytes.as_chunks::<RECORD>();
    let mut at = 0;
    for (kind, length) in [(1, c.n), (2, c.m), (3, c.k), (4, c.s)] {
        for r in &records[at as usize..(at + length) as usize] {
            record(c.n, kind, at, r)?;
            at += 1;
        }
    }
    let generators = &records[(c.n + c.m) as usize..(c.n + c.m + c.k) as usize];
    if generators.iter().map(count).sum::<u64>() != c.s {
        return refused(3, c.records());
    }
    Ok(())
}
