//! A kept call of an entry on a network: kind 2 of docs/VECTORS.md with records.

use crate::keep::Words;
use crate::left::{bits, Left};
use crate::records::Network;

/// The most elements of a list, and the most bytes of records, that a replay has room for.
pub const ROOM: usize = 1024;
pub const BYTES: usize = 4096;

/// The number of the first of these entries in docs/VECTORS.md.
const FIRST: u64 = 7;

/// The entry, counted from the first of them; the network, two numbers, a float, x and z.
pub struct Call {
    pub entry: u64,
    pub network: Network,
    pub numbers: [u64; 2],
    pub float: f64,
    pub x: Vec<f64>,
    pub z: Vec<f64>,
}

/// Whether a replay has room for it.
pub fn fits(call: &Call, left: &Left) -> bool {
    let longest = left.written.iter().map(Vec::len).chain([left.floats.len(), call.x.len(), call.z.len()]).max();
    call.network.bytes.len() <= BYTES && longest.is_some_and(|length| length <= ROOM)
}

pub fn put(words: &mut Words, call: &Call, left: &Left) {
    let c = call.network.counts;
    words.words(&[2, FIRST + call.entry, c.n, c.m, c.k, c.s, call.network.bytes.len() as u64]);
    words.words(&call.numbers);
    words.words(&[0, bits(call.float)]);
    // x and z are the lists C and D.
    words.words(&[0, 0, call.x.len() as u64, call.z.len() as u64, 0]);
    left.put_head(words);
    words.bytes(&call.network.bytes);
    call.x.iter().chain(&call.z).for_each(|&x| words.word(bits(x)));
    left.put_lists(words);
}
