//! Networks as records, made from a shape.

use crate::random::Random;
use plain::{Counts, RECORD};

/// A branch: its ends and its flags.
#[derive(Clone, Copy, Debug)]
pub struct Branch {
    pub from: u32,
    pub to: u32,
    pub flags: u8,
}

/// A generator: its bus, its flags, and the segments it has where it is piecewise.
#[derive(Clone, Copy, Debug)]
pub struct Generator {
    pub bus: u32,
    pub flags: u8,
    pub segments: u16,
}

/// What decides the numbering.
#[derive(Clone, Debug, Default)]
pub struct Shape {
    pub buses: u32,
    pub branches: Vec<Branch>,
    pub generators: Vec<Generator>,
}

/// Counts and records.
#[derive(Clone, Debug)]
pub struct Network {
    pub counts: Counts,
    pub bytes: Vec<u8>,
}

impl Network {
    /// The network of a shape, with ids and floats from `random`.
    pub fn of(shape: &Shape, random: &mut Random) -> Self {
        let mut bytes = Vec::new();
        for _ in 0..shape.buses {
            let flags = random.below(2) as u8;
            push(&mut bytes, [1, flags], 0, [0, 0], 6, random);
        }
        for b in &shape.branches {
            push(&mut bytes, [2, b.flags], 0, [b.from, b.to], 14, random);
        }
        let mut s = 0;
        for g in &shape.generators {
            let count = if g.flags & 2 != 0 { g.segments } else { 0 };
            push(&mut bytes, [3, g.flags], count, [g.bus, 0], 7, random);
            s += count as u64;
        }
        for _ in 0..s {
            push(&mut bytes, [4, 0], 0, [0, 0], 2, random);
        }
        let counts =
            Counts { n: shape.buses as u64, m: shape.branches.len() as u64, k: shape.generators.len() as u64, s };
        Network { counts, bytes }
    }

    /// How large a case is: the bytes, then the counts.
    pub fn size(&self) -> usize {
        self.bytes.len()
    }

    /// The counts, and each record without the zeros at its end.
    pub fn describe(&self) -> String {
        let Counts { n, m, k, s } = self.counts;
        let mut text = format!("n {n} m {m} k {k} s {s}, {} bytes", self.bytes.len());
        for record in self.bytes.chunks(RECORD).take(12) {
            let end = record.iter().rposition(|&b| b != 0).map_or(0, |at| at + 1);
            text.push_str("\n    ");
            record[..end].iter().for_each(|b| text.push_str(&format!("{b:02x}")));
        }
        if self.bytes.len() > 12 * RECORD {
            text.push_str("\n    ..");
        }
        text
    }
}

/// A record: kind and flags, count, id (none in a segment), two numbers, so many floats.
fn push(bytes: &mut Vec<u8>, head: [u8; 2], count: u16, numbers: [u32; 2], floats: usize, random: &mut Random) {
    let end = bytes.len() + RECORD;
    bytes.extend(head);
    bytes.extend(count.to_le_bytes());
    let id = if head[0] == 4 { 0 } else { random.next() as u32 >> random.below(32) };
    bytes.extend(id.to_le_bytes());
    numbers.iter().for_each(|x| bytes.extend(x.to_le_bytes()));
    (0..floats).for_each(|_| bytes.extend(random.float().to_bits().to_le_bytes()));
    bytes.resize(end, 0);
}
