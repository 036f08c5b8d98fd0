//! A sample of the oracle's answers, in the format of docs/VECTORS.md.

use crate::columns;
use crate::combination;
use crate::kkt;
use crate::program;
use crate::records;

/// Words of 64 bits, little-endian.
#[derive(Default)]
pub struct Words(Vec<u8>);

impl Words {
    pub fn word(&mut self, x: u64) {
        self.0.extend(x.to_le_bytes());
    }

    pub fn words(&mut self, list: &[u64]) {
        list.iter().for_each(|&x| self.word(x));
    }

    pub fn bytes(&mut self, bytes: &[u8]) {
        self.0.extend(bytes);
    }
}

/// The line at the front, padded to 128 bytes.
fn head() -> String {
    let release = env!("ORACLE_RUSTC").split(' ').take(2).collect::<Vec<_>>().join(" ");
    let text =
        format!("Answers of the Rust, made by `oracle/run --keep` with {release}; the format is in docs/VECTORS.md");
    format!("{text:<127}\n")
}

/// Writes the file and says how many cases and answers it has.
pub fn write(path: &str) {
    let mut words = Words::default();
    words.bytes(head().as_bytes());
    let mut counts = records::keep(&mut words);
    counts.add(combination::keep(&mut words));
    counts.add(program::keep(&mut words));
    counts.add(kkt::keep(&mut words));
    counts.add(columns::keep(&mut words));
    words.word(0);
    std::fs::write(path, &words.0).expect("the file can be written");
    println!("{path}: {} cases, {} answers, {} bytes", counts.cases, counts.answers, words.0.len());
}

/// How much was kept.
pub struct Counts {
    pub cases: u64,
    pub answers: u64,
}

impl Counts {
    pub fn add(&mut self, more: Counts) {
        self.cases += more.cases;
        self.answers += more.answers;
    }
}
