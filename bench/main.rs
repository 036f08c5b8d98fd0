//! Times of the entries beside the Rust's, in one run: the least of rounds that take turns.

mod clock;
mod columns;
mod combination;
#[allow(dead_code)]
#[path = "../oracle/compare/full.rs"]
mod full;
#[allow(dead_code)]
mod grid;
mod kkt;
#[allow(dead_code)]
#[path = "../oracle/compare/records/network.rs"]
mod network;
mod program;
#[allow(dead_code)]
#[path = "../oracle/compare/random.rs"]
mod random;
mod records;
#[allow(dead_code)]
#[path = "../oracle/compare/records/shapes.rs"]
mod shapes;
#[allow(dead_code)]
#[path = "../oracle/compare/system.rs"]
mod system;

fn main() {
    records::print();
    combination::print();
    program::print();
    kkt::print();
    columns::print();
}
