//! Compares the C entries of the static library with the oracle, bit for bit.
//! With `--keep FILE` it writes a sample of the oracle's answers instead.

mod codes;
mod columns;
mod combination;
mod full;
mod items;
mod keep;
mod kkt;
mod left;
mod lent;
mod on_network;
mod outcome;
mod program;
mod random;
mod records;
mod report;
mod solved;
mod sums;
mod system;

/// Prints the lines of some subjects; whether nothing differs.
type Part = fn() -> bool;

fn parts() -> Vec<Part> {
    let mut all: Vec<Part> = vec![sums::compare, records::compare];
    all.extend(combination::PARTS);
    all.push(program::compare);
    all.push(kkt::compare);
    all.push(columns::compare);
    all
}

fn main() {
    let words: Vec<String> = std::env::args().skip(1).collect();
    if let [option, path] = &words[..] {
        if option == "--keep" {
            return keep::write(path);
        }
    }
    println!("the oracle was built by {}", env!("ORACLE_RUSTC"));
    // A subject prints its line whatever the earlier ones found.
    let right = parts().iter().fold(true, |right, part| part() && right);
    if !right {
        println!("the comparison found a difference");
        std::process::exit(1);
    }
}
