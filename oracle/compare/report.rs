//! Counts of what was compared, and the smallest case that differs.

/// One subject of the comparison.
pub struct Subject {
    name: &'static str,
    cases: u64,
    /// How often each number was expected; 0 is an answer.
    numbers: [u64; 14],
    differ: u64,
    smallest: Option<(usize, String)>,
}

impl Subject {
    pub fn new(name: &'static str) -> Self {
        Subject { name, cases: 0, numbers: [0; 14], differ: 0, smallest: None }
    }

    /// One case more, of which several answers may be asked.
    pub fn case(&mut self) {
        self.cases += 1;
    }

    /// One answer more, for which `number` was expected; `what` describes a case of this size where
    /// it is not right.
    pub fn hold(&mut self, number: u64, right: bool, size: usize, what: impl FnOnce() -> String) {
        self.numbers[number as usize] += 1;
        if right {
            return;
        }
        self.differ += 1;
        if self.smallest.as_ref().map_or(true, |(least, _)| size < *least) {
            self.smallest = Some((size, what()));
        }
    }

    /// Prints the line of the subject, and answers whether nothing differs.
    pub fn done(&self) -> bool {
        print!("{:<16}{:>7} cases, {:>7} differ, answered {}", self.name, self.cases, self.differ, self.numbers[0]);
        for (number, count) in self.numbers.iter().enumerate().skip(1).filter(|(_, &count)| count > 0) {
            print!(", number {number}: {count}");
        }
        println!();
        if let Some((_, what)) = &self.smallest {
            println!("  smallest: {what}");
        }
        self.differ == 0
    }
}
