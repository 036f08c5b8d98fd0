//! The lists that an entry writes: some of numbers, then one of floats.

use crate::lent::Lent;
use crate::outcome::brief;
use crate::random::Random;
use plain::{refused, Refused};
use socwr::Answer;

/// What an entry writes, in the order of its outputs. The answer is the length of the last.
#[derive(Clone, Debug)]
pub struct Lists {
    pub numbers: Vec<Vec<u32>>,
    pub floats: Vec<f64>,
}

impl Lists {
    /// The length of each output.
    pub fn needs(&self) -> Vec<usize> {
        self.numbers.iter().map(Vec::len).chain([self.floats.len()]).collect()
    }

    /// Number 10 for the first output that is too short.
    pub fn fit(self, lent: &[usize]) -> Result<Lists, Refused> {
        let needs = self.needs();
        let short = needs.iter().zip(lent).find(|(need, lent)| lent < need);
        short.map_or(Ok(self), |(&need, _)| refused(10, need as u64))
    }
}

/// Lengths to lend: exactly enough, longer, each output one short, all empty, and any mixture.
pub fn lengths(needs: &[usize], random: &mut Random) -> Vec<Vec<usize>> {
    let longer = |random: &mut Random| needs.iter().map(|need| need + random.below(12) as usize).collect::<Vec<_>>();
    let mut all = vec![needs.to_vec(), needs.iter().map(|need| need + 1).collect(), longer(random)];
    for i in (0..needs.len()).filter(|&i| needs[i] > 0) {
        let mut short = longer(random);
        short[i] = needs[i] - 1;
        all.push(short);
    }
    all.push(vec![0; needs.len()]);
    let mixed = |need: &usize| random.pick(&[0, need / 2, need.saturating_sub(1), *need, need + 3]);
    all.push(needs.iter().map(mixed).collect());
    all
}

/// Outputs that are lent.
pub struct Outputs {
    numbers: Vec<Lent<u32>>,
    floats: Lent<f64>,
}

impl Outputs {
    /// Of these lengths; the last is of floats.
    pub fn blank(lent: &[usize]) -> Self {
        let (floats, numbers) = lent.split_last().expect("an output");
        Outputs { numbers: numbers.iter().map(|&l| Lent::blank(l)).collect(), floats: Lent::blank(*floats) }
    }

    /// An entry with the one output of floats.
    pub fn one(&mut self, call: impl FnOnce(&mut [f64]) -> Answer) -> Answer {
        call(self.floats.slice_mut())
    }

    /// An entry that writes starts, rows and values.
    pub fn three(&mut self, call: impl FnOnce(&mut [u32], &mut [u32], &mut [f64]) -> Answer) -> Answer {
        let [starts, rows] = &mut self.numbers[..] else { panic!("two outputs of numbers") };
        call(starts.slice_mut(), rows.slice_mut(), self.floats.slice_mut())
    }

    /// They hold what is wanted and nothing else was changed; on a refusal nothing was.
    pub fn after(&self, want: Option<&Lists>) -> bool {
        let numbers = self.numbers.iter().enumerate().all(|(i, out)| out.after(want.map(|w| &w.numbers[i][..])));
        numbers && self.floats.after(want.map(|w| &w.floats[..]))
    }

    pub fn describe(&self) -> String {
        let numbers: Vec<String> = self.numbers.iter().map(|out| brief(out.slice())).collect();
        format!("{} {}", numbers.join(" "), brief(self.floats.slice()))
    }
}

/// The wanted lists as a report shows them.
pub fn shown(want: &Result<Lists, Refused>) -> String {
    match want {
        Ok(lists) => {
            let numbers: Vec<String> = lists.numbers.iter().map(|list| brief(list)).collect();
            format!("{} {}", numbers.join(" "), brief(&lists.floats))
        }
        Err(refused) => format!("{refused:?}"),
    }
}
