//! Kept answers of the KKT entries: whole lists, networks and solutions that are turned away, and short outputs.

use super::wanted::{entries, into};
use crate::keep::{Counts, Words};
use crate::left::left;
use crate::on_network::{fits, put, Call};
use crate::random::Random;
use crate::records::{damage, shapes, Network};
use crate::solved::Solved;

const ENTRY: u64 = 7;
/// The most entries of a kept list, and of one that does not fit.
const MOST: usize = 320;
const SHORT: usize = 100;

/// What may be wrong with a case.
#[derive(Clone, Copy, PartialEq)]
enum Kind {
    Whole,
    Full,
    Damaged,
    Misfit,
    Short,
}

fn case(kind: Kind, random: &mut Random) -> Solved {
    let mut network = Network::of(&shapes::any(random), random);
    if kind == Kind::Damaged {
        damage::spoil(&mut network, random);
    }
    if kind == Kind::Full {
        return Solved::full(network, random);
    }
    let mut made = Solved::new(network, random);
    if kind == Kind::Misfit {
        made.misfit(random);
    }
    made
}

/// How many rows, columns and values are lent.
fn lent(kind: Kind, need: usize, random: &mut Random) -> [usize; 3] {
    let mut all = [need; 3].map(|need| need + random.pick(&[0, 0, 0, 1, 3]));
    if kind == Kind::Short {
        all[random.below(3) as usize] = random.pick(&[need.saturating_sub(1), need / 2, 0]);
    }
    all
}

/// One case of the kind; whether it is kept.
fn one(words: &mut Words, kind: Kind, random: &mut Random) -> bool {
    let case = case(kind, random);
    let found = entries(&case);
    let need = found.as_ref().map_or(4, |list| list.rows.len());
    let lent = lent(kind, need, random);
    let lists = into(&found, lent).map(|l| (need as u64, [&l.rows[..], &l.cols[..], &[][..]], &l.values[..]));
    let left = left([lent[0], lent[1], 0, lent[2]], lists);
    let Solved { network, x, z } = case;
    let call = Call { entry: ENTRY, network, numbers: [0; 2], float: 0.0, x, z };
    let small = if kind == Kind::Short { (1..=SHORT).contains(&need) } else { need <= MOST };
    let kept = small && fits(&call, &left);
    if kept {
        put(words, &call, &left);
    }
    kept
}

/// All of them.
pub fn write(words: &mut Words) -> Counts {
    let random = &mut Random::new(12);
    let kinds = [(40, Kind::Whole), (15, Kind::Full), (25, Kind::Damaged), (10, Kind::Misfit), (30, Kind::Short)];
    for (count, kind) in kinds {
        let mut kept = 0;
        while kept < count {
            kept += one(words, kind, random) as u64;
        }
    }
    let cases = kinds.iter().map(|kind| kind.0).sum();
    Counts { cases, answers: cases }
}
