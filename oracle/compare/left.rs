//! What a kept call leaves behind: its answer and the lists that it was lent to write.

use crate::keep::Words;
use plain::Refused;

/// What an output holds before the call.
const BLANK: u32 = 0xa5a5_0000;
const BLANK_FLOAT: f64 = -1234.5;

/// Number, value and result; three lists of numbers and one of floats after the call.
#[derive(Default)]
pub struct Left {
    pub number: u64,
    pub value: u64,
    pub result: f64,
    pub written: [Vec<u32>; 3],
    pub floats: Vec<f64>,
}

/// The front of `length` blank elements overwritten.
fn over<T: Copy>(list: &[T], length: usize, blank: T) -> Vec<T> {
    let mut all = vec![blank; length];
    all[..list.len()].copy_from_slice(list);
    all
}

/// What is left where `lent` elements are lent and these lists are the answer, of `value` elements.
pub fn left(lent: [usize; 4], found: Result<(u64, [&[u32]; 3], &[f64]), Refused>) -> Left {
    let (number, value, lists, floats) = match found {
        Ok((value, lists, floats)) => (0, value, lists, floats),
        Err(Refused { number, value }) => (number, value, [&[][..]; 3], &[][..]),
    };
    let written = [0, 1, 2].map(|i| over(lists[i], lent[i], BLANK));
    Left { number, value, result: 0.0, written, floats: over(floats, lent[3], BLANK_FLOAT) }
}

/// A float as its bits; every NaN as one.
pub fn bits(x: f64) -> u64 {
    if x.is_nan() {
        f64::NAN.to_bits()
    } else {
        x.to_bits()
    }
}

impl Left {
    /// The lengths of the four lists; number, value and result.
    pub fn put_head(&self, words: &mut Words) {
        self.written.iter().for_each(|list| words.word(list.len() as u64));
        words.word(self.floats.len() as u64);
        words.words(&[self.number, self.value, bits(self.result)]);
    }

    pub fn put_lists(&self, words: &mut Words) {
        self.written.iter().flatten().for_each(|&x| words.word(x as u64));
        self.floats.iter().for_each(|&x| words.word(bits(x)));
    }
}
