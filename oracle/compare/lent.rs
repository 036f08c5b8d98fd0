//! Memory that is lent to an entry, with guards around it, and what became of it.
//! Contracts do not tell one NaN from another, so what is to be left alone holds NaNs and is compared by bits.

use crate::random::nan;

/// Guards on each side, in elements.
const GUARD: usize = 9;

/// What a lent slice holds.
pub trait Element: Copy + std::fmt::Debug {
    /// What the place `at` holds before it is written.
    fn mark(at: usize) -> Self;
    /// The same bits throughout.
    fn identical(a: &[Self], b: &[Self]) -> bool;
    /// What was written over `before` is `want`, any NaN standing for a NaN.
    fn written(got: &[Self], want: &[Self], _before: &[Self]) -> bool {
        Self::identical(got, want)
    }
}

impl Element for u8 {
    fn mark(at: usize) -> u8 {
        0xa5 ^ (at as u8).wrapping_mul(29)
    }
    fn identical(a: &[u8], b: &[u8]) -> bool {
        a == b
    }
}

impl Element for u32 {
    fn mark(at: usize) -> u32 {
        0xa5a5_0000 ^ (at as u32).wrapping_mul(0x9e3_779b)
    }
    fn identical(a: &[u32], b: &[u32]) -> bool {
        a == b
    }
}

impl Element for f64 {
    /// Seven in eight are NaNs, none of them one that a list hands over or a computation makes: those end in 0.
    fn mark(at: usize) -> f64 {
        if at % 8 == 0 {
            f64::from_bits(0xc0a5_a500_0000_0000 ^ (at as u64).wrapping_mul(0x9_e377_9b97))
        } else {
            nan(at as u64, 1)
        }
    }
    fn identical(a: &[f64], b: &[f64]) -> bool {
        a.len() == b.len() && a.iter().zip(b).all(|(a, b)| a.to_bits() == b.to_bits())
    }
    /// A NaN that was there before does not count as written.
    fn written(got: &[f64], want: &[f64], before: &[f64]) -> bool {
        let one = |((got, want), before): ((&f64, &f64), &f64)| {
            got.to_bits() == want.to_bits() || (got.is_nan() && want.is_nan() && got.to_bits() != before.to_bits())
        };
        got.len() == want.len() && got.iter().zip(want).zip(before).all(one)
    }
}

/// A slice between guards, and a copy of all of it from before the call.
pub struct Lent<T> {
    all: Vec<T>,
    before: Vec<T>,
}

impl<T: Element> Lent<T> {
    pub fn of(data: &[T]) -> Self {
        let mut all: Vec<T> = (0..data.len() + 2 * GUARD).map(T::mark).collect();
        all[GUARD..GUARD + data.len()].copy_from_slice(data);
        Lent { before: all.clone(), all }
    }

    /// `length` elements that are to be written. The marks move with the length, so that each place has had every kind.
    pub fn blank(length: usize) -> Self {
        let all: Vec<T> = (length..2 * length + 2 * GUARD).map(T::mark).collect();
        Lent { before: all.clone(), all }
    }

    pub fn slice(&self) -> &[T] {
        &self.all[GUARD..self.all.len() - GUARD]
    }

    pub fn slice_mut(&mut self) -> &mut [T] {
        let end = self.all.len() - GUARD;
        &mut self.all[GUARD..end]
    }

    /// Nothing was changed, guards included.
    pub fn untouched(&self) -> bool {
        T::identical(&self.all, &self.before)
    }

    /// The front holds `want`, and nothing else was changed.
    pub fn holds(&self, want: &[T]) -> bool {
        let end = GUARD + want.len();
        T::written(&self.all[GUARD..end], want, &self.before[GUARD..end])
            && T::identical(&self.all[..GUARD], &self.before[..GUARD])
            && T::identical(&self.all[end..], &self.before[end..])
    }

    /// `holds` on an answer, `untouched` on a refusal.
    pub fn after(&self, want: Option<&[T]>) -> bool {
        want.map_or_else(|| self.untouched(), |want| self.holds(want))
    }
}
