//! Records without zeros: every flag set, and plain floats.

use crate::random::Random;
use plain::RECORD;

/// A float that is neither a zero nor far from one.
pub fn nonzero(random: &mut Random) -> f64 {
    loop {
        let x = random.plain();
        if x.abs() > 1e-3 {
            return x;
        }
    }
}

/// Every flag is set but the piecewise one.
pub fn set_flags(records: &mut [u8]) {
    for r in records.chunks_exact_mut(RECORD) {
        r[1] |= [1, 3, 1, 0][r[0] as usize - 1];
    }
}

/// Every float is a plain one.
pub fn set_floats(records: &mut [u8], random: &mut Random) {
    for r in records.chunks_exact_mut(RECORD) {
        let count = [6, 14, 7, 2][r[0] as usize - 1];
        for float in r[16..].chunks_exact_mut(8).take(count) {
            float.copy_from_slice(&nonzero(random).to_le_bytes());
        }
    }
}
