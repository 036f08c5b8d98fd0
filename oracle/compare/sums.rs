//! Where a sum of floats starts in the release that built the oracle.

use crate::report::Subject;

/// docs/DIFFERENCES.md says -0.0; whether that is so.
pub fn compare() -> bool {
    let mut subject = Subject::new("empty sum");
    let start = [0.0f64; 0].iter().sum::<f64>();
    subject.case();
    let right = start == 0.0 && start.is_sign_negative();
    subject.hold(0, right, 0, || format!("it is {start:?} with {}", env!("ORACLE_RUSTC")));
    subject.done()
}
