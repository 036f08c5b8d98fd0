//! Angles whose cosine, sine and tangent are the record's.

use std::cmp::Ordering;

#[derive(Clone, Copy, Debug)]
pub struct Shift {
    pub cosine: f64,
    pub sine: f64,
}

impl Shift {
    pub fn cos(self) -> f64 {
        self.cosine
    }

    pub fn sin(self) -> f64 {
        self.sine
    }
}

#[derive(Clone, Copy, Debug)]
pub struct Angle {
    pub angle: f64,
    pub tangent: f64,
}

impl Angle {
    pub fn tan(self) -> f64 {
        self.tangent
    }
}

impl PartialEq<f64> for Angle {
    fn eq(&self, other: &f64) -> bool {
        self.angle == *other
    }
}

impl PartialOrd<f64> for Angle {
    fn partial_cmp(&self, other: &f64) -> Option<Ordering> {
        self.angle.partial_cmp(other)
    }
}
