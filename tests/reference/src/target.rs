//! The index range of a curve, and the targets.
use crate::gsdf::Gsdf;

#[derive(Clone, Copy, Debug, PartialEq)]
pub struct Range {
    pub jlo: u64,
    pub jhi: u64,
}

impl Range {
    /// Of a curve that begins and ends at these luminances.
    pub fn between(gsdf: &Gsdf, darkest: u64, brightest: u64) -> Range {
        Range { jlo: gsdf.index(darkest), jhi: gsdf.index(brightest) }
    }

    /// N.
    pub fn width(&self) -> u64 {
        self.jhi - self.jlo
    }

    /// t(0) to t(top), where the P-value `top` stands for Jhi; e(0) to e(17) of a check in the same way.
    pub fn targets(&self, gsdf: &Gsdf, top: u64) -> Vec<u64> {
        (0..=top).map(|p| gsdf.luminance(self.jlo + self.width() * p / top)).collect()
    }
}
