//! The operations on a job record: the tests in order, then the result.
use crate::contrast::{Contrast, PAIRS};
use crate::curve;
use crate::even;
use crate::gsdf::Gsdf;
use crate::nearest;
use crate::record::{self, Record};
use crate::target::Range;

const LAST_P_VALUE: u64 = 255;
const LEAST_RANGE: u64 = 10_000;
/// The working space: a bit for each P-value and level of the deepest display.
const LEAST_WORDS: usize = 256 * 1_024 / 32;

/// What a sound job is worked out from.
pub struct Sound {
    pub record: Record,
    /// A.
    pub added: u64,
    pub room_high: bool,
    /// F(0) to F(M).
    pub curve: Vec<u64>,
    pub range: Range,
    /// t(0) to t(255).
    pub targets: Vec<u64>,
}

impl Sound {
    pub fn nearest(&self) -> nearest::Table {
        nearest::table(&self.curve, &self.targets)
    }

    /// The even table, or 11.
    pub fn even(&self) -> Result<even::Table, u32> {
        even::table(&self.curve, &self.targets, self.record.tolerance()).ok_or(11)
    }

    /// The contrast check, or 12 or 13. A job with 0 check items has none.
    pub fn check(&self, gsdf: &Gsdf) -> Result<Option<Contrast>, u32> {
        if self.record.check.is_empty() {
            return Ok(None);
        }
        let measured = self.record.check.iter().map(|reading| reading + self.added).collect();
        Contrast::of(gsdf, measured, self.record.class()).map(Some)
    }
}

pub struct Engine {
    pub gsdf: Gsdf,
}

impl Engine {
    pub fn from_data_file() -> Engine {
        Engine { gsdf: Gsdf::from_data_file() }
    }

    /// The job, or the first of 2 to 10 that it meets.
    pub fn sound(&self, bytes: &[u8]) -> Result<Sound, u32> {
        let record = record::read(bytes)?;
        record::judge(&record)?;
        let curve = curve::curve(&record);
        let (darkest, brightest) = (curve[0], curve[curve.len() - 1]);
        if darkest < self.gsdf.darkest() {
            return Err(8);
        }
        if self.gsdf.brightest() < brightest {
            return Err(9);
        }
        let range = Range::between(&self.gsdf, darkest, brightest);
        if range.width() < LEAST_RANGE {
            return Err(10);
        }
        let targets = range.targets(&self.gsdf, LAST_P_VALUE);
        Ok(Sound { added: curve::added_luminance(&record), room_high: curve::room_is_high(&record), record, curve, range, targets })
    }

    /// The job and its nearest table, for a lent slice of so many entries, or the first of 1 to 10 that it meets.
    pub fn nearest(&self, bytes: &[u8], entries: usize) -> Result<(Sound, nearest::Table), u32> {
        if entries as u64 <= LAST_P_VALUE {
            return Err(1);
        }
        let job = self.sound(bytes)?;
        let table = job.nearest();
        Ok((job, table))
    }

    /// The job and its even table, for lent slices of so many entries and working words, or the first of 1 to 11 that it meets.
    pub fn even(&self, bytes: &[u8], entries: usize, words: usize) -> Result<(Sound, even::Table), u32> {
        if entries as u64 <= LAST_P_VALUE || words < LEAST_WORDS {
            return Err(1);
        }
        let job = self.sound(bytes)?;
        let table = job.even()?;
        Ok((job, table))
    }

    /// The job and its contrast check, for a lent slice of so many places, or the first of 1 to 10, 12 and 13 that it meets.
    pub fn check(&self, bytes: &[u8], places: usize) -> Result<(Sound, Option<Contrast>), u32> {
        if places < PAIRS {
            return Err(1);
        }
        let job = self.sound(bytes)?;
        let contrast = job.check(&self.gsdf)?;
        Ok((job, contrast))
    }
}
