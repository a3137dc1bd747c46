//! A sound job, its curve and its targets.
use compare::record::RecordValues;

use super::gsdf::{index, luminance};

pub const VALUES: usize = 256;
const LEVELS: usize = 1024;
const DARKEST: u64 = 500;
const BRIGHTEST: u64 = 39_934_040;
pub const LEAST_RANGE: u32 = 10_000;
/// T(200) and T(300).
const JND_200: u64 = 82_179;
const JND_300: u64 = 233_990;

/// The luminance of each level; those above M are 0.
pub type Curve = [u32; LEVELS];
pub type Targets = [u32; VALUES];

pub struct Frame {
    /// A0.
    pub room: u32,
    /// A.
    pub added: u32,
    pub jlo: u32,
    pub jhi: u32,
}

/// The luminance shown by a reading, where Table B-1 has it.
pub fn shown(added: u32, reading: u32) -> Option<u32> {
    let luminance = u64::from(added) + u64::from(reading);
    (DARKEST..=BRIGHTEST).contains(&luminance).then_some(luminance as u32)
}

/// A0 and A.
fn light(values: &RecordValues) -> [u32; 2] {
    let room = u32::from(values.lux) * u32::from(values.reflectance);
    [room, if values.meter == 0 { room } else { 0 }]
}

/// F(0) and F(M).
fn ends(values: &RecordValues, added: u32) -> [u64; 2] {
    [values.luminances[0], values.luminances[values.readings - 1]].map(|reading| u64::from(added) + u64::from(reading))
}

/// A of a sound job, whose indices are not wanted: they are not looked for in a display that is clearly wide.
pub fn added_of_sound(values: &RecordValues) -> Result<u32, u32> {
    if values.refusal != 0 {
        return Err(values.refusal);
    }
    let [_, added] = light(values);
    let [black, white] = ends(values, added);
    if (DARKEST..JND_200).contains(&black) && (JND_300..=BRIGHTEST).contains(&white) {
        return Ok(added);
    }
    Frame::of(values).map(|frame| frame.added)
}

impl Frame {
    /// Tests 8 to 10 of a record that was read, after what reading found.
    pub fn of(values: &RecordValues) -> Result<Frame, u32> {
        if values.refusal != 0 {
            return Err(values.refusal);
        }
        let [room, added] = light(values);
        let [black, white] = ends(values, added);
        if black < DARKEST {
            return Err(8);
        }
        if BRIGHTEST < white {
            return Err(9);
        }
        let (jlo, jhi) = (index(black as u32), index(white as u32));
        if jhi - jlo < LEAST_RANGE {
            return Err(10);
        }
        Ok(Frame { room, added, jlo, jhi })
    }

    pub fn range(&self) -> u32 {
        self.jhi - self.jlo
    }

    pub fn targets(&self) -> Targets {
        let mut targets = [0; VALUES];
        for (p, target) in (0..).zip(&mut targets) {
            *target = luminance(self.jlo + self.range() * p / 255);
        }
        targets
    }

    /// One walk over the levels; `i` is the pair of neighbours around the level.
    pub fn curve(&self, values: &RecordValues) -> Curve {
        let ddls = &values.ddls[..values.readings];
        let luminances = &values.luminances[..values.readings];
        let mut curve = [0; LEVELS];
        let mut i = 0;
        for (d, level) in curve[..1 << values.depth].iter_mut().enumerate() {
            if usize::from(ddls[i + 1]) < d {
                i += 1;
            }
            let rise = u64::from(luminances[i + 1] - luminances[i]) * (d as u64 - u64::from(ddls[i]));
            *level = self.added + luminances[i] + (rise / u64::from(ddls[i + 1] - ddls[i])) as u32;
        }
        curve
    }
}
