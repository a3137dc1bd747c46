//! The contrast check.
use compare::yepidlaw::Check;

use super::gsdf::{index, luminance};
use super::job::{added_of_sound, shown, LEAST_RANGE};
use super::record;

const PAIRS: usize = 17;
const PATCHES: usize = 18;

/// The luminance of each patch, or nothing where one is outside the table.
fn patches(check: &[u32; PATCHES], added: u32) -> Option<[u32; PATCHES]> {
    let mut patches = [0; PATCHES];
    for (patch, &reading) in patches.iter_mut().zip(check) {
        *patch = shown(added, reading)?;
    }
    Some(patches)
}

/// One walk over the pairs; whether all are within one part in `parts`.
fn fill(patches: &[u32; PATCHES], first: u32, range: u32, parts: i64, deviations: &mut [i32]) -> bool {
    let mut p = i64::from(patches[0]);
    let mut c = i64::from(luminance(first));
    let mut passes = true;
    for (i, deviation) in (1..).zip(deviations) {
        let s = i64::from(patches[i as usize]);
        let h = i64::from(luminance(first + range * i / 17));
        let y = (h - c) * (s + p);
        let off = (s - p) * (h + c) - y;
        *deviation = (1_000 * off).div_euclid(y) as i32;
        passes &= off.abs() * parts <= y;
        p = s;
        c = h;
    }
    passes
}

/// The verdict's number.
fn judged(bytes: &[u8], deviations: &mut [i32]) -> Result<u32, u32> {
    let deviations = deviations.get_mut(..PAIRS).ok_or(1u32)?;
    let values = record::read(bytes);
    let added = added_of_sound(&values)?;
    if values.patches == 0 {
        return Ok(0);
    }
    let patches = patches(&values.check, added).ok_or(12u32)?;
    let [first, last] = [patches[0], patches[PAIRS]].map(index);
    if last < first + LEAST_RANGE {
        return Err(13);
    }
    let parts = if values.class == 1 { 10 } else { 5 };
    Ok(if fill(&patches, first, last - first, parts, deviations) { 1 } else { 2 })
}

#[inline(never)]
pub fn check(bytes: &[u8], deviations: &mut [i32]) -> Check {
    match judged(bytes, deviations) {
        Ok(verdict) => Check { refusal: 0, verdict },
        Err(refusal) => Check { refusal, verdict: 0 },
    }
}
