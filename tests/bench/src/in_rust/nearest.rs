//! The nearest table.
use compare::yepidlaw::Nearest;

use super::job::{Curve, Frame, Targets, VALUES};
use super::record;

/// Levels and targets side by side; the largest error. The last target is at most the last level's luminance.
fn fill(table: &mut [u16], curve: &Curve, targets: &Targets) -> u32 {
    // The lowest level that is not darker than the target, and the lowest that is as bright as the level before it.
    let mut above = 0;
    let mut below = 0;
    let mut largest = 0;
    for (entry, &target) in table.iter_mut().zip(targets) {
        while curve[above] < target {
            if curve[below] < curve[above] {
                below = above;
            }
            above += 1;
        }
        let darker = target.abs_diff(curve[below]);
        let brighter = curve[above] - target;
        let (level, error) = if darker <= brighter { (below, darker) } else { (above, brighter) };
        *entry = level as u16;
        largest = largest.max(error);
    }
    largest
}

fn made(bytes: &[u8], table: &mut [u16]) -> Result<Nearest, u32> {
    let table = table.get_mut(..VALUES).ok_or(1u32)?;
    let values = record::read(bytes);
    let frame = Frame::of(&values)?;
    let error = fill(table, &frame.curve(&values), &frame.targets());
    let room_high = u32::from(values.luminances[0] < 4 * frame.room);
    Ok(Nearest { refusal: 0, jlo: frame.jlo, jhi: frame.jhi, range: frame.range(), room_high, error })
}

#[inline(never)]
pub fn nearest(bytes: &[u8], table: &mut [u16]) -> Nearest {
    made(bytes, table).unwrap_or_else(|refusal| Nearest { refusal, jlo: 0, jhi: 0, range: 0, room_high: 0, error: 0 })
}
