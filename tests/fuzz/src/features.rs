//! What an execution has shown, as numbers: a record that shows a new one is kept.
use reference::contrast::limit;
use reference::curve::room_luminance;

use crate::oracle::{Made, Outcome};

/// The number of bits, so that each is twice as far as the one before.
fn bits(value: u64) -> u64 {
    u64::from(64 - value.leading_zeros())
}

struct Features(Vec<u64>);

impl Features {
    /// Each kind has its own numbers.
    fn add(&mut self, kind: u64, values: &[u64]) {
        let mixed = values.iter().fold(kind, |mixed, value| mixed.wrapping_mul(0x0000_0100_0000_01b3) ^ value);
        self.0.push(kind << 56 | mixed << 8 >> 8);
    }

    fn job(&mut self, made: &Made) {
        let job = &made.job;
        let (darkest, brightest) = (job.curve[0], job.curve[job.curve.len() - 1]);
        let record = &job.record;
        self.add(1, &[record.depth(), record.meter(), record.class(), u64::from(record.check.is_empty())]);
        self.add(2, &[record.depth(), bits(record.ddls.len() as u64), record.lamps.len() as u64]);
        self.add(3, &[job.range.jlo / 1_000]);
        self.add(4, &[job.range.jhi / 1_000]);
        self.add(5, &[bits(job.range.width() - 10_000)]);
        self.add(6, &[bits(darkest - 500)]);
        self.add(7, &[bits(39_934_040 - brightest)]);
        let room = 4 * room_luminance(record);
        self.add(8, &[u64::from(job.room_high), record.meter(), bits(room.abs_diff(record.luminances[0]))]);
        self.add(9, &[record.depth(), bits(record.tolerance())]);
    }

    fn tables(&mut self, made: &Made) {
        let depth = made.job.record.depth();
        if let Some(table) = &made.nearest {
            self.add(10, &[depth, bits(table.largest_error)]);
            self.add(11, &[bits(table.ties), bits(table.plateaus)]);
        }
        if let Some(table) = &made.even {
            let used: u64 = (1..256).filter(|&p| table.entries[p - 1] < table.entries[p]).count() as u64;
            self.add(12, &[depth, bits(table.worst_step), bits(table.worst_step.abs_diff(1_000))]);
            self.add(13, &[depth, bits(used), bits(table.entries[0]), bits(made.job.curve.len() as u64 - 1 - table.entries[255])]);
        }
    }

    /// How close the pairs are to their limit, how far the deviations go.
    fn contrast(&mut self, made: &Made) {
        if let Some(contrast) = &made.contrast {
            let class = made.job.record.class();
            let beyond = contrast.pairs.iter().filter(|pair| !pair.passes(class)).count() as u64;
            let slack = contrast.pairs.iter().map(|pair| ((pair.x - pair.y).abs() * limit(class) - pair.y).unsigned_abs());
            self.add(14, &[class, bits(beyond), bits(slack.min().map_or(0, |least| least as u64))]);
            for (pair, &deviation) in contrast.deviations.iter().enumerate() {
                self.add(15, &[pair as u64, u64::from(deviation < 0), bits(deviation.unsigned_abs() as u64)]);
            }
            self.add(16, &[bits(contrast.range as u64 - 10_000)]);
        }
    }
}

pub fn features(bytes: &[u8], outcome: &Outcome) -> Vec<u64> {
    let mut features = Features(vec![]);
    let [nearest, even, check] = outcome.refusals.map(u64::from);
    features.add(17, &[nearest, even, check, u64::from(outcome.verdict)]);
    features.add(18, &[nearest, bits(bytes.len() as u64), bytes.get(12).map_or(9, |&lamps| bits(u64::from(lamps)))]);
    if let Some(made) = &outcome.made {
        features.job(made);
        features.tables(made);
        features.contrast(made);
    }
    features.0
}
