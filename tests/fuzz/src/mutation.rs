//! Another record from one or two that are there: fields, sections and bytes.
use compare::jobs::damage::{count_places, set_count};
use compare::random::Random;
use reference::curve::room_luminance;
use reference::gsdf::{Gsdf, FIRST_INDEX, LAST_INDEX};
use reference::record::{self, Record};
use reference::target::Range;

const LEAST_RANGE: u64 = 10_000;
const LARGEST_READING: u64 = u32::MAX as u64;
const PATCHES: usize = 18;

struct Mutation<'a> {
    random: &'a mut Random,
    gsdf: &'a Gsdf,
    record: Record,
    other: &'a Record,
}

/// What is added to each reading, also where the settings are out of range.
fn added(record: &Record) -> u64 {
    if record.meter() == 0 {
        room_luminance(record)
    } else {
        0
    }
}

impl Mutation<'_> {
    /// Near a value: itself, the next ones, or further.
    fn near(&mut self, value: u64) -> u64 {
        let distance = match self.random.below(3) {
            0 => self.random.below(2),
            1 => self.random.below(20),
            _ => self.random.luminance(),
        };
        let near = if self.random.below(2) == 0 { value.saturating_add(distance) } else { value.saturating_sub(distance) };
        near.min(LARGEST_READING)
    }

    /// The luminance of an index, or a unit beside it.
    fn luminance_of(&mut self, k: u64) -> u64 {
        let luminance = self.gsdf.luminance(k.clamp(FIRST_INDEX, LAST_INDEX));
        (luminance + self.random.below(3)).saturating_sub(1)
    }

    fn any_index(&mut self) -> u64 {
        let near_low = 100 + self.random.below(3_000);
        let any = self.random.between(FIRST_INDEX, LAST_INDEX);
        self.random.one_of(&[FIRST_INDEX, LAST_INDEX - LEAST_RANGE, LAST_INDEX, near_low, any, any])
    }

    fn setting(&mut self) {
        let place = self.random.place(5);
        let ends = [[7, 8, 10, 11], [0, 1, 1, 2], [0, 1, 2, 3], [0, 1, 1_000, 1_001], [0, 1, 1_000, 1_001]][place];
        let usual = [
            self.random.between(8, 10),
            self.random.below(2),
            self.random.between(1, 2),
            self.random.below(1_001),
            1 + self.random.below(100),
        ];
        let any = self.random.below(65_536);
        self.record.settings[place] = match self.random.below(16) {
            0 => any,
            1..=3 => self.random.one_of(&ends),
            _ => usual[place],
        };
    }

    fn lamps(&mut self) {
        let lamps = self.record.lamps.len();
        let lux = match self.random.below(8) {
            0 => self.random.one_of(&[0, 1, 2_000, 2_001, 65_535]),
            1 => self.random.below(2_001),
            _ => self.random.below(100),
        };
        match self.random.below(4) {
            0 if lamps < 9 => self.record.lamps.push(lux),
            1 if lamps != 0 => drop(self.record.lamps.remove(self.random.place(lamps))),
            _ if lamps != 0 => self.record.lamps[self.random.place(lamps)] = lux,
            _ => {}
        }
    }

    /// Another luminance for one reading, so that the sweep mostly still rises.
    fn reading(&mut self) {
        let place = self.random.place(self.record.luminances.len());
        let neighbour = self.record.luminances[place.saturating_sub(1)];
        let value = self.record.luminances[place];
        self.record.luminances[place] = match self.random.below(6) {
            0 => neighbour,
            1 => neighbour.saturating_sub(1),
            2 => neighbour.saturating_add(1).min(LARGEST_READING),
            _ => self.near(value),
        };
    }

    /// Readings from one place to another are the same.
    fn plateau(&mut self) {
        let from = self.random.place(self.record.luminances.len());
        let to = self.random.between(from as u64, self.record.luminances.len() as u64 - 1) as usize;
        let value = self.record.luminances[from];
        self.record.luminances[from..=to].fill(value);
    }

    /// The darkest or the brightest luminance at a limit, of the table or of the range; the readings between are kept between.
    fn ends(&mut self) {
        let added = added(&self.record);
        let last = self.record.luminances.len() - 1;
        if self.random.below(2) == 0 {
            let k = self.any_index();
            self.record.luminances[0] = self.luminance_of(k).saturating_sub(added);
        } else {
            let first = (self.record.luminances[0] + added).clamp(self.gsdf.darkest(), self.gsdf.brightest());
            let any = self.any_index();
            let k = self.random.one_of(&[self.gsdf.index(first) + LEAST_RANGE, self.gsdf.index(first) + LEAST_RANGE - 1, LAST_INDEX, any]);
            self.record.luminances[last] = self.luminance_of(k).saturating_sub(added);
        }
        let (first, last) = (self.record.luminances[0], self.record.luminances[last]);
        if first <= last {
            self.record.luminances.iter_mut().for_each(|luminance| *luminance = (*luminance).clamp(first, last));
        }
    }

    /// The room mark at its limit.
    fn mark(&mut self) {
        self.record.luminances[0] = (4 * room_luminance(&self.record) + self.random.below(3)).saturating_sub(1).min(LARGEST_READING);
    }

    /// The targets of the sweep, where there are some.
    fn targets(&self) -> Option<Vec<u64>> {
        let added = added(&self.record);
        let [first, last] = [self.record.luminances[0], *self.record.luminances.last()?].map(|luminance| luminance + added);
        if first < self.gsdf.darkest() || self.gsdf.brightest() < last || last <= first {
            return None;
        }
        Some(Range::between(self.gsdf, first, last).targets(self.gsdf, 255))
    }

    /// A reading at a target, at the limit of its allowed error, or two around it.
    fn near_target(&mut self) -> Option<()> {
        let targets = self.targets()?;
        let added = added(&self.record);
        let target = self.random.one_of(&targets);
        let error = self.record.tolerance().min(1_000) * target / 1_000;
        let half = self.random.below(target / 50 + 2);
        let (low, high) =
            self.random.one_of(&[(target, target), (target - error, target + error), (target.saturating_sub(half), target + half)]);
        let (low, high) = (low.saturating_sub(added), (high + self.random.below(2)).saturating_sub(added));
        let place = self.record.luminances.partition_point(|&luminance| luminance < low).min(self.record.luminances.len() - 1);
        self.record.luminances[place] = if self.random.below(4) == 0 { low.saturating_sub(1) } else { low };
        if let Some(next) = self.record.luminances.get_mut(place + 1) {
            *next = high;
        }
        Some(())
    }

    /// All levels at the targets, some of them off by a little.
    fn follow_targets(&mut self) -> Option<()> {
        let targets = self.targets()?;
        let added = added(&self.record);
        self.record.settings[0] = self.record.settings[0].clamp(8, 10);
        let last = self.record.last_ddl();
        self.record.ddls = (0..=last).collect();
        self.record.luminances = self.record.ddls.iter().map(|ddl| targets[(255 * ddl / last) as usize].saturating_sub(added)).collect();
        (0..self.random.below(4)).for_each(|_| self.reading());
        Some(())
    }

    fn remove_readings(&mut self) {
        let from = self.random.place(self.record.ddls.len());
        let to = self.random.between(from as u64, self.record.ddls.len() as u64) as usize;
        let to = if self.random.below(2) == 0 { to } else { (from + 1).min(to) };
        self.record.ddls.drain(from..to);
        self.record.luminances.drain(from..to);
    }

    /// Only the ends and every so many readings.
    fn thin(&mut self) {
        let every = self.random.between(2, 40) as usize;
        let last = self.record.ddls.len() - 1;
        let thinned =
            |values: &[u64]| values.iter().enumerate().filter(|&(i, _)| i % every == 0 || i == last).map(|(_, &value)| value).collect();
        self.record.ddls = thinned(&self.record.ddls);
        self.record.luminances = thinned(&self.record.luminances);
    }

    fn insert_reading(&mut self) {
        let place = 1 + self.random.place(self.record.ddls.len() - 1);
        let (from, to) = (self.record.ddls[place - 1], self.record.ddls[place]);
        let (low, high) = (self.record.luminances[place - 1], self.record.luminances[place]);
        if from + 1 < to && low <= high {
            self.record.ddls.insert(place, self.random.between(from + 1, to - 1));
            self.record.luminances.insert(place, self.random.between(low, high));
        }
    }

    fn drive_level(&mut self) {
        let place = self.random.place(self.record.ddls.len());
        let other = self.random.place(self.record.ddls.len());
        match self.random.below(4) {
            0 => self.record.ddls[place] = self.random.below(1_100),
            1 => self.record.ddls.swap(place, other),
            2 => self.record.ddls[place] += 1,
            _ => self.record.ddls[place] = self.record.ddls[place].saturating_sub(1),
        }
        self.record.ddls.iter_mut().for_each(|ddl| *ddl = (*ddl).min(65_535));
    }

    /// Another depth, with the readings at the same share of the levels.
    fn depth(&mut self) {
        let last = *self.record.ddls.last().expect("a sweep has readings");
        self.record.settings[0] = self.random.between(8, 10);
        let new_last = self.record.last_ddl();
        if last == 0 {
            return;
        }
        let mut readings: Vec<(u64, u64)> =
            self.record.ddls.iter().map(|ddl| ddl * new_last / last).zip(self.record.luminances.clone()).collect();
        readings.dedup_by_key(|reading| reading.0);
        self.record.ddls = readings.iter().map(|reading| reading.0.min(65_535)).collect();
        self.record.luminances = readings.iter().map(|reading| reading.1).collect();
    }

    /// All luminances of the sweep times a share.
    fn scale(&mut self) {
        let share = 0.5 + 1.5 * self.random.share();
        self.record.luminances.iter_mut().for_each(|luminance| *luminance = ((*luminance as f64 * share) as u64).min(LARGEST_READING));
    }

    fn no_check(&mut self) {
        self.record.check.clear();
    }

    /// Readings as expected, from one index to another.
    fn expected_check(&mut self) {
        let jlo = self.any_index().min(LAST_INDEX - LEAST_RANGE);
        let far = self.random.between(jlo + LEAST_RANGE, LAST_INDEX);
        let jhi = self.random.one_of(&[jlo + LEAST_RANGE, far, far]);
        let added = added(&self.record);
        let share = self.random.one_of(&[1u64 << 40, 100_000, 1_000, 100, 40, 20]);
        let luminances = Range { jlo, jhi }.targets(self.gsdf, PATCHES as u64 - 1);
        let off = |luminance: u64| luminance - luminance / share + self.random.below(2 * (luminance / share) + 1);
        self.record.check = luminances.into_iter().map(off).map(|luminance| luminance.saturating_sub(added)).collect();
    }

    /// Another luminance for one patch, or two that change places.
    fn patch(&mut self) {
        let patches = self.record.check.len();
        if patches == 0 {
            return self.expected_check();
        }
        let place = self.random.place(patches);
        let other = self.random.place(patches);
        let added = added(&self.record);
        let value = self.record.check[place];
        self.record.check[place] = match self.random.below(8) {
            0 => self.random.one_of(&[0, 499, 500, 39_934_040, 39_934_041, LARGEST_READING]).saturating_sub(added),
            1 => self.record.check[other],
            2 => self.record.check[place.saturating_sub(1)],
            _ => self.near(value),
        };
    }

    fn splice(&mut self) {
        match self.random.below(4) {
            0 => self.record.settings = self.other.settings.clone(),
            1 => self.record.lamps = self.other.lamps.clone(),
            2 => {
                self.record.ddls = self.other.ddls.clone();
                self.record.luminances = self.other.luminances.clone();
                self.record.settings[0] = self.other.settings[0];
            }
            _ => self.record.check = self.other.check.clone(),
        }
    }

    fn step(&mut self) {
        match self.random.below(26) {
            0 | 1 => self.setting(),
            2 => self.lamps(),
            3..=5 => self.reading(),
            6 => self.plateau(),
            7..=9 => self.ends(),
            10 => self.mark(),
            11..=13 => drop(self.near_target()),
            14 => drop(self.follow_targets()),
            15 => self.remove_readings(),
            16 => self.thin(),
            17 => self.insert_reading(),
            18 => self.drive_level(),
            19 => self.depth(),
            20 => self.scale(),
            21 => self.no_check(),
            22 => self.expected_check(),
            23 | 24 => self.patch(),
            _ => self.splice(),
        }
    }
}

/// A byte, a number, a count, an end or a piece that is another.
fn mutate_bytes(random: &mut Random, bytes: &mut Vec<u8>, other: &[u8]) {
    let place = random.place(bytes.len() + 1);
    let numbers: [u32; 8] = [0, 1, 255, 256, 500, 39_934_040, 65_535, u32::MAX];
    let number = random.one_of(&numbers).to_le_bytes();
    let to = (place + 1 + random.place(8)).min(bytes.len());
    match random.below(8) {
        0 if place < bytes.len() => bytes[place] ^= 1 << random.below(8),
        1 if place < bytes.len() => bytes[place] = random.below(256) as u8,
        2 if place + 4 <= bytes.len() => bytes[place..place + 4].copy_from_slice(&number),
        3 if place + 2 <= bytes.len() => bytes[place..place + 2].copy_from_slice(&number[..2]),
        4 => bytes.truncate(place),
        5 => bytes.extend(random.bytes(8)),
        6 if place < to => drop(bytes.drain(place..to)),
        _ => drop(bytes.splice(place.., other[place.min(other.len())..].iter().copied())),
    }
}

/// A count that is another.
fn mutate_count(random: &mut Random, bytes: &mut [u8], record: &Record) {
    let place = random.one_of(&count_places(record));
    if place + 2 <= bytes.len() {
        set_count(bytes, place, random.count());
    }
}

/// A few changes of a record, and of its bytes in one case out of eight, or where it cannot be read.
pub fn mutated(random: &mut Random, gsdf: &Gsdf, bytes: &[u8], other: &[u8]) -> Vec<u8> {
    let steps = 1 + random.below(4);
    let mut changed = bytes.to_vec();
    let read = record::read(bytes).ok();
    let other_read = record::read(other).ok();
    match (&read, &other_read) {
        (Some(record), Some(other)) if random.below(8) != 0 => {
            let mut mutation = Mutation { random, gsdf, record: record.clone(), other };
            for _ in 0..steps {
                // A sweep of fewer readings has no ends.
                if 2 <= mutation.record.ddls.len() {
                    mutation.step();
                }
            }
            changed = mutation.record.bytes();
        }
        (Some(record), _) if random.below(3) == 0 => mutate_count(random, &mut changed, record),
        _ => (0..steps).for_each(|_| mutate_bytes(random, &mut changed, other)),
    }
    changed
}
