//! A job, and the rules 5 to 7 on what it holds.
use crate::quantity::{Quantity, LAMP, LUMINANCE, SETTINGS};

/// A drive level and the luminance that was read there.
#[derive(Clone, Copy, Debug, PartialEq)]
pub struct Reading {
    pub level: u16,
    /// In units of 0.0001 cd/m².
    pub luminance: u32,
}

/// What a record holds, permitted or not.
#[derive(Clone, Debug, Default, PartialEq)]
pub struct Job {
    /// The numbers of `SETTINGS`.
    pub settings: [u16; 5],
    /// The lux of each.
    pub lamps: Vec<u16>,
    pub sweep: Vec<Reading>,
    /// The luminance of each patch.
    pub check: Vec<u32>,
}

/// An item of a job.
#[derive(Clone, Copy, Debug, PartialEq)]
pub enum Item {
    Setting(usize),
    Lamp(usize),
    Reading(usize),
}

/// What the engine refuses, and where.
#[derive(Clone, Debug, PartialEq)]
pub struct Fault {
    /// The number of the refusal.
    pub refusal: u32,
    pub item: Item,
    pub what: String,
}

impl Job {
    /// The last drive level of a depth in range.
    fn last_level(&self) -> u16 {
        (1 << self.settings[0]) - 1
    }

    /// Settings and lamps out of range: 5.
    fn range_faults(&self) -> impl Iterator<Item = Fault> + '_ {
        let fault = |item, quantity: &Quantity, value: u16| {
            let value = u32::from(value);
            (!quantity.permits(value)).then(|| Fault { refusal: 5, item, what: quantity.fault(value) })
        };
        let settings = (0..SETTINGS.len()).filter_map(move |place| fault(Item::Setting(place), &SETTINGS[place].1, self.settings[place]));
        settings.chain((0..self.lamps.len()).filter_map(move |place| fault(Item::Lamp(place), &LAMP, self.lamps[place])))
    }

    /// Drive levels of a depth in range that do not rise strictly, from 0 to the last: 6.
    fn level_faults(&self) -> impl Iterator<Item = Fault> + '_ {
        let (first, last, end) = (self.sweep[0].level, self.sweep[self.sweep.len() - 1].level, self.last_level());
        let fault = |reading, what| Fault { refusal: 6, item: Item::Reading(reading), what };
        let start = (first != 0).then(|| fault(0, format!("the first level is {first}: the levels begin at 0")));
        let rises = self.sweep.windows(2).zip(1..).filter(|(pair, _)| pair[1].level <= pair[0].level).map(move |(pair, place)| {
            fault(place, format!("level {} comes after level {}: the levels must rise", pair[1].level, pair[0].level))
        });
        let stop = (last != end).then(|| {
            fault(self.sweep.len() - 1, format!("the last level is {last}: at depth {} the levels end at {end}", self.settings[0]))
        });
        start.into_iter().chain(rises).chain(stop)
    }

    /// Luminances below the one before: 7.
    fn luminance_faults(&self) -> impl Iterator<Item = Fault> + '_ {
        self.sweep.windows(2).zip(1..).filter(|(pair, _)| pair[1].luminance < pair[0].luminance).map(|(pair, place)| {
            let [before, after] = [pair[0], pair[1]].map(|reading| LUMINANCE.shown(reading.luminance));
            Fault { refusal: 7, item: Item::Reading(place), what: format!("{after} comes after {before}: the luminances must not fall") }
        })
    }

    /// What is wrong with a sweep, where settings and lamps are in range.
    pub fn sweep_faults(&self) -> impl Iterator<Item = Fault> + '_ {
        self.level_faults().chain(self.luminance_faults())
    }

    /// The first of 5 to 7 that the engine finds, of a sweep that is not empty.
    pub fn fault(&self) -> Option<Fault> {
        self.range_faults().next().or_else(|| self.sweep_faults().next())
    }
}
