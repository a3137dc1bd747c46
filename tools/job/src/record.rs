//! The job record: its bytes, and the refusals 2 to 7.
use std::fmt;

use crate::job::{Fault, Item, Job, Reading};

#[derive(Clone, Copy)]
pub enum Section {
    Settings,
    Lamps,
    Sweep,
    Check,
}

impl Section {
    pub fn name(self) -> &'static str {
        match self {
            Section::Settings => "settings",
            Section::Lamps => "lamps",
            Section::Sweep => "sweep",
            Section::Check => "check",
        }
    }

    pub fn permits(self, count: usize) -> bool {
        match self {
            Section::Settings => count == 5,
            Section::Lamps => count <= 8,
            Section::Sweep => (2..=1_024).contains(&count),
            Section::Check => count == 0 || count == 18,
        }
    }

    /// Which numbers of items are permitted.
    pub fn rule(self) -> &'static str {
        match self {
            Section::Settings => "a job has 5 settings",
            Section::Lamps => "a job has 0 to 8 lamps",
            Section::Sweep => "a sweep has 2 to 1024 levels",
            Section::Check => "a check has 18 patches, or there is none",
        }
    }

    /// The bytes of an item.
    fn width(self) -> usize {
        match self {
            Section::Settings | Section::Lamps => 2,
            Section::Sweep => 6,
            Section::Check => 4,
        }
    }
}

/// Why the engine refuses a record.
#[derive(Clone, Debug, PartialEq)]
pub struct Refused {
    /// 2 to 7.
    pub number: u32,
    pub why: String,
}

impl fmt::Display for Refused {
    fn fmt(&self, f: &mut fmt::Formatter) -> fmt::Result {
        write!(f, "refused {}: {}", self.number, self.why)
    }
}

impl From<Fault> for Refused {
    fn from(fault: Fault) -> Refused {
        let place = match fault.item {
            Item::Setting(_) => String::new(),
            Item::Lamp(place) => format!("lamp {}: ", place + 1),
            Item::Reading(place) => format!("reading {}: ", place + 1),
        };
        Refused { number: fault.refusal, why: place + &fault.what }
    }
}

fn word(bytes: &[u8]) -> u16 {
    u16::from_le_bytes([bytes[0], bytes[1]])
}

fn long(bytes: &[u8]) -> u32 {
    u32::from_le_bytes([bytes[0], bytes[1], bytes[2], bytes[3]])
}

/// A record, and how many of its bytes are read.
struct Reader<'a> {
    bytes: &'a [u8],
    read: usize,
}

impl<'a> Reader<'a> {
    /// The next bytes, up to the end of what is named.
    fn next(&mut self, bytes: usize, what: impl Fn() -> String) -> Result<&'a [u8], Refused> {
        let end = self.read + bytes;
        let next = self.bytes.get(self.read..end).ok_or_else(|| {
            let why = format!("the record ends too early: it has {} bytes, and {} ends after {end}", self.bytes.len(), what());
            Refused { number: 2, why }
        })?;
        self.read = end;
        Ok(next)
    }

    /// The items of a section.
    fn section(&mut self, section: Section) -> Result<std::slice::ChunksExact<'a, u8>, Refused> {
        let name = section.name();
        let count = word(self.next(2, || format!("the count of section '{name}'"))?) as usize;
        if !section.permits(count) {
            return Err(Refused { number: 3, why: format!("section '{name}' has a count of {count}: {}", section.rule()) });
        }
        let items = self.next(count * section.width(), || format!("section '{name}' with {count} items"))?;
        Ok(items.chunks_exact(section.width()))
    }
}

/// What the bytes hold, in range or not; or 2, 3 or 4.
pub fn read_any(bytes: &[u8]) -> Result<Job, Refused> {
    let mut reader = Reader { bytes, read: 0 };
    let mut job = Job::default();
    for (setting, item) in job.settings.iter_mut().zip(reader.section(Section::Settings)?) {
        *setting = word(item);
    }
    job.lamps = reader.section(Section::Lamps)?.map(word).collect();
    job.sweep = reader.section(Section::Sweep)?.map(|item| Reading { level: word(item), luminance: long(&item[2..]) }).collect();
    job.check = reader.section(Section::Check)?.map(long).collect();
    match bytes.len() - reader.read {
        0 => Ok(job),
        left => Err(Refused { number: 4, why: format!("the record ends after {} bytes, and {left} more follow", reader.read) }),
    }
}

/// The job of an accepted record, or the refusal.
pub fn read(bytes: &[u8]) -> Result<Job, Refused> {
    let job = read_any(bytes)?;
    match job.fault() {
        None => Ok(job),
        Some(fault) => Err(fault.into()),
    }
}

/// The record of a job. No list has more items than a count can say.
pub fn written(job: &Job) -> Vec<u8> {
    let mut bytes = vec![];
    let count = |length: usize| u16::try_from(length).expect("a count has 16 bits").to_le_bytes();
    bytes.extend(count(job.settings.len()));
    job.settings.iter().for_each(|setting| bytes.extend(setting.to_le_bytes()));
    bytes.extend(count(job.lamps.len()));
    job.lamps.iter().for_each(|lux| bytes.extend(lux.to_le_bytes()));
    bytes.extend(count(job.sweep.len()));
    for reading in &job.sweep {
        bytes.extend(reading.level.to_le_bytes());
        bytes.extend(reading.luminance.to_le_bytes());
    }
    bytes.extend(count(job.check.len()));
    job.check.iter().for_each(|luminance| bytes.extend(luminance.to_le_bytes()));
    bytes
}
