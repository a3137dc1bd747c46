//! What becomes of a record by damage.
use reference::record::Record;

use crate::random::Random;

/// Where each section's count stands.
pub fn count_places(record: &Record) -> [usize; 4] {
    let lamps = 2 + 2 * record.settings.len();
    let sweep = lamps + 2 + 2 * record.lamps.len();
    let check = sweep + 2 + 6 * record.ddls.len();
    [0, lamps, sweep, check]
}

pub fn set_count(bytes: &mut [u8], place: usize, count: u16) {
    bytes[place..place + 2].copy_from_slice(&count.to_le_bytes());
}

/// One value just outside what is permitted.
fn step_outside(random: &mut Random, record: &mut Record) {
    let last = record.ddls.len() - 1;
    let lamps = record.lamps.len();
    match random.below(5) {
        0 => {
            let place = random.place(5);
            record.settings[place] = random.one_of(&[[7, 11], [2, 2], [0, 3], [1_001, 1_001], [1_001, 1_001]][place]);
        }
        1 if lamps != 0 => record.lamps[random.place(lamps)] = 2_001,
        2 => record.ddls[0] = 1,
        3 => record.ddls[last] = random.one_of(&[record.ddls[last].saturating_sub(1), record.ddls[last] + 1]),
        _ => {
            let reading = 1 + random.place(last);
            record.luminances[reading] = record.luminances[reading - 1].saturating_sub(1);
        }
    }
}

/// Another value somewhere, or two that change places; the sections stay whole.
fn damage_values(random: &mut Random, record: &mut Record) {
    let reading = random.place(record.ddls.len());
    let other = random.place(record.ddls.len());
    let lamps = record.lamps.len();
    match random.below(10) {
        0 => record.settings[random.place(5)] = random.below(12),
        1 => record.settings[random.place(5)] = random.below(1_100),
        2 if lamps != 0 => record.lamps[random.place(lamps)] = random.below(4_000),
        3 => record.ddls[reading] = random.below(1_024),
        4 => record.ddls[reading] = record.ddls[other],
        5 => record.luminances[reading] = random.luminance(),
        6 => record.luminances.swap(reading, other),
        7 => record.luminances[reading] = record.luminances[other].saturating_sub(1),
        _ => step_outside(random, record),
    }
}

fn damage_bytes(random: &mut Random, record: &Record, bytes: &mut Vec<u8>) {
    let place = random.place(bytes.len());
    match random.below(7) {
        0 => bytes[place] = random.below(256) as u8,
        1 => bytes[random.place(30)] = random.below(12) as u8,
        2 => bytes.truncate(place),
        3 => drop(bytes.splice(place..place, random.bytes(8))),
        4 => drop(bytes.drain(place..bytes.len().min(place + 1 + random.place(8)))),
        5 => bytes.extend(random.bytes(20)),
        _ => set_count(bytes, random.one_of(&count_places(record)), random.count()),
    }
}

/// Values, bytes or both, once or twice; the places of the counts are those of the record before its bytes were damaged.
pub fn damaged(random: &mut Random, mut record: Record) -> Vec<u8> {
    let kind = random.below(3);
    if kind != 0 {
        (0..=random.below(2)).for_each(|_| damage_values(random, &mut record));
    }
    let mut bytes = record.bytes();
    if kind != 1 {
        damage_bytes(random, &record, &mut bytes);
        if random.below(2) == 0 && record.bytes().len() <= bytes.len() {
            damage_bytes(random, &record, &mut bytes);
        }
    }
    bytes
}
