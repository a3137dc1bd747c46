//! Sections cut short, counts and bytes after: the numbers 2, 3 and 4.
use reference::record::Record;

use super::order::faulty_records;
use super::{sound, sound_records, Records};
use crate::jobs::damage::{count_places, set_count};

fn is_permitted(section: usize, count: u16) -> bool {
    match section {
        0 => count == 5,
        1 => count <= 8,
        2 => (2..=1024).contains(&count),
        _ => count == 0 || count == 18,
    }
}

/// Every proper prefix of a sound record ends too early.
fn prefixes() -> bool {
    let mut all = Records::new("record: prefixes");
    for record in sound_records() {
        let bytes = record.bytes();
        (0..bytes.len()).for_each(|length| all.refused(&bytes[..length], 2));
        all.judged(&record, 0);
    }
    all.ended(30 + 46 + 126 + 328 + 1_554 + 6_250 + 6)
}

/// Every count at each place of the longest record: with the bytes that follow there, and as its last bytes.
fn every_count(all: &mut Records) {
    let record = sound(10, 8, 1024, 18);
    for (section, place) in count_places(&record).into_iter().enumerate() {
        let mut bytes = record.bytes();
        for count in 0..=u16::MAX {
            set_count(&mut bytes, place, count);
            let cut = &bytes[..place + 2];
            if !is_permitted(section, count) {
                all.refused(&bytes, 3);
                all.refused(cut, 3);
                continue;
            }
            all.alike(&bytes);
            if section == 3 && count == 0 {
                all.judged(&Record { check: vec![], ..record.clone() }, 0);
            } else {
                all.refused(cut, 2);
            }
        }
    }
}

/// Permitted counts before as many items.
fn right_items(all: &mut Records) {
    (0..=8).for_each(|lamps| all.judged(&sound(9, lamps, 37, 18), 0));
    (2..=1024).for_each(|readings| all.judged(&sound(10, 8, readings, 18), 0));
    [0, 18].into_iter().for_each(|patches| all.judged(&sound(8, 8, 256, patches), 0));
}

/// Other counts before as many items.
fn other_items(all: &mut Records) {
    let zeros = |count| vec![0; count];
    let record = sound(9, 8, 37, 18);
    for count in [0, 1, 4, 6, 7, 261, 1_280, 65_535] {
        all.refused(&Record { settings: zeros(count), ..record.clone() }.bytes(), 3);
    }
    for count in [9, 10, 16, 256, 264, 2_048, 65_535] {
        all.refused(&Record { lamps: zeros(count), ..record.clone() }.bytes(), 3);
    }
    for count in [0, 1, 1_025, 1_026, 1_280, 2_048, 65_535] {
        all.refused(&Record { ddls: zeros(count), luminances: zeros(count), ..record.clone() }.bytes(), 3);
    }
    for count in [1, 2, 17, 19, 36, 256, 274, 4_608, 65_535] {
        all.refused(&Record { check: zeros(count), ..record.clone() }.bytes(), 3);
    }
}

fn counts() -> bool {
    let mut all = Records::new("record: counts");
    every_count(&mut all);
    right_items(&mut all);
    other_items(&mut all);
    all.ended(4 * 2 * 65_536 + 9 + 1_023 + 2 + 8 + 7 + 7 + 9)
}

/// 1 to 1,000 bytes after a sound record, the record twice, and lengths that 16 bits do not hold.
fn after_sound_records(all: &mut Records) {
    for record in sound_records() {
        for filling in [0, 1, 255] {
            let mut bytes = record.bytes();
            for _ in 0..1000 {
                bytes.push(filling);
                all.refused(&bytes, 4);
            }
        }
        all.refused(&[record.bytes(), record.bytes()].concat(), 4);
        let mut bytes = record.bytes();
        for length in [65_535, 65_536, 65_536 + bytes.len(), 131_072, 131_072 + bytes.len(), 1 << 20] {
            bytes.resize(length, 0);
            all.refused(&bytes, 4);
        }
    }
}

/// Values that would be refused do not count while the record is too long or too short.
fn after_faulty_records(all: &mut Records) {
    for (record, number) in faulty_records() {
        all.judged(&record, number);
        let bytes = record.bytes();
        for length in [1, 2, 1000] {
            all.refused(&[&bytes[..], &vec![0; length]].concat(), 4);
        }
        (0..bytes.len()).for_each(|length| all.refused(&bytes[..length], 2));
    }
}

fn bytes_after() -> bool {
    let mut all = Records::new("record: bytes after it");
    after_sound_records(&mut all);
    after_faulty_records(&mut all);
    all.ended(6 * 3_007 + 20 * (1 + 3 + 328))
}

pub fn results() -> Vec<bool> {
    vec![prefixes(), counts(), bytes_after()]
}
