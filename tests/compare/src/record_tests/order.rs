//! Several conditions at once, and the examples of the refusal table.
use compare::record as engine;
use reference::record::Record;

use super::{engine_difference, reference_difference, sound, Answer, Records};
use crate::comparison::Comparison;
use crate::jobs::damage::{count_places, set_count};

type Fault = fn(&mut Record);

/// What brings the record of `base` under 5, under 6 and under 7.
const FAULTS_5: [Fault; 9] = [
    |record| record.settings[0] = 7,
    |record| record.settings[0] = 11,
    |record| record.settings[1] = 2,
    |record| record.settings[2] = 0,
    |record| record.settings[2] = 3,
    |record| record.settings[3] = 1_001,
    |record| record.settings[4] = 1_001,
    |record| record.lamps[0] = 2_001,
    |record| record.lamps[7] = 2_001,
];
const FAULTS_6: [Fault; 7] = [
    |record| record.settings[0] = 8,
    |record| record.settings[0] = 10,
    |record| record.ddls[0] = 1,
    |record| record.ddls[36] = 510,
    |record| record.ddls[36] = 512,
    |record| record.ddls[18] = record.ddls[17],
    |record| record.ddls.swap(20, 21),
];
const FAULTS_7: [Fault; 4] = [
    |record| record.luminances[0] = 4_294_967_295,
    |record| record.luminances[1] = record.luminances[0] - 1,
    |record| record.luminances[18] = 0,
    |record| record.luminances[36] = record.luminances[35] - 1,
];

fn base() -> Record {
    sound(9, 8, 37, 18)
}

/// Records that meet one of 5, 6 and 7, with that number.
pub fn faulty_records() -> Vec<(Record, u32)> {
    let numbered: [(&[Fault], u32); 3] = [(&FAULTS_5, 5), (&FAULTS_6, 6), (&FAULTS_7, 7)];
    let mut records = vec![];
    for (faults, number) in numbered {
        for fault in faults {
            let mut record = base();
            fault(&mut record);
            records.push((record, number));
        }
    }
    records
}

/// No fault, then each of them.
fn or_none(faults: &[Fault]) -> Vec<Option<Fault>> {
    [None].into_iter().chain(faults.iter().copied().map(Some)).collect()
}

/// Every choice of faults, with the lowest of their numbers. A depth out of range is set last.
fn mixed_records() -> Vec<(Record, u32)> {
    let mut records = vec![];
    for fault_7 in or_none(&FAULTS_7) {
        for fault_6 in or_none(&FAULTS_6) {
            for fault_5 in or_none(&FAULTS_5) {
                let mut record = base();
                let mut lowest = 0;
                for (fault, number) in [(fault_7, 7), (fault_6, 6), (fault_5, 5)] {
                    if let Some(fault) = fault {
                        fault(&mut record);
                        lowest = number;
                    }
                }
                records.push((record, lowest));
            }
        }
    }
    records
}

/// A count not permitted, in a record that is whole, too long, cut at its end and cut inside this count.
fn count_at(all: &mut Records, record: &Record, place: usize) {
    let mut bytes = record.bytes();
    set_count(&mut bytes, place, 1_025);
    all.refused(&bytes, 3);
    all.refused(&[&bytes[..], &[0]].concat(), 3);
    all.refused(&bytes[..bytes.len() - 1], 3);
    all.refused(&bytes[..place + 1], 2);
}

/// A count not permitted, and the record cut at every place: what is met first.
fn count_and_cut(all: &mut Records) {
    let record = base();
    for place in count_places(&record) {
        let mut bytes = record.bytes();
        set_count(&mut bytes, place, 1_025);
        for length in 0..=bytes.len() {
            all.refused(&bytes[..length], if length < place + 2 { 2 } else { 3 });
        }
    }
}

fn lowest_number() -> bool {
    let mut all = Records::new("record: order of refusals");
    for (record, lowest) in mixed_records() {
        all.judged(&record, lowest);
        let bytes = record.bytes();
        all.refused(&[&bytes[..], &[0]].concat(), 4);
        all.refused(&bytes[..bytes.len() - 1], 2);
        for place in count_places(&record) {
            count_at(&mut all, &record, place);
        }
    }
    count_and_cut(&mut all);
    all.ended(5 * 8 * 10 * (3 + 4 * 4) + 4 * 329)
}

/// b = 8, contact, primary, Rd 60, w = 0, no lamps, sweep (0, 10,000), (255, 2,560,000), no check.
#[rustfmt::skip]
const SOUND: [u8; 30] = [
    5, 0, 8, 0, 0, 0, 1, 0, 60, 0, 0, 0,
    0, 0,
    2, 0, 0, 0, 0x10, 0x27, 0, 0, 255, 0, 0, 0x10, 0x27, 0,
    0, 0,
];

/// `SOUND` with other bytes from these places on.
fn altered(bytes: &[(usize, &[u8])]) -> Vec<u8> {
    let mut record = SOUND.to_vec();
    for &(place, other) in bytes {
        record[place..place + other.len()].copy_from_slice(other);
    }
    record
}

/// `SOUND` with 18 check readings.
fn checked(reading: [u8; 4]) -> Vec<u8> {
    [&SOUND[..28], &[18, 0], &reading.repeat(18)].concat()
}

fn read_as(lamps: &[u64], sweep: [(u64, u64); 2], check: &[u64]) -> Option<Record> {
    Some(Record {
        settings: vec![8, 0, 1, 60, 0],
        lamps: lamps.to_vec(),
        ddls: sweep.iter().map(|reading| reading.0).collect(),
        luminances: sweep.iter().map(|reading| reading.1).collect(),
        check: check.to_vec(),
    })
}

/// The table's examples of 2 to 7, and those of 8 to 13, which no test of reading refuses.
fn examples() -> Vec<(&'static str, Vec<u8>, Answer)> {
    let sweep = [(0, 10_000), (255, 2_560_000)];
    let depth_11 = Some(Record { settings: vec![11, 0, 1, 60, 0], ..read_as(&[], sweep, &[]).unwrap() });
    let lamp_40 = [&SOUND[..12], &[1, 0, 40, 0], &SOUND[14..]].concat();
    let answer = |number, record| Answer { number, record };
    vec![
        ("sound", SOUND.to_vec(), answer(0, read_as(&[], sweep, &[]))),
        ("2", vec![], answer(2, None)),
        ("3", altered(&[(14, &[1])]), answer(3, None)),
        ("4", [&SOUND[..], &[0]].concat(), answer(4, None)),
        ("5", altered(&[(2, &[11])]), answer(5, depth_11)),
        ("6", altered(&[(22, &[254])]), answer(6, read_as(&[], [(0, 10_000), (254, 2_560_000)], &[]))),
        ("7", altered(&[(18, &[0x84, 3, 0, 0]), (24, &[0x83, 3, 0, 0])]), answer(7, read_as(&[], [(0, 900), (255, 899)], &[]))),
        ("8", altered(&[(18, &[44, 1])]), answer(0, read_as(&[], [(0, 300), (255, 2_560_000)], &[]))),
        ("9", altered(&[(24, &[0x80, 0xf0, 0xfa, 2])]), answer(0, read_as(&[], [(0, 10_000), (255, 50_000_000)], &[]))),
        ("10", altered(&[(24, &[0x20, 0x4e, 0, 0])]), answer(0, read_as(&[], [(0, 10_000), (255, 20_000)], &[]))),
        ("11", lamp_40, answer(0, read_as(&[40], sweep, &[]))),
        ("12", checked([0, 0, 0, 0]), answer(0, read_as(&[], sweep, &[0; 18]))),
        ("13", checked([0x10, 0x27, 0, 0]), answer(0, read_as(&[], sweep, &[10_000; 18]))),
    ]
}

/// The name of each example, with its bytes.
pub fn example_records() -> Vec<(&'static str, Vec<u8>)> {
    examples().into_iter().map(|(name, bytes, _)| (name, bytes)).collect()
}

/// Engine and reference against the document.
fn refusal_table() -> [bool; 2] {
    let mut of_engine = Comparison::new("record: refusal table, engine");
    let mut of_reference = Comparison::new("record: refusal table, reference");
    for (name, bytes, expected) in examples() {
        of_engine.count(engine_difference(&engine::read(&bytes), &expected).map(|difference| format!("example {name}, {difference}")));
        let got = Answer::of_reference(&bytes);
        of_reference.count(reference_difference(&got, &expected).map(|difference| format!("example {name}, {difference}")));
    }
    [of_engine.ended(13), of_reference.ended(13)]
}

pub fn results() -> Vec<bool> {
    let mut results = vec![lowest_number()];
    results.extend(refusal_table());
    results
}
