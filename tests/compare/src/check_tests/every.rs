//! Every length of the lent slice, every patch at the ends of the table and beyond, every reflectance, and ranges of the display around each limit.
use reference::contrast::PAIRS;
use reference::engine::Engine;
use reference::gsdf::Gsdf;
use reference::record::Record;

use super::{expected, job, without, Answer, Lent, FAIL, PASS};
use crate::lent::Answers;
use crate::random::Random;
use crate::record_tests::order::example_records;

/// The examples of the refusal table, a check that passes and one that does not, each with slices around the least length and longer ones.
fn lengths(reference: &Engine) -> bool {
    let mut random = Random::new(8);
    let mut all = Answers::new("check: every length");
    let mut records: Vec<(u32, u32, Vec<u8>)> = vec![];
    for (name, bytes) in example_records() {
        let number = name.parse().ok().filter(|&number| number != 11).unwrap_or(0);
        records.push((number, 0, bytes));
    }
    let fit = expected(&reference.gsdf, 20_000, 80_000);
    let mut unfit = fit.clone();
    unfit[9] = fit[8];
    records.push((0, PASS, job(0, 1, &[], fit).bytes()));
    records.push((0, FAIL, job(1, 2, &[7], unfit).bytes()));
    for (number, verdict, bytes) in records {
        for places in (0..=40).chain([255, 256, 257, 65_535, 65_536, 70_000]) {
            let (number, verdict) = if places < PAIRS { (1, 0) } else { (number, verdict) };
            let lent = Lent::new(&mut random, &bytes, places);
            let expected = Answer::of_reference(reference, &lent);
            let agrees = expected.result.refusal == number && expected.result.verdict == verdict;
            let stated = (!agrees).then(|| format!("should be {number}, verdict {verdict}"));
            all.count(&lent, Answer::of_engine(&lent).difference(&expected).or(stated));
        }
    }
    all.ended(15 * 47)
}

/// The luminance at one patch of a check that passes, and what it makes of the check, 0 for a result.
fn number_at(place: usize, luminance: u64) -> u32 {
    match luminance {
        500 if place == PAIRS => 13,
        39_934_040 if place == 0 => 13,
        500 | 39_934_040 => 0,
        _ => 12,
    }
}

/// Each patch at T(1), at T(1023), a unit beyond and as far as a reading goes; in a dark room, a lit one, and the brightest.
fn patches(reference: &Engine) -> bool {
    let mut random = Random::new(9);
    let mut all = Answers::new("check: every patch");
    let rooms: [(u64, &[u64], u64); 4] = [(0, &[], 0), (0, &[150, 250], 400), (1, &[150, 250], 0), (1, &[2_000; 8], 0)];
    for (meter, lamps, added) in rooms {
        let fit = expected(&reference.gsdf, 20_000, 80_000);
        for place in 0..=PAIRS {
            for luminance in [added, 499, 500, 39_934_040, 39_934_041, 4_294_967_295 + added] {
                for class in [1, 2] {
                    let mut luminances = fit.clone();
                    luminances[place] = luminance;
                    let record = job(meter, class, lamps, without(added, &luminances));
                    one(&mut all, &mut random, reference, &record, number_at(place, luminance));
                }
            }
        }
    }
    // A is 16,000,000, so that the sums of the second and the third are 2^32 and 2^32 + 500.
    let fit = expected(&reference.gsdf, reference.gsdf.index(16_100_000), 102_300);
    for place in 0..=PAIRS {
        for (reading, number) in [(23_934_041, 12), (4_278_967_296, 12), (4_278_967_796, 12), (4_294_967_295, 12)] {
            let mut record = bright(without(16_000_000, &fit));
            record.check[place] = reading;
            one(&mut all, &mut random, reference, &record, number);
        }
        let mut record = bright(without(16_000_000, &fit));
        record.check[place] = 0;
        one(&mut all, &mut random, reference, &record, if place == PAIRS { 13 } else { 0 });
    }
    all.ended(4 * 18 * 6 * 2 + 18 * 5)
}

/// A sound job in the brightest room.
fn bright(check: Vec<u64>) -> Record {
    Record { settings: vec![8, 0, 1, 1_000, 0], lamps: vec![2_000; 8], ddls: vec![0, 255], luminances: vec![0, 23_934_040], check }
}

fn one(all: &mut Answers, random: &mut Random, reference: &Engine, record: &Record, number: u32) {
    let lent = Lent::new(random, &record.bytes(), 18);
    let expected = Answer::of_reference(reference, &lent);
    let stated = (expected.result.refusal != number).then(|| format!("should be {number}"));
    all.count(&lent, Answer::of_engine(&lent).difference(&expected).or(stated));
}

/// Every Rd and both meters: the same readings, to which each Rd adds another room light, or none.
fn reflectances(reference: &Engine) -> bool {
    let mut random = Random::new(10);
    let mut all = Answers::new("check: every reflectance");
    let readings = expected(&reference.gsdf, 15_000, 95_000);
    let mut before = vec![];
    for reflectance in 0..=1_000 {
        for meter in [0, 1] {
            let mut record = job(meter, 2, &[1_997, 3, 999], readings.clone());
            record.settings[3] = reflectance;
            record.luminances[1] = 36_935_040;
            let lent = Lent::new(&mut random, &record.bytes(), PAIRS);
            let mut expected = Answer::of_reference(reference, &lent);
            let deviations = expected.lent.slice().to_vec();
            let agrees = match meter {
                0 => expected.result.verdict != 0 && deviations != before,
                _ => expected.result.verdict == PASS && deviations.iter().all(|&deviation| deviation == 0),
            };
            let stated = (!agrees).then(|| format!("not as it should be with Rd {reflectance}"));
            all.count(&lent, Answer::of_engine(&lent).difference(&expected).or(stated));
            if meter == 0 {
                before = deviations;
            }
        }
    }
    all.ended(2 * 1_001)
}

/// What tests 8 to 10 make of a display with this black and this white, 0 where they let it pass.
fn number_of(gsdf: &Gsdf, black: u64, white: u64) -> u32 {
    match () {
        () if black < 500 => 8,
        () if 39_934_040 < white => 9,
        () if gsdf.index(white) < gsdf.index(black) + 10_000 => 10,
        () => 0,
    }
}

/// A room: the meter, the class, lamps, Rd, A, and the first index of a check there.
type Room = (u64, u64, &'static [u64], u64, u64, u64);

const ROOMS: [Room; 4] = [
    (0, 1, &[], 1, 0, 20_000),
    (0, 2, &[150, 250], 1, 400, 10_000),
    (1, 1, &[150, 250], 1, 0, 10_000),
    (0, 2, &[2_000; 8], 5, 80_000, 25_000),
];

/// Black around T(1) and around JND 200, white around JND 300, around the least range and around T(1023): the engine knows some displays to be wide by
/// JND 200 and 300 alone. A third reading between them, in four rooms, one of them too bright for a black around T(1), with a check and without.
fn ranges(reference: &Engine) -> bool {
    let gsdf = &reference.gsdf;
    let mut random = Random::new(11);
    let mut all = Answers::new("check: every range");
    let around = |luminance: u64| luminance - 2..=luminance + 2;
    for black in [500, gsdf.luminance(19_900), gsdf.luminance(20_000), gsdf.luminance(20_100)].into_iter().flat_map(around) {
        let least = gsdf.luminance(gsdf.index(black.max(500)) + 10_000);
        for white in [least, gsdf.luminance(29_900), gsdf.luminance(30_000), 39_934_040].into_iter().flat_map(around) {
            for (meter, class, lamps, reflectance, added, first) in ROOMS.into_iter().filter(|room| room.4 <= black) {
                for check in [vec![], without(added, &expected(gsdf, first, first + 60_000))] {
                    let settings = vec![8, meter, class, reflectance, 0];
                    let luminances = without(added, &[black, (black + white) / 2, white]);
                    let record = Record { settings, lamps: lamps.to_vec(), ddls: vec![0, 128, 255], luminances, check };
                    one(&mut all, &mut random, reference, &record, number_of(gsdf, black, white));
                }
            }
        }
    }
    all.ended(20 * 20 * 3 * 2 + 15 * 20 * 2)
}

/// The least range above the luminance of each index, and one unit less.
fn least_ranges(reference: &Engine) -> bool {
    let gsdf = &reference.gsdf;
    let mut random = Random::new(12);
    let mut all = Answers::new("check: every least range");
    for black in (102..=92_300).map(|k| gsdf.luminance(k)) {
        let least = gsdf.luminance(gsdf.index(black) + 10_000);
        for (white, number) in [(least - 1, 10), (least, 0)] {
            let mut record = job(1, 1, &[], vec![]);
            record.luminances = vec![black, white];
            one(&mut all, &mut random, reference, &record, number);
        }
    }
    all.ended(2 * 92_199)
}

pub fn results(reference: &Engine) -> Vec<bool> {
    vec![lengths(reference), patches(reference), reflectances(reference), ranges(reference), least_ranges(reference)]
}
