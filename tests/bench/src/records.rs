//! The records of the cases.
use std::collections::HashSet;
use std::ops::Range as Places;

use reference::gsdf::Gsdf;
use reference::record::Record;
use reference::target::Range;

use crate::random::Random;

/// How many displays are drawn of a kind. Over one record again and again a processor soon knows the way of every branch, which it cannot
/// know of a job that is new.
pub const DRAWN: usize = 1_000;

/// The records, and the places at which those of each kind are.
pub struct Records {
    pub list: Vec<Vec<u8>>,
    /// Depth 10, 8 lamps and a check: 2 readings, 64 and 1,024.
    pub parts: Places<u32>,
    /// Six common displays.
    pub common: Places<u32>,
    /// One whose levels are scattered over its range and allowed up to twice a target.
    pub scattered: Places<u32>,
    /// Two without a table, by their second P-value and by their last.
    pub no_table: Places<u32>,
    /// One for each refusal from 2 to 10, of depth 10 and 1,024 readings before it was spoilt.
    pub refused: Places<u32>,
    /// In the same way one each for 12 and 13.
    pub refused_checks: Places<u32>,
    pub no_bytes: Places<u32>,
    /// Drawn displays: depth 8, 2 readings.
    pub few: Places<u32>,
    /// Depth 10, 64 readings, 8 lamps.
    pub some: Places<u32>,
    /// Depth 10, 1,024 readings, 2 lamps, a check that passes.
    pub many: Places<u32>,
    /// Depth 10, 52 readings, 2 lamps, a check that passes.
    pub short: Places<u32>,
    /// Depth 10, 1,024 readings, 2 lamps, a check that fails.
    pub failing: Places<u32>,
    /// Those that programs are run on: all that are not drawn, some of which are not timed, and the first of each kind that is drawn.
    pub for_programs: Vec<u32>,
}

impl Records {
    pub fn new() -> Records {
        let mut list: Vec<Vec<u8>> = vec![];
        let mut add = |records: Vec<Vec<u8>>| {
            let first = list.len() as u32;
            list.extend(records);
            first..list.len() as u32
        };
        let bytes = |records: &[Record]| records.iter().map(Record::bytes).collect::<Vec<_>>();
        let gsdf = Gsdf::from_data_file();
        let mut random = Random::new();
        let parts = add(bytes(&[2, 64, 1024].map(part)));
        let common = add(bytes(&common()));
        let scattered = add(bytes(&[scattered(&gsdf, &mut random)]));
        let no_table = add(bytes(&without_table(&gsdf)));
        add(bytes(&[through_targets(&gsdf, |_, _| 0)]));
        let refused = add(refused());
        let refused_checks = add(refused_checks());
        let no_bytes = add(vec![vec![]]);
        add(spoilt_within());
        add(bytes(&[(1, 20), (2, 30)].map(|(class, part)| one_patch_off(&gsdf, &mut random, class, part))));
        let mut draw = |depth, readings, lamps, check: &Check| {
            let records: Vec<Record> = (0..DRAWN).map(|_| drawn(&gsdf, &mut random, depth, readings, lamps, check)).collect();
            let sweeps: HashSet<&Vec<u64>> = records.iter().map(|record| &record.luminances).collect();
            assert_eq!(sweeps.len(), DRAWN, "displays that differ");
            add(bytes(&records))
        };
        let few = draw(8, 2, 0, &|_, _| vec![]);
        let some = draw(10, 64, 8, &|_, _| vec![]);
        let many = draw(10, 1_024, 2, &passing);
        let short = draw(10, 52, 2, &passing);
        let failing = draw(10, 1_024, 2, &failing);
        let for_programs = (0..few.start).chain([&few, &some, &many, &short, &failing].map(|places| places.start)).collect();
        Records {
            list,
            parts,
            common,
            scattered,
            no_table,
            refused,
            refused_checks,
            no_bytes,
            few,
            some,
            many,
            short,
            failing,
            for_programs,
        }
    }
}

fn part(readings: u64) -> Record {
    Record {
        settings: vec![10, 0, 1, 60, 100],
        lamps: (0..8).map(|i| 100 + i).collect(),
        ddls: (0..readings).map(|i| 1023 * i / (readings - 1)).collect(),
        luminances: (0..readings).map(|i| 1_000 + 3_000 * i).collect(),
        check: (0..18).map(|i| 10_000 + 1_000 * i).collect(),
    }
}

/// What a check's patches show, from what they should.
type Check = dyn Fn(&mut Random, &[u64]) -> Vec<u64>;

/// Each patch is off by up to 5 parts in a thousand, either way.
fn passing(random: &mut Random, expected: &[u64]) -> Vec<u64> {
    expected.iter().map(|v| v - v / 200 + random.below(v / 100 + 1)).collect()
}

/// Each patch is 5 % brighter or darker, as it is drawn, but for one that shows what the patch before it shows.
fn failing(random: &mut Random, expected: &[u64]) -> Vec<u64> {
    let mut shown: Vec<u64> = expected.iter().map(|v| if random.below(2) == 0 { v + v / 20 } else { v - v / 20 }).collect();
    shown[9] = shown[8];
    shown
}

/// A drawn display of a class with a check in which one patch alone is brighter than expected, by one part in so many.
fn one_patch_off(gsdf: &Gsdf, random: &mut Random, class: u64, part: u64) -> Record {
    let mut record = drawn(gsdf, random, 10, 52, 2, &move |_, expected| {
        let mut shown = expected.to_vec();
        shown[9] += shown[9] / part;
        shown
    });
    record.settings[2] = class;
    record
}

/// A sound job of a primary display with a black, a white and a room of its own; from black to white its readings rise with the square of
/// the level and the cube, in shares of its own.
fn drawn(gsdf: &Gsdf, random: &mut Random, depth: u64, readings: u64, lamps: usize, check: &Check) -> Record {
    let last = (1 << depth) - 1;
    let black = 2_000 + random.below(18_000);
    let white = 1_500_000 + random.below(6_500_000);
    let cubes = random.below(1_001);
    let lamps: Vec<u64> = (0..lamps).map(|_| 5 + random.below(36)).collect();
    let ddls: Vec<u64> = (0..readings).map(|i| last * i / (readings - 1)).collect();
    let rise = |ddl: u64| (white - black) * (((1_000 - cubes) * last + cubes * ddl) * ddl * ddl) / (1_000 * last * last * last);
    let luminances: Vec<u64> = ddls.iter().map(|&ddl| black + rise(ddl)).collect();
    let room_light = 60 * lamps.iter().sum::<u64>();
    let expected = Range::between(gsdf, black + room_light, white + room_light).targets(gsdf, 17);
    let check = check(random, &expected).iter().map(|shown| shown - room_light).collect();
    Record { settings: vec![depth, 0, 1, 60, 100], lamps, ddls, luminances, check }
}

/// A display without lamps or check, with an allowed error; the reading at a level comes from the level and the last one.
fn display(depth: u64, readings: u64, tolerance: u64, reading: impl Fn(u64, u64) -> u64) -> Record {
    let last = (1 << depth) - 1;
    let ddls: Vec<u64> = (0..readings).map(|i| last * i / (readings - 1)).collect();
    let luminances = ddls.iter().map(|&ddl| reading(ddl, last)).collect();
    Record { settings: vec![depth, 0, 1, 60, tolerance], lamps: vec![], ddls, luminances, check: vec![] }
}

/// A reading that rises with the square of the level.
fn power(ddl: u64, last: u64) -> u64 {
    5_000 + 3_500_000 * ddl * ddl / (last * last)
}

fn common() -> [Record; 6] {
    let s_curve = |ddl: u64, last: u64| 8_000 + 4_000_000 * ddl * ddl * (3 * last - 2 * ddl) / (last * last * last);
    [
        display(8, 18, 200, power),
        display(8, 256, 150, s_curve),
        display(10, 64, 20, power),
        display(10, 1_024, 100, power),
        display(10, 52, 50, s_curve),
        display(10, 1_024, 200, s_curve),
    ]
}

const RANGE: Range = Range { jlo: 8_000, jhi: 80_000 };

fn scattered(gsdf: &Gsdf, random: &mut Random) -> Record {
    let mut scattered: Vec<u64> = (0..1_024).map(|_| gsdf.luminance(RANGE.jlo + random.below(RANGE.width() + 1))).collect();
    scattered.sort_unstable();
    display(10, 1_024, 1_000, |ddl, _| scattered[ddl as usize])
}

/// A display whose levels are its targets, or so far above them, no error allowed.
fn through_targets(gsdf: &Gsdf, above: impl Fn(u64, u64) -> u64) -> Record {
    let targets = RANGE.targets(gsdf, 255);
    display(8, 256, 0, |ddl, last| targets[ddl as usize] + above(ddl, last))
}

fn without_table(gsdf: &Gsdf) -> [Record; 2] {
    [display(10, 1_024, 0, power), through_targets(gsdf, |ddl, last| ddl / last)]
}

/// A job of depth 10 and 1,024 readings, spoilt.
fn spoilt(spoil: impl Fn(&mut Record)) -> Vec<u8> {
    let mut record = display(10, 1_024, 100, power);
    record.lamps = vec![10, 20];
    record.check = vec![5_000; 18];
    spoil(&mut record);
    record.bytes()
}

fn refused() -> Vec<Vec<u8>> {
    let sound = spoilt(|_| ());
    vec![
        sound[..sound.len() - 1].to_vec(),
        spoilt(|record| record.check.truncate(17)),
        [&sound[..], &[0]].concat(),
        spoilt(|record| record.settings[4] = 1_001),
        spoilt(|record| record.ddls[1023] = 1_022),
        spoilt(|record| record.luminances[1023] = 0),
        spoilt(|record| (record.settings[1], record.luminances[0]) = (1, 499)),
        spoilt(|record| record.luminances[1023] = 39_934_041),
        spoilt(|record| record.luminances = (5_000..6_024).collect()),
    ]
}

fn refused_checks() -> Vec<Vec<u8>> {
    vec![spoilt(|record| record.check[17] = 39_934_040), spoilt(|_| ())]
}

/// Records that fail one test each, other than by their last reading or patch; not timed.
fn spoilt_within() -> Vec<Vec<u8>> {
    vec![
        spoilt(|record| record.ddls[512] = 511),
        spoilt(|record| record.luminances[512] = 0),
        spoilt(|record| record.check[9] = 39_934_040),
        spoilt(|record| (record.settings[1], record.check[9]) = (1, 499)),
        spoilt(|record| record.lamps[1] = 2_001),
        spoilt(|record| record.settings[0] = 11),
        spoilt(|record| record.settings[1] = 2),
        spoilt(|record| record.settings[2] = 3),
        spoilt(|record| record.settings[3] = 1_001),
        spoilt(|record| record.settings.push(0)),
        spoilt(|record| record.lamps = vec![0; 9]),
        spoilt(|record| (record.ddls, record.luminances) = (vec![0], vec![5_000])),
    ]
}
