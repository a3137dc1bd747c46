//! The jobs that vectors are made from.
use reference::curve;
use reference::engine::Engine;
use reference::record::Record;
use reference::target::Range;

pub const CONTACT: u64 = 0;
pub const TELESCOPIC: u64 = 1;
pub const PRIMARY: u64 = 1;
pub const SECONDARY: u64 = 2;

/// The sweep of document 01's examples, with an error that allows a table.
pub fn small() -> Record {
    Record {
        settings: vec![8, CONTACT, PRIMARY, 60, 400],
        lamps: vec![],
        ddls: vec![0, 255],
        luminances: vec![10_000, 2_560_000],
        check: vec![],
    }
}

/// A job with items in every section.
pub fn full(engine: &Engine) -> Record {
    let (ddls, luminances) = (vec![0, 100, 200, 255], vec![10_000, 500_000, 1_500_000, 2_560_000]);
    checked(Record { lamps: vec![25, 40], ddls, luminances, ..small() }, engine)
}

/// A job with some changes.
pub fn changed(mut record: Record, change: impl Fn(&mut Record)) -> Record {
    change(&mut record);
    record
}

/// So many drive levels, evenly spread.
pub fn levels(depth: u64, readings: u64) -> Vec<u64> {
    (0..readings).map(|i| ((1 << depth) - 1) * i / (readings - 1)).collect()
}

/// A display whose luminances rise from black to white with the square of the level.
pub fn display(depth: u64, readings: u64, black: u64, white: u64) -> Record {
    let last = (1 << depth) - 1;
    let ddls = levels(depth, readings);
    let luminances = ddls.iter().map(|ddl| black + (white - black) * ddl * ddl / (last * last)).collect();
    Record { settings: vec![depth, CONTACT, PRIMARY, 60, 100], ddls, luminances, ..small() }
}

/// A display from index 20,000 to 80,000 whose levels, with the light of these lamps, are its targets.
pub fn exactly(engine: &Engine, depth: u64, lamps: &[u64], error: u64) -> Record {
    let targets = Range { jlo: 20_000, jhi: 80_000 }.targets(&engine.gsdf, 255);
    let ddls = levels(depth, 1 << depth);
    let added = 60 * lamps.iter().sum::<u64>();
    let luminances = ddls.iter().map(|&ddl| targets[(ddl * 255 / ((1 << depth) - 1)) as usize] - added).collect();
    Record { settings: vec![depth, CONTACT, PRIMARY, 60, error], lamps: lamps.to_vec(), ddls, luminances, check: vec![] }
}

/// The job with the patches that a screen shows which follows the display function from its black to its white.
pub fn checked(record: Record, engine: &Engine) -> Record {
    let curve = curve::curve(&record);
    let targets = Range::between(&engine.gsdf, curve[0], curve[curve.len() - 1]).targets(&engine.gsdf, 17);
    let added = curve::added_luminance(&record);
    Record { check: targets.into_iter().map(|target| target - added).collect(), ..record }
}

/// The job with every second patch so many thousandths brighter, but for the last.
pub fn checked_off_by(record: Record, engine: &Engine, thousandths: u64) -> Record {
    let mut record = checked(record, engine);
    (1..17).step_by(2).for_each(|i| record.check[i] += record.check[i] * thousandths / 1_000);
    record
}

/// The job with one pair of patches so many thousandths too far apart, and all others too near by a sixteenth of it.
pub fn checked_but_for(record: Record, engine: &Engine, pair: usize, thousandths: i64) -> Record {
    let mut record = checked(record, engine);
    for i in 1..17 {
        let sixteenths = if i <= pair { -(i as i64) } else { 17 - i as i64 };
        let patch = record.check[i] as i64;
        record.check[i] = (patch + patch * thousandths * sixteenths / 16_000) as u64;
    }
    record
}

/// A job whose check passes with nothing to spare: one pair of patches is as far apart, or as near, as the class permits.
pub fn at_limit(engine: &Engine, class: u64, wide: bool) -> (Record, usize) {
    // Both patches move by this part of their difference, so that their sum stays and the difference changes by 10 % or 20 %.
    let part = if class == PRIMARY { 20 } else { 10 };
    let job = |white| checked(Record { settings: vec![8, CONTACT, class, 60, 400], luminances: vec![10_000, white], ..small() }, engine);
    let pair_of = |record: &Record| (1..16).find(|&i| (record.check[i + 1] - record.check[i]) % part == 0);
    let found = (2_560_000..).map(job).find_map(|record| pair_of(&record).map(|pair| (record, pair)));
    let (mut record, pair) = found.expect("some white has such a pair");
    let moved = (record.check[pair + 1] - record.check[pair]) / part;
    let (darker, brighter) = (record.check[pair], record.check[pair + 1]);
    (record.check[pair], record.check[pair + 1]) =
        if wide { (darker - moved, brighter + moved) } else { (darker + moved, brighter - moved) };
    (record, pair)
}

/// The longest record: every level of 10 bits, 8 lamps and a check.
pub fn longest(engine: &Engine) -> Record {
    checked(Record { lamps: vec![3, 1, 4, 1, 5, 9, 2, 6], ..display(10, 1_024, 5_000, 4_500_000) }, engine)
}

/// Where the count of each section stands.
pub fn count_places(record: &Record) -> [usize; 4] {
    let lamps = 2 + 2 * record.settings.len();
    let sweep = lamps + 2 + 2 * record.lamps.len();
    [0, lamps, sweep, sweep + 2 + 6 * record.ddls.len()]
}
