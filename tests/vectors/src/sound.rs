//! Jobs that no operation refuses.
use reference::engine::Engine;
use reference::record::Record;

use crate::jobs::{
    at_limit, changed, checked, checked_but_for, checked_off_by, display, exactly, full, longest, small, CONTACT, PRIMARY, SECONDARY,
    TELESCOPIC,
};
use crate::vector::Vector;

/// Every depth, meter and class, with patches that a secondary display may show and a primary one may not.
fn each_kind(engine: &Engine) -> Vec<Vector> {
    let mut vectors = vec![];
    for depth in 8..=10 {
        for (meter, meter_name) in [(CONTACT, "contact"), (TELESCOPIC, "telescopic")] {
            for (class, class_name) in [(PRIMARY, "primary"), (SECONDARY, "secondary")] {
                let (lamps, lines) =
                    if class == PRIMARY { (vec![12, 5], ["room low", "check fail"]) } else { (vec![60, 35], ["room high", "check pass"]) };
                let settings = vec![depth, meter, class, 60, 100];
                let record = checked_off_by(Record { settings, lamps, ..display(depth, 18, 8_000, 3_000_000) }, engine, 40);
                let name = format!("{depth}-{meter_name}-{class_name}");
                let about = format!("depth {depth}, {meter_name} meter, {class_name} class, patches 4 % off in turn");
                vectors.push(Vector::sound(&name, &about, &record, &lines));
            }
        }
    }
    vectors
}

/// A job with one lamp and two readings, and an error that allows a table whatever they are.
fn lit(meter: u64, lux: u64, reflectance: u64, luminances: [u64; 2]) -> Record {
    Record { settings: vec![8, meter, PRIMARY, reflectance, 1_000], lamps: vec![lux], luminances: luminances.to_vec(), ..small() }
}

/// Readings that give a range of these indices.
fn ranged(engine: &Engine, jlo: u64, jhi: u64) -> Record {
    lit(CONTACT, 0, 60, [jlo, jhi].map(|k| engine.gsdf.luminance(k)))
}

/// A job without patches, with its range and its mark.
fn unchecked(name: &str, about: &str, record: Record, range: &str, room: &str) -> Vector {
    Vector::sound(name, about, &record, &[range, room, "check none"])
}

/// The first and the last of what is permitted. The indices of 500 and 546 are those of document 01's marked examples.
fn limits(engine: &Engine) -> Vec<Vector> {
    let brightest = engine.gsdf.brightest();
    vec![
        unchecked(
            "whole-table",
            "the first and the last luminance of Table B-1",
            ranged(engine, 100, 102_300),
            "range 102 102300 102198",
            "room low",
        ),
        unchecked(
            "below-entries",
            "one unit below the second and the last luminance of Table B-1",
            lit(CONTACT, 0, 60, [546, brightest - 1]),
            "range 199 102299 102100",
            "room low",
        ),
        unchecked("range-10000", "the narrowest range", ranged(engine, 20_000, 30_000), "range 20000 30000 10000", "room low"),
    ]
}

/// What the room light is added to, and what it is held against. The indices of 500, 547 and 12,400 are those of document 01's marked examples.
fn rooms(engine: &Engine) -> Vec<Vector> {
    let brightest = engine.gsdf.brightest();
    vec![
        unchecked(
            "room-at-limit",
            "four times the room light is the first reading",
            lit(TELESCOPIC, 50, 62, [12_400, brightest]),
            "range 8072 102300 94228",
            "room low",
        ),
        unchecked(
            "room-past-limit",
            "four times the room light is one unit more than the first reading",
            lit(TELESCOPIC, 137, 1, [547, brightest]),
            "range 202 102300 102098",
            "room high",
        ),
        unchecked(
            "room-light-lifts",
            "a black of 400, which the room light lifts into Table B-1",
            lit(CONTACT, 100, 1, [400, brightest - 100]),
            "range 102 102300 102198",
            "room low",
        ),
        unchecked(
            "room-without-reflection",
            "a lamp, and a reflectance of 0",
            lit(CONTACT, 2_000, 0, [500, brightest]),
            "range 102 102300 102198",
            "room low",
        ),
        unchecked(
            "room-light-beside",
            "a telescopic meter, which gets no room light",
            lit(TELESCOPIC, 100, 1, [500, brightest]),
            "range 102 102300 102198",
            "room low",
        ),
    ]
}

/// Four times the room light is more than the first reading: not so if the room light is added to that reading, nor in 24 bits.
fn room_marks(engine: &Engine) -> [Vector; 2] {
    let brightest = engine.gsdf.brightest();
    let by_reading = lit(CONTACT, 200, 1, [700, brightest - 200]);
    let of_25_bits = Record { lamps: vec![2_000, 2_000, 2_000, 2_000, 192], ..lit(TELESCOPIC, 0, 512, [10_000, brightest]) };
    [
        Vector::sound("room-by-reading", "contact meter, a room light of 200 beside a first reading of 700", &by_reading, &["room high"]),
        Vector::sound("room-of-25-bits", "four times the room light is 2 to the power of 24", &of_25_bits, &["room high"]),
    ]
}

/// Checks at the limits: of a pair's contrast in each class, with a unit more, and of the range.
fn check_limits(engine: &Engine) -> Vec<Vector> {
    let mut vectors = vec![];
    for (class, class_name) in [(PRIMARY, "primary"), (SECONDARY, "secondary")] {
        for (wide, side, further) in [(true, "wide", "wider"), (false, "narrow", "narrower")] {
            let (record, pair) = at_limit(engine, class, wide);
            let about = format!("{class_name} class, a pair of patches as {side} as it may be");
            vectors.push(Vector::sound(&format!("{side}-pair-{class_name}"), &about, &record, &["check pass"]));
            let past = changed(record, |record| if wide { record.check[pair + 1] += 1 } else { record.check[pair + 1] -= 1 });
            let about = format!("{class_name} class, a pair of patches one unit {further} than it may be");
            vectors.push(Vector::sound(&format!("{side}-pair-{class_name}-past"), &about, &past, &["check fail"]));
        }
    }
    let narrowest = checked(ranged(engine, 20_000, 30_000), engine);
    vectors.push(Vector::sound("check-range-10000", "the narrowest range of patches", &narrowest, &["check pass"]));
    let widest = checked(ranged(engine, 100, 102_300), engine);
    vectors.push(Vector::sound("check-whole-table", "patches from the first to the last luminance of Table B-1", &widest, &["check pass"]));
    vectors
}

/// Tables with a level at each target, or nearly so, or two that are as far from it.
fn exact(engine: &Engine) -> Vec<Vector> {
    let exact = |depth, lamps: &[u64], error| exactly(engine, depth, lamps, error);
    let nearly = changed(exact(8, &[], 10), |record| record.luminances[128] += (record.luminances[129] - record.luminances[128]) / 20);
    let targets = exact(8, &[], 0).luminances;
    let tied = changed(exact(9, &[], 1), |record| {
        (1..511).for_each(|d| record.luminances[d] = if d % 2 == 0 { targets[d / 2] - 5 } else { targets[d / 2] + 5 });
    });
    let last = changed(exact(10, &[], 0), |record| {
        (0..1_024).for_each(|d| record.luminances[d] = targets[if d < 1_022 { d * 253 / 1_021 } else { d - 768 }]);
    });
    let allowed = targets[128] / 1_000;
    let [above, below] = [targets[128] + allowed, targets[128] - allowed]
        .map(|luminance| changed(exact(8, &[], 1), |record| record.luminances[128] = luminance));
    let vector = |name, about, record, lines: &[&str]| {
        Vector::sound(name, about, &record, &[&["range 20000 80000 60000", "room low", "check none"], lines].concat())
    };
    vec![
        vector(
            "exact",
            "a level at each target, no error allowed",
            exact(8, &[], 0),
            &["even 0", "0 0 0", "1 1 1", "254 254 254", "255 255 255"],
        ),
        vector(
            "exact-9",
            "9 bits, two lamps, about two levels at each target, no error allowed",
            exact(9, &[25, 40], 0),
            &["even 0", "0 0 0", "1 3 3", "254 509 509", "255 511 511"],
        ),
        vector(
            "exact-10",
            "10 bits, 8 lamps, about four levels at each target, no error allowed",
            exact(10, &[3, 1, 4, 1, 5, 9, 2, 6], 0),
            &["even 0", "0 0 0", "1 5 5", "254 1019 1019", "255 1023 1023"],
        ),
        vector(
            "exact-last",
            "10 bits, one level each at the last two targets, no error allowed",
            last,
            &["even 0", "253 1021 1021", "254 1022 1022", "255 1023 1023"],
        ),
        vector("nearly-exact", "a level at each target but for one: a small worst step", nearly, &[]),
        vector("error-above", "a level as far above its target as is allowed", above, &["128 128 128"]),
        vector("error-below", "a level as far below its target as is allowed", below, &["128 128 128"]),
        vector("ties", "9 bits, two levels as far from each target", tied, &[]),
    ]
}

/// Sweeps and checks that are met seldom.
fn shapes(engine: &Engine) -> Vec<Vector> {
    let steps = Record {
        settings: vec![8, CONTACT, PRIMARY, 60, 600],
        ddls: vec![0, 127, 128, 255],
        luminances: vec![10_000_000, 10_000_000, 39_934_040, 39_934_040],
        ..small()
    };
    let plateaus = changed(display(9, 512, 6_000, 2_500_000), |record| {
        (0..64).for_each(|i| record.luminances[i] = record.luminances[i / 16 * 16]);
        record.settings[4] = 300;
    });
    let [black, white] = [20_000, 30_000].map(|k| engine.gsdf.luminance(k));
    let settings = vec![10, CONTACT, PRIMARY, 60, 60];
    let late = Record { settings, ddls: vec![0, 999, 1_023], luminances: vec![black, black, white], ..small() };
    let falling = changed(full(engine), |record| record.check.swap(8, 9));
    let secondary = changed(full(engine), |record| record.settings[2] = SECONDARY);
    let one_falls = checked_but_for(secondary, engine, 8, -300);
    let steep = Record { lamps: vec![42], luminances: vec![10_000, 4_000_000], ..small() };
    let unlit = changed(small(), |record| record.lamps = vec![0; 8]);
    let bright = Record { lamps: vec![2_000; 8], ..lit(CONTACT, 0, 1_000, [10_000, engine.gsdf.brightest() - 16_000_000]) };
    vec![
        Vector::sound("smallest", "the fewest bytes, 30", &small(), &["room low", "check none"]),
        Vector::sound("steep-lit", "two readings alone in a lit room: a large worst step", &steep, &["room high", "check none"]),
        Vector::sound("full", "items in every section", &full(engine), &["room high", "check pass"]),
        Vector::sound("longest", "the most bytes, 6,250", &longest(engine), &["room high", "check pass"]),
        Vector::sound("one-step", "two luminances alone: a large worst step", &steps, &["room low", "check none"]),
        Vector::sound("plateaus", "9 bits, every level read, equal ones in the shadows", &plateaus, &["check none"]),
        Vector::sound("longest-report", "10 bits, nearly all entries of four digits", &late, &["0 0 0", "check none"]),
        Vector::sound("falling-patches", "two patches that fall", &falling, &["room high", "check fail"]),
        Vector::sound(
            "falling-pair",
            "secondary class, one pair of patches that falls, all others as they may be",
            &one_falls,
            &["check fail"],
        ),
        Vector::sound("as-expected", "patches as they are expected", &checked(small(), engine), &["room low", "check pass"]),
        Vector::sound("lamps-of-0", "8 lamps without light", &unlit, &["room low", "check none"]),
        Vector::sound("brightest-room", "8 lamps of 2,000 lux, the largest reflectance", &bright, &["room high", "check none"]),
    ]
}

pub fn vectors(engine: &Engine) -> Vec<Vector> {
    let mut vectors = each_kind(engine);
    vectors.extend(limits(engine));
    vectors.extend(rooms(engine));
    vectors.extend(room_marks(engine));
    vectors.extend(check_limits(engine));
    vectors.extend(exact(engine));
    vectors.extend(shapes(engine));
    vectors
}
