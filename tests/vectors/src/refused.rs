//! Inputs that are refused, by each number that the program can give.
use reference::engine::Engine;
use reference::record::Record;

use crate::jobs::{changed, checked, count_places, exactly, full, longest, small, TELESCOPIC};
use crate::vector::Vector;

/// A number, a name, what it is, and what is changed in a job.
type Fault = (u32, &'static str, &'static str, fn(&mut Record));

pub const SECTIONS: [&str; 4] = ["settings", "lamps", "sweep", "check"];

/// Under 2: each count cut short, and the items of each section.
fn cut_short(engine: &Engine) -> Vec<Vector> {
    let record = full(engine);
    let bytes = record.bytes();
    let places = count_places(&record);
    let ends = [places[1], places[2], places[3], bytes.len()];
    let cut = |name: &str, about: &str, length: usize| Vector::refused(2, name, about, bytes[..length].to_vec());
    let mut vectors = vec![cut("empty", "no bytes, the example of document 01", 0)];
    for (section, (place, end)) in SECTIONS.iter().zip(places.into_iter().zip(ends)) {
        vectors.push(cut(&format!("{section}-count"), &format!("the count of section '{section}' cut short"), place + 1));
        vectors.push(cut(&format!("{section}-items"), &format!("section '{section}' one byte short"), end - 1));
    }
    vectors.push(cut("no-lamps-section", "the end after the settings", places[1]));
    vectors.push(cut("no-check-section", "the end after the sweep", places[3]));
    vectors.push(cut("sweep-level", "the end inside a drive level", places[2] + 2 + 6 + 1));
    vectors.push(cut("sweep-luminance", "the end after a drive level", places[2] + 2 + 6 + 2));
    vectors
}

/// A full record with another count for a section.
pub fn with_count(engine: &Engine, section: usize, count: u16) -> Vec<u8> {
    let record = full(engine);
    let mut bytes = record.bytes();
    let place = count_places(&record)[section];
    bytes[place..place + 2].copy_from_slice(&count.to_le_bytes());
    bytes
}

/// A full record with the highest bit set in the count of a section.
fn with_high_bit(engine: &Engine, section: usize) -> Vec<u8> {
    let record = full(engine);
    let mut bytes = record.bytes();
    bytes[count_places(&record)[section] + 1] |= 1 << 7;
    bytes
}

/// Under 3: counts not permitted, with as many items as they say.
#[rustfmt::skip]
const COUNTS: [Fault; 8] = [
    (3, "settings-4", "4 settings", |record| record.settings.truncate(4)),
    (3, "settings-6", "6 settings", |record| record.settings.push(8)),
    (3, "lamps-9", "9 lamps", |record| record.lamps = vec![20; 9]),
    (3, "sweep-0", "no reading", |record| (record.ddls, record.luminances) = (vec![], vec![])),
    (3, "sweep-1025", "1,025 readings", |record| (record.ddls, record.luminances) = ((0..1_025).collect(), (1_000..2_025).collect())),
    (3, "check-1", "one patch", |record| record.check.truncate(1)),
    (3, "check-17", "17 patches", |record| record.check.truncate(17)),
    (3, "check-19", "19 patches", |record| record.check.push(2_600_000)),
];

/// Under 3: other items than the count says, and what is met first.
fn counts(engine: &Engine) -> Vec<Vector> {
    let refused = |name: &str, about: &str, bytes: &[u8]| Vector::refused(3, name, about, bytes.to_vec());
    let sweep = count_places(&full(engine))[2];
    let mut vectors = vec![
        refused("settings-swapped", "a count with its high byte first", &with_count(engine, 0, 5 << 8)),
        refused("lamps-256", "a count of lamps whose low byte is 0", &with_count(engine, 1, 256)),
        refused("and-cut", "a count not permitted, and no byte after it", &with_count(engine, 2, 1)[..sweep + 2]),
    ];
    for (section, name) in SECTIONS.iter().enumerate() {
        let about = format!("the largest count for section '{name}'");
        vectors.push(refused(&format!("{name}-65535"), &about, &with_count(engine, section, u16::MAX)));
        let about = format!("the count of section '{name}' with the highest bit set");
        vectors.push(refused(&format!("{name}-high-bit"), &about, &with_high_bit(engine, section)));
    }
    vectors
}

/// Under 4: bytes after the record.
fn left_over(engine: &Engine) -> Vec<Vector> {
    let more = |record: &Record, bytes: &[u8]| [&record.bytes(), bytes].concat();
    vec![
        Vector::refused(4, "one-byte", "one byte more, the example of document 01", more(&small(), &[0])),
        Vector::refused(4, "twice", "a record twice", more(&full(engine), &full(engine).bytes())),
        Vector::refused(4, "longest-and-one", "6,251 bytes", more(&longest(engine), &[255])),
        Vector::refused(4, "line-feed", "a record that ends with a line feed", more(&small(), b"\n")),
        Vector::refused(
            4,
            "and-depth",
            "one byte more, and a depth of 11",
            more(&changed(small(), |record| record.settings[0] = 11), &[0]),
        ),
    ]
}

/// The highest bit of a field of 16 bits.
const HIGH_BIT: u64 = 1 << 15;

/// Under 5 to 7, what a full record must not hold.
#[rustfmt::skip]
const FAULTS: [Fault; 31] = [
    (5, "depth-7", "depth 7", |record| record.settings[0] = 7),
    (5, "meter-2", "meter 2", |record| record.settings[1] = 2),
    (5, "class-0", "class 0", |record| record.settings[2] = 0),
    (5, "class-3", "class 3", |record| record.settings[2] = 3),
    (5, "reflectance-1001", "reflectance 0.1001", |record| record.settings[3] = 1_001),
    (5, "error-1001", "an allowed error of 1,001", |record| record.settings[4] = 1_001),
    (5, "error-65535", "an allowed error of 65,535", |record| record.settings[4] = 65_535),
    (5, "first-lamp-2001", "a first lamp of 2,001 lux", |record| record.lamps[0] = 2_001),
    (5, "last-lamp-2001", "an eighth lamp of 2,001 lux", |record| record.lamps = vec![1, 2, 3, 4, 5, 6, 7, 2_001]),
    (5, "depth-high-bit", "depth 8 with the highest bit set", |record| record.settings[0] |= HIGH_BIT),
    (5, "meter-high-bit", "a contact meter with the highest bit set", |record| record.settings[1] |= HIGH_BIT),
    (5, "class-high-bit", "primary class with the highest bit set", |record| record.settings[2] |= HIGH_BIT),
    (5, "reflectance-high-bit", "a reflectance with the highest bit set", |record| record.settings[3] |= HIGH_BIT),
    (5, "error-high-bit", "an allowed error with the highest bit set", |record| record.settings[4] |= HIGH_BIT),
    (5, "lamp-high-bit", "a lamp with the highest bit set", |record| record.lamps[1] |= HIGH_BIT),
    (5, "and-6-and-7", "depth 11, levels from 1 and luminances that fall", |record| {
        record.settings[0] = 11;
        record.ddls[0] = 1;
        record.luminances[1] = 0;
    }),
    (6, "from-1", "levels from 1", |record| record.ddls[0] = 1),
    (6, "to-256", "depth 8, levels to 256", |record| record.ddls[3] = 256),
    (6, "depth-9", "depth 9, levels to 255", |record| record.settings[0] = 9),
    (6, "depth-10", "depth 10, levels to 255", |record| record.settings[0] = 10),
    (6, "equal", "a level twice", |record| record.ddls[1] = 0),
    (6, "falling", "levels that fall", |record| record.ddls.swap(1, 2)),
    (6, "beyond", "a level of 256 on the way to 255", |record| record.ddls[1] = 256),
    (6, "and-7", "levels from 1 and luminances that fall", |record| {
        record.ddls[0] = 1;
        record.luminances[1] = 0;
    }),
    (6, "after-7", "luminances that fall, and after them levels", |record| {
        record.luminances[1] = 9_999;
        record.ddls[2] = 100;
    }),
    (6, "to-254-and-7", "depth 8, levels to 254, and luminances that fall", |record| {
        record.luminances[1] = 9_999;
        record.ddls[3] = 254;
    }),
    (7, "first", "the second luminance below the first", |record| record.luminances[1] = 9_999),
    (7, "last", "the last luminance one unit below", |record| record.luminances[3] = 1_499_999),
    (7, "and-8", "a black below Table B-1 and luminances that fall", |record| record.luminances[..2].copy_from_slice(&[300, 299])),
    (7, "and-9", "luminances beyond Table B-1 that fall", |record| record.luminances[2..].copy_from_slice(&[60_000_000, 50_000_000])),
    (7, "and-12", "luminances that fall and a check reading of 0", |record| {
        record.luminances[1] = 9_999;
        record.check[0] = 0;
    }),
];

/// A job with each of these faults.
fn with_faults<'a>(record: &'a Record, faults: &'a [Fault]) -> impl Iterator<Item = Vector> + 'a {
    faults.iter().map(move |&(number, name, about, fault)| Vector::refused(number, name, about, changed(record.clone(), fault).bytes()))
}

/// Document 01's examples of 3 and of 5 to 13, but for that of 11, which is a sample.
#[rustfmt::skip]
const EXAMPLES: [Fault; 9] = [
    (3, "sweep-1", "one reading, the example of document 01", |record| {
        record.ddls.truncate(1);
        record.luminances.truncate(1);
    }),
    (5, "depth-11", "depth 11, the example of document 01", |record| record.settings[0] = 11),
    (6, "to-254", "depth 8, levels 0 and 254, the example of document 01", |record| record.ddls[1] = 254),
    (7, "900-899", "luminances 900 and 899, the example of document 01", |record| record.luminances = vec![900, 899]),
    (8, "black-300", "a first reading of 300 and no lamps, the example of document 01", |record| record.luminances[0] = 300),
    (9, "white-50000000", "a last reading of 50,000,000, the example of document 01", |record| record.luminances[1] = 50_000_000),
    (10, "10000-20000", "10,000 to 20,000 and no lamps, the example of document 01", |record| record.luminances[1] = 20_000),
    (12, "reading-0", "a first check reading of 0 and no lamps, the example of document 01", |record| {
        record.check = vec![0; 18];
        record.check[17] = 2_560_000;
    }),
    (13, "equal", "18 equal readings, the example of document 01", |record| record.check = vec![10_000; 18]),
];

/// Under 8 to 10, readings just outside what is permitted, and what the meter changes.
fn ranges(engine: &Engine) -> Vec<Vector> {
    let of = |number, name, about, change: &dyn Fn(&mut Record)| Vector::refused(number, name, about, changed(small(), change).bytes());
    let [low, high, narrow] = [20_000, 29_999, 9_000].map(|k| engine.gsdf.luminance(k));
    let brightest = engine.gsdf.brightest();
    vec![
        of(8, "black-499", "one unit below Table B-1", &|record| record.luminances[0] = 499),
        of(8, "telescopic", "a black of 300 by a telescopic meter, which gets no room light", &|record| {
            record.settings[1] = TELESCOPIC;
            record.lamps = vec![40];
            record.luminances[0] = 300;
        }),
        of(8, "and-9", "both ends outside Table B-1", &|record| record.luminances = vec![0, u64::from(u32::MAX)]),
        of(8, "and-10", "a black below Table B-1 and a narrow range", &|record| record.luminances = vec![300, 400]),
        of(9, "and-10", "a white above Table B-1 and a narrow range", &|record| record.luminances = vec![brightest, brightest + 1]),
        of(9, "one-above", "one unit above Table B-1", &|record| record.luminances[1] = brightest + 1),
        of(9, "by-room-light", "lifted above Table B-1 by the room light", &|record| {
            record.settings[3] = 1;
            record.lamps = vec![1];
            record.luminances[1] = brightest;
        }),
        of(9, "beyond-32-bits", "a sum of reading and room light beyond 32 bits", &|record| {
            record.settings[3] = 1_000;
            record.lamps = vec![2_000; 8];
            record.luminances[1] = u64::from(u32::MAX);
        }),
        of(10, "range-9999", "a hundredth of a JND too narrow", &|record| record.luminances = vec![low, high]),
        of(10, "one-luminance", "one luminance at all levels", &|record| record.luminances = vec![narrow, narrow]),
        of(10, "and-11", "a narrow range and no error allowed", &|record| {
            record.luminances = vec![low, high];
            record.settings[4] = 0;
        }),
    ]
}

/// Under 11: one level of 256 a unit further from its target than is allowed.
fn errors(engine: &Engine) -> [Vector; 3] {
    let target = exactly(engine, 8, &[], 0).luminances[128];
    let of = |name, about, error, luminance| {
        let record = changed(exactly(engine, 8, &[], error), |record| record.luminances[128] = luminance);
        Vector::refused(11, name, about, record.bytes())
    };
    [
        of("error-above", "a level one unit further above its target than is allowed", 1, target + target / 1_000 + 1),
        of("error-below", "a level one unit further below its target than is allowed", 1, target - target / 1_000 - 1),
        of("no-error", "a level one unit above its target, no error allowed", 0, target + 1),
    ]
}

/// Under 11 to 13.
fn tables_and_checks(engine: &Engine) -> Vec<Vector> {
    let of = |number, name, about, change: &dyn Fn(&mut Record)| {
        Vector::refused(number, name, about, changed(checked(small(), engine), change).bytes())
    };
    let [low, high] = [20_000, 29_999].map(|k| engine.gsdf.luminance(k));
    let brightest = engine.gsdf.brightest();
    vec![
        of(11, "and-12", "no error allowed and a check reading of 0: the even table comes before the check", &|record| {
            record.settings[4] = 0;
            record.check[0] = 0;
        }),
        of(11, "and-13", "no error allowed and 18 equal readings", &|record| {
            record.settings[4] = 0;
            record.check = vec![10_000; 18];
        }),
        of(11, "gap", "two luminances with a wide gap between them", &|record| {
            record.settings[4] = 100;
            record.ddls = vec![0, 127, 128, 255];
            record.luminances = vec![10_000, 10_000, 2_560_000, 2_560_000];
        }),
        of(12, "below", "a middle reading one unit below Table B-1", &|record| record.check[9] = 499),
        of(12, "above", "the last reading one unit above Table B-1", &|record| record.check[17] = brightest + 1),
        of(12, "telescopic", "a reading of 300 by a telescopic meter, which gets no room light", &|record| {
            record.settings[1] = TELESCOPIC;
            record.lamps = vec![40];
            record.check[0] = 300;
        }),
        of(12, "by-room-light", "a reading lifted above Table B-1 by the room light", &|record| {
            record.lamps = vec![40];
            record.check[16] = brightest;
        }),
        of(12, "and-13", "18 readings of 0", &|record| record.check = vec![0; 18]),
        of(13, "range-9999", "a hundredth of a JND too narrow", &|record| (record.check[0], record.check[17]) = (low, high)),
        of(13, "falling", "the last patch darker than the first", &|record| record.check.reverse()),
    ]
}

pub fn vectors(engine: &Engine) -> Vec<Vector> {
    let mut vectors = cut_short(engine);
    vectors.extend(counts(engine));
    vectors.extend(left_over(engine));
    vectors.extend(with_faults(&small(), &EXAMPLES));
    vectors.extend(with_faults(&full(engine), &COUNTS));
    vectors.extend(with_faults(&full(engine), &FAULTS));
    vectors.extend(ranges(engine));
    vectors.extend(errors(engine));
    vectors.extend(tables_and_checks(engine));
    vectors.sort_by_key(|vector| vector.name[.."refused-00".len()].to_string());
    vectors
}
