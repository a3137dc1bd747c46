//! Room light and the characteristic curve of a record whose values are in range.
use crate::record::Record;

/// A0, what the screen reflects of the lamps.
pub fn room_luminance(record: &Record) -> u64 {
    record.lamps.iter().map(|lux| lux * record.reflectance()).sum()
}

/// A, what is added to each reading: a telescopic meter has seen the reflection already.
pub fn added_luminance(record: &Record) -> u64 {
    match record.meter() {
        0 => room_luminance(record),
        1 => 0,
        meter => panic!("there is no meter {meter}"),
    }
}

/// Whether the room mark is "high".
pub fn room_is_high(record: &Record) -> bool {
    4 * room_luminance(record) > record.luminances[0]
}

/// F(0) to F(M).
pub fn curve(record: &Record) -> Vec<u64> {
    let added = added_luminance(record);
    (0..=record.last_ddl()).map(|d| added + swept_luminance(record, d)).collect()
}

/// F(d) without A, from the last reading at or below d, which is looked for among all.
fn swept_luminance(record: &Record, d: u64) -> u64 {
    let (ddls, luminances) = (&record.ddls, &record.luminances);
    let below = ddls.iter().rposition(|&ddl| ddl <= d).expect("the sweep starts at 0");
    if ddls[below] == d {
        return luminances[below];
    }
    let above = below + 1;
    luminances[below] + (luminances[above] - luminances[below]) * (d - ddls[below]) / (ddls[above] - ddls[below])
}
