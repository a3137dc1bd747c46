//! The job record: its lists in arrays, and tests 2 to 7.
use compare::record::RecordValues;

type Counts = [usize; 4];

const WIDTHS: Counts = [2, 2, 6, 4];

fn u16_at(bytes: &[u8], at: usize) -> u16 {
    u16::from_le_bytes([bytes[at], bytes[at + 1]])
}

fn u32_at(bytes: &[u8], at: usize) -> u32 {
    u32::from_le_bytes([bytes[at], bytes[at + 1], bytes[at + 2], bytes[at + 3]])
}

fn permits(section: usize, n: usize) -> bool {
    match section {
        0 => n == 5,
        1 => n <= 8,
        2 => (2..=1024).contains(&n),
        _ => n == 0 || n == 18,
    }
}

fn counts(bytes: &[u8]) -> Result<Counts, u32> {
    let mut counts = [0; 4];
    let mut at = 0;
    for section in 0..4 {
        if bytes.len() - at < 2 {
            return Err(2);
        }
        let n = usize::from(u16_at(bytes, at));
        if !permits(section, n) {
            return Err(3);
        }
        let size = 2 + n * WIDTHS[section];
        if bytes.len() - at < size {
            return Err(2);
        }
        counts[section] = n;
        at += size;
    }
    if at < bytes.len() {
        return Err(4);
    }
    Ok(counts)
}

/// Tests 5 to 7 of lists that are in place; fills in the job.
fn judge(values: &mut RecordValues) -> u32 {
    let settings = values.settings;
    let lamps = &values.lamps[..values.sources];
    let ranges = [8..=10, 0..=1, 1..=2, 0..=1000, 0..=1000];
    if !(0..5).all(|i| ranges[i].contains(&settings[i])) || lamps.iter().any(|&lux| 2000 < lux) {
        return 5;
    }
    let ddls = &values.ddls[..values.readings];
    let top = (1 << settings[0]) - 1;
    if ddls[0] != 0 || ddls.windows(2).any(|pair| pair[1] <= pair[0]) || ddls[ddls.len() - 1] != top {
        return 6;
    }
    if values.luminances[..values.readings].windows(2).any(|pair| pair[1] < pair[0]) {
        return 7;
    }
    values.depth = settings[0];
    values.meter = settings[1];
    values.class = settings[2];
    values.reflectance = settings[3];
    values.tolerance = settings[4];
    values.lux = lamps.iter().sum();
    0
}

#[inline(never)]
pub fn read(bytes: &[u8]) -> RecordValues {
    let mut values = RecordValues {
        refusal: 0,
        depth: 0,
        meter: 0,
        class: 0,
        reflectance: 0,
        tolerance: 0,
        lux: 0,
        given: 0,
        settings: [0; 5],
        sources: 0,
        lamps: [0; 8],
        readings: 0,
        ddls: [0; 1024],
        luminances: [0; 1024],
        patches: 0,
        check: [0; 18],
    };
    let [a, b, c, d] = match counts(bytes) {
        Ok(counts) => counts,
        Err(number) => {
            values.refusal = number;
            return values;
        }
    };
    let at_lamps = 2 + 2 * a;
    let at_sweep = at_lamps + 2 + 2 * b;
    let at_check = at_sweep + 2 + 6 * c;
    values.given = a;
    values.sources = b;
    values.readings = c;
    values.patches = d;
    for (i, item) in bytes[2..at_lamps].chunks_exact(2).enumerate() {
        values.settings[i] = u16_at(item, 0);
    }
    for (i, item) in bytes[at_lamps + 2..at_sweep].chunks_exact(2).enumerate() {
        values.lamps[i] = u16_at(item, 0);
    }
    for (i, item) in bytes[at_sweep + 2..at_check].chunks_exact(6).enumerate() {
        values.ddls[i] = u16_at(item, 0);
        values.luminances[i] = u32_at(item, 2);
    }
    for (i, item) in bytes[at_check + 2..].chunks_exact(4).enumerate() {
        values.check[i] = u32_at(item, 0);
    }
    values.refusal = judge(&mut values);
    values
}
