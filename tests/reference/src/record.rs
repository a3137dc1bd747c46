//! The job record, taken one byte after another, and the tests of its values.

/// The items of the four sections as recorded, in range or not.
#[derive(Clone, Debug, Default, PartialEq)]
pub struct Record {
    /// Depth, meter, class, Rd and allowed error.
    pub settings: Vec<u64>,
    /// The lux of each lamp.
    pub lamps: Vec<u64>,
    /// The DDL of each sweep reading.
    pub ddls: Vec<u64>,
    /// The luminance of each sweep reading.
    pub luminances: Vec<u64>,
    /// The luminance of each check reading.
    pub check: Vec<u64>,
}

/// The bytes that are not taken yet.
struct Rest<'a>(std::slice::Iter<'a, u8>);

impl Rest<'_> {
    fn take(&mut self, bytes: u32) -> Result<u64, u32> {
        let mut value = 0;
        for place in 0..bytes {
            value += u64::from(*self.0.next().ok_or(2u32)?) << (8 * place);
        }
        Ok(value)
    }

    fn take_u16(&mut self) -> Result<u64, u32> {
        self.take(2)
    }

    fn take_u32(&mut self) -> Result<u64, u32> {
        self.take(4)
    }

    fn take_count(&mut self, permitted: impl IntoIterator<Item = u64>) -> Result<u64, u32> {
        let count = self.take_u16()?;
        if permitted.into_iter().any(|n| n == count) {
            Ok(count)
        } else {
            Err(3)
        }
    }
}

/// The record, or 2, 3 or 4.
pub fn read(bytes: &[u8]) -> Result<Record, u32> {
    let mut rest = Rest(bytes.iter());
    let mut record = Record::default();
    for _ in 0..rest.take_count([5])? {
        record.settings.push(rest.take_u16()?);
    }
    for _ in 0..rest.take_count(0..=8)? {
        record.lamps.push(rest.take_u16()?);
    }
    for _ in 0..rest.take_count(2..=1024)? {
        record.ddls.push(rest.take_u16()?);
        record.luminances.push(rest.take_u32()?);
    }
    for _ in 0..rest.take_count([0, 18])? {
        record.check.push(rest.take_u32()?);
    }
    match rest.0.next() {
        None => Ok(record),
        Some(_) => Err(4),
    }
}

/// Nothing, or 5, 6 or 7. Whether values rise is seen by sorting them.
pub fn judge(record: &Record) -> Result<(), u32> {
    let ranges = [8..=10, 0..=1, 1..=2, 0..=1000, 0..=1000];
    let settings_in_range = record.settings.iter().zip(&ranges).all(|(setting, range)| range.contains(setting));
    if !settings_in_range || record.lamps.iter().any(|&lux| 2000 < lux) {
        return Err(5);
    }
    let mut ddls = record.ddls.clone();
    ddls.sort_unstable();
    ddls.dedup();
    if ddls != record.ddls || ddls[0] != 0 || ddls[ddls.len() - 1] != record.last_ddl() {
        return Err(6);
    }
    let mut luminances = record.luminances.clone();
    luminances.sort_unstable();
    if luminances != record.luminances {
        return Err(7);
    }
    Ok(())
}

/// Appends the value in so many bytes, the low one first.
fn put(bytes: &mut Vec<u8>, value: u64, width: u32) {
    assert!(value < 256u64.pow(width), "{value} has more than {width} bytes");
    for place in 0..width {
        bytes.push((value / 256u64.pow(place) % 256) as u8);
    }
}

impl Record {
    pub fn depth(&self) -> u64 {
        self.settings[0]
    }

    /// 0 contact, 1 telescopic.
    pub fn meter(&self) -> u64 {
        self.settings[1]
    }

    /// 1 primary, 2 secondary.
    pub fn class(&self) -> u64 {
        self.settings[2]
    }

    /// Rd.
    pub fn reflectance(&self) -> u64 {
        self.settings[3]
    }

    /// w.
    pub fn tolerance(&self) -> u64 {
        self.settings[4]
    }

    /// M of a depth in range.
    pub fn last_ddl(&self) -> u64 {
        2u64.pow(self.depth() as u32) - 1
    }

    /// The record as it is written, each section after the number of its items, permitted or not.
    pub fn bytes(&self) -> Vec<u8> {
        assert_eq!(self.ddls.len(), self.luminances.len(), "a sweep reading has both");
        let mut bytes = Vec::new();
        put(&mut bytes, self.settings.len() as u64, 2);
        self.settings.iter().for_each(|&setting| put(&mut bytes, setting, 2));
        put(&mut bytes, self.lamps.len() as u64, 2);
        self.lamps.iter().for_each(|&lux| put(&mut bytes, lux, 2));
        put(&mut bytes, self.ddls.len() as u64, 2);
        for (&ddl, &luminance) in self.ddls.iter().zip(&self.luminances) {
            put(&mut bytes, ddl, 2);
            put(&mut bytes, luminance, 4);
        }
        put(&mut bytes, self.check.len() as u64, 2);
        self.check.iter().for_each(|&luminance| put(&mut bytes, luminance, 4));
        bytes
    }
}
