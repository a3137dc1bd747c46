//! The job record: crate `record` through `record_values`.

/// What reading a record gives.
#[derive(Clone, Copy, PartialEq)]
#[repr(C)]
pub struct RecordValues {
    /// 0 for an accepted record, else its number; the settings and `lux` of a refused one are 0.
    pub refusal: u32,
    pub depth: u16,
    pub meter: u16,
    pub class: u16,
    pub reflectance: u16,
    pub tolerance: u16,
    /// The sum of the lamps.
    pub lux: u16,
    /// How many entries of `settings` are the record's; 0 under the numbers 2 to 4.
    pub given: usize,
    pub settings: [u16; 5],
    /// How many entries of `lamps` are the record's; 0 under the numbers 2 to 4.
    pub sources: usize,
    pub lamps: [u16; 8],
    /// How many entries of `ddls` and `luminances` are the record's; 0 under the numbers 2 to 4.
    pub readings: usize,
    pub ddls: [u16; 1024],
    pub luminances: [u32; 1024],
    /// How many entries of `check` are the record's; 0 under the numbers 2 to 4.
    pub patches: usize,
    pub check: [u32; 18],
}

/// The function as it is.
pub mod raw {
    extern "C" {
        pub fn record_read(bytes: *const u8, length: usize) -> super::RecordValues;
    }
}

pub fn read(bytes: &[u8]) -> RecordValues {
    unsafe { raw::record_read(bytes.as_ptr(), bytes.len()) }
}
