//! The engine's operations as safe functions: each lends what its operation needs, and gives a result or a refusal.
use std::fmt;

pub const ENTRIES: usize = 256;
pub const PAIRS: usize = 17;
const WORDS: usize = 8_192;

/// The functions and structs of include/yepidlaw.h.
mod raw {
    #[repr(C)]
    pub struct Nearest {
        pub refusal: u32,
        pub jlo: u32,
        pub jhi: u32,
        pub range: u32,
        pub room_high: u32,
        pub error: u32,
    }

    #[repr(C)]
    pub struct Even {
        pub refusal: u32,
        pub worst_step: u64,
    }

    #[repr(C)]
    pub struct Check {
        pub refusal: u32,
        pub verdict: u32,
    }

    extern "C" {
        pub fn yepidlaw_nearest(record: *const u8, n: usize, table: *mut u16, m: usize) -> Nearest;
        pub fn yepidlaw_even(record: *const u8, n: usize, table: *mut u16, m: usize, work: *mut u32, k: usize) -> Even;
        pub fn yepidlaw_check(record: *const u8, n: usize, deviations: *mut i32, m: usize) -> Check;
    }
}

/// The number under which a job is sent back.
#[derive(Clone, Copy, Debug, PartialEq, Eq)]
pub struct Refusal(pub u32);

impl fmt::Display for Refusal {
    fn fmt(&self, f: &mut fmt::Formatter) -> fmt::Result {
        let meaning = match self.0 {
            1 => "too few entries, words or places are lent",
            2 => "the record ends too early",
            3 => "a section has a number of items that it cannot have",
            4 => "bytes are left over after the check section",
            5 => "a setting or a lamp is out of its range",
            6 => "the drive levels do not rise strictly from 0 to the last one",
            7 => "the luminances of the sweep fall somewhere",
            8 => "the darkest level is below Table B-1",
            9 => "the brightest level is above Table B-1",
            10 => "the darkest and the brightest level are fewer than 100 JND apart",
            11 => "some P-value has no drive level within the allowed error",
            12 => "a check reading is outside Table B-1",
            _ => "the first and the last check reading are fewer than 100 JND apart, or fall",
        };
        write!(f, "refused {}, {meaning}", self.0)
    }
}

impl std::error::Error for Refusal {}

fn accepted(refusal: u32) -> Result<(), Refusal> {
    match refusal {
        0 => Ok(()),
        number => Err(Refusal(number)),
    }
}

/// Indices in hundredths of a JND, the error in units of 0.0001 cd/m².
pub struct NearestTable {
    pub jlo: u32,
    pub jhi: u32,
    pub range: u32,
    pub room_is_high: bool,
    pub largest_error: u32,
    /// The drive level of each P-value.
    pub entries: [u16; ENTRIES],
}

pub fn nearest_table(record: &[u8]) -> Result<NearestTable, Refusal> {
    let mut entries = [0; ENTRIES];
    // The slices have as many elements as is said, and do not overlap; so it is below.
    let made = unsafe { raw::yepidlaw_nearest(record.as_ptr(), record.len(), entries.as_mut_ptr(), entries.len()) };
    accepted(made.refusal)?;
    let raw::Nearest { jlo, jhi, range, room_high, error, .. } = made;
    Ok(NearestTable { jlo, jhi, range, room_is_high: room_high != 0, largest_error: error, entries })
}

/// The worst step in parts per thousand.
pub struct EvenTable {
    pub worst_step: u64,
    /// The drive level of each P-value.
    pub entries: [u16; ENTRIES],
}

pub fn even_table(record: &[u8]) -> Result<EvenTable, Refusal> {
    let mut entries = [0; ENTRIES];
    let mut work = vec![0; WORDS];
    let made = unsafe {
        raw::yepidlaw_even(record.as_ptr(), record.len(), entries.as_mut_ptr(), entries.len(), work.as_mut_ptr(), work.len())
    };
    accepted(made.refusal)?;
    Ok(EvenTable { worst_step: made.worst_step, entries })
}

pub struct ContrastCheck {
    pub passes: bool,
    /// Of each pair of neighbouring patches, in parts per thousand.
    pub deviations: [i32; PAIRS],
}

/// Nothing where the record holds no check readings.
pub fn contrast_check(record: &[u8]) -> Result<Option<ContrastCheck>, Refusal> {
    let mut deviations = [0; PAIRS];
    let made = unsafe { raw::yepidlaw_check(record.as_ptr(), record.len(), deviations.as_mut_ptr(), deviations.len()) };
    accepted(made.refusal)?;
    Ok(match made.verdict {
        0 => None,
        verdict => Some(ContrastCheck { passes: verdict == 1, deviations }),
    })
}
