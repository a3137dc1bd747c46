//! The operations on a job record: crate `yepidlaw`.

/// What making a nearest table gives.
#[derive(Clone, Copy, Debug, PartialEq)]
#[repr(C)]
pub struct Nearest {
    /// 0 for a result, else its number; every other field of a refusal is 0.
    pub refusal: u32,
    pub jlo: u32,
    pub jhi: u32,
    /// N.
    pub range: u32,
    /// The room mark: 0 low, 1 high.
    pub room_high: u32,
    /// The largest distance of an entry's luminance from its target.
    pub error: u32,
}

/// What making an even table gives.
#[derive(Clone, Copy, Debug, PartialEq)]
#[repr(C)]
pub struct Even {
    /// 0 for a result, else its number; the worst step of a refusal is 0.
    pub refusal: u32,
    pub worst_step: u64,
}

/// What a contrast check gives.
#[derive(Clone, Copy, Debug, PartialEq)]
#[repr(C)]
pub struct Check {
    /// 0 for a result, else its number; the verdict of a refusal is 0.
    pub refusal: u32,
    /// 0 not measured, 1 pass, 2 fail.
    pub verdict: u32,
}

/// The functions as they are.
pub mod raw {
    extern "C" {
        pub fn yepidlaw_nearest(record: *const u8, n: usize, table: *mut u16, m: usize) -> super::Nearest;
        pub fn yepidlaw_even(record: *const u8, n: usize, table: *mut u16, m: usize, work: *mut u32, k: usize) -> super::Even;
        pub fn yepidlaw_check(record: *const u8, n: usize, deviations: *mut i32, m: usize) -> super::Check;
    }
}

pub fn nearest(record: &[u8], table: &mut [u16]) -> Nearest {
    unsafe { raw::yepidlaw_nearest(record.as_ptr(), record.len(), table.as_mut_ptr(), table.len()) }
}

/// The same with a record that can be written, so that the compiler does not take it for unchanged.
pub fn nearest_of_writable(record: &mut [u8], table: &mut [u16]) -> Nearest {
    unsafe { raw::yepidlaw_nearest(record.as_mut_ptr(), record.len(), table.as_mut_ptr(), table.len()) }
}

pub fn even(record: &[u8], table: &mut [u16], work: &mut [u32]) -> Even {
    unsafe { raw::yepidlaw_even(record.as_ptr(), record.len(), table.as_mut_ptr(), table.len(), work.as_mut_ptr(), work.len()) }
}

/// The same with a record that can be written.
pub fn even_of_writable(record: &mut [u8], table: &mut [u16], work: &mut [u32]) -> Even {
    unsafe { raw::yepidlaw_even(record.as_mut_ptr(), record.len(), table.as_mut_ptr(), table.len(), work.as_mut_ptr(), work.len()) }
}

pub fn check(record: &[u8], deviations: &mut [i32]) -> Check {
    unsafe { raw::yepidlaw_check(record.as_ptr(), record.len(), deviations.as_mut_ptr(), deviations.len()) }
}

/// The same with a record that can be written.
pub fn check_of_writable(record: &mut [u8], deviations: &mut [i32]) -> Check {
    unsafe { raw::yepidlaw_check(record.as_mut_ptr(), record.len(), deviations.as_mut_ptr(), deviations.len()) }
}
