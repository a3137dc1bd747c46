//! The engine's methods, written in C.
use compare::even::{EvenValues, Lent};
use compare::yepidlaw::{Check, Even, Nearest};

mod raw {
    use super::{Check, Even, EvenValues, Nearest};

    extern "C" {
        pub fn nearest_in_c(record: *const u8, n: usize, table: *mut u16, m: usize) -> Nearest;
        pub fn even_in_c(record: *const u8, n: usize, table: *mut u16, m: usize, work: *mut u32, k: usize) -> Even;
        pub fn check_in_c(record: *const u8, n: usize, deviations: *mut i32, m: usize) -> Check;
        pub fn even_fill_in_c(
            curve: *const u32,
            levels: usize,
            targets: *const u32,
            values: usize,
            tolerance: u16,
            starts: *mut u16,
            ends: *mut u16,
            table: *mut u16,
            work: *mut u32,
        ) -> EvenValues;
    }
}

pub fn nearest(record: &[u8], table: &mut [u16]) -> Nearest {
    unsafe { raw::nearest_in_c(record.as_ptr(), record.len(), table.as_mut_ptr(), table.len()) }
}

pub fn even(record: &[u8], table: &mut [u16], work: &mut [u32]) -> Even {
    unsafe { raw::even_in_c(record.as_ptr(), record.len(), table.as_mut_ptr(), table.len(), work.as_mut_ptr(), work.len()) }
}

pub fn check(record: &[u8], deviations: &mut [i32]) -> Check {
    unsafe { raw::check_in_c(record.as_ptr(), record.len(), deviations.as_mut_ptr(), deviations.len()) }
}

/// As many places, entries and words as the engine asks for.
pub fn even_fill(curve: &[u32], targets: &[u32], tolerance: u16, lent: Lent) -> EvenValues {
    let values = targets.len();
    assert!(values <= lent.starts.len() && values <= lent.ends.len() && values <= lent.table.len() && 32 * values <= lent.work.len());
    let [starts, ends, table] = [lent.starts, lent.ends, lent.table].map(<[u16]>::as_mut_ptr);
    let work = lent.work.as_mut_ptr();
    unsafe { raw::even_fill_in_c(curve.as_ptr(), curve.len(), targets.as_ptr(), values, tolerance, starts, ends, table, work) }
}
