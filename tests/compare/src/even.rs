//! The even table of any curve and targets: crate `even` through `even_values`.

/// What the search for an even table gives.
#[derive(Clone, Copy, Debug, PartialEq)]
#[repr(C)]
pub struct EvenValues {
    /// 1 where the table was made, 0 where there is none; the worst step is 0 then.
    pub made: u32,
    pub worst_step: u64,
}

/// The function as it is, with a `requires`.
pub mod raw {
    extern "C" {
        pub fn even_fill(
            curve: *const u32,
            levels: usize,
            targets: *const u32,
            values: usize,
            tolerance: u16,
            starts: *mut u16,
            starts_lent: usize,
            ends: *mut u16,
            ends_lent: usize,
            table: *mut u16,
            entries_lent: usize,
            work: *mut u32,
            words_lent: usize,
        ) -> super::EvenValues;
    }
}

const FIRST_TOO_LARGE: u32 = 1 << 26;

/// What is lent to the function: a table, working words, and a place for each end of the levels allowed at a target. What the places hold is free, before and after.
pub struct Lent<'a> {
    pub starts: &'a mut [u16],
    pub ends: &'a mut [u16],
    pub table: &'a mut [u16],
    pub work: &'a mut [u32],
}

/// The table goes to the front of the one lent; the front of the working words is used, 32 for each target.
pub fn fill(curve: &[u32], targets: &[u32], tolerance: u16, lent: Lent) -> EvenValues {
    let Lent { starts, ends, table, work } = lent;
    let values = targets.len();
    assert!((1..=1_024).contains(&curve.len()) && curve.windows(2).all(|pair| pair[0] <= pair[1]));
    assert!((1..=65_536).contains(&values) && targets.windows(2).all(|pair| pair[0] < pair[1]));
    assert!(curve.iter().chain(targets).all(|&luminance| luminance < FIRST_TOO_LARGE));
    assert!(tolerance <= 1_000 && values <= table.len() && 32 * values <= work.len() && values <= starts.len().min(ends.len()));
    unsafe {
        raw::even_fill(
            curve.as_ptr(),
            curve.len(),
            targets.as_ptr(),
            values,
            tolerance,
            starts.as_mut_ptr(),
            starts.len(),
            ends.as_mut_ptr(),
            ends.len(),
            table.as_mut_ptr(),
            table.len(),
            work.as_mut_ptr(),
            work.len(),
        )
    }
}
