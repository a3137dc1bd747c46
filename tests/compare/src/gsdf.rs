//! The display function: crate `gsdf` through `gsdf_values`.

/// The functions as they are, with a `requires` each.
pub mod raw {
    extern "C" {
        pub fn gsdf_table_b1(table: *mut u32);
        pub fn gsdf_luminance_of(k: u32) -> u32;
        pub fn gsdf_index_of(l: u32) -> u32;
    }
}

/// The engine's Table B-1.
pub fn table_b1() -> [u32; 1023] {
    let mut table = [0; 1023];
    unsafe { raw::gsdf_table_b1(table.as_mut_ptr()) };
    table
}

fn is_index(k: u32) -> bool {
    (100..=102_300).contains(&k)
}

fn in_table(l: u32) -> bool {
    (500..=39_934_040).contains(&l)
}

pub fn luminance_of(k: u32) -> u32 {
    assert!(is_index(k));
    unsafe { raw::gsdf_luminance_of(k) }
}

pub fn index_of(l: u32) -> u32 {
    assert!(in_table(l));
    unsafe { raw::gsdf_index_of(l) }
}
