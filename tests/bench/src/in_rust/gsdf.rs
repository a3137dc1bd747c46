//! G and J.

static TABLE_B1: [u32; 1023] = include!(concat!(env!("OUT_DIR"), "/table_b1.rs"));

fn jnd_luminance(j: u32) -> u32 {
    TABLE_B1[(j - 1) as usize]
}

#[inline(always)]
pub fn luminance(k: u32) -> u32 {
    let j = k / 100;
    let hundredths = k % 100;
    let low = jnd_luminance(j);
    if hundredths == 0 {
        return low;
    }
    let difference = jnd_luminance(j + 1) - low;
    low + difference * hundredths / 100
}

#[inline(always)]
pub fn index(l: u32) -> u32 {
    let mut j = 1;
    let mut width = 1023;
    while 1 < width {
        let half = width / 2;
        if jnd_luminance(j + half) <= l {
            j += half;
        }
        width -= half;
    }
    if j == 1023 {
        return 102_300;
    }
    let low = jnd_luminance(j);
    let difference = jnd_luminance(j + 1) - low;
    100 * j + (100 * (l - low) + 99) / difference
}

#[inline(never)]
pub extern "C" fn luminance_of(k: u32) -> u32 {
    luminance(k)
}

#[inline(never)]
pub extern "C" fn index_of(l: u32) -> u32 {
    index(l)
}
