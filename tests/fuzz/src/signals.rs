//! Coverage of the library's machine code, memory that ends at a page which cannot be read, and signals: `signals.c`.
use std::ffi::CString;

use crate::lent::Lengths;

mod raw {
    use std::os::raw::{c_char, c_int};

    extern "C" {
        pub fn handle_signals(record_path: *const c_char);
        pub fn save_record();
        pub fn end_is_asked() -> c_int;
        pub fn begin_execution(entries: usize, words: usize, places: usize);
        pub fn begin_call(record: *const u8, n: usize);
        pub fn guarded(n: usize) -> *mut u8;
        pub fn watch(places: *const *mut u8, n: usize) -> c_int;
        pub fn arm(place: usize);
        pub fn disarm(place: usize);
        pub fn was_met(place: usize) -> c_int;
        pub fn take_met_count() -> usize;
    }
}

/// A call that crashes or hangs, and a panic, save the record of the last call at this path, and say how to run it again.
pub fn handle(record_path: &str) {
    let path = CString::new(record_path).expect("a path has no zero byte");
    unsafe { raw::handle_signals(path.into_raw()) };
    let shown = std::panic::take_hook();
    std::panic::set_hook(Box::new(move |info| {
        shown(info);
        save_record();
    }));
}

pub fn save_record() {
    unsafe { raw::save_record() };
}

/// An execution begins, in which so much is lent; both are said where something is found.
pub fn begin_execution(lengths: Lengths) {
    unsafe { raw::begin_execution(lengths.entries, lengths.words, lengths.places) };
}

/// Whether an interrupt came, or a wish to end.
pub fn end_is_asked() -> bool {
    unsafe { raw::end_is_asked() != 0 }
}

/// A record that ends where its memory ends.
pub struct Guarded {
    end: *mut u8,
    most: usize,
}

impl Guarded {
    pub fn new(most: usize) -> Guarded {
        let end = unsafe { raw::guarded(most) };
        assert!(!end.is_null());
        Guarded { end, most }
    }

    /// The same bytes there; the calls that follow are with them.
    pub fn place(&mut self, record: &[u8]) -> &mut [u8] {
        assert!(record.len() <= self.most);
        let placed = unsafe { std::slice::from_raw_parts_mut(self.end.sub(record.len()), record.len()) };
        placed.copy_from_slice(record);
        unsafe { raw::begin_call(placed.as_ptr(), placed.len()) };
        placed
    }
}

/// Which blocks of the library were met.
pub struct Coverage {
    seen: Vec<bool>,
}

impl Coverage {
    /// Of blocks in rising order.
    pub fn new(blocks: &[*mut u8]) -> Coverage {
        assert!(unsafe { raw::watch(blocks.as_ptr(), blocks.len()) } != 0, "the blocks cannot be watched");
        let coverage = Coverage { seen: vec![false; blocks.len()] };
        coverage.arm_all();
        coverage
    }

    pub fn blocks(&self) -> usize {
        self.seen.len()
    }

    pub fn reached(&self) -> usize {
        self.seen.iter().filter(|&&seen| seen).count()
    }

    /// Before an execution of which every block counts.
    pub fn arm_all(&self) {
        (0..self.seen.len()).for_each(|place| unsafe { raw::arm(place) });
    }

    /// Whether blocks were met that had not been met before.
    pub fn has_new(&mut self) -> bool {
        if unsafe { raw::take_met_count() } == 0 {
            return false;
        }
        let before = self.reached();
        for (place, seen) in self.seen.iter_mut().enumerate() {
            *seen |= unsafe { raw::was_met(place) } != 0;
        }
        before < self.reached()
    }

    /// The blocks met since all were armed, as a number; those not met are watched no longer, unless they are new.
    pub fn met(&mut self) -> u64 {
        let mut met = 0xcbf2_9ce4_8422_2325u64;
        for (place, seen) in self.seen.iter().enumerate() {
            if unsafe { raw::was_met(place) } != 0 {
                met = (met ^ place as u64).wrapping_mul(0x0000_0100_0000_01b3);
            } else if *seen {
                unsafe { raw::disarm(place) };
            }
        }
        met
    }
}
