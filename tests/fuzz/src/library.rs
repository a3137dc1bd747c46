//! The library as a shared one, opened by its path.
use std::ffi::CString;
use std::os::raw::{c_char, c_int, c_void};

use compare::yepidlaw::{Check, Even, Nearest};

extern "C" {
    fn dlopen(path: *const c_char, flags: c_int) -> *mut c_void;
    fn dlsym(library: *mut c_void, name: *const c_char) -> *mut c_void;
}

const RTLD_NOW: c_int = 2;

type NearestCall = unsafe extern "C" fn(*const u8, usize, *mut u16, usize) -> Nearest;
type EvenCall = unsafe extern "C" fn(*const u8, usize, *mut u16, usize, *mut u32, usize) -> Even;
type CheckCall = unsafe extern "C" fn(*const u8, usize, *mut i32, usize) -> Check;

pub struct Library {
    nearest: NearestCall,
    even: EvenCall,
    check: CheckCall,
}

impl Library {
    pub fn open(path: &str) -> Library {
        let library = unsafe { dlopen(CString::new(path).expect("a path").as_ptr(), RTLD_NOW) };
        assert!(!library.is_null(), "{path} cannot be opened");
        let function = |name: &str| {
            let found = unsafe { dlsym(library, CString::new(name).expect("a name").as_ptr()) };
            assert!(!found.is_null(), "{path} has no {name}");
            found
        };
        unsafe {
            Library {
                nearest: std::mem::transmute::<*mut c_void, NearestCall>(function("yepidlaw_nearest")),
                even: std::mem::transmute::<*mut c_void, EvenCall>(function("yepidlaw_even")),
                check: std::mem::transmute::<*mut c_void, CheckCall>(function("yepidlaw_check")),
            }
        }
    }

    /// The addresses that are so far from the first byte of `yepidlaw_nearest`, one distance in each line.
    pub fn addresses(&self, distances: &str) -> Vec<*mut u8> {
        let address = |line: &str| (self.nearest as *mut u8).wrapping_offset(line.parse().expect("a distance is a number"));
        distances.lines().map(address).collect()
    }

    pub fn nearest(&self, record: &mut [u8], table: &mut [u16]) -> Nearest {
        unsafe { (self.nearest)(record.as_mut_ptr(), record.len(), table.as_mut_ptr(), table.len()) }
    }

    pub fn even(&self, record: &mut [u8], table: &mut [u16], work: &mut [u32]) -> Even {
        unsafe { (self.even)(record.as_mut_ptr(), record.len(), table.as_mut_ptr(), table.len(), work.as_mut_ptr(), work.len()) }
    }

    pub fn check(&self, record: &mut [u8], deviations: &mut [i32]) -> Check {
        unsafe { (self.check)(record.as_mut_ptr(), record.len(), deviations.as_mut_ptr(), deviations.len()) }
    }
}
