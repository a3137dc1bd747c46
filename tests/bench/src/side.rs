//! The engine and the same methods in Rust and in C: the same calls of each.
use compare::even::{self, EvenValues};
use compare::yepidlaw::{self, Check, Even, Nearest};

use bench::{in_c, in_rust};

#[derive(Clone, Copy, PartialEq)]
pub enum Side {
    Engine,
    Rust,
    C,
}

pub const ALL: [Side; 3] = [Side::Engine, Side::Rust, Side::C];

impl Side {
    pub fn name(self) -> &'static str {
        match self {
            Side::Engine => "engine",
            Side::Rust => "rust",
            Side::C => "c",
        }
    }

    #[inline(always)]
    pub fn nearest(self, bytes: &[u8], table: &mut [u16]) -> Nearest {
        match self {
            Side::Engine => yepidlaw::nearest(bytes, table),
            Side::Rust => in_rust::nearest::nearest(bytes, table),
            Side::C => in_c::nearest(bytes, table),
        }
    }

    #[inline(always)]
    pub fn even(self, bytes: &[u8], table: &mut [u16], work: &mut [u32]) -> Even {
        match self {
            Side::Engine => yepidlaw::even(bytes, table, work),
            Side::Rust => in_rust::even::even(bytes, table, work),
            Side::C => in_c::even(bytes, table, work),
        }
    }

    #[inline(always)]
    pub fn check(self, bytes: &[u8], deviations: &mut [i32]) -> Check {
        match self {
            Side::Engine => yepidlaw::check(bytes, deviations),
            Side::Rust => in_rust::contrast::check(bytes, deviations),
            Side::C => in_c::check(bytes, deviations),
        }
    }

    #[inline(always)]
    pub fn even_fill(self, curve: &[u32], targets: &[u32], tolerance: u16, lent: even::Lent) -> EvenValues {
        match self {
            Side::Engine => even::fill(curve, targets, tolerance, lent),
            Side::Rust => in_rust::even::even_fill(curve, targets, tolerance, lent),
            Side::C => in_c::even_fill(curve, targets, tolerance, lent),
        }
    }
}
