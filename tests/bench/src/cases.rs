//! What is measured.
use std::ops::Range;

use compare::yepidlaw::Check;

use crate::random::Random;
use crate::records::Records;
use crate::side::{self, Side};

/// A function, for the operations with what each side should give for its inputs in turn: a refusal, 0 where there is none, or a check's result.
#[derive(Clone, Copy)]
pub enum Function {
    Luminance,
    Index,
    Record,
    Nearest(&'static [u32]),
    Even(&'static [u32]),
    Check(&'static [Check]),
    Growth,
    /// A whole process.
    Program(&'static [u32]),
}

/// The inputs of `Function::Growth` are places in the list of its targets; those of the functions that take a record, in the list of records.
pub struct Case {
    pub name: &'static str,
    pub function: Function,
    pub inputs: Vec<u32>,
    /// How many are timed.
    pub passes: u32,
}

impl Case {
    /// Those that have the function; the methods in C have no part that reads a record into arrays, and none to which Table B-1 is lent.
    pub fn sides(&self) -> &'static [Side] {
        match self.function {
            Function::Luminance | Function::Index | Function::Record => &side::ALL[..2],
            _ => &side::ALL,
        }
    }
}

const PASS: Check = Check { refusal: 0, verdict: 1 };
const FAIL: Check = Check { refusal: 0, verdict: 2 };
const NOT_MEASURED: Check = Check { refusal: 0, verdict: 0 };

pub fn cases(records: &Records) -> Vec<Case> {
    let mut random = Random::new();
    let mut scattered = |first: u32, last: u32| -> Vec<u32> {
        let count = u64::from(last - first + 1);
        (0..100_000).map(|_| first + random.below(count) as u32).collect()
    };
    let indices = scattered(100, 102_300);
    let luminances = scattered(500, 39_934_040);
    let mut rising = luminances.clone();
    rising.sort_unstable();
    let all = |places: &Range<u32>| places.clone().collect::<Vec<_>>();
    let parts = all(&records.parts);
    let case = |name, function, inputs| Case { name, function, inputs, passes: 60 };
    let long = |name, function, inputs| Case { name, function, inputs, passes: 20 };
    let process = |name, function, inputs| Case { name, function, inputs, passes: 500 };
    vec![
        case("luminance-scattered", Function::Luminance, indices),
        case("index-scattered", Function::Index, luminances),
        case("index-rising", Function::Index, rising),
        case("record-2", Function::Record, vec![parts[0]; 1_000]),
        case("record-64", Function::Record, vec![parts[1]; 1_000]),
        case("record-1024", Function::Record, vec![parts[2]; 1_000]),
        case("nearest-2", Function::Nearest(&[0]), all(&records.few)),
        case("nearest-64", Function::Nearest(&[0]), all(&records.some)),
        case("nearest-1024", Function::Nearest(&[0]), all(&records.many)),
        case("nearest-refused", Function::Nearest(&[2, 3, 4, 5, 6, 7, 8, 9, 10]), all(&records.refused).repeat(100)),
        case("check-1024", Function::Check(&[PASS]), all(&records.many)),
        case("check-52", Function::Check(&[PASS]), all(&records.short)),
        case("check-failing", Function::Check(&[FAIL]), all(&records.failing)),
        case("check-none", Function::Check(&[NOT_MEASURED]), all(&records.some)),
        case("check-again", Function::Check(&[PASS]), vec![records.short.start; 1_000]),
        case(
            "check-refused",
            Function::Check(&[Check { refusal: 12, verdict: 0 }, Check { refusal: 13, verdict: 0 }]),
            all(&records.refused_checks).repeat(500),
        ),
        long("even-common", Function::Even(&[0]), all(&records.common)),
        long("even-worst", Function::Even(&[0]), all(&records.scattered)),
        case("even-refused", Function::Even(&[11]), all(&records.no_table).repeat(100)),
        long("growth-128", Function::Growth, vec![0; 4]),
        long("growth-256", Function::Growth, vec![1; 2]),
        long("growth-512", Function::Growth, vec![2]),
        long("growth-1024", Function::Growth, vec![3]),
        process("program-18", Function::Program(&[0]), vec![records.common.start]),
        process("program-1024", Function::Program(&[0]), vec![records.many.start]),
        process("program-refused", Function::Program(&[2]), all(&records.no_bytes)),
    ]
}
