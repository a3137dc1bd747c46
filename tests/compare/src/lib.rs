//! The engine through its C ABI, each function behind a safe one that tests what its contract asks; and job records drawn from a seed.
pub mod even;
pub mod gsdf;
pub mod jobs;
pub mod random;
pub mod record;
pub mod yepidlaw;
