//! The engine's methods, written in Rust.
pub mod contrast;
pub mod even;
pub mod gsdf;
mod job;
pub mod nearest;
pub mod record;
pub mod report;
