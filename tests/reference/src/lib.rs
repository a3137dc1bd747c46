//! The rules of the calibration in another language and by other methods than the engine's: scans over all levels, and no arithmetic narrower than 64 bits.
pub mod contrast;
pub mod curve;
pub mod engine;
pub mod even;
pub mod gsdf;
pub mod nearest;
pub mod record;
pub mod report;
pub mod target;
