//! A calibration job as a text that is written by hand, and as the record that the engine reads. It follows document 01 and shares no code with the engine or its tests.
pub mod job;
pub mod quantity;
pub mod record;
pub mod text;
