//! The engine's methods in two other languages.
pub mod in_c;
pub mod in_rust;
