//! The trait `Error` for what this crate's calls answer instead of a result: core's, or std's where
//! the compiler is older than Rust 1.81 (build.rs sets the cfg).
#[cfg(lesmutka_core_error)]
use core::error::Error;
#[cfg(not(lesmutka_core_error))]
use std::error::Error;

impl Error for crate::Refusal {}
impl Error for crate::ParseMethodError {}
impl Error for crate::ParseStepError {}
impl Error for crate::NotDecimal {}
