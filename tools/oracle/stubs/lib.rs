//! Stands in for the original's root file: only what the nine files need.

#![allow(warnings)]

extern crate alloc;

/// The original makes a streaming reader here; the driver calls `extract_opt` itself.
#[macro_export]
macro_rules! impl_reader {
    ($($part:tt)*) => {};
}

pub mod buffer;
pub mod driver;
pub mod error;
#[cfg(feature = "library")]
pub mod fetch;
#[cfg(feature = "library")]
pub mod fill;
pub mod parsers;
pub mod record;

pub use crate::error::EtError;
