//! The calls of station.h as they are, in slices: any bytes, any lengths. For tests and benchmarks; no part of what this crate
//! promises to its users.

pub use crate::ffi::{ask, check, check_run, put, remove, report, report_of_nulls};
pub use crate::ffi::{Asking, Ending, Handed};
