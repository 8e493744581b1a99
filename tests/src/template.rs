//! The checks of a template: the number and the line of checks 2 to 6, the line that a run starts with; and jumps.

pub use crate::ffi::skip;
pub use station::testing::{check, check_run};
