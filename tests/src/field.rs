//! Fields in a lent buffer.

pub use crate::ffi::{missing_field as missing, number_field as number, string_field as string};
