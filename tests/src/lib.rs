//! The calls of libstation.a, by `station::testing`, and of libstation_testing.a in the second interpreter's terms, and what the tests share.

pub mod arithmetic;
pub mod compared;
pub mod documents;
mod ffi;
pub mod field;
pub mod generated;
pub mod line;
pub mod random;
pub mod report;
pub mod rows;
pub mod samples;
pub mod sections;
pub mod sheets;
pub mod store;
pub mod template;
