//! A second interpreter for counting-station report templates, written from
//! document 01, its decided readings and the manual that it names, and kept
//! plain, to be compared with another one.
#![forbid(unsafe_code)]

pub mod arguments;
pub mod endings;
pub mod fields;
pub mod lines;
mod machine;
pub mod numbers;
mod pages;
mod reader;
mod report;
pub mod store;
pub mod template;
pub mod values;
mod variables;

pub use report::{report, Report};
pub use store::{ask, put, remove, Answer, Asked, Edited, Question};
pub use template::check;
pub use values::Value;
