//! The second interpreter's own tests once more, with each report, check, question and edit made through libstation.a too and
//! compared: every row and slip of document 01, and every reading of it.

// Each of the files has a module `common`.
#![allow(clippy::duplicate_mod)]

extern crate self as second;
pub use station_tests::compared::*;

#[path = "../../second/tests/buffers.rs"]
mod buffers;
#[path = "../../second/tests/commands.rs"]
mod commands;
#[path = "../../second/tests/endings.rs"]
mod endings;
#[path = "../../second/tests/orders.rs"]
mod orders;
#[path = "../../second/tests/pages.rs"]
mod pages;
#[path = "../../second/tests/random.rs"]
mod random;
#[path = "../../second/tests/readings.rs"]
mod readings;
#[path = "../../second/tests/rows.rs"]
mod rows;
