//! The report interpreter of counting stations, for Rust programs.
//!
//! A [`Template`] that a laboratory wrote and a [`Store`] of results give a [`report()`]: the sheet, and the list of what
//! the run read. Stores answer questions and are edited by [`Store::put`] and [`Store::remove`]. All of it is the proved
//! library `libstation.a`, which `tools/library station` builds; this crate only hands over slices and names the numbers.
//! "Document 01" is the customer's paper, "Counting-station report interpreter"; docs/MANUAL.md says how templates are
//! written.
//!
//! ```
//! use station::{report, Key, Store, Template};
//!
//! let template = Template::check("$SEC SHEET\n$SETE FV1 P10\n$SETD FV1 P11\nLive part {FV1,6.3}\n")?;
//! let mut store = Store::new();
//! store.put(Key::parameter(10), 60_000)?;
//! store.put(Key::parameter(11), "60312.4".parse::<station::Decimal>()?)?;
//!
//! let sheet = report(&template, "SHEET", &store);
//! assert_eq!(sheet.text, "Live part  0.995\n");
//!
//! // A put of something that isn't on the read list: the reprint is the same sheet.
//! store.put(Key::parameter(12), 7)?;
//! assert_eq!(report(&template, "SHEET", &store), sheet);
//! # Ok::<(), Box<dyn std::error::Error>>(())
//! ```
//!
//! Every call takes less than 64 KB of stack, keeps nothing afterwards, and may run on any thread.
#![deny(unsafe_code, missing_docs)]

mod decimal;
mod explain;
#[allow(unsafe_code, missing_docs)]
mod ffi;
mod question;
mod refusal;
mod report;
mod store;
mod template;
#[doc(hidden)]
#[allow(missing_docs)]
pub mod testing;
mod text;

pub use decimal::{Decimal, NotADecimal};
pub use explain::Explanation;
pub use question::{Answer, Cell, Key, Question, Value};
pub use refusal::Refusal;
pub use report::{report, report_within, Report, READ_PLACES, TEXT_BYTES};
pub use store::{Cells, Store, STORE_BYTES, STORE_CELLS};
pub use template::{Refused, Template, TEMPLATE_BYTES};
pub use text::{NotACell, NotText};
