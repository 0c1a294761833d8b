//! The temporal type check of Dogwood, as proved in Rattle, for Rust servers.
//!
//! A server that takes rules in asks [`check`] whether a rule's condition compares what can be compared, and [`sums`]
//! whether it adds up numbers alone; [`lookup`] says what a path under `principal` or `resource` is, and [`windows`] how
//! far back a condition looks, counted in the sweeps of an archive. All of them work on records, byte strings in a format that `docs/RECORDS.md` of the repository describes. [`Schema`],
//! [`Condition`], [`Targets`] and [`Path`] build them from trees: what the format cannot hold is an [`EncodeError`]
//! and never a wrong record.
//!
//! ```
//! use dogwood_check::{check, Action, Condition, Operator, Schema, Target, Targets, Term, Type};
//!
//! // the year of a letter is held as text
//! let input = Type::record([("year", Type::String)]);
//! let view = Action::new("Action", "view").context(Type::record([("input", input)]));
//! let schema = Schema::new().action(view).encode()?;
//!
//! // context.input.year < 1900
//! let year = Term::context(["input", "year"]);
//! let condition = Condition::comparison(0..25, Operator::Lt, year, Term::Integer).encode()?;
//! let targets = Targets::new().target(Target::new("view")).encode()?;
//!
//! for report in check(&schema, &condition, &targets)? {
//!     assert_eq!(
//!         report.to_string(),
//!         "0..25: comparison requires numeric operands on both sides, got `string` and `int`"
//!     );
//! }
//! # Ok::<(), Box<dyn std::error::Error>>(())
//! ```
//!
//! # Two layers
//!
//! [`check_with`], [`sums_into`], [`sums_with`], [`windows_into`] and [`lookup_into`] take lent space and allocate nothing;
//! [`check_into`] takes a lent buffer, and workspace of its own where a request may have very many reports. [`check_with`]
//! and [`sums_with`] also take the caller's [`Rules`]. [`Reports`] and [`ScopePath::decode`] read what they write. [`check`], [`sums`] and [`lookup`] take the space they need, up to [`MOST_SPACE`], and give owned
//! values; [`Findings`] say whether there were more reports than that holds.
//!
//! A [`Stepping`] check does one target at a time, so that targets can be appended or withdrawn while it runs, and so that
//! it can go over to the rules of own bodies.
//!
//! Any bytes may be given as records: what is no record is refused, with a [`Cause`] and the record that it is about. A
//! record in another one's place is refused too, by its mark. [`read_schema`] and its like say beforehand whether bytes
//! are a record.
//!
//! # What is proved, and what is not
//!
//! The library behind these functions is proved to answer as the typing rules say, for all bytes. This crate is not
//! proved: it is tested against the proved readers. All of its unsafe code stands in one module, which passes slices
//! over the C interface.
//!
//! The functions may be called from any number of threads; a call stays below 64 KiB of stack.

#![deny(missing_docs)]
#![deny(unsafe_op_in_unsafe_fn)]
#![deny(unsafe_code)]

mod answer;
mod binder;
mod condition;
mod decimal;
mod decode;
mod encode;
#[allow(unsafe_code)]
mod ffi;
mod findings;
mod operations;
mod path;
mod refusal;
mod report;
mod rules;
mod schema;
mod scope_path;
mod span;
mod stepping;
mod targets;
mod term;
mod value;
mod window;

pub use answer::{Answer, CheckAnswer};
pub use binder::{Annotation, Binder, Slot};
pub use condition::{Argument, Condition, ConditionKind, Operator, Predicate};
pub use decimal::{Decimal, DecimalError, MOST_DECIMAL};
pub use decode::DecodeError;
pub use encode::{Class, EncodeError, Problem, MOST_BYTES, MOST_LEVELS, MOST_TEXT};
pub use findings::Findings;
pub use operations::{
    check, check_into, check_with, lookup, lookup_into, read_condition, read_path, read_schema, read_targets, sums,
    sums_into, sums_with, windows, windows_into, workspace_for, write_decimal_into, MOST_SPACE,
};
pub use path::{Path, Scope};
pub use refusal::{Cause, RecordKind, Refusal};
pub use report::{Report, ReportRef, Reports};
pub use rules::Rules;
pub use schema::{Action, Attribute, EntityType, Schema, Type};
pub use scope_path::ScopePath;
pub use span::Span;
pub use stepping::{Progress, Stepping};
pub use targets::{Narrowing, Target, Targets};
pub use term::{Aggregate, AggregateKind, Term};
pub use value::{ArithOp, Value};
pub use window::{ListedWindow, ListedWindows, TimeUnit, Window};

/// The example of README.md runs with the documentation's.
#[cfg(doctest)]
#[doc = include_str!("../README.md")]
struct Readme;
