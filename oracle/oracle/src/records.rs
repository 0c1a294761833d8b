//! The four records, read into what the Rust works on.

mod condition;
mod fields;
mod path;
mod schema;
mod targets;
mod words;

pub use condition::{read_condition, read_numbered, words_of_condition, ConditionRecord};
pub use path::{read_path, PathRecord, Scope};
pub use schema::{read_schema, words_of_schema};
pub use targets::{read_one_target, read_targets, Listed, TargetsRecord};
pub use words::{Named, Saying, Time, Words};

/// The number of document 01's table that a record is refused with.
#[derive(Debug, Clone, Copy, PartialEq, Eq)]
pub struct Refusal(pub u8);

pub const TOO_LONG: Refusal = Refusal(1);
pub const CUT: Refusal = Refusal(2);
pub const OTHER_MARK: Refusal = Refusal(3);
pub const OTHER_VERSION: Refusal = Refusal(4);
pub const UNDEFINED_CHOICE: Refusal = Refusal(5);
pub const OUTSIDE_CLASS: Refusal = Refusal(6);
pub const TOO_DEEP: Refusal = Refusal(7);
pub const NOT_ASCENDING: Refusal = Refusal(8);
pub const AGGREGATE_BELOW_ARRAY: Refusal = Refusal(9);
pub const BYTES_AFTER: Refusal = Refusal(10);
pub const WINDOW_OUT_OF_RANGE: Refusal = Refusal(13);
pub const MALFORMED_DECIMAL: Refusal = Refusal(15);
pub const DECIMAL_OUT_OF_RANGE: Refusal = Refusal(16);

/// The longest record that is read.
pub const LONGEST: usize = 32_768;

/// The deepest level; the root stands at level 1.
pub const DEEPEST: u32 = 32;
