//! How trees become records: the fields, the classes of strings, and what cannot be written.

mod class;
mod error;
mod level;
mod writer;

pub use class::Class;
pub(crate) use error::{quoted, Encoded, Within};
pub use error::{EncodeError, Problem};
pub(crate) use level::Level;
pub(crate) use writer::{sorted, Writer};

/// The longest record, in bytes.
pub const MOST_BYTES: usize = 32_768;

/// The deepest level that a condition, term or type may stand at; the root's is 1.
pub const MOST_LEVELS: u8 = 32;

/// The longest string in a record, in bytes.
pub const MOST_TEXT: usize = 255;
