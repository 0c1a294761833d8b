//! What is wrong with bytes that the library has not written.

use std::fmt;

/// Bytes that are not what the library writes.
#[derive(Clone, Copy, Debug, PartialEq, Eq)]
#[non_exhaustive]
pub enum DecodeError {
    /// The report with this number, from 0, is cut or its message is not UTF-8.
    Report {
        /// How many whole reports stand before it.
        index: usize,
    },
    /// There is no whole window with this number, from 0.
    Window {
        /// How many whole windows stand before it.
        index: usize,
    },
    /// The bytes are no output of a lookup.
    ScopePath,
}

impl fmt::Display for DecodeError {
    fn fmt(&self, f: &mut fmt::Formatter) -> fmt::Result {
        match self {
            DecodeError::Report { index } => write!(f, "no whole report stands behind the first {index}"),
            DecodeError::Window { index } => write!(f, "no whole window stands behind the first {index}"),
            DecodeError::ScopePath => write!(f, "these bytes are not the output of a lookup"),
        }
    }
}

impl std::error::Error for DecodeError {}
