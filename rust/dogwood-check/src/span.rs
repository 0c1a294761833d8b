//! Places in a rule's text.

use std::fmt;
use std::ops::Range;

/// A part of a rule's text, from its start to before its end. A report carries the span of what it is about.
///
/// ```
/// use dogwood_check::Span;
///
/// assert_eq!(Span::from(3..8), Span { start: 3, end: 8 });
/// ```
#[derive(Clone, Copy, Debug, Default, PartialEq, Eq, Hash)]
pub struct Span {
    /// Where it starts.
    pub start: u32,
    /// Where it ends.
    pub end: u32,
}

impl From<Range<u32>> for Span {
    fn from(range: Range<u32>) -> Span {
        Span { start: range.start, end: range.end }
    }
}

impl fmt::Display for Span {
    fn fmt(&self, f: &mut fmt::Formatter) -> fmt::Result {
        write!(f, "{}..{}", self.start, self.end)
    }
}
