//! What cannot be written as a record.

use super::{Class, MOST_BYTES, MOST_LEVELS, MOST_TEXT};
use crate::{Cause, Span, TimeUnit};
use std::fmt;

/// A tree that is no record: what is wrong with it, and where.
///
/// It is shown as a sentence that names the offender.
///
/// ```
/// use dogwood_check::{EntityType, Schema, Type};
///
/// let user = EntityType::new("User").attribute("born", Type::entity("the year"));
/// let error = Schema::new().entity_type(user).encode().unwrap_err();
/// assert_eq!(
///     error.to_string(),
///     "in entity type `User`, attribute `born`: `the year` is not a path name \
///      (identifiers of ASCII letters, digits and `_`, joined by `::`)"
/// );
/// ```
#[derive(Clone, Debug, PartialEq, Eq)]
pub struct EncodeError {
    problem: Problem,
    span: Option<Span>,
    /// From the inside out.
    places: Vec<String>,
}

/// A rule of the format that a tree breaks.
#[derive(Clone, Debug, PartialEq, Eq)]
#[non_exhaustive]
pub enum Problem {
    /// The record would have more than 32,768 bytes.
    TooLong {
        /// As many as this.
        bytes: usize,
    },
    /// A text has more than 255 bytes.
    TextTooLong {
        /// The text.
        text: String,
    },
    /// A text is outside the class of its place.
    OutsideClass {
        /// The text.
        text: String,
        /// What may stand there.
        class: Class,
    },
    /// A list has more entries than its count can say.
    TooMany {
        /// What it is a list of.
        what: &'static str,
        /// How many there are.
        count: usize,
        /// How many there may be.
        most: usize,
    },
    /// A condition, term or type stands below level 32.
    TooDeep,
    /// A name is given twice in a list where each stands once.
    Repeated {
        /// The name.
        name: String,
    },
    /// A sum, count or call of one stands below an array.
    AggregateBelowArray,
    /// A binder's annotation has no segments.
    NoSegments,
    /// A window is negative, or above 2^63 - 1 seconds.
    WindowOutOfRange {
        /// How many.
        amount: i64,
        /// Of which unit.
        unit: TimeUnit,
    },
    /// A condition that looks back has no window, while another one has, or a term of the record has its value.
    WindowMissing,
    /// A literal has no value, an entity no id or an arithmetic no operator, while another term of the record has.
    ValueMissing,
}

impl EncodeError {
    /// What is wrong.
    pub fn problem(&self) -> &Problem {
        &self.problem
    }

    /// The span of the innermost condition or aggregate that it is wrong in, where it is in one.
    pub fn span(&self) -> Option<Span> {
        self.span
    }

    /// The cause by which the library would refuse the record; none where the format has no such record at all.
    pub fn cause(&self) -> Option<Cause> {
        match self.problem {
            Problem::TooLong { .. } => Some(Cause::TooLong),
            Problem::OutsideClass { .. } => Some(Cause::OutsideClass),
            Problem::TooDeep => Some(Cause::TooDeep),
            Problem::Repeated { .. } => Some(Cause::NotAscending),
            Problem::AggregateBelowArray => Some(Cause::AggregateBelowArray),
            Problem::WindowOutOfRange { .. } => Some(Cause::WindowOutOfRange),
            Problem::TextTooLong { .. }
            | Problem::TooMany { .. }
            | Problem::NoSegments
            | Problem::WindowMissing
            | Problem::ValueMissing => None,
        }
    }
}

impl From<Problem> for EncodeError {
    fn from(problem: Problem) -> EncodeError {
        EncodeError { problem, span: None, places: Vec::new() }
    }
}

impl fmt::Display for EncodeError {
    fn fmt(&self, f: &mut fmt::Formatter) -> fmt::Result {
        if let Some(span) = self.span {
            write!(f, "at {span}: ")?;
        }
        if !self.places.is_empty() {
            let places: Vec<&str> = self.places.iter().rev().map(String::as_str).collect();
            write!(f, "in {}: ", places.join(", "))?;
        }
        self.problem.fmt(f)
    }
}

impl std::error::Error for EncodeError {}

impl fmt::Display for Problem {
    fn fmt(&self, f: &mut fmt::Formatter) -> fmt::Result {
        match self {
            Problem::TooLong { bytes } => write!(f, "the record has {bytes} bytes, and at most {MOST_BYTES} are read"),
            Problem::TextTooLong { text } => {
                write!(f, "{} has {} bytes, and a text has at most {MOST_TEXT}", quoted(text), text.len())
            }
            Problem::OutsideClass { text, class } => write!(f, "{} is not {class}", quoted(text)),
            Problem::TooMany { what, count, most } => write!(f, "there are {count} {what}, and at most {most} fit"),
            Problem::TooDeep => write!(f, "it is nested more than {MOST_LEVELS} levels deep"),
            Problem::Repeated { name } => write!(f, "{} is given twice", quoted(name)),
            Problem::AggregateBelowArray => write!(f, "a sum or count stands inside an array, where none may stand"),
            Problem::NoSegments => write!(f, "a type annotation has no name"),
            Problem::WindowOutOfRange { amount, unit } => write!(
                f,
                "the window of {amount} {} is negative or above {} seconds",
                format!("{unit:?}").to_lowercase(),
                i64::MAX
            ),
            Problem::WindowMissing => write!(
                f,
                "this condition looks back without a window, and the record has windows, or values, elsewhere"
            ),
            Problem::ValueMissing => write!(
                f,
                "a literal without its value, an entity without its id or an arithmetic without its operator stands here, \
                 and the record has such values elsewhere"
            ),
        }
    }
}

/// A text as a sentence quotes it: its beginning, where it is long, and control characters as escapes.
pub(crate) fn quoted(text: &str) -> String {
    const SHOWN: usize = 60;
    let mut quoted = String::from("`");
    for character in text.chars().take(SHOWN) {
        match character.is_control() {
            true => quoted.extend(character.escape_default()),
            false => quoted.push(character),
        }
    }
    quoted.push_str(if text.chars().nth(SHOWN).is_some() { "…`" } else { "`" });
    quoted
}

pub(crate) type Encoded = Result<(), EncodeError>;

/// Where an error is.
pub(crate) trait Within {
    /// Says that it is in this place, around those said before.
    fn within(self, place: impl FnOnce() -> String) -> Self;

    /// Says that it is in this span, unless a span further inside was said.
    fn at(self, span: Span) -> Self;
}

impl Within for Encoded {
    fn within(self, place: impl FnOnce() -> String) -> Encoded {
        self.map_err(|mut error| {
            error.places.push(place());
            error
        })
    }

    fn at(self, span: Span) -> Encoded {
        self.map_err(|error| EncodeError { span: error.span.or(Some(span)), ..error })
    }
}
