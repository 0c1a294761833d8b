//! Why the library gives no answer.

use crate::MOST_SPACE;
use std::fmt;

/// The cause of a refusal. Its number is the one that the library returns.
///
/// The numbers 1 to 10, 13, 15 and 16 are met while a record is read: the first one from the left counts.
#[derive(Clone, Copy, Debug, PartialEq, Eq, Hash)]
#[non_exhaustive]
#[repr(u8)]
pub enum Cause {
    /// The record is above 32,768 bytes.
    TooLong = 1,
    /// The bytes end before a field does.
    Cut = 2,
    /// The record's mark is another one.
    OtherMark = 3,
    /// The record's version is another one.
    OtherVersion = 4,
    /// An undefined kind, type, operator or other choice byte.
    UndefinedChoice = 5,
    /// A string outside its class.
    OutsideClass = 6,
    /// Something stands at level 33.
    TooDeep = 7,
    /// Names that do not ascend.
    NotAscending = 8,
    /// An aggregate anywhere below an array.
    AggregateBelowArray = 9,
    /// Bytes after the end.
    BytesAfter = 10,
    /// The output is longer than the buffer.
    NoSpace = 11,
    /// The position is not in the list of targets.
    NoSuchTarget = 12,
    /// A window is negative, or above 2^63 - 1 seconds.
    WindowOutOfRange = 13,
    /// The period of a listing is 0.
    NoPeriod = 14,
    /// The text of a decimal is malformed.
    MalformedDecimal = 15,
    /// A decimal is well formed, but beyond 64 bits.
    DecimalOutOfRange = 16,
    /// One target more would be the 256th, or make the list longer than 32,768 bytes.
    ListFull = 18,
    /// The target to be withdrawn is done, withdrawn or not in the list.
    NotPending = 19,
}

impl Cause {
    /// Every cause, in the order of the numbers.
    pub const ALL: [Cause; 18] = [
        Cause::TooLong,
        Cause::Cut,
        Cause::OtherMark,
        Cause::OtherVersion,
        Cause::UndefinedChoice,
        Cause::OutsideClass,
        Cause::TooDeep,
        Cause::NotAscending,
        Cause::AggregateBelowArray,
        Cause::BytesAfter,
        Cause::NoSpace,
        Cause::NoSuchTarget,
        Cause::WindowOutOfRange,
        Cause::NoPeriod,
        Cause::MalformedDecimal,
        Cause::DecimalOutOfRange,
        Cause::ListFull,
        Cause::NotPending,
    ];

    /// The library's number of this cause, 1 to 19; none has 17.
    pub fn number(self) -> u8 {
        self as u8
    }

    /// The cause with this number; none for 0, which is no refusal, and for numbers that have no meaning.
    ///
    /// ```
    /// use dogwood_check::Cause;
    ///
    /// assert_eq!(Cause::from_number(7), Some(Cause::TooDeep));
    /// assert_eq!(Cause::from_number(0), None);
    /// ```
    pub fn from_number(number: u8) -> Option<Cause> {
        Cause::ALL.into_iter().find(|cause| cause.number() == number)
    }

    /// What the library's number means, 0 being no refusal.
    pub(crate) fn answered(number: u8) -> Option<Cause> {
        known(number, Cause::from_number)
    }

    /// The sentence about a record, which `subject` names.
    fn sentence(self, subject: &str, f: &mut fmt::Formatter) -> fmt::Result {
        match self {
            Cause::TooLong => write!(f, "{subject} is too large: it takes more than 32,768 bytes"),
            Cause::Cut => write!(f, "{subject} is incomplete: its bytes end in the middle"),
            Cause::OtherMark => {
                write!(f, "{subject} is something else: its first bytes are not the ones that belong there")
            }
            Cause::OtherVersion => write!(f, "{subject} is in a version of the format that this check does not know"),
            Cause::UndefinedChoice => {
                write!(f, "{subject} has a kind, type or operator that the format does not define")
            }
            Cause::OutsideClass => write!(
                f,
                "{subject} has a name with characters that may not stand there: the names of types are ASCII letters, \
                 digits and `_`, joined by `::`, and other names have no quotes, backslashes or letters beyond ASCII"
            ),
            Cause::TooDeep => write!(f, "{subject} is nested more than 32 levels deep"),
            Cause::NotAscending => write!(f, "{subject} has names that are out of order or given twice"),
            Cause::AggregateBelowArray => {
                write!(f, "{subject} has a sum or count inside an array, where none may stand")
            }
            Cause::BytesAfter => write!(f, "{subject} goes on behind its end: there are bytes left over"),
            Cause::NoSpace => write!(
                f,
                "the answer is longer than the buffer lent for it, or, where none was lent, than the {} MiB that a call \
                 takes at most",
                MOST_SPACE >> 20
            ),
            Cause::NoSuchTarget => write!(f, "the position asked for is not in the list of targets"),
            Cause::WindowOutOfRange => {
                write!(f, "{subject} has a window that is negative or above {} seconds", i64::MAX)
            }
            Cause::NoPeriod => write!(f, "a period of 0 seconds cannot be asked for"),
            Cause::MalformedDecimal => write!(
                f,
                "{subject} has a decimal that is not written as one: digits, a point and one to four digits are wanted"
            ),
            Cause::DecimalOutOfRange => write!(
                f,
                "{subject} has a decimal beyond 64 bits: it is below -922337203685477.5808 or above \
                 922337203685477.5807"
            ),
            Cause::ListFull => write!(
                f,
                "the list of targets is full: it has at most 255 targets, withdrawn ones included, in 32,768 bytes"
            ),
            Cause::NotPending => {
                write!(f, "the target cannot be withdrawn: it is done or withdrawn already, or not in the list")
            }
        }
    }
}

impl fmt::Display for Cause {
    fn fmt(&self, f: &mut fmt::Formatter) -> fmt::Result {
        self.sentence("the record", f)
    }
}

impl std::error::Error for Cause {}

/// The four records, in the order in which they are read.
#[derive(Clone, Copy, Debug, PartialEq, Eq, PartialOrd, Ord, Hash)]
#[non_exhaustive]
#[repr(u8)]
pub enum RecordKind {
    /// The schema: entity types and actions.
    Schema = 1,
    /// The condition of a rule.
    Condition = 2,
    /// The narrowing and the targets of a rule.
    Targets = 3,
    /// A path under principal or resource.
    Path = 4,
}

impl RecordKind {
    /// Every record, in the order of the numbers.
    pub const ALL: [RecordKind; 4] = [RecordKind::Schema, RecordKind::Condition, RecordKind::Targets, RecordKind::Path];

    /// The library's number of this record, 1 to 4.
    pub fn number(self) -> u8 {
        self as u8
    }

    /// The record with this number; none for 0 and for numbers that have no meaning.
    pub fn from_number(number: u8) -> Option<RecordKind> {
        RecordKind::ALL.into_iter().find(|record| record.number() == number)
    }

    /// What the library's number means, 0 being no record.
    pub(crate) fn answered(number: u8) -> Option<RecordKind> {
        known(number, RecordKind::from_number)
    }
}

impl fmt::Display for RecordKind {
    fn fmt(&self, f: &mut fmt::Formatter) -> fmt::Result {
        f.write_str(match self {
            RecordKind::Schema => "the schema",
            RecordKind::Condition => "the condition",
            RecordKind::Targets => "the list of targets",
            RecordKind::Path => "the path",
        })
    }
}

/// The meaning of a number that the library returns; 0 has none. Any other number without one is of another version.
fn known<T>(number: u8, meaning: fn(u8) -> Option<T>) -> Option<T> {
    let meant = meaning(number);
    assert!(
        number == 0 || meant.is_some(),
        "libdogwood.a answers {number}, and is of another version than dogwood-check"
    );
    meant
}

/// A refusal: its cause, and the record that it is about.
///
/// It is shown as a sentence for whoever wrote the rule.
///
/// ```
/// use dogwood_check::{Cause, RecordKind, Refusal};
///
/// let refusal = Refusal { cause: Cause::TooDeep, record: Some(RecordKind::Condition) };
/// assert_eq!(refusal.to_string(), "the condition is nested more than 32 levels deep");
/// ```
#[derive(Clone, Copy, Debug, PartialEq, Eq, Hash)]
pub struct Refusal {
    /// Why.
    pub cause: Cause,
    /// Which record; none for [`Cause::NoSpace`], [`Cause::NoPeriod`], [`Cause::ListFull`] and [`Cause::NotPending`].
    pub record: Option<RecordKind>,
}

impl fmt::Display for Refusal {
    fn fmt(&self, f: &mut fmt::Formatter) -> fmt::Result {
        match self.record {
            Some(record) => self.cause.sentence(&record.to_string(), f),
            None => self.cause.fmt(f),
        }
    }
}

impl std::error::Error for Refusal {}
