//! What a call with a lent buffer answers.

use crate::ffi::{Returned, ReturnedCheck};
use crate::{Cause, RecordKind, Refusal};
use std::ops::Deref;

/// The answer of a call that writes to a lent buffer.
#[derive(Clone, Copy, Debug, PartialEq, Eq)]
pub struct Answer {
    /// Why there is none, or not all of it.
    pub refusal: Option<Refusal>,
    /// How many reports or windows stand in the buffer, or how many bytes of a lookup's output or of a decimal. It is 0
    /// after a refusal, but for [`Cause::NoSpace`] of a check, of sums and of windows, which counts what was kept.
    pub count: usize,
}

impl Answer {
    pub(crate) fn new(returned: Returned) -> Answer {
        let record = RecordKind::answered(returned.record);
        let refusal = Cause::answered(returned.number).map(|cause| Refusal { cause, record });
        Answer { refusal, count: returned.count }
    }

    /// Whether the output was longer than the buffer: [`Cause::NoSpace`].
    pub fn is_cut(&self) -> bool {
        self.refusal.is_some_and(|refusal| refusal.cause == Cause::NoSpace)
    }

    /// The library's number: 0, or that of the cause.
    pub fn number(&self) -> u8 {
        self.refusal.map_or(0, |refusal| refusal.cause.number())
    }

    /// The library's number of the refused record, 0 for none.
    pub fn record(&self) -> u8 {
        self.refusal.and_then(|refusal| refusal.record).map_or(0, RecordKind::number)
    }

    /// The count, or the refusal.
    pub fn into_result(self) -> Result<usize, Refusal> {
        match self.refusal {
            None => Ok(self.count),
            Some(refusal) => Err(refusal),
        }
    }
}

/// The answer of a check that writes to a lent buffer: an [`Answer`], to which it dereferences, and how much work it was.
///
/// ```
/// use dogwood_check::{check_into, Condition, Schema, Target, Targets};
///
/// let schema = Schema::new().encode()?;
/// let condition = Condition::and(0..20, Condition::call(0..9), Condition::call(11..20)).encode()?;
/// let targets = Targets::new().target(Target::new("view")).target(Target::new("edit")).encode()?;
/// let answer = check_into(&schema, &condition, &targets, &mut []);
/// assert_eq!((answer.refusal, answer.visits), (None, 6)); // three conditions under each of two targets
/// assert!(answer.visits * 9 <= 2 * (condition.len() - 5));
/// # Ok::<(), dogwood_check::EncodeError>(())
/// ```
#[derive(Clone, Copy, Debug, PartialEq, Eq)]
pub struct CheckAnswer {
    /// The refusal, if there is one, and how many reports stand in the buffer.
    pub answer: Answer,
    /// How many visits were begun, a visit being one reached condition looked at under one target. Where all reports fit
    /// these are (targets not skipped) × (reached conditions), whatever the [rules](crate::Rules) are. After
    /// [`Cause::NoSpace`] they are those up to and including the one whose report did not fit; after any other refusal
    /// there is none.
    pub visits: usize,
}

impl CheckAnswer {
    pub(crate) fn new(returned: ReturnedCheck) -> CheckAnswer {
        let ReturnedCheck { number, record, count, visits } = returned;
        CheckAnswer { answer: Answer::new(Returned { number, record, count }), visits }
    }
}

impl Deref for CheckAnswer {
    type Target = Answer;

    fn deref(&self) -> &Answer {
        &self.answer
    }
}
