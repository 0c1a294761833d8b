//! A check that does one target at a time.

use crate::operations::{random_key, slots_for, FIRST_SPACE, GROWTH, LEAST_REPORT};
use crate::{ffi, Answer, CheckAnswer, Findings, Refusal, Reports, Rules, MOST_BYTES, MOST_SPACE};
use std::borrow::Cow;
use std::fmt;

/// A check that does one target at a time, so that the list of targets can change while it runs.
///
/// Each target of the list is pending, done or withdrawn ([`Progress`]), at a position that never changes.
/// [`step`](Stepping::step) does the first pending one; between steps [`append`](Stepping::append) puts one more behind the
/// others, and [`withdraw`](Stepping::withdraw) takes a pending one out. After each step the answer and the reports are
/// those of one [`check_with`](crate::check_with) over the targets that are done, in their order; or of two, one behind the
/// other, where [`move_to_own_bodies`](Stepping::move_to_own_bodies) changed the rules on the way.
///
/// ```
/// use dogwood_check::{Cause, Condition, Operator, Progress, Rules, Schema, Stepping, Target, Targets, Term};
///
/// let schema = Schema::new().encode()?;
/// let condition = Condition::comparison(0..8, Operator::Lt, Term::Bool, Term::Integer).encode()?;
/// let targets = Targets::new().target(Target::new("view")).target(Target::new("edit")).encode()?;
///
/// let mut check = Stepping::start(Rules::plain(), &schema, &condition, &targets)?;
/// assert_eq!(check.step(), Some(0));
/// assert_eq!(check.append(&Target::new("copy").encode()?), Ok(2));
/// check.withdraw(1)?;
/// assert_eq!(check.withdraw(0).map_err(|refusal| refusal.cause), Err(Cause::NotPending));
/// assert_eq!(check.step(), Some(2));
/// assert_eq!(check.step(), None);
///
/// let progress = [Progress::Done, Progress::Withdrawn, Progress::Done];
/// assert!((0..3).all(|position| check.progress(position) == Some(progress[usize::from(position)])));
/// assert_eq!((check.findings().reports.len(), check.visits()), (1, 2));
/// # Ok::<(), Box<dyn std::error::Error>>(())
/// ```
///
/// The value has all that the library asks for at a step: the records as they were at the start, the list as it has become
/// since, and the reports. Of a schema and a condition that are lent it has no copies; those that are given as a `Vec` it
/// keeps, so that it can outlive whoever made it. Its clone goes on by itself.
#[derive(Clone)]
pub struct Stepping<'a> {
    schema: Cow<'a, [u8]>,
    condition: Cow<'a, [u8]>,
    /// Record 3.
    list: Vec<u8>,
    state: ffi::Steps,
    /// The buffer of the reports, and how long it may become.
    reports: Vec<u8>,
    most: usize,
    workspace: Vec<u32>,
    /// The answer so far.
    answer: CheckAnswer,
}

/// What has become of a target.
#[derive(Clone, Copy, Debug, PartialEq, Eq, Hash)]
pub enum Progress {
    /// It waits for its step.
    Pending,
    /// It was checked, or skipped as a check skips it.
    Done,
    /// It was withdrawn, and will not be done.
    Withdrawn,
}

impl Progress {
    /// What a mark of the library says.
    fn of(mark: u8) -> Progress {
        match mark {
            0 => Progress::Pending,
            1 => Progress::Done,
            _ => Progress::Withdrawn,
        }
    }
}

impl<'a> Stepping<'a> {
    /// Reads the records as [`check_with`](crate::check_with) does, and does no target. The rules hold for every step, or
    /// until [`move_to_own_bodies`](Stepping::move_to_own_bodies).
    ///
    /// Where a record is refused there is nothing to step through, and the refusal is that of a check. The reports take as
    /// much space as they need, up to [`MOST_SPACE`].
    pub fn start(
        rules: Rules,
        schema: impl Into<Cow<'a, [u8]>>,
        condition: impl Into<Cow<'a, [u8]>>,
        targets: &[u8],
    ) -> Result<Stepping<'a>, Refusal> {
        Stepping::start_within(MOST_SPACE, rules, schema, condition, targets)
    }

    /// The same where the reports take at most so many bytes. The first that does not fit [stops](Stepping::has_stopped)
    /// the check, as it would stop one in a lent buffer of that size.
    pub fn start_within(
        most: usize,
        rules: Rules,
        schema: impl Into<Cow<'a, [u8]>>,
        condition: impl Into<Cow<'a, [u8]>>,
        targets: &[u8],
    ) -> Result<Stepping<'a>, Refusal> {
        let (schema, condition) = (schema.into(), condition.into());
        let started = ffi::steps_start(rules.bits(), [&schema, &condition, targets]);
        let answer = CheckAnswer::new(started.answer);
        if let Some(refusal) = answer.refusal {
            return Err(refusal);
        }
        Ok(Stepping {
            schema,
            condition,
            list: targets.to_vec(),
            state: started.state,
            reports: vec![0; FIRST_SPACE.min(most)],
            most,
            workspace: Vec::new(),
            answer,
        })
    }

    /// Does the first pending target, and says at which position it stands; none where none is pending, and none after the
    /// check [has stopped](Stepping::has_stopped). Then nothing changes.
    ///
    /// What was found stands behind what was found before, without repeats of a message at one start.
    pub fn step(&mut self) -> Option<u8> {
        let before = self.state.clone();
        let mut stepped = self.stepped(before.clone());
        while stepped.state.stopped != 0 && before.stopped == 0 && self.reports.len() < self.most {
            // the reports of the step that did not fit stand behind those before: it is made again, in more space
            self.reports.resize(self.most.min(self.reports.len() * GROWTH), 0);
            stepped = self.stepped(before.clone());
        }
        self.answer = CheckAnswer::new(stepped.answer);
        self.state = stepped.state;
        (0..=u8::MAX).find(|at| self.state.marks[usize::from(*at)] != before.marks[usize::from(*at)])
    }

    /// A step from this state, in the space that there is now, with workspace for all of its reports.
    fn stepped(&mut self, state: ffi::Steps) -> ffi::Stepped {
        let most = self.answer.count + self.condition.len();
        let slots = slots_for(most.min(self.reports.len() / LEAST_REPORT));
        self.workspace.resize(self.workspace.len().max(slots), 0);
        let workspace = &mut self.workspace[..slots];
        workspace[0] = random_key();
        ffi::steps_step_with([&self.schema, &self.condition, &self.list], state, &mut self.reports, workspace)
    }

    /// Appends a target, given by its bytes ([`Target::encode`](crate::Target::encode)), and says its position.
    ///
    /// Bytes that are no target are refused as the list of targets would be ([`Cause::Cut`](crate::Cause::Cut),
    /// [`Cause::OutsideClass`](crate::Cause::OutsideClass), [`Cause::BytesAfter`](crate::Cause::BytesAfter)).
    /// [`Cause::ListFull`](crate::Cause::ListFull): the list has 255 targets, or would have more than
    /// [`MOST_BYTES`]; withdrawn targets count in both. A refusal changes nothing.
    pub fn append(&mut self, target: &[u8]) -> Result<u8, Refusal> {
        let (length, position) = (self.list.len(), self.count());
        self.list.resize(MOST_BYTES, 0);
        let appended = Answer::new(ffi::steps_append(&mut self.list, length, target)).into_result();
        self.list.truncate(appended.unwrap_or(length));
        appended.map(|_| position)
    }

    /// Withdraws the pending target at a position. It keeps its place in the list and is not done. The same action may be
    /// appended again.
    ///
    /// [`Cause::NotPending`](crate::Cause::NotPending): it is done or withdrawn already, or there is none at that position. Then nothing changes.
    pub fn withdraw(&mut self, position: u8) -> Result<(), Refusal> {
        let withdrawn = ffi::steps_withdraw(&self.list, self.state.clone(), position);
        CheckAnswer::new(withdrawn.answer).into_result()?;
        self.state = withdrawn.state;
        Ok(())
    }

    /// Has binders bind in their own bodies from now on, as [`Rules::own_bodies`] does from the start. Strict or not stays
    /// as it was chosen.
    ///
    /// Targets that are done keep their reports, and those that are done later follow the new rule; a message at one start
    /// that was reported by either is not repeated. So where the check has not [stopped](Stepping::has_stopped), the
    /// different pairs of message and start are those of a check by the rules of the start over the targets that were done
    /// before, and those of a check with own bodies over the targets done since. The visits are as many as without.
    ///
    /// It may be called between any two steps, before the first and behind the last. There is no way back, and a second
    /// call changes nothing, nor does one in a check that was started with own bodies. A check that has stopped stays so.
    ///
    /// ```
    /// use dogwood_check::{Binder, Condition, Operator, Rules, Schema, Stepping, Target, Targets, Term};
    ///
    /// // (exists (v: Long). ..) && v == "a"
    /// let inside = Condition::exists(0..22, Binder::new("v", "Long"), Condition::call(18..22));
    /// let outside = Condition::comparison(27..35, Operator::Eq, Term::var("v"), Term::String);
    /// let condition = Condition::and(0..35, inside, outside).encode()?;
    /// let schema = Schema::new().encode()?;
    /// let targets = Targets::new().target(Target::new("view")).target(Target::new("edit")).encode()?;
    ///
    /// let mut check = Stepping::start(Rules::plain(), &schema, &condition, &targets)?;
    /// let mut other = check.clone();
    /// assert_eq!((check.step(), check.answer().count), (Some(0), 1));
    /// check.move_to_own_bodies();
    /// assert_eq!((check.step(), check.answer().count), (Some(1), 1));
    ///
    /// // before the first step it is a check with own bodies
    /// other.move_to_own_bodies();
    /// assert_eq!([other.step(), other.step(), other.step()], [Some(0), Some(1), None]);
    /// assert_eq!((other.answer().count, other.visits()), (0, check.visits()));
    /// # Ok::<(), Box<dyn std::error::Error>>(())
    /// ```
    pub fn move_to_own_bodies(&mut self) {
        self.state = ffi::steps_move(self.state.clone());
    }

    /// What has become of the target at a position; none where the list has no such position.
    pub fn progress(&self, position: u8) -> Option<Progress> {
        (position < self.count()).then(|| Progress::of(self.state.marks[usize::from(position)]))
    }

    /// The positions of the targets that wait for their step, in the order in which they will be done.
    pub fn pending(&self) -> impl Iterator<Item = u8> + '_ {
        self.positions(Progress::Pending)
    }

    /// The positions of the targets that are done.
    pub fn done(&self) -> impl Iterator<Item = u8> + '_ {
        self.positions(Progress::Done)
    }

    /// The positions of the targets that were withdrawn.
    pub fn withdrawn(&self) -> impl Iterator<Item = u8> + '_ {
        self.positions(Progress::Withdrawn)
    }

    fn positions(&self, progress: Progress) -> impl Iterator<Item = u8> + '_ {
        (0..self.count()).filter(move |position| self.progress(*position) == Some(progress))
    }

    /// How many targets the list has, withdrawn ones included: at most 255.
    pub fn count(&self) -> u8 {
        self.list[count_at(&self.list)]
    }

    /// The list of targets as it has become, a record that [`check`](crate::check) would read.
    pub fn targets(&self) -> &[u8] {
        &self.list
    }

    /// Whether a report did not fit. The target that it is about is done; no step does anything any more. This takes
    /// [`MOST_SPACE`] of reports, or what the check was [started within](Stepping::start_within).
    pub fn has_stopped(&self) -> bool {
        self.state.stopped != 0
    }

    /// The answer so far: that of one check over the targets that are done, or after a
    /// [move](Stepping::move_to_own_bodies) of two, each by its rules.
    pub fn answer(&self) -> CheckAnswer {
        self.answer
    }

    /// How many visits were begun so far, as [`CheckAnswer::visits`] counts them.
    pub fn visits(&self) -> usize {
        self.answer.visits
    }

    /// The reports so far, where they stand.
    pub fn reports(&self) -> Reports<'_> {
        Reports::new(&self.reports, self.answer.count).expect("the library writes whole reports")
    }

    /// The findings so far, copied out. There are [more](Findings::more) where the check [has stopped](Stepping::has_stopped).
    pub fn findings(&self) -> Findings {
        Findings { reports: self.reports().map(|report| report.to_report()).collect(), more: self.has_stopped() }
    }
}

/// Where an accepted targets record has its count: behind the heading and two narrowings, of which those from 2 on have a
/// name.
fn count_at(list: &[u8]) -> usize {
    let past_narrowing = |at: usize| if list[at] < 2 { at + 1 } else { at + 2 + usize::from(list[at + 1]) };
    past_narrowing(past_narrowing(5))
}

impl fmt::Debug for Stepping<'_> {
    fn fmt(&self, f: &mut fmt::Formatter) -> fmt::Result {
        let progress: Vec<Option<Progress>> = (0..self.count()).map(|position| self.progress(position)).collect();
        f.debug_struct("Stepping").field("answer", &self.answer).field("progress", &progress).finish_non_exhaustive()
    }
}
