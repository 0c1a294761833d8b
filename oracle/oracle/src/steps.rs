//! The stepping check, which the published Rust has not: a list of targets of which each is pending, done or withdrawn, and
//! calls that do the first pending one, append one, or withdraw one; and a call that moves from one scope to own bodies.
//!
//! The Rust judges it all the same. With records, state and buffer as they were last left, the answer after a step and the
//! buffer are those of one check over the targets that are done, and that check the Rust has (`History::courses`). The state
//! follows from it too: where the reports end, how many visits there were, whether they fitted.
//!
//! Of a state or a buffer that no call left there is no such check. What a step makes of them is said by `step`, a small
//! model of the definition: it is asked about the check of one target alone, and what that reports goes behind the reports
//! that stand in the buffer. Behind a move there is no such check either, since some targets were done by the one rule and
//! some by the other; so the model says the further steps, and the Rust judges the check of each one target.

use crate::answers::{self, Answer, CONDITION, SCHEMA, TARGETS};
use crate::cases::{Case, Operation, Outcome, FILL};
use crate::hex;
use crate::records::{self, Listed, LONGEST};

/// The state, as it crosses the border of the library.
#[repr(C)]
#[derive(Debug, Clone, PartialEq, Eq)]
pub struct Steps {
    pub rules: u8,
    pub stopped: u8,
    pub marks: [u8; 256],
    pub used: usize,
    pub visits: u32,
}

pub const PENDING: u8 = 0;
pub const DONE: u8 = 1;
pub const WITHDRAWN: u8 = 2;

/// The bits of the rules that have a meaning.
pub const STRICT: u8 = 1;
pub const OWN_BODIES: u8 = 2;

const LIST_FULL: u8 = 18;
const NOT_PENDING: u8 = 19;

impl Steps {
    /// The state of a start.
    pub fn begun(rules: u8) -> Steps {
        Steps { rules, stopped: 0, marks: [PENDING; 256], used: 0, visits: 0 }
    }

    /// The first pending one of so many positions.
    fn first_pending(&self, count: usize) -> Option<usize> {
        (0..count).find(|position| self.marks[*position] == PENDING)
    }
}

/// What a check of these records by these rules, in a buffer of this size, answers and leaves in the buffer; none where that
/// is not known.
pub type Checked<'a> = &'a dyn Fn(u8, Case) -> Option<Outcome>;

/// What the oracle knows of a check by rules: of the strict ones nothing.
pub fn known(rules: u8, case: Case) -> Option<Outcome> {
    match rules & (STRICT | OWN_BODIES) {
        0 => Case { operation: Operation::Check, ..case }.outcome(),
        OWN_BODIES => Case { operation: Operation::Own, ..case }.outcome(),
        _ => None,
    }
}

fn checked_in(size: usize, rules: u8, records: [&[u8]; 3], checked: Checked) -> Option<(Answer, Vec<u8>)> {
    let records = records.map(<[u8]>::to_vec).to_vec();
    match checked(rules, Case { operation: Operation::Check, records, size })? {
        Outcome::Answered(answer, buffer) => Some((answer, buffer)),
        _ => None,
    }
}

/// The refusal of the first of three records that is refused.
fn refused([schema, condition, targets]: [&[u8]; 3]) -> Option<Answer> {
    let schema = records::read_schema(schema).map_err(|r| Answer::refused(SCHEMA, r));
    let condition = || records::read_condition(condition).map_err(|r| Answer::refused(CONDITION, r));
    let targets = || records::read_targets(targets).map_err(|r| Answer::refused(TARGETS, r));
    schema.and_then(|_| condition()).and_then(|_| targets()).err()
}

// ─── Between steps ───

/// A target appended to a list, which is the first `length` bytes of a buffer. The count is the list's new length.
pub fn append(list: &mut [u8], length: usize, target: &[u8]) -> Answer {
    let length = length.min(list.len());
    let of_record = |refusal| Answer::refused(TARGETS, refusal);
    let read = Listed::of(&list[..length]).map_err(of_record);
    let listed = match read.and_then(|listed| records::read_one_target(target).map(|_| listed).map_err(of_record)) {
        Ok(listed) => listed,
        Err(answer) => return answer,
    };
    let longer = length + target.len();
    if listed.targets.len() == 255 || longer > LONGEST {
        return Answer { number: LIST_FULL, ..Answer::done(0) };
    }
    if longer > list.len() {
        return Answer::full(0);
    }
    list[listed.front.len()] += 1;
    list[length..longer].copy_from_slice(target);
    Answer::done(longer)
}

/// A pending target withdrawn by its position.
pub fn withdraw(targets: &[u8], state: &mut Steps, position: u8) -> Answer {
    let position = usize::from(position);
    match Listed::of(targets) {
        Err(refusal) => Answer::refused(TARGETS, refusal),
        Ok(listed) if position < listed.targets.len() && state.marks[position] == PENDING => {
            state.marks[position] = WITHDRAWN;
            Answer::done(0)
        }
        Ok(_) => Answer { number: NOT_PENDING, ..Answer::done(0) },
    }
}

/// The rule changed to own bodies, for the targets that are done from now on.
pub fn move_to_own_bodies(state: &mut Steps) {
    state.rules |= OWN_BODIES;
}

// ─── Histories ───

#[derive(Debug, Clone, PartialEq, Eq)]
pub enum Call {
    Step,
    Append(Vec<u8>),
    Withdraw(u8),
    /// To own bodies. It answers nothing, and has the answer of zeros.
    Move,
}

/// A start and the calls behind it.
#[derive(Debug, Clone, PartialEq, Eq)]
pub struct History {
    pub rules: u8,
    /// Schema, condition, and the list of targets as it is at the start.
    pub records: [Vec<u8>; 3],
    /// How long the buffer is in which the list stands, at least as long as the list, and how long that of the reports.
    pub space: usize,
    pub size: usize,
    pub calls: Vec<Call>,
}

/// What a call answered, and what there is afterwards: the state, the list in its buffer, and the buffer of the reports.
#[derive(Debug, Clone, PartialEq, Eq)]
pub struct Course {
    pub answer: Answer,
    pub state: Steps,
    pub list: Vec<u8>,
    pub length: usize,
    pub buffer: Vec<u8>,
}

impl Course {
    /// The list as a record.
    pub fn targets(&self) -> &[u8] {
        &self.list[..self.length.min(self.list.len())]
    }

    /// A call appended or refused: what it answered, and the list's length.
    pub fn appended(&mut self, answer: Answer) {
        self.answer = answer;
        if answer.number == 0 {
            self.length = answer.count;
        }
    }
}

impl History {
    /// What there is before any answer: the list, with room behind it, and a buffer that was not written to.
    pub fn before(&self) -> Course {
        let mut list = vec![FILL; self.space];
        list[..self.records[2].len()].copy_from_slice(&self.records[2]);
        let length = self.records[2].len();
        let state = Steps::begun(self.rules);
        Course { answer: Answer::done(0), state, list, length, buffer: vec![FILL; self.size] }
    }

    /// The records with the list as it has become.
    pub fn records_with<'a>(&'a self, targets: &'a [u8]) -> [&'a [u8]; 3] {
        [&self.records[0], &self.records[1], targets]
    }

    /// Whether the rule is changed on the way.
    pub fn moves(&self) -> bool {
        self.calls.contains(&Call::Move)
    }

    /// What there is after the start and after each call, by one check over the targets that are done, or behind a change of
    /// the rule by the model of a step; none where what a check answers is not known.
    pub fn courses(&self, checked: Checked) -> Option<Vec<Course>> {
        let mut course = self.before();
        course.answer = refused(self.records_with(course.targets())).unwrap_or(Answer::done(0));
        let mut all = vec![course.clone()];
        for call in &self.calls {
            match call {
                Call::Step => self.step(&mut course, checked)?,
                Call::Append(target) => {
                    let answer = append(&mut course.list, course.length, target);
                    course.appended(answer);
                }
                Call::Withdraw(position) => {
                    let targets = course.targets().to_vec();
                    course.answer = withdraw(&targets, &mut course.state, *position);
                }
                Call::Move => {
                    move_to_own_bodies(&mut course.state);
                    course.answer = Answer::done(0);
                }
            }
            all.push(course.clone());
        }
        Some(all)
    }

    fn step(&self, course: &mut Course, checked: Checked) -> Option<()> {
        let targets = course.targets().to_vec();
        if course.state.rules != self.rules {
            // no one check has both rules
            let records = self.records_with(&targets);
            course.answer = step(records, &mut course.state, &mut course.buffer, checked)?;
            return Some(());
        }
        if let Some(answer) = refused(self.records_with(&targets)) {
            course.answer = answer;
            return Some(());
        }
        let listed = Listed::of(&targets).ok()?;
        let state = &mut course.state;
        if let (0, Some(position)) = (state.stopped, state.first_pending(listed.targets.len())) {
            state.marks[position] = DONE;
        }
        let done: Vec<usize> = (0..listed.targets.len()).filter(|position| state.marks[*position] == DONE).collect();
        let records = self.records_with(&targets);
        let records = [records[0], records[1], &listed.of_positions(&done)];
        (course.answer, course.buffer) = checked_in(self.size, self.rules, records, checked)?;
        state.stopped = u8::from(course.answer.number == 11);
        state.used = answers::reports(course.answer.count, &course.buffer).concat().len();
        state.visits = u32::try_from(course.answer.visits).expect("no list has so many visits");
        Some(())
    }

    /// The history on one line, for people: as the examples have it.
    pub fn line(&self) -> String {
        let [schema, condition, targets] = self.records.each_ref().map(|record| hex::encode(record));
        let sizes = format!("L {} B {}", self.space, self.size);
        let start = format!("{} steps S {schema} C {condition} T {targets} {sizes}", self.rules);
        let calls = self.calls.iter().map(|call| match call {
            Call::Step => " | step".to_string(),
            Call::Append(target) => format!(" | append {}", hex::encode(target)),
            Call::Withdraw(position) => format!(" | withdraw {position}"),
            Call::Move => " | move".to_string(),
        });
        start + &calls.collect::<String>()
    }
}

// ─── Any state ───

/// Space for all reports of most checks of one target.
const AMPLE: usize = 1 << 20;

/// The reports that stand whole at the front of some bytes.
fn standing(bytes: &[u8]) -> Vec<Vec<u8>> {
    let (mut rest, mut found) = (bytes, Vec::new());
    while let Some((head, behind)) = rest.split_at_checked(10) {
        let Some((_, next)) = behind.split_at_checked(usize::from(u16::from_be_bytes([head[8], head[9]]))) else {
            break;
        };
        found.push(rest[..rest.len() - next.len()].to_vec());
        rest = next;
    }
    found
}

/// Whether two reports are of one message and start.
fn is_repeat(one: &[u8], other: &[u8]) -> bool {
    one[..4] == other[..4] && one[10..] == other[10..]
}

/// A step from any state and buffer, by the definition: the answer; state and buffer as they are then. None where the check
/// of the one target is not known. The earlier reports are those that stand whole at the front of the used bytes. Where
/// something else stands there too, or the buffer is shorter, no new one fits.
pub fn step(records: [&[u8]; 3], state: &mut Steps, buffer: &mut [u8], checked: Checked) -> Option<Answer> {
    if let Some(answer) = refused(records) {
        return Some(answer);
    }
    let mut found = standing(&buffer[..state.used.min(buffer.len())]);
    let number = if state.stopped == 0 { 0 } else { 11 };
    let so_far = Answer { number, record: 0, count: found.len(), visits: state.visits as usize };
    let listed = Listed::of(records[2]).ok()?;
    let (0, Some(position)) = (number, state.first_pending(listed.targets.len())) else { return Some(so_far) };

    let alone = listed.of_positions(&[position]);
    let one = [records[0], records[1], &alone];
    let (answer, all) = checked_in(AMPLE, state.rules, one, checked)?;
    if answer.number != 0 {
        return None;
    }
    let room = if found.concat().len() == state.used { buffer.len() } else { 0 };
    let (mut begun, mut before) = (answer.visits, 0);
    state.stopped = 0;
    for report in answers::reports(answer.count, &all) {
        if !found.iter().any(|earlier| is_repeat(earlier, &report)) {
            if state.used.saturating_add(report.len()) > room {
                // the visits of a check of this target alone that has space for what it reported before
                begun = checked_in(before, state.rules, one, checked)?.0.visits;
                state.stopped = 1;
                break;
            }
            buffer[state.used..state.used + report.len()].copy_from_slice(&report);
            state.used += report.len();
            found.push(report.clone());
        }
        before += report.len();
    }
    state.marks[position] = DONE;
    state.visits = state.visits.saturating_add(u32::try_from(begun).expect("no target has so many visits"));
    let number = if state.stopped == 0 { 0 } else { 11 };
    Some(Answer { number, record: 0, count: found.len(), visits: state.visits as usize })
}

// ─── Stored histories ───

/// The letters of the calls of a stored history.
const STARTED: u8 = b'b';
const STEPPED: u8 = b's';
const APPENDED: u8 = b'a';
const WITHDREW: u8 = b'w';
const MOVED: u8 = b'm';

/// A stored history: what was asked, what was answered, and the list at the end.
pub struct Stored {
    pub history: History,
    pub answers: Vec<Answer>,
    pub list: Vec<u8>,
}

impl Stored {
    /// The history with what came out of it.
    pub fn of(history: History, courses: &[Course]) -> Stored {
        let answers = courses.iter().map(|course| course.answer).collect();
        let list = courses.last().map(|course| course.targets().to_vec()).unwrap_or_default();
        Stored { history, answers, list }
    }

    /// The case of a stored list. Its third record is: the rules, the space of the list (two bytes), the list at the start and
    /// at the end, and the calls, of which the first is the start. A call begins as a case does, with 0 for its SIZE, and then
    /// has its argument. Lists and arguments stand behind their lengths (two bytes).
    pub fn case(&self) -> Case {
        let history = &self.history;
        let [schema, condition, targets] = history.records.clone();
        let mut bytes = vec![history.rules];
        bytes.extend(u16_of(history.space));
        bytes.extend(field(&targets));
        bytes.extend(field(&self.list));
        let calls = history.calls.iter().map(|call| match call {
            Call::Step => (STEPPED, vec![]),
            Call::Append(target) => (APPENDED, target.clone()),
            Call::Withdraw(position) => (WITHDREW, vec![*position]),
            Call::Move => (MOVED, vec![]),
        });
        for ((letter, argument), answer) in std::iter::once((STARTED, vec![])).chain(calls).zip(&self.answers) {
            bytes.extend([letter, answer.number, answer.record]);
            bytes.extend([answer.count, 0, answer.visits].map(u16_of).concat());
            bytes.extend(field(&argument));
        }
        Case { operation: Operation::Steps, records: vec![schema, condition, bytes], size: history.size }
    }

    /// Reads what `case` writes.
    pub fn read(case: &Case) -> Option<Stored> {
        let [schema, condition, bytes] = &case.records[..] else { return None };
        let mut rest = Rest(bytes);
        let (rules, space) = (rest.take(1)?[0], rest.number()?);
        let (targets, list) = (rest.field()?, rest.field()?);
        let (mut calls, mut answers) = (Vec::new(), Vec::new());
        while !rest.0.is_empty() {
            let &[letter, number, record] = rest.take(3)? else { return None };
            let (count, _, visits) = (rest.number()?, rest.number()?, rest.number()?);
            answers.push(Answer { number, record, count, visits });
            let argument = rest.field()?;
            match letter {
                STEPPED => calls.push(Call::Step),
                APPENDED => calls.push(Call::Append(argument)),
                WITHDREW => calls.push(Call::Withdraw(*argument.first()?)),
                MOVED => calls.push(Call::Move),
                _ => {}
            }
        }
        let records = [schema.clone(), condition.clone(), targets];
        Some(Stored { history: History { rules, records, space, size: case.size, calls }, answers, list })
    }

    /// How many reports stand in the buffer at the end: the count of the last step.
    pub fn reports(&self) -> usize {
        let calls = self.history.calls.iter().zip(self.answers.iter().skip(1));
        calls.rev().find(|(call, _)| **call == Call::Step).map_or(0, |(_, answer)| answer.count)
    }

    /// The history and its answers on one line, for people.
    pub fn line(&self) -> String {
        let shown = |a: &Answer| format!("{} {} {} {}", a.number, a.record, a.count, a.visits);
        let answers: Vec<String> = self.answers.iter().map(shown).collect();
        format!("{} => {}", self.history.line(), answers.join(" | "))
    }

    /// The outcome of these courses: the last answer and the buffer, but no answer at all where another answer than the
    /// last, or the list at the end, is not what is stored.
    pub fn outcome(&self, courses: &[Course]) -> Option<Outcome> {
        let last = courses.last()?;
        let answers: Vec<Answer> = courses.iter().map(|course| course.answer).collect();
        (answers == self.answers && last.targets() == self.list && behind(last).all(|byte| *byte == FILL))
            .then(|| Outcome::Answered(last.answer, last.buffer.clone()))
    }
}

/// What stands behind a list.
fn behind(course: &Course) -> impl Iterator<Item = &u8> {
    course.list[course.targets().len()..].iter()
}

fn field(bytes: &[u8]) -> Vec<u8> {
    [&u16_of(bytes.len())[..], bytes].concat()
}

fn u16_of(n: usize) -> [u8; 2] {
    u16::try_from(n).expect("a number of a stored history has two bytes").to_be_bytes()
}

/// What is left to read.
struct Rest<'a>(&'a [u8]);

impl<'a> Rest<'a> {
    fn take(&mut self, count: usize) -> Option<&'a [u8]> {
        let (taken, rest) = self.0.split_at_checked(count)?;
        self.0 = rest;
        Some(taken)
    }

    fn number(&mut self) -> Option<usize> {
        let bytes = self.take(2)?;
        Some(usize::from(u16::from_be_bytes([bytes[0], bytes[1]])))
    }

    fn field(&mut self) -> Option<Vec<u8>> {
        let length = self.number()?;
        Some(self.take(length)?.to_vec())
    }
}
