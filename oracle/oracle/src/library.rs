//! The static library of the proved crates, called from Rust. A slice crosses the border as its address and its length,
//! an `Answer` as a C struct by value. A function that the library does not have answers `None`.

use oracle::answers::Answer;
use oracle::cases::{Case, Operation, Outcome};
use oracle::examples::windows::period_of;
use oracle::steps::{Call, Course, History, Steps, Stored};

/// The struct as the library returns it.
#[repr(C)]
#[derive(Clone, Copy)]
#[allow(dead_code)]
struct Returned {
    number: u8,
    record: u8,
    count: usize,
}

#[allow(dead_code)]
impl Returned {
    fn answer(self) -> Answer {
        Answer { number: self.number, record: self.record, count: self.count, visits: 0 }
    }
}

/// The struct of a check.
#[repr(C)]
#[derive(Clone, Copy)]
#[allow(dead_code)]
struct ReturnedCheck {
    number: u8,
    record: u8,
    count: usize,
    visits: usize,
}

#[allow(dead_code)]
impl ReturnedCheck {
    fn answer(self) -> Answer {
        Answer { number: self.number, record: self.record, count: self.count, visits: self.visits }
    }
}

/// The struct of a call of a stepping check.
#[repr(C)]
#[allow(dead_code)]
struct ReturnedStepped {
    answer: ReturnedCheck,
    state: Steps,
}

#[allow(dead_code)]
impl ReturnedStepped {
    fn taken_apart(self) -> (Answer, Steps) {
        (self.answer.answer(), self.state)
    }
}

#[allow(dead_code)]
extern "C" {
    fn dogwood_read_schema(bytes: *const u8, length: usize) -> u8;
    fn dogwood_read_condition(bytes: *const u8, length: usize) -> u8;
    fn dogwood_read_targets(bytes: *const u8, length: usize) -> u8;
    fn dogwood_read_path(bytes: *const u8, length: usize) -> u8;
    fn dogwood_check(
        schema: *const u8,
        schema_length: usize,
        condition: *const u8,
        condition_length: usize,
        targets: *const u8,
        targets_length: usize,
        reports: *mut u8,
        reports_length: usize,
    ) -> ReturnedCheck;
    fn dogwood_check_with(
        rules: u8,
        schema: *const u8,
        schema_length: usize,
        condition: *const u8,
        condition_length: usize,
        targets: *const u8,
        targets_length: usize,
        reports: *mut u8,
        reports_length: usize,
        workspace: *mut u32,
        workspace_length: usize,
    ) -> ReturnedCheck;
    fn dogwood_steps_start(
        rules: u8,
        schema: *const u8,
        schema_length: usize,
        condition: *const u8,
        condition_length: usize,
        targets: *const u8,
        targets_length: usize,
    ) -> ReturnedStepped;
    fn dogwood_steps_step(
        schema: *const u8,
        schema_length: usize,
        condition: *const u8,
        condition_length: usize,
        targets: *const u8,
        targets_length: usize,
        state: Steps,
        reports: *mut u8,
        reports_length: usize,
    ) -> ReturnedStepped;
    fn dogwood_steps_step_with(
        schema: *const u8,
        schema_length: usize,
        condition: *const u8,
        condition_length: usize,
        targets: *const u8,
        targets_length: usize,
        state: Steps,
        reports: *mut u8,
        reports_length: usize,
        workspace: *mut u32,
        workspace_length: usize,
    ) -> ReturnedStepped;
    fn dogwood_steps_append(
        list: *mut u8,
        list_space: usize,
        length: usize,
        target: *const u8,
        target_length: usize,
    ) -> Returned;
    fn dogwood_steps_withdraw(targets: *const u8, targets_length: usize, state: Steps, position: u8)
        -> ReturnedStepped;
    fn dogwood_steps_move(state: Steps) -> Steps;
    fn dogwood_sums(condition: *const u8, condition_length: usize, reports: *mut u8, reports_length: usize)
        -> Returned;
    fn dogwood_sums_with(
        rules: u8,
        condition: *const u8,
        condition_length: usize,
        reports: *mut u8,
        reports_length: usize,
    ) -> Returned;
    fn dogwood_windows(
        condition: *const u8,
        condition_length: usize,
        period: u64,
        output: *mut u8,
        output_length: usize,
    ) -> Returned;
    fn dogwood_lookup(
        schema: *const u8,
        schema_length: usize,
        targets: *const u8,
        targets_length: usize,
        path: *const u8,
        path_length: usize,
        output: *mut u8,
        output_length: usize,
    ) -> Returned;
    fn dogwood_write_decimal(value: i64, output: *mut u8, output_length: usize) -> Returned;
}

/// Calls a function of the library with plain values, slices that it reads, plain values, and slices that are lent to it, in
/// this order, where the library has it.
macro_rules! called {
    ($present:meta, $function:ident, [$($read:expr),*], [$($lent:expr),*]) => {
        called!($present, $function, [], [$($read),*], [], [$($lent),*])
    };
    ($present:meta, $function:ident, [$($plain:expr),*], [$($read:expr),*], [$($lent:expr),*]) => {
        called!($present, $function, [$($plain),*], [$($read),*], [], [$($lent),*])
    };
    (
        $present:meta, $function:ident, [$($first:expr),*], [$($read:expr),*], [$($plain:expr),*], [$($lent:expr),*]
    ) => {{
        #[cfg($present)]
        {
            // SAFETY: each address and length is that of a slice that lives through the call, and the lent ones are ours alone.
            Some(unsafe {
                $function(
                    $($first,)* $($read.as_ptr(), $read.len(),)* $($plain,)* $($lent.as_mut_ptr(), $lent.len(),)*
                )
            })
        }
        #[cfg(not($present))]
        {
            $(let _ = $first;)*
            $(let _ = &$read;)*
            $(let _ = $plain;)*
            $(let _ = &$lent;)*
            None
        }
    }};
}

pub fn read(operation: Operation, bytes: &[u8]) -> Option<u8> {
    match operation {
        Operation::ReadSchema => called!(has_dogwood_read_schema, dogwood_read_schema, [bytes], []),
        Operation::ReadCondition => called!(has_dogwood_read_condition, dogwood_read_condition, [bytes], []),
        Operation::ReadTargets => called!(has_dogwood_read_targets, dogwood_read_targets, [bytes], []),
        Operation::ReadPath => called!(has_dogwood_read_path, dogwood_read_path, [bytes], []),
        _ => None,
    }
}

pub fn check(schema: &[u8], condition: &[u8], targets: &[u8], reports: &mut [u8]) -> Option<Answer> {
    let returned: Option<ReturnedCheck> =
        called!(has_dogwood_check, dogwood_check, [schema, condition, targets], [reports]);
    returned.map(ReturnedCheck::answer)
}

/// The bits of `rules` that make the check strict and give each binder its own body.
#[allow(unused_imports)]
pub use oracle::steps::{OWN_BODIES, STRICT};

/// The check with lent workspace: slots of any number that hold anything.
#[allow(dead_code)]
pub fn check_with(
    rules: u8,
    [schema, condition, targets]: [&[u8]; 3],
    reports: &mut [u8],
    workspace: &mut [u32],
) -> Option<Answer> {
    let returned: Option<ReturnedCheck> = called!(
        has_dogwood_check_with,
        dogwood_check_with,
        [rules],
        [schema, condition, targets],
        [reports, workspace]
    );
    returned.map(ReturnedCheck::answer)
}

#[allow(dead_code)]
pub fn steps_start(rules: u8, [schema, condition, targets]: [&[u8]; 3]) -> Option<(Answer, Steps)> {
    let returned: Option<ReturnedStepped> =
        called!(has_dogwood_steps_start, dogwood_steps_start, [rules], [schema, condition, targets], []);
    returned.map(ReturnedStepped::taken_apart)
}

#[allow(dead_code)]
pub fn steps_step(records: [&[u8]; 3], state: Steps, reports: &mut [u8]) -> Option<(Answer, Steps)> {
    let [schema, condition, targets] = records;
    let returned: Option<ReturnedStepped> =
        called!(has_dogwood_steps_step, dogwood_steps_step, [], [schema, condition, targets], [state], [reports]);
    returned.map(ReturnedStepped::taken_apart)
}

/// The step with lent workspace.
#[allow(dead_code)]
pub fn steps_step_with(
    [schema, condition, targets]: [&[u8]; 3],
    state: Steps,
    reports: &mut [u8],
    workspace: &mut [u32],
) -> Option<(Answer, Steps)> {
    let returned: Option<ReturnedStepped> = called!(
        has_dogwood_steps_step_with,
        dogwood_steps_step_with,
        [],
        [schema, condition, targets],
        [state],
        [reports, workspace]
    );
    returned.map(ReturnedStepped::taken_apart)
}

#[allow(dead_code)]
pub fn steps_append(list: &mut [u8], length: usize, target: &[u8]) -> Option<Answer> {
    #[cfg(has_dogwood_steps_append)]
    {
        let (at, space) = (list.as_mut_ptr(), list.len());
        // SAFETY: each address and length is that of a slice that lives through the call, and the lent one is ours alone.
        Some(unsafe { dogwood_steps_append(at, space, length, target.as_ptr(), target.len()) }.answer())
    }
    #[cfg(not(has_dogwood_steps_append))]
    {
        let _ = (list, length, target);
        None
    }
}

#[allow(dead_code)]
pub fn steps_withdraw(targets: &[u8], state: Steps, position: u8) -> Option<(Answer, Steps)> {
    let returned: Option<ReturnedStepped> =
        called!(has_dogwood_steps_withdraw, dogwood_steps_withdraw, [], [targets], [state, position], []);
    returned.map(ReturnedStepped::taken_apart)
}

#[allow(dead_code)]
pub fn steps_move(state: Steps) -> Option<Steps> {
    called!(has_dogwood_steps_move, dogwood_steps_move, [], [], [state], [])
}

/// What there is after the start and after each call of a history, by the library, each step being made by `step`; none where
/// it lacks a function.
#[allow(dead_code)]
pub fn courses(
    history: &History,
    mut step: impl FnMut([&[u8]; 3], Steps, &mut [u8]) -> Option<(Answer, Steps)>,
) -> Option<Vec<Course>> {
    let mut course = history.before();
    (course.answer, course.state) = steps_start(history.rules, history.records_with(course.targets()))?;
    let mut all = vec![course.clone()];
    for call in &history.calls {
        let (targets, state) = (course.targets().to_vec(), course.state.clone());
        match call {
            Call::Step => {
                (course.answer, course.state) = step(history.records_with(&targets), state, &mut course.buffer)?;
            }
            Call::Append(target) => {
                let answer = steps_append(&mut course.list, course.length, target)?;
                course.appended(answer);
            }
            Call::Withdraw(position) => (course.answer, course.state) = steps_withdraw(&targets, state, *position)?,
            Call::Move => (course.answer, course.state) = (Answer::done(0), steps_move(state)?),
        }
        all.push(course.clone());
    }
    Some(all)
}

pub fn sums(condition: &[u8], reports: &mut [u8]) -> Option<Answer> {
    let returned: Option<Returned> = called!(has_dogwood_sums, dogwood_sums, [condition], [reports]);
    returned.map(Returned::answer)
}

#[allow(dead_code)]
pub fn sums_with(rules: u8, condition: &[u8], reports: &mut [u8]) -> Option<Answer> {
    let returned: Option<Returned> = called!(has_dogwood_sums_with, dogwood_sums_with, [rules], [condition], [reports]);
    returned.map(Returned::answer)
}

#[allow(dead_code)]
pub fn windows(condition: &[u8], period: u64, output: &mut [u8]) -> Option<Answer> {
    #[cfg(has_dogwood_windows)]
    {
        let (at, length) = (condition.as_ptr(), condition.len());
        // SAFETY: each address and length is that of a slice that lives through the call, and the lent one is ours alone.
        Some(unsafe { dogwood_windows(at, length, period, output.as_mut_ptr(), output.len()) }.answer())
    }
    #[cfg(not(has_dogwood_windows))]
    {
        let _ = (condition, period, output);
        None
    }
}

pub fn lookup(schema: &[u8], targets: &[u8], path: &[u8], output: &mut [u8]) -> Option<Answer> {
    let returned: Option<Returned> = called!(has_dogwood_lookup, dogwood_lookup, [schema, targets, path], [output]);
    returned.map(Returned::answer)
}

#[allow(dead_code)]
pub fn write_decimal(value: i64, output: &mut [u8]) -> Option<Answer> {
    let returned: Option<Returned> = called!(has_dogwood_write_decimal, dogwood_write_decimal, [value], [], [output]);
    returned.map(Returned::answer)
}

/// The library's outcome of a case; none where it lacks the function.
#[allow(dead_code)]
pub fn outcome(case: &Case) -> Option<Outcome> {
    let r = &case.records;
    let mut answer = None;
    let outcome = match case.operation {
        Operation::Check => case.in_buffer(|buffer| noted(&mut answer, check(&r[0], &r[1], &r[2], buffer))),
        Operation::Sums => case.in_buffer(|buffer| noted(&mut answer, sums(&r[0], buffer))),
        Operation::Lookup => case.in_buffer(|buffer| noted(&mut answer, lookup(&r[0], &r[1], &r[2], buffer))),
        Operation::Windows => case.in_buffer(|buffer| noted(&mut answer, windows(&r[0], period_of(&r[1]), buffer))),
        Operation::Strict => return ruled(STRICT, case),
        Operation::Own | Operation::OwnSums => return ruled(OWN_BODIES, case),
        Operation::Steps => {
            let stored = Stored::read(case)?;
            return stored.outcome(&courses(&stored.history, steps_step)?);
        }
        Operation::Terms => return None,
        reading => return read(reading, &r[0]).map(Outcome::Number),
    };
    answer.map(|_| outcome)
}

/// The library's outcome of a check or of sums by these rules, with few slots of workspace, whatever the rules of the case
/// are; none where it lacks the function.
#[allow(dead_code)]
pub fn ruled(rules: u8, case: &Case) -> Option<Outcome> {
    let r = &case.records;
    let mut answer = None;
    let outcome = case.in_buffer(|buffer| {
        let given = match case.operation {
            Operation::Sums | Operation::OwnSums => sums_with(rules, &r[0], buffer),
            _ => check_with(rules, [&r[0], &r[1], &r[2]], buffer, &mut [0; 8]),
        };
        noted(&mut answer, given)
    });
    answer.map(|_| outcome)
}

/// Keeps whether there was an answer, and hands on one in any case.
fn noted(kept: &mut Option<Answer>, answer: Option<Answer>) -> Answer {
    *kept = answer;
    answer.unwrap_or(Answer { number: 0, record: 0, count: 0, visits: 0 })
}

/// The operations whose functions the library has.
#[allow(dead_code)]
pub fn operations() -> Vec<Operation> {
    let empty = |operation: Operation| Case { operation, records: vec![Vec::new(); 3], size: 0 };
    Operation::ALL.into_iter().filter(|operation| outcome(&empty(*operation)).is_some()).collect()
}
