//! The stepping check: the examples, the stored form of a history, and that the model of a step from any state says of
//! states that were left by calls what one check over the targets that are done says; where the rule is changed on the way,
//! that the reports are those of both parts.

use oracle::answers::{self, Answer};
use oracle::cases::{Case, Operation, Outcome};
use oracle::examples::steps as examples;
use oracle::generate::histories;
use oracle::records::Listed;
use oracle::rng::Rng;
use oracle::steps::{self, known, Call, Course, History, Steps, Stored};
use std::collections::BTreeSet;

fn numbers(answer: Answer) -> Vec<usize> {
    vec![answer.number.into(), answer.record.into(), answer.count, answer.visits]
}

#[test]
fn each_example_is_answered_as_its_line_says() {
    for e in examples::all() {
        let courses = e.history.courses(&known).expect("the oracle knows each example");
        let answers: Vec<Vec<usize>> = courses.iter().map(|course| numbers(course.answer)).collect();
        let said: Vec<Vec<usize>> =
            e.answers.iter().zip(&answers).map(|(said, answer)| answer[..said.len()].to_vec()).collect();
        assert_eq!((said, answers.len()), (e.answers.clone(), e.answers.len()), "{}", e.shows);
    }
}

#[test]
fn a_stored_history_is_read_as_it_was() {
    let mut read = 0;
    for e in examples::all().into_iter().filter(|e| e.history.records[2].len() < 1_000) {
        let courses = e.history.courses(&known).expect("the oracle knows each example");
        let case = Stored::of(e.history.clone(), &courses).case();
        assert_eq!(case.operation, Operation::Steps);
        assert_eq!(Stored::read(&case).map(|stored| stored.history), Some(e.history), "{}", e.shows);
        let last = courses.last().expect("a start");
        assert_eq!(case.outcome(), Some(Outcome::Answered(last.answer, last.buffer.clone())), "{}", e.shows);
        read += 1;
    }
    assert!(read > 30, "{read}");
}

/// An answer, the list at the end, and what stands behind it belong to the outcome.
#[test]
fn an_outcome_is_that_of_all_calls() {
    let history = &examples::all()[6].history;
    let courses = history.courses(&known).unwrap();
    let stored = Stored::of(history.clone(), &courses);
    assert!(stored.outcome(&courses).is_some());
    let changed = |change: fn(&mut Vec<Course>)| {
        let mut other = courses.clone();
        change(&mut other);
        stored.outcome(&other)
    };
    assert!(changed(|all| all[1].answer.visits += 1).is_none());
    assert!(changed(|all| all.last_mut().unwrap().list[9] ^= 1).is_none());
    assert!(changed(|all| *all.last_mut().unwrap().list.last_mut().unwrap() = 0).is_none());
    assert!(changed(|all| drop(all.remove(2))).is_none());
}

/// What the model of any state says of a history.
fn by_the_model(history: &History) -> Option<Vec<Course>> {
    let mut all = history.courses(&known)?;
    for at in 1..all.len() {
        let Call::Step = history.calls[at - 1] else { continue };
        let mut course = all[at - 1].clone();
        let targets = course.targets().to_vec();
        let records = history.records_with(&targets);
        course.answer = steps::step(records, &mut course.state, &mut course.buffer, &known)?;
        all[at] = course;
    }
    Some(all)
}

#[test]
fn the_model_of_a_step_agrees_with_one_check() {
    let mut rng = Rng::new(108);
    let (mut compared, mut stopped, mut reports) = (0, 0, 0);
    while compared < 400 {
        let mut history = histories::history(&mut rng, &known);
        history.rules &= !steps::STRICT;
        let Some(courses) = history.courses(&known) else { continue };
        assert_eq!(by_the_model(&history), Some(courses.clone()), "{}", history.line());
        compared += 1;
        stopped += usize::from(courses.iter().any(|course| course.state.stopped == 1));
        reports += courses.last().map_or(0, |course| course.answer.count);
    }
    assert!(stopped > 50 && reports > 200, "{stopped} {reports}");
}

/// A history with moves by rules that the Rust judges, and its courses.
fn moved(rng: &mut Rng) -> (History, Vec<Course>) {
    loop {
        let mut history = histories::moved_history(rng, &known);
        history.rules &= !steps::STRICT;
        if let Some(courses) = history.courses(&known) {
            return (history, courses);
        }
    }
}

/// A move before the first step is a start with own bodies, so that one check judges all that the model says behind it.
#[test]
fn a_move_at_the_start_is_a_start_with_own_bodies() {
    let mut rng = Rng::new(113);
    let (mut reports, mut stopped) = (0, 0);
    for _ in 0..600 {
        let mut history = moved(&mut rng).0;
        history.calls.retain(|call| *call != Call::Move);
        let own = History { rules: history.rules | steps::OWN_BODIES, ..history.clone() };
        history.calls.insert(0, Call::Move);
        let (moved, wanted) = (history.courses(&known), own.courses(&known));
        let (Some(moved), Some(wanted)) = (moved, wanted) else { continue };
        assert_eq!(moved[2..], wanted[1..], "{}", history.line());
        reports += Stored::of(own, &wanted).reports();
        stopped += usize::from(wanted.iter().any(|course| course.state.stopped == 1));
    }
    assert!(reports > 200 && stopped > 30, "{reports} {stopped}");
}

/// A move changes the rule and nothing else, and a second one nothing at all.
#[test]
fn a_move_changes_the_rule_alone() {
    let mut rng = Rng::new(1);
    for _ in 0..100 {
        let (history, courses) = moved(&mut rng);
        let mut has_moved = false;
        for (at, call) in history.calls.iter().enumerate().filter(|(_, call)| **call == Call::Move) {
            let (before, after) = (&courses[at], &courses[at + 1]);
            let state = Steps { rules: history.rules | steps::OWN_BODIES, ..before.state.clone() };
            assert_eq!(*after, Course { answer: Answer::done(0), state, ..before.clone() }, "{call:?}");
            assert!(!has_moved || after.state == before.state);
            has_moved = true;
        }
    }
}

/// Messages with their starts.
type Pairs = BTreeSet<(Vec<u8>, Vec<u8>)>;

fn pairs(count: usize, buffer: &[u8]) -> Pairs {
    let reports = answers::reports(count, buffer);
    reports.iter().map(|report| (report[..4].to_vec(), report[10..].to_vec())).collect()
}

/// What the Rust says, amply, of a check by rules over some positions of a list: its pairs and its visits.
fn of_positions(history: &History, rules: u8, listed: &Listed, positions: &[usize]) -> Option<(Pairs, usize)> {
    let [schema, condition, _] = history.records.clone();
    let records = vec![schema, condition, listed.of_positions(positions)];
    match known(rules, Case { operation: Operation::Check, records, size: 1 << 16 })? {
        Outcome::Answered(answer, buffer) if answer.number != 11 => Some((pairs(answer.count, &buffer), answer.visits)),
        _ => None,
    }
}

/// At each split, with space for all, the pairs are those of a check of the targets done before the first move, by the rules
/// of the start, and those of a check with own bodies of the targets done since, each once; the visits are those of one check
/// of all of them.
#[test]
fn the_pairs_of_a_split_are_those_of_both_parts() {
    let mut rng = Rng::new(113);
    let (mut compared, mut of_first, mut of_second, mut of_both) = (0, 0, 0, 0);
    while compared < 400 {
        let ample = History { size: 1 << 16, ..moved(&mut rng).0 };
        let Some(courses) = ample.courses(&known) else { continue };
        let last = courses.last().expect("a start");
        let Ok(listed) = Listed::of(last.targets()) else { continue };
        let split = ample.calls.iter().position(|call| *call == Call::Move).expect("a move");
        let done = |course: &Course| -> Vec<usize> {
            (0..listed.targets.len()).filter(|position| course.state.marks[*position] == steps::DONE).collect()
        };
        let (before, all) = (done(&courses[split]), done(last));
        let since: Vec<usize> = all.iter().filter(|position| !before.contains(position)).copied().collect();
        let own = ample.rules | steps::OWN_BODIES;
        let first = of_positions(&ample, ample.rules, &listed, &before);
        let (Some(first), Some(second)) = (first, of_positions(&ample, own, &listed, &since)) else { continue };
        let Some(at_once) = of_positions(&ample, ample.rules, &listed, &all) else { continue };

        let stored = Stored::of(ample.clone(), &courses);
        let found = pairs(stored.reports(), &last.buffer);
        assert_eq!(found, first.0.union(&second.0).cloned().collect(), "{}", ample.line());
        assert_eq!(found.len(), stored.reports(), "{}", ample.line());
        assert_eq!((last.state.visits as usize, first.1 + second.1), (at_once.1, at_once.1), "{}", ample.line());
        compared += 1;
        of_first += first.0.difference(&second.0).count();
        of_second += second.0.difference(&first.0).count();
        of_both += first.0.intersection(&second.0).count();
    }
    assert!(of_first > 100 && of_second > 100 && of_both > 100, "{of_first} {of_second} {of_both}");
}

/// What is said of states that no call left, at the smallest of them.
#[test]
fn other_states() {
    let history = &examples::all()[3].history;
    let records = history.records_with(&history.records[2]);
    let step = |change: fn(&mut Steps), buffer: &mut [u8]| {
        let mut state = Steps::begun(0);
        change(&mut state);
        (steps::step(records, &mut state, buffer, &known).map(numbers), state)
    };
    let mut buffer = vec![0xA5; 300];
    let (answer, state) = step(|state| state.used = 301, &mut buffer);
    assert_eq!((answer, state.stopped, state.used), (Some(vec![11, 0, 0, 1]), 1, 301));
    let (answer, state) = step(|state| state.used = usize::MAX, &mut buffer);
    assert_eq!((answer, state.marks[..2].to_vec()), (Some(vec![11, 0, 0, 1]), vec![1, 0]));
    let (answer, _) = step(|state| state.stopped = 9, &mut buffer);
    assert_eq!((answer, &buffer), (Some(vec![11, 0, 0, 0]), &vec![0xA5; 300]));
    let (answer, state) = step(|state| state.visits = u32::MAX, &mut buffer);
    assert_eq!((answer, state.used), (Some(vec![0, 0, 1, u32::MAX as usize]), 85));
    let (answer, state) = step(|state| (state.used, state.marks[0]) = (85, 7), &mut buffer);
    assert_eq!((answer, state.marks[..2].to_vec()), (Some(vec![0, 0, 1, 1]), vec![7, 1]));
    let (answer, _) = step(|state| state.used = 86, &mut buffer);
    assert_eq!(answer, Some(vec![0, 0, 1, 1]), "the report is a repeat of the one that stands there");
    buffer[3] = 1;
    let (answer, _) = step(|state| state.used = 86, &mut buffer);
    assert_eq!(answer, Some(vec![11, 0, 1, 1]), "and a new one does not fit");
}

/// The case of a history is none of a check.
#[test]
fn a_history_is_not_marked() {
    let history = examples::all()[0].history.clone();
    let courses = history.courses(&known).unwrap();
    let case: Case = Stored::of(history, &courses).case();
    assert!(!oracle::times::is_marked(&case));
}
