//! The windows of a condition: which are listed, in which order, and what is kept where space is short.

mod common;

use dogwood_check::*;

fn call() -> Condition {
    Condition::call(0..0)
}

fn listed(condition: &Condition, period: u64) -> Vec<(u32, u64, u64)> {
    let listed = windows(&condition.encode().unwrap(), period).unwrap();
    listed.iter().map(|window| (window.start, window.sweeps, window.rest)).collect()
}

#[test]
fn each_unit() {
    let within = |window| Condition::previous_within(4..5, window, call());
    assert_eq!(listed(&within(Window::seconds(7)), 2), [(4, 3, 1)]);
    assert_eq!(listed(&within(Window::minutes(7)), 60), [(4, 7, 0)]);
    assert_eq!(listed(&within(Window::hours(7)), 7_200), [(4, 3, 3_600)]);
    assert_eq!(listed(&within(Window::days(7)), 86_400), [(4, 7, 0)]);
    assert_eq!(listed(&within(Window::days(0)), 9), [(4, 0, 0)]);
    assert_eq!(listed(&within(Window::ParamRef), 9), []);
}

#[test]
fn the_longest_windows() {
    let most = i64::MAX as u64;
    for unit in TimeUnit::ALL {
        let amount = i64::MAX / unit.seconds();
        let window = Window::Within { amount, unit };
        let seconds = window.length().unwrap();
        assert!(seconds <= most && seconds > most - unit.seconds() as u64);
        let condition = Condition::formerly_within(0..1, window, call());
        assert_eq!(listed(&condition, 1), [(0, seconds, 0)]);
        assert_eq!(listed(&condition, u64::MAX), [(0, 0, seconds)]);
        assert_eq!(listed(&condition, seconds), [(0, 1, 0)]);
        assert_eq!(listed(&condition, seconds + 1), [(0, 0, seconds)]);
    }
}

/// A condition comes before what is below it, a since's left before its right, an operand's body before the next one's;
/// what no check visits is not listed.
#[test]
fn order() {
    let former = |start: u32, body| Condition::formerly_within(start..start, Window::seconds(start.into()), body);
    let count = |start| Term::aggregate(Aggregate::count(0..0, [], former(start, call())));
    let compared = Condition::comparison(0..0, Operator::Eq, count(4), Term::arith(count(5), count(6)));
    let since = Condition::since_within(1..1, former(2, former(3, call())), Window::seconds(1), compared);
    let argument = Argument::new("a", count(9));
    let seen = Condition::predicate(0..0, ["Action"], "view", [argument]);
    let listed = listed(&Condition::and(0..0, since, Condition::or(0..0, seen, former(7, call()))), 10);
    assert_eq!(listed, [1, 2, 3, 4, 5, 6, 7].map(|start| (start, 0, start.into())));
}

#[test]
fn none_in_version_1() {
    let condition = Condition::since(0..1, Condition::formerly(0..1, call()), Condition::previous(0..1, call()));
    assert_eq!(condition.encode().unwrap()[..5], *b"DWC\0\x01");
    assert_eq!(listed(&condition, 1), []);
}

/// Whole entries are kept, and the bytes behind them are as they were.
#[test]
fn short_space() {
    let inner = Condition::previous_within(2..3, Window::seconds(2), call());
    let condition = Condition::formerly_within(1..4, Window::seconds(1), inner).encode().unwrap();
    for space in 0..50 {
        let mut buffer = [0xA5; 50];
        let answer = windows_into(&condition, 1, &mut buffer[..space]);
        let kept = (space / 20).min(2);
        assert_eq!(answer.count, kept);
        assert_eq!((answer.is_cut(), answer.record()), (kept < 2, 0));
        let entries: Vec<ListedWindow> = ListedWindows::new(&buffer, kept).unwrap().collect();
        let all = [1, 2].map(|n| ListedWindow { start: n, sweeps: n.into(), rest: 0 });
        assert_eq!(entries, all[..kept]);
        assert!(buffer[kept * 20..].iter().all(|byte| *byte == 0xA5));
    }
}

#[test]
fn decoding() {
    assert_eq!(ListedWindows::new(&[0; 39], 2).unwrap_err(), DecodeError::Window { index: 1 });
    assert_eq!(ListedWindows::new(&[0; 40], 2).unwrap().len(), 2);
    assert_eq!(ListedWindow { start: 3, sweeps: 2, rest: 1 }.to_string(), "3: 2 sweeps and 1 s");
}

/// The check and the sums do not look at windows.
#[test]
fn windows_change_no_report() {
    let targets = Targets::new().target(Target::new("view")).encode().unwrap();
    let schema = Schema::new().encode().unwrap();
    let found = |condition: Condition| check(&schema, &condition.encode().unwrap(), &targets).unwrap();
    let wrong = || common::wrong_comparison(3);
    let plain = found(Condition::since(0..9, Condition::formerly(0..8, wrong()), Condition::previous(0..7, wrong())));
    for window in [Window::ParamRef, Window::hours(24), Window::seconds(0)] {
        let left = Condition::formerly_within(0..8, window, wrong());
        let right = Condition::previous_within(0..7, window, wrong());
        assert_eq!(found(Condition::since_within(0..9, left, window, right)), plain);
    }
    assert_eq!(plain.reports.len(), 1);
}

#[test]
fn what_is_no_window() {
    for (window, shown) in [
        (Window::days(-1), "at 0..1: the window of -1 days is negative or above 9223372036854775807 seconds"),
        (
            Window::minutes(153_722_867_280_912_931),
            "at 0..1: the window of 153722867280912931 minutes is negative or above 9223372036854775807 seconds",
        ),
    ] {
        let error = Condition::formerly_within(0..1, window, call()).encode().unwrap_err();
        assert_eq!((error.cause(), error.to_string().as_str()), (Some(Cause::WindowOutOfRange), shown));
    }
    let mixed = Condition::formerly_within(0..9, Window::ParamRef, Condition::previous(2..9, call()));
    let error = mixed.encode().unwrap_err();
    assert_eq!((error.cause(), error.problem(), error.span()), (None, &Problem::WindowMissing, Some((2..9).into())));
}
