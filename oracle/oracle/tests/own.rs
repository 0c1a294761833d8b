//! Binders in their own bodies: the examples, what is asked of the Rust for them, and that it answers alike where the
//! bodies cannot matter.

use oracle::cases::{Case, Operation, Outcome};
use oracle::examples::own as examples;
use oracle::generate;
use oracle::own::{checks_are_alike, sums_are_alike};
use oracle::pieces::*;
use oracle::rng::Rng;

/// Space for all reports.
const AMPLE: usize = 1 << 20;

#[test]
fn each_example_is_answered_as_its_line_says() {
    for e in examples::all() {
        for (operation, message) in e.answered() {
            let wanted = e.outcome(message, 500);
            assert_eq!(e.case(operation, 500).outcome(), Some(wanted), "{operation:?}: {}", e.shows);
        }
    }
}

fn call() -> Piece {
    condition(11, (0, 0), vec![])
}

fn view() -> Piece {
    targets(byte(0), byte(0), vec![target("", "view")])
}

/// The answer and the messages of a check of a condition, with binders in their own bodies.
fn checked(root: Piece) -> (usize, usize, Vec<String>) {
    let records = [schema(vec![], vec![]), condition_record(root), view()].map(|piece| piece.bytes()).to_vec();
    messages(Case { operation: Operation::Own, records, size: AMPLE })
}

fn summed(root: Piece) -> (usize, usize, Vec<String>) {
    messages(Case { operation: Operation::OwnSums, records: vec![condition_record(root).bytes()], size: AMPLE })
}

fn messages(case: Case) -> (usize, usize, Vec<String>) {
    let Some(Outcome::Answered(answer, buffer)) = case.outcome() else { panic!("an operation answers") };
    let mut rest = &buffer[..];
    let mut next = || {
        let (report, behind) = rest.split_at(10 + usize::from(u16::from_be_bytes([rest[8], rest[9]])));
        rest = behind;
        String::from_utf8(report[10..].to_vec()).expect("a message is a text")
    };
    (answer.count, answer.visits, (0..answer.count).map(|_| next()).collect())
}

/// Two binders of one name give the same message at the same start: one report, though the Rust was asked about two names.
#[test]
fn names_put_back_may_make_reports_one() {
    let tp = || condition(10, (3, 4), vec![slot(Some("t"), 0)]);
    let inner = || exists((0, 0), named("t", &["Long"]), tp());
    let (count, visits, said) = checked(condition(1, (0, 0), vec![inner(), inner()]));
    assert_eq!((count, visits), (1, 5));
    assert!(said[0].starts_with("`tp(t)` binds `t` to the current timepoint, but `t` is declared `int`"));
}

/// A name may hold what a new name could be made of, but for a control character.
#[test]
fn names_are_put_back_as_they_were() {
    for name in ["", "1", "v1", "~ok (1)", "b::c"] {
        let total = sum((0, 0), slot(Some(name), 0), vec![named(name, &["String"])], call());
        let (_, _, said) = summed(comparison((0, 0), 4, total, integer()));
        let wanted = format!("cannot sum `{name}`: sum requires a `Long` summand, but `{name}` is `String`.");
        assert_eq!(said, [wanted]);
    }
}

/// A sum that stands twice is reported twice, in own bodies too.
#[test]
fn sums_may_repeat() {
    let total = sum((0, 0), slot(Some("v"), 0), vec![named("v", &["String"])], call());
    let twice = comparison((0, 0), 4, total.clone(), total);
    assert_eq!(summed(twice).0, 2);
}

/// Of sums in an argument each has its own list, also below arithmetic, and what is around.
#[test]
fn lists_in_arguments() {
    let total = |binders: Vec<Piece>| sum((0, 0), slot(Some("v"), 0), binders, call());
    let in_argument = |term: Piece| predicate((0, 0), (0, 0), &[""; 0], "", vec![argument("", &[""; 0], term)]);
    let both = arith(total(vec![named("v", &["String"])]), total(vec![named("v", &["Long"])]));
    assert_eq!(summed(in_argument(both)).0, 1);
    let around = |binders| exists((0, 0), named("v", &["Bool"]), in_argument(total(binders)));
    assert_eq!(summed(around(vec![])).2, ["cannot sum `v`: sum requires a `Long` summand, but `v` is `Bool`."]);
    assert_eq!(summed(around(vec![named("v", &["Long"])])).0, 0);
}

#[test]
fn where_the_bodies_cannot_matter() {
    let record = |root: Piece| condition_record(root).bytes();
    let v = || comparison((0, 0), 4, var("v"), integer());
    let over = |body: Piece| exists((0, 0), named("v", &["Long"]), body);
    let both = |left: Piece, right: Piece| condition(1, (0, 0), vec![left, right]);
    assert!(checks_are_alike(&record(over(v()))));
    assert!(checks_are_alike(&record(v())));
    assert!(!checks_are_alike(&record(both(over(v()), v()))));
    assert!(!checks_are_alike(&record(both(over(v()), over(v())))));
    assert!(!checks_are_alike(b"DWC"));
    let total = |binders: Vec<Piece>| sum((0, 0), slot(Some("v"), 0), binders, call());
    let compared = |term: Piece| comparison((0, 0), 4, term, integer());
    assert!(sums_are_alike(&record(compared(total(vec![named("v", &["Long"])])))));
    assert!(sums_are_alike(&record(compared(total(vec![])))));
    assert!(!sums_are_alike(&record(both(over(call()), compared(total(vec![]))))));
    let given = argument("", &[""; 0], total(vec![]));
    let in_argument = predicate((0, 0), (0, 0), &[""; 0], "", vec![given]);
    assert!(!sums_are_alike(&record(in_argument.clone())) && checks_are_alike(&record(in_argument)));
}

/// The request's theorem, tried on the Rust: where each name is declared once and each use lies in its binder's body, it
/// says the same of the condition and of the one whose binders are named apart, to the byte and in any buffer.
#[test]
fn the_rust_answers_alike_where_the_bodies_cannot_matter() {
    let mut rng = Rng::new(106);
    let mut alike = [0, 0];
    for _ in 0..1_500 {
        let case = generate::apart_draft(&mut rng, Operation::Check).case();
        if checks_are_alike(&case.records[1]) {
            let own = Case { operation: Operation::Own, ..case.clone() };
            assert_eq!(own.outcome(), case.outcome(), "{case:?}");
            alike[0] += 1;
        }
        let case = generate::apart_draft(&mut rng, Operation::Sums).case();
        if sums_are_alike(&case.records[0]) {
            let own = Case { operation: Operation::OwnSums, ..case.clone() };
            assert_eq!(own.outcome(), case.outcome(), "{case:?}");
            alike[1] += 1;
        }
    }
    assert!(alike.iter().all(|count| *count > 500), "{alike:?}");
}

/// And where names are declared again and again, most conditions with a report come out otherwise.
#[test]
fn the_bodies_matter_where_names_are_reused() {
    let mut rng = Rng::new(106);
    let mut other = [0, 0];
    for _ in 0..600 {
        for (place, operation) in [Operation::Check, Operation::Sums].into_iter().enumerate() {
            let case = generate::again_draft(&mut rng, operation).case();
            let own = Case { operation: operation.with_own_bodies().expect("both have one"), ..case.clone() };
            other[place] += usize::from(own.outcome() != case.outcome());
        }
    }
    assert!(other.iter().all(|count| *count > 100), "{other:?}");
}
