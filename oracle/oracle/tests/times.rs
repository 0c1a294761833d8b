//! The types `datetime` and `duration`: which cases are marked, that the examples hold of whom they say, and that the parts
//! of two outcomes that must be alike are alike.

use oracle::answers::Answer;
use oracle::cases::{Case, Operation, Outcome};
use oracle::examples::times::{self as examples, Judge, Timed};
use oracle::generate;
use oracle::pieces::*;
use oracle::rng::Rng;
use oracle::times::{amply, common, is_marked, Exchange};

const NONE: [&str; 0] = [];

fn extension(name: &str) -> Piece {
    ty(3, vec![text(name)])
}

fn call() -> Piece {
    condition(11, (0, 0), vec![])
}

fn view() -> Piece {
    targets(byte(0), byte(0), vec![target("", "view")])
}

fn marked(operation: Operation, records: [&Piece; 3]) -> bool {
    is_marked(&Case { operation, records: records.map(Piece::bytes).to_vec(), size: 0 })
}

// ─── The mark ───

/// Whether a type marks a check, a lookup and a case of terms, as an attribute and as a context.
fn marks_in_schema(ty: Piece) -> bool {
    let attribute = schema(vec![entity_type("E", &NONE, attributes(vec![("k", ty.clone())]))], vec![]);
    let context = schema(vec![], vec![action("Action", "view", &NONE, &NONE, ty)]);
    let (record, view, way) = (condition_record(call()), view(), path(0, &["k"], 0));
    let marks = [&attribute, &context].map(|schema| {
        [
            marked(Operation::Check, [schema, &record, &view]),
            marked(Operation::Terms, [schema, &record, &view]),
            marked(Operation::Lookup, [schema, &view, &way]),
        ]
    });
    assert!(marks.as_flattened().iter().all(|mark| *mark == marks[0][0]));
    marks[0][0]
}

#[test]
fn extensions_are_marked_by_their_simple_name() {
    for word in ["datetime", "duration", "App::datetime", "A::B::duration", "Datetime::duration"] {
        assert!(marks_in_schema(extension(word)), "{word}");
    }
    let near = ["Datetime", "DURATION", "date", "datetimes", "a_datetime", "datetime::decimal", "duration::x", "d"];
    for word in near {
        assert!(!marks_in_schema(extension(word)), "{word}");
    }
    let inner = || record_type(vec![("a", ty(0, vec![])), ("b", set_type(extension("duration")))]);
    assert!(marks_in_schema(set_type(set_type(extension("datetime")))));
    assert!(marks_in_schema(inner()));
    assert!(marks_in_schema(record_type(vec![("input", record_type(vec![("x", inner())]))])));
}

/// What is called by the words and is no type of them.
#[test]
fn other_names_are_not_marked() {
    let (datetime, duration) = ("datetime", "duration");
    assert!(!marks_in_schema(ty(7, vec![text(datetime)])));
    assert!(!marks_in_schema(record_type(vec![(datetime, ty(1, vec![])), (duration, ty(7, vec![text("U")]))])));
    let schema = schema(
        vec![entity_type(datetime, &[duration], attributes(vec![]))],
        vec![action(datetime, duration, &[datetime], &[duration], record_type(vec![]))],
    );
    let seen = argument(datetime, &[duration], entity(datetime));
    let roots = vec![
        predicate((0, 0), (0, 0), &[datetime], duration, vec![seen]),
        comparison((0, 0), 1, var(datetime), context_field(&[duration])),
        comparison((0, 0), 4, scope_field(&["principal", datetime]), entity("App::datetime")),
        exists((0, 0), named(datetime, &["Long"]), condition(10, (0, 0), vec![slot(Some(duration), 0)])),
    ];
    let under = targets(narrowing(2, datetime), narrowing(4, duration), vec![target(datetime, duration)]);
    for root in roots {
        assert!(!marked(Operation::Check, [&schema, &condition_record(root), &under]));
    }
    assert!(!marked(Operation::Lookup, [&schema, &under, &path(0, &[datetime, duration], 0)]));
}

/// Whether an annotation marks a check, wherever it stands: also where no walk collects it, and whatever its slot is.
fn marks_in_condition(segments: &[&str]) -> bool {
    let declared = |slot| binder(slot, segments);
    let v = || slot(Some("v"), 0);
    let counted = || count((0, 0), vec![named("w", &["Long"]), declared(v())], call());
    let operand = |term| comparison((0, 0), 4, integer(), term);
    let roots = [
        exists((0, 0), declared(v()), call()),
        exists((0, 0), declared(slot(None, 1)), call()),
        condition(3, (0, 0), vec![exists((0, 0), declared(slot(None, 2)), call())]),
        operand(counted()),
        operand(sum((0, 0), v(), vec![declared(v())], call())),
        operand(arith(integer(), counted())),
        operand(count((0, 0), vec![], exists((0, 0), declared(v()), call()))),
        predicate((0, 0), (0, 0), &NONE, "a", vec![argument("n", &NONE, counted())]),
    ];
    let no_types = schema(vec![], vec![]);
    let marks = roots.map(|root| marked(Operation::Check, [&no_types, &condition_record(root), &view()]));
    assert!(marks.iter().all(|mark| *mark == marks[0]));
    marks[0]
}

#[test]
fn annotations_are_marked_by_their_last_segment() {
    for segments in [&["datetime"][..], &["duration"], &["App", "datetime"], &["Long", "A", "duration"]] {
        assert!(marks_in_condition(segments), "{segments:?}");
    }
    let near = [&["Datetime"][..], &["Duration"], &["datetime", "Long"], &["A", "duration", "B"], &["dates"], &[]];
    for segments in near {
        assert!(!marks_in_condition(segments), "{segments:?}");
    }
}

/// Sums, listings and readers do not depend on types; a record that is refused has none.
#[test]
fn what_has_no_types_is_not_marked() {
    let record = condition_record(exists((0, 0), named("v", &["datetime"]), call()));
    let schema = schema(vec![], vec![action("A", "v", &NONE, &NONE, extension("datetime"))]);
    let alone = |operation, record: &Piece| Case { operation, records: vec![record.bytes(); 2], size: 0 };
    for operation in [Operation::Sums, Operation::Windows, Operation::ReadCondition] {
        assert!(!is_marked(&alone(operation, &record)));
    }
    assert!(!is_marked(&alone(Operation::ReadSchema, &schema)));
    let cut = |piece: &Piece| Piece::Field(piece.bytes()[..piece.bytes().len() - 1].to_vec());
    assert!(!marked(Operation::Check, [&cut(&schema), &cut(&record), &view()]));
    assert!(marked(Operation::Check, [&cut(&schema), &record, &view()]));
    assert!(marked(Operation::Check, [&schema, &cut(&record), &view()]));
}

// ─── The examples ───

/// The outcome with a large buffer, with one that is just large enough, and with one that is a byte too short.
fn hold(e: &Timed, outcome: impl Fn(&Case) -> Option<Outcome>) {
    for size in [e.needed() + 100, e.needed()].into_iter().chain(e.needed().checked_sub(1)) {
        assert_eq!(outcome(&e.case(size)), Some(e.outcome(size)), "{}, in {size} bytes", e.shows);
    }
}

#[test]
fn examples_are_what_they_say() {
    let all = examples::all();
    for e in &all {
        let Outcome::Answered(answer, _) = e.outcome(e.needed()) else { panic!("{}", e.shows) };
        let count = if e.operation == Operation::Lookup { e.needed() } else { e.output.len() };
        assert_eq!(answer, Answer { count, ..e.answer }, "{}", e.shows);
        assert_eq!(is_marked(&e.case(0)), e.judge != Judge::Both, "{}", e.shows);
    }
    let said_by = |judge| all.iter().filter(|e| e.judge == judge).count();
    assert_eq!([Judge::Here, Judge::Rust, Judge::Both].map(said_by), [18, 5, 6]);
}

/// The Rust as it stands: to it the two types are strings and entities. So the amendment shows.
#[test]
fn examples_of_the_rust() {
    for e in examples::all().iter().filter(|e| e.judge != Judge::Here) {
        hold(e, Case::rust_outcome);
    }
    for e in examples::all().iter().filter(|e| e.judge == Judge::Rust) {
        let here = examples::all().into_iter().find(|other| other.judge == Judge::Here && other.records == e.records);
        assert_ne!(here.map(|here| here.outcome(300)), Some(e.outcome(300)), "{}", e.shows);
    }
}

/// The Rust with other types in their place says what the examples say, of all of them.
#[test]
fn examples_with_other_types() {
    for e in examples::all().iter().filter(|e| e.judge == Judge::Here) {
        hold(e, |case| Exchange::of(case)?.outcome());
        hold(e, Case::outcome);
        let outcomes = [Some(e.outcome(300)), e.case(300).rust_outcome()];
        let [here, rust] = outcomes.map(|outcome| common(e.operation, &outcome.unwrap()));
        assert_eq!(here, rust, "{}", e.shows);
    }
}

// ─── Fresh cases ───

/// Of most marked cases the Rust can be asked with other types. What does not depend on the two types is then the same as
/// what it says of the case as it is; all else it may say otherwise, more or less of it.
#[test]
fn fresh_cases() {
    for operation in [Operation::Check, Operation::Lookup] {
        let mut rng = Rng::new(109);
        let [mut marked, mut judged, mut other, mut fewer] = [0; 4];
        for _ in 0..1_500 {
            let case = amply(&generate::timed_draft(&mut rng, operation).case());
            if !is_marked(&case) {
                continue;
            }
            marked += 1;
            let (Some(here), Some(rust)) = (case.outcome(), case.rust_outcome()) else { continue };
            assert_eq!(common(operation, &here), common(operation, &rust));
            judged += 1;
            other += usize::from(here != rust);
            let (Outcome::Answered(here, _), Outcome::Answered(rust, _)) = (here, rust) else { panic!("an answer") };
            fewer += usize::from(here.count < rust.count);
        }
        assert!(marked > 1_200 && judged > 900 && other > 30, "{operation:?}: {marked} {judged} {other}");
        assert!(operation == Operation::Lookup || fewer > 5, "{fewer}");
    }
}
