//! The types `datetime` and `duration`: where they are named, what they compare with, and how they are shown.

mod common;

use common::{SCHEMA, TARGETS};
use dogwood_check::*;

/// An action whose input has a datetime `d`, a duration `e`, a text `s`, and datetimes `all`.
fn schema() -> Vec<u8> {
    let input = Type::record([
        ("all", Type::set(Type::datetime())),
        ("d", Type::datetime()),
        ("e", Type::duration()),
        ("s", Type::String),
    ]);
    let view = Action::new("Action", "view").context(Type::record([("input", input)]));
    Schema::new().action(view).encode().unwrap()
}

fn field(name: &str) -> Term {
    Term::context(["input", name])
}

fn messages(schema: &[u8], condition: Condition) -> Vec<String> {
    let found = check(schema, &condition.encode().unwrap(), TARGETS).unwrap();
    found.into_iter().map(|report| report.message).collect()
}

/// What is reported of a comparison of fields and literals.
fn compared(left: Term, operator: Operator, right: Term) -> Vec<String> {
    messages(&schema(), Condition::comparison(0..9, operator, left, right))
}

/// What is reported of a condition below a variable `v` that is declared so.
fn declared(annotation: &str, body: Condition) -> Vec<String> {
    messages(SCHEMA, Condition::exists(0..9, Binder::new("v", annotation), body))
}

fn v() -> Term {
    Term::var("v")
}

fn equality(left: Term, right: Term) -> Condition {
    Condition::comparison(0..9, Operator::Eq, left, right)
}

fn order(left: Term, right: Term) -> Condition {
    Condition::comparison(0..9, Operator::Lt, left, right)
}

fn unlike(left: &str, right: &str) -> String {
    format!("equality requires both sides to have the same type, got `{left}` and `{right}`")
}

fn unordered(left: &str, right: &str) -> String {
    format!("comparison requires numeric operands on both sides, got `{left}` and `{right}`")
}

const NOTHING: [String; 0] = [];

#[test]
fn annotations() {
    assert_eq!(declared("datetime", equality(v(), Term::String)), [unlike("datetime", "string")]);
    assert_eq!(declared("App::datetime", order(v(), v())), NOTHING);
    assert_eq!(declared("duration", order(v(), v())), NOTHING);
    assert_eq!(declared("datetime::Long", order(v(), Term::Integer)), NOTHING);
    assert_eq!(declared("Datetime", equality(v(), Term::entity("U"))), NOTHING);
    assert_eq!(declared("datetime", equality(v(), Term::entity("datetime"))), [unlike("datetime", "datetime")]);
}

#[test]
fn order_takes_two_of_one_type() {
    for operator in [Operator::Le, Operator::Lt, Operator::Ge, Operator::Gt] {
        let ordered = |left, right| compared(left, operator, right);
        assert_eq!(ordered(field("d"), field("d")), NOTHING);
        assert_eq!(ordered(field("e"), field("e")), NOTHING);
        assert_eq!(ordered(field("d"), field("e")), [unordered("datetime", "duration")]);
        assert_eq!(ordered(field("e"), field("d")), [unordered("duration", "datetime")]);
        assert_eq!(ordered(field("d"), Term::Integer), [unordered("datetime", "int")]);
        assert_eq!(ordered(Term::String, field("e")), [unordered("string", "duration")]);
        assert_eq!(ordered(field("all"), field("all")), [unordered("array<datetime>", "array<datetime>")]);
    }
}

#[test]
fn beside_what_has_no_type() {
    for other in [Term::Wildcard, Term::var("w"), Term::ParamRef, Term::context(["nowhere"])] {
        assert_eq!(declared("datetime", order(v(), other.clone())), NOTHING);
        assert_eq!(declared("duration", order(other.clone(), v())), NOTHING);
        assert_eq!(declared("duration", equality(v(), other)), NOTHING);
    }
}

#[test]
fn equality_and_arguments() {
    assert_eq!(compared(field("d"), Operator::Eq, field("d")), NOTHING);
    assert_eq!(compared(field("d"), Operator::NotEq, field("s")), [unlike("datetime", "string")]);
    assert_eq!(declared("datetime", equality(v(), Term::Integer)), [unlike("datetime", "int")]);
    let texts = || Term::array([Term::String]);
    assert_eq!(compared(field("all"), Operator::Eq, texts()), [unlike("array<datetime>", "array<string>")]);
    assert_eq!(compared(field("all"), Operator::Eq, Term::array([])), NOTHING);
    let given = |value| {
        let argument = Argument::new("input.d", value);
        messages(&schema(), Condition::predicate(0..9, ["Action"], "view", [argument]))
    };
    assert_eq!(given(field("d")), NOTHING);
    assert_eq!(given(Term::String), ["argument `input.d` of `view` expects `datetime` but got `string`"]);
}

#[test]
fn arithmetic_sums_and_timepoints() {
    let added = equality(Term::arith(v(), Term::Integer), Term::Integer);
    let message = "arithmetic operates only on `Long` values, but this operand has type `duration`";
    assert_eq!(declared("duration", added), [message]);
    let sum = Aggregate::sum(0..9, "v", [Binder::new("v", "App::datetime")], Condition::call(0..0));
    let summed = sums(&equality(Term::Integer, Term::aggregate(sum)).encode().unwrap()).unwrap();
    let message = "cannot sum `v`: sum requires a `Long` summand, but `v` is `App::datetime`.";
    assert_eq!(summed.reports, [common::report(0, 9, message)]);
    let message = "`tp(v)` binds `v` to the current timepoint, but `v` is declared `datetime`; \
                   a `tp` variable must be declared `Timepoint`";
    assert_eq!(declared("datetime", Condition::tp(0..9, "v")), [message]);
}

/// Two admitted entity types, of which one has a datetime and one a text.
#[test]
fn lookups() {
    let schema = Schema::new()
        .entity_type(EntityType::new("U").attribute("a", Type::datetime()))
        .entity_type(EntityType::new("V").attribute("a", Type::String))
        .action(Action::new("Action", "view").principal("U").principal("V"));
    let (schema, path) = (schema.encode().unwrap(), Path::principal(["a"], 0).encode().unwrap());
    let found = |narrowing| {
        let targets = Targets::new().principal(narrowing).target(Target::new("view"));
        lookup(&schema, &targets.encode().unwrap(), &path).unwrap()
    };
    assert_eq!(found(Narrowing::None), ScopePath::Ambiguous(["datetime", "string"].map(String::from).to_vec()));
    assert_eq!(found(Narrowing::is_type("U")), ScopePath::Resolved("datetime".to_string()));
}
