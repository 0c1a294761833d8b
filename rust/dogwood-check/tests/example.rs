//! The example of README.md from end to end, and examples at the edges of the rules, through trees.

mod common;

use common::{report, CONDITION, MESSAGE, SCHEMA, TARGETS};
use dogwood_check::*;

#[test]
fn the_example() {
    let schema = Schema::new().encode().unwrap();
    let condition = Condition::comparison(0..8, Operator::Lt, Term::Bool, Term::Integer).encode().unwrap();
    let targets = Targets::new().target(Target::new("view")).encode().unwrap();
    assert_eq!((&schema[..], &condition[..], &targets[..]), (SCHEMA, CONDITION, TARGETS));
    let found = check(&schema, &condition, &targets).unwrap();
    assert_eq!(found, Findings { reports: vec![report(0, 8, MESSAGE)], more: false });
    assert_eq!(found.to_string(), format!("0..8: {MESSAGE}"));
    assert_eq!(sums(&condition), Ok(Findings::default()));
    assert!(Findings::default().is_clean());
}

/// Reader (with a home that has a town) and Letter; view has principals, close has none.
fn schema() -> Vec<u8> {
    let home = Type::record([("town", Type::String), ("number", Type::Long)]);
    let input = Type::record([("year", Type::String), ("pages", Type::Long)]);
    let context = Type::record([("input", input)]);
    Schema::new()
        .entity_type(EntityType::new("Reader").ancestor("Society").attribute("home", home))
        .entity_type(EntityType::new("Letter"))
        .action(Action::new("App::Action", "copy").principal("Reader").context(context.clone()))
        .action(Action::new("Action", "view").principal("Reader").resource("Letter").context(context))
        .action(Action::new("Action", "close"))
        .encode()
        .unwrap()
}

/// The messages for a condition under one target.
fn messages_for(condition: Condition, targets: Targets) -> Vec<String> {
    let found = check(&schema(), &condition.encode().unwrap(), &targets.encode().unwrap()).unwrap();
    found.into_iter().map(|report| report.message).collect()
}

fn messages(condition: Condition) -> Vec<String> {
    messages_for(condition, Targets::new().target(Target::new("view")))
}

fn compared(operator: Operator, left: Term, right: Term) -> Vec<String> {
    messages(Condition::comparison(0..1, operator, left, right))
}

/// The two types that a comparison is reported with, left and right.
fn types_of(left: Term, right: Term) -> Option<(String, String)> {
    let messages = compared(Operator::Eq, left, right);
    let message = messages.first()?.strip_prefix("equality requires both sides to have the same type, got `")?;
    let (left, right) = message.strip_suffix('`')?.split_once("` and `")?;
    Some((left.to_string(), right.to_string()))
}

fn types(left: &str, right: &str) -> Option<(String, String)> {
    Some((left.to_string(), right.to_string()))
}

#[test]
fn decimals_have_no_order() {
    assert_eq!(compared(Operator::Lt, Term::Decimal, Term::Decimal).len(), 1);
    assert!(compared(Operator::Eq, Term::Decimal, Term::Decimal).is_empty());
}

#[test]
fn operators_keep_their_meaning() {
    for operator in [Operator::Le, Operator::Lt, Operator::Ge, Operator::Gt] {
        assert_eq!(compared(operator, Term::String, Term::String).len(), 1);
    }
    for operator in [Operator::Eq, Operator::NotEq] {
        assert!(compared(operator, Term::String, Term::String).is_empty());
    }
}

#[test]
fn literals_and_fields_have_their_types() {
    assert_eq!(types_of(Term::Integer, Term::Bool), types("int", "boolean"));
    assert_eq!(types_of(Term::Decimal, Term::String), types("decimal", "string"));
    assert_eq!(types_of(Term::entity("App::Letter"), Term::context(["input", "year"])), types("Letter", "string"));
    assert_eq!(types_of(Term::context(["input", "pages"]), Term::scope(["principal"])), types("int", "Reader"));
    assert_eq!(
        types_of(Term::scope(["resource"]), Term::scope(["principal", "home", "town"])),
        types("Letter", "string")
    );
    assert_eq!(types_of(Term::ParamRef, Term::Bool), None);
    assert_eq!(types_of(Term::BinderRef, Term::Bool), None);
}

#[test]
fn arrays() {
    let mixed = || Term::array([Term::Integer, Term::Wildcard]);
    assert!(compared(Operator::Eq, Term::array([]), Term::array([Term::String])).is_empty());
    assert_eq!(types_of(mixed(), Term::Bool), types("mixed-type array", "boolean"));
    assert_eq!(types_of(Term::array([Term::Integer]), Term::Integer), types("array<int>", "int"));
}

#[test]
fn arithmetic_and_wildcards() {
    assert!(compared(Operator::Eq, Term::Wildcard, Term::Integer).is_empty());
    let sum = Term::arith(Term::Wildcard, Term::Integer);
    assert_eq!(compared(Operator::Eq, sum, Term::Integer).len(), 1);
    let sum = Term::arith(Term::Integer, Term::String);
    let message = "arithmetic operates only on `Long` values, but this operand has type `string`";
    assert_eq!(compared(Operator::Eq, Term::Integer, sum), [message]);
}

#[test]
fn scopes_without_principals() {
    let wrong = || common::wrong_comparison(0);
    let close = || Targets::new().target(Target::new("close"));
    assert_eq!(messages_for(wrong(), close()).len(), 1);
    assert!(messages_for(wrong(), close().principal(Narrowing::Any)).is_empty());
    assert!(messages_for(wrong(), close().resource(Narrowing::Any)).is_empty());
}

#[test]
fn narrowings() {
    let under = |principal| {
        let targets = Targets::new().principal(principal).target(Target::new("view"));
        messages_for(common::wrong_comparison(0), targets).len()
    };
    assert_eq!(under(Narrowing::is_type("Reader")), 1);
    assert_eq!(under(Narrowing::is_type("Letter")), 0);
    assert_eq!(under(Narrowing::uid("Reader")), 1);
    assert_eq!(under(Narrowing::uid("Society")), 0);
    assert_eq!(under(Narrowing::uid_in("Society")), 1);
}

#[test]
fn namespaces() {
    let year = || Condition::comparison(0..1, Operator::Lt, Term::context(["input", "year"]), Term::Integer);
    assert_eq!(messages_for(year(), Targets::new().target(Target::in_namespace("App", "copy"))).len(), 1);
    assert!(messages_for(year(), Targets::new().target(Target::new("copy"))).is_empty());
    assert!(messages_for(year(), Targets::new()).is_empty());
}

#[test]
fn the_last_binder_decides() {
    let use_of = |at: u32| Condition::comparison(at..at + 1, Operator::Lt, Term::var("v"), Term::Integer);
    let inner = Condition::exists(1..2, Binder::new("v", "String"), use_of(2));
    let outer = Condition::exists(0..9, Binder::new("v", "Long"), Condition::and(0..9, use_of(5), inner));
    assert_eq!(messages(outer).len(), 2);
}

#[test]
fn predicates_and_timepoints() {
    let seen = |value| Condition::predicate(4..9, ["Action"], "view", [Argument::new("input.pages", value)]);
    assert!(messages(seen(Term::Integer)).is_empty());
    let message = "argument `input.pages` of `view` expects `int` but got `string`";
    assert_eq!(messages(Condition::negation(0..9, seen(Term::String))), [message]);
    let tp = Condition::exists(0..9, Binder::new("t", "Long"), Condition::tp(1..2, "t"));
    assert!(messages(tp)[0].starts_with("`tp(t)` binds `t` to the current timepoint"));
    assert!(messages(Condition::exists(0..9, Binder::new("t", "Timepoint"), Condition::tp(1..2, "t"))).is_empty());
}

/// Every kind of condition that holds others is entered.
#[test]
fn conditions_in_conditions() {
    let wrong = || common::wrong_comparison(3);
    let fine = || Condition::call(0..0);
    let binder = || Binder::new(Slot::ParamRef, "Long");
    let count = Aggregate::count(0..9, [binder()], wrong());
    for condition in [
        Condition::and(0..9, fine(), wrong()),
        Condition::or(0..9, wrong(), Condition::sigil_ref(0..0)),
        Condition::since(0..9, fine(), wrong()),
        Condition::negation(0..9, wrong()),
        Condition::formerly(0..9, wrong()),
        Condition::previous(0..9, wrong()),
        Condition::refine(0..9, wrong()),
        Condition::exists(0..9, binder(), wrong()),
        Condition::comparison(0..9, Operator::Gt, Term::aggregate(count), Term::Integer),
    ] {
        assert_eq!(messages(condition), [MESSAGE]);
    }
}

#[test]
fn sums_of_what_is_not_long() {
    let sum = |annotation: &str| {
        let binder = Binder::new("v", annotation);
        let sum = Aggregate::sum(3..7, "v", [binder, Binder::new(Slot::BinderRef, "Long")], Condition::call(0..0));
        let condition = Condition::comparison(0..9, Operator::Eq, Term::Integer, Term::aggregate(sum));
        sums(&condition.encode().unwrap()).unwrap().reports
    };
    assert_eq!(sum("Long"), []);
    assert_eq!(sum("App::Long"), []);
    let entity = "cannot sum `v`: sum requires a `Long` summand, but `v` is `App::User`.";
    assert_eq!(sum("App::User"), [report(3, 7, entity)]);
    assert!(sum("decimal")[0].message.contains("is `Decimal`."));
    // the message has letters beyond ASCII
    assert!(sum("Timepoint")[0].message.contains("— use a Timepoint in the `for (…)` binders"));
    let call = Condition::comparison(0..9, Operator::Eq, Term::Integer, Term::aggregate(Aggregate::call(0..1)));
    assert_eq!(sums(&call.encode().unwrap()), Ok(Findings::default()));
}
