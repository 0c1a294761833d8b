//! Binders in their own bodies: what binds a name with plain rules and with `Rules::own_bodies()`, in a check and in the sums.

mod common;

use common::{report, SCHEMA, TARGETS};
use dogwood_check::*;

const NOTHING: [String; 0] = [];

/// How many reports a check has with plain rules, and with own bodies.
fn counts(condition: &Condition) -> [usize; 2] {
    [Rules::plain(), Rules::own_bodies()].map(|rules| messages(rules, SCHEMA, condition).len())
}

/// How many reports the sums have with plain rules, and with own bodies.
fn sum_counts(condition: &Condition) -> [usize; 2] {
    [Rules::plain(), Rules::own_bodies()].map(|rules| summed(rules, condition).len())
}

fn messages(rules: Rules, schema: &[u8], condition: &Condition) -> Vec<String> {
    let (mut buffer, mut workspace) = ([0; 1024], [0; 27]);
    let condition = condition.encode().unwrap();
    let answer = check_with(rules, schema, &condition, TARGETS, &mut buffer, &mut workspace);
    assert_eq!(answer.refusal, None);
    Reports::new(&buffer, answer.count).unwrap().map(|found| found.to_report().message).collect()
}

fn summed(rules: Rules, condition: &Condition) -> Vec<Report> {
    let mut buffer = [0; 1024];
    let answer = sums_with(rules, &condition.encode().unwrap(), &mut buffer);
    assert_eq!(answer.refusal, None);
    Reports::new(&buffer, answer.count).unwrap().map(ReportRef::to_report).collect()
}

fn and(left: Condition, right: Condition) -> Condition {
    Condition::and(0..9, left, right)
}

fn exists(name: &str, annotation: &str, body: Condition) -> Condition {
    Condition::exists(0..9, Binder::new(name, annotation), body)
}

fn equality(left: Term, right: Term) -> Condition {
    Condition::comparison(0..9, Operator::Eq, left, right)
}

fn call() -> Condition {
    Condition::call(0..0)
}

fn v() -> Term {
    Term::var("v")
}

/// `count for (v: ..), .. where body`
fn count(annotations: &[&str], body: Condition) -> Term {
    let binders = annotations.iter().map(|annotation| Binder::new("v", *annotation));
    Term::aggregate(Aggregate::count(0..9, binders, body))
}

/// `sum v for (v: ..), .. where body`
fn sum(annotations: &[&str], body: Condition) -> Term {
    let binders = annotations.iter().map(|annotation| Binder::new("v", *annotation));
    Term::aggregate(Aggregate::sum(3..7, "v", binders, body))
}

/// A predicate with one argument.
fn argument(value: Term) -> Condition {
    Condition::predicate(0..9, [""; 0], "", [Argument::new("", value)])
}

/// An action whose input has a text `v`.
fn texts() -> Vec<u8> {
    let input = Type::record([("v", Type::String)]);
    let view = Action::new("Action", "view").context(Type::record([("input", input)]));
    Schema::new().action(view).encode().unwrap()
}

#[test]
fn what_a_binder_covers() {
    assert_eq!(counts(&and(exists("v", "Long", call()), equality(v(), Term::String))), [1, 0]);
    assert_eq!(counts(&exists("v", "Long", equality(v(), Term::String))), [1, 1]);
    // the other operand, and the list of another aggregate
    assert_eq!(counts(&equality(count(&["String"], call()), v())), [1, 0]);
    let (first, second) = (count(&["String"], equality(v(), Term::Integer)), count(&["Long"], call()));
    assert_eq!(counts(&equality(first.clone(), second.clone())), [0, 1]);
    assert_eq!(counts(&equality(Term::arith(first, second), Term::Integer)), [0, 1]);
}

#[test]
fn the_innermost_and_the_last_of_one_list() {
    let numbers = || equality(v(), Term::Integer);
    assert_eq!(counts(&exists("v", "Long", and(exists("v", "String", call()), numbers()))), [1, 0]);
    assert_eq!(counts(&exists("v", "Long", exists("v", "String", numbers()))), [1, 1]);
    assert_eq!(counts(&exists("v", "String", exists("v", "Long", numbers()))), [0, 0]);
    assert_eq!(counts(&equality(Term::Integer, count(&["Long", "String"], numbers()))), [1, 1]);
    assert_eq!(counts(&equality(Term::Integer, count(&["String", "Long"], numbers()))), [0, 0]);
}

#[test]
fn else_the_input() {
    let schema = texts();
    let outside = and(exists("v", "Long", call()), equality(v(), Term::Integer));
    let message = "equality requires both sides to have the same type, got `string` and `int`";
    assert_eq!(messages(Rules::plain(), &schema, &outside), NOTHING);
    assert_eq!(messages(Rules::own_bodies(), &schema, &outside), [message]);
    let inside = exists("v", "Long", equality(v(), Term::Integer));
    assert_eq!(messages(Rules::own_bodies(), &schema, &inside), NOTHING);
}

#[test]
fn what_a_use_is() {
    let tp = || Condition::tp(0..9, "t");
    assert_eq!(counts(&and(exists("t", "Long", call()), tp())), [1, 0]);
    assert_eq!(counts(&exists("t", "Long", tp())), [1, 1]);
    // a binder without a name hides nothing, and a variable in an array has no type
    let unnamed = Condition::exists(0..9, Binder::new(Slot::ParamRef, "String"), equality(v(), Term::String));
    assert_eq!(counts(&exists("v", "Long", unnamed)), [1, 1]);
    let arrays = equality(Term::array([v()]), Term::array([Term::Integer]));
    assert_eq!(counts(&exists("v", "Long", arrays)), [1, 1]);
    let added = exists("v", "String", equality(Term::arith(v(), Term::Integer), Term::Integer));
    let message = "arithmetic operates only on `Long` values, but this operand has type `string`";
    assert_eq!(messages(Rules::own_bodies(), SCHEMA, &added), [message]);
}

#[test]
fn summands() {
    let beside = and(equality(Term::Integer, sum(&["Long"], call())), exists("v", "String", call()));
    assert_eq!(sum_counts(&beside), [1, 0]);
    let around = exists("v", "String", equality(Term::Integer, sum(&[], call())));
    let message = "cannot sum `v`: sum requires a `Long` summand, but `v` is `String`.";
    assert_eq!(summed(Rules::own_bodies(), &around), [report(3, 7, message)]);
    // a binder in the body, and the list of a sibling
    assert_eq!(sum_counts(&equality(Term::Integer, sum(&[], exists("v", "String", call())))), [1, 0]);
    assert_eq!(sum_counts(&equality(count(&["String"], call()), sum(&[], call()))), [1, 0]);
    // the own list before what is around, and the last of it
    let own = |annotations: &[&str]| exists("v", "String", equality(Term::Integer, sum(annotations, call())));
    assert_eq!(sum_counts(&own(&["Long"])), [0, 0]);
    assert_eq!(sum_counts(&own(&["Long", "String"])), [1, 1]);
}

#[test]
fn a_sum_in_an_argument() {
    assert_eq!(sum_counts(&argument(sum(&["String"], call()))), [0, 1]);
    let below = equality(Term::Integer, sum(&["String"], call()));
    assert_eq!(sum_counts(&argument(count(&[], below))), [0, 0]);
}

#[test]
fn with_strict_rules() {
    let tags = equality(Term::entity("Clerk"), Term::entity("Register"));
    let condition = and(tags, and(exists("v", "Long", call()), equality(v(), Term::String)));
    let unlike = |left: &str, right: &str| {
        format!("equality requires both sides to have the same type, got `{left}` and `{right}`")
    };
    let (tags, flat) = (&unlike("Clerk", "Register"), &unlike("int", "string"));
    let both = Rules::strict().and(Rules::own_bodies());
    assert_eq!(messages(Rules::plain(), SCHEMA, &condition), [flat.as_str()]);
    assert_eq!(messages(Rules::strict(), SCHEMA, &condition), [tags.as_str(), flat]);
    assert_eq!(messages(Rules::own_bodies(), SCHEMA, &condition), NOTHING);
    assert_eq!(messages(both, SCHEMA, &condition), [tags.as_str()]);
    // in the sums nothing is strict
    let beside = and(equality(Term::Integer, sum(&["Long"], call())), exists("v", "String", call()));
    assert_eq!([Rules::strict(), both].map(|rules| summed(rules, &beside).len()), [1, 0]);
}

/// Where each name is declared once and used in its binder's body, answers, visits and bytes are the same.
#[test]
fn the_same_where_each_use_lies_in_its_body() {
    let counted = count(&["Bool"], and(equality(v(), Term::Integer), Condition::tp(4..5, "t")));
    let condition = exists("t", "Long", and(equality(Term::var("t"), Term::String), equality(counted, Term::var("w"))));
    let condition = condition.encode().unwrap();
    for space in [0, 100, 200, 1024] {
        let run = |rules| {
            let (mut buffer, mut reports) = (vec![0xA5; space], vec![0xA5; space]);
            let answer = check_with(rules, SCHEMA, &condition, TARGETS, &mut buffer, &mut []);
            (answer, buffer, sums_with(rules, &condition, &mut reports), reports)
        };
        assert_eq!(run(Rules::own_bodies()), run(Rules::plain()));
        assert_eq!(run(Rules::own_bodies().and(Rules::strict())), run(Rules::strict()));
    }
}
