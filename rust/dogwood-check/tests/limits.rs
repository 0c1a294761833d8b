//! The last that fits and the first that does not: 255 bytes and entries, 32 levels, 32,768 bytes.

use dogwood_check::*;

fn problem<T: std::fmt::Debug>(result: Result<T, EncodeError>) -> Problem {
    result.unwrap_err().problem().clone()
}

fn name(length: usize) -> String {
    "n".repeat(length)
}

/// The same in every place where a text may stand.
#[test]
fn texts_of_255_and_256_bytes() {
    type Place = fn(String) -> Result<Vec<u8>, EncodeError>;
    type Reader = fn(&[u8]) -> Result<(), Cause>;
    let places: [(Place, Reader); 13] = [
        (|n| Schema::new().entity_type(EntityType::new(n)).encode(), read_schema),
        (|n| Schema::new().entity_type(EntityType::new("E").ancestor(n)).encode(), read_schema),
        (|n| Schema::new().entity_type(EntityType::new("E").attribute(n, Type::Long)).encode(), read_schema),
        (|n| Schema::new().action(Action::new(n, "view")).encode(), read_schema),
        (|n| Schema::new().action(Action::new("Action", n)).encode(), read_schema),
        (|n| Schema::new().action(Action::new("Action", "view").context(Type::extension(n))).encode(), read_schema),
        (|n| Condition::tp(0..1, n).encode(), read_condition),
        (|n| Condition::comparison(0..1, Operator::Eq, Term::var(n), Term::Integer).encode(), read_condition),
        (|n| Condition::predicate(0..1, [n], "view", []).encode(), read_condition),
        (|n| Condition::exists(0..1, Binder::new("v", n.as_str()), Condition::call(0..1)).encode(), read_condition),
        (|n| Targets::new().resource(Narrowing::uid_in(n)).encode(), read_targets),
        (|n| Targets::new().target(Target::in_namespace(n, "view")).encode(), read_targets),
        (|n| Path::resource([n], 255).encode(), read_path),
    ];
    for (place, read) in places {
        assert_eq!(read(&place(name(255)).unwrap()), Ok(()));
        assert_eq!(problem(place(name(256))), Problem::TextTooLong { text: name(256) });
    }
}

#[test]
fn lists_of_255_and_256_entries() {
    let array = |count| {
        let array = Term::Array(vec![Term::Integer; count]);
        Condition::comparison(0..1, Operator::Eq, array, Term::Wildcard).encode()
    };
    assert_eq!(read_condition(&array(255).unwrap()), Ok(()));
    assert_eq!(problem(array(256)), Problem::TooMany { what: "elements of an array", count: 256, most: 255 });
    let targets = |count| Targets { list: vec![Target::new("view"); count], ..Targets::new() }.encode();
    assert_eq!(read_targets(&targets(255).unwrap()), Ok(()));
    assert_eq!(problem(targets(256)), Problem::TooMany { what: "targets", count: 256, most: 255 });
}

/// Entity types have a 16-bit count, which no record of 32,768 bytes comes to.
#[test]
fn very_many_entity_types() {
    let schema = |count| {
        let entity_types = (0..count).map(|number| EntityType::new(format!("E{number}"))).collect();
        Schema { entity_types, actions: Vec::new() }.encode()
    };
    assert_eq!(read_schema(&schema(3000).unwrap()), Ok(()));
    assert!(matches!(problem(schema(65_535)), Problem::TooLong { .. }));
    assert_eq!(problem(schema(65_536)), Problem::TooMany { what: "entity types", count: 65_536, most: 65_535 });
}

fn negated(levels: u8) -> Condition {
    (1..levels).fold(Condition::call(5..6), |inner, _| Condition::negation(0..1, inner))
}

#[test]
fn conditions_at_levels_32_and_33() {
    assert_eq!(read_condition(&negated(32).encode().unwrap()), Ok(()));
    let error = negated(33).encode().unwrap_err();
    assert_eq!(error.problem(), &Problem::TooDeep);
    assert_eq!(error.span(), Some(Span { start: 0, end: 1 }));
    assert_eq!(error.to_string(), "at 0..1: it is nested more than 32 levels deep");
    assert_eq!(error.cause(), Some(Cause::TooDeep));
}

/// Operands are one level below their comparison, an aggregate's body one below its term.
#[test]
fn terms_at_levels_32_and_33() {
    let nots = |count: u8, inner| (0..count).fold(inner, |inner, _| Condition::negation(0..1, inner));
    let comparison = |left| Condition::comparison(0..1, Operator::Eq, left, Term::Integer);
    assert!(nots(30, comparison(Term::Integer)).encode().is_ok());
    assert_eq!(problem(nots(31, comparison(Term::Integer)).encode()), Problem::TooDeep);
    let count = || comparison(Term::aggregate(Aggregate::count(0..1, [], Condition::call(0..1))));
    assert_eq!(read_condition(&nots(29, count()).encode().unwrap()), Ok(()));
    assert_eq!(problem(nots(30, count()).encode()), Problem::TooDeep);
    let empty = || comparison(Term::array([]));
    assert_eq!(read_condition(&nots(30, empty()).encode().unwrap()), Ok(()));
    assert_eq!(problem(nots(30, comparison(Term::array([Term::Integer]))).encode()), Problem::TooDeep);
}

#[test]
fn types_at_levels_32_and_33() {
    let sets = |count: u8, inner| (0..count).fold(inner, |inner, _| Type::set(inner));
    let context = |ty| Schema::new().action(Action::new("Action", "view").context(ty)).encode();
    let attribute = |ty| Schema::new().entity_type(EntityType::new("E").attribute("a", ty)).encode();
    for schema in [context, attribute] {
        assert_eq!(read_schema(&schema(sets(31, Type::Long)).unwrap()), Ok(()));
        assert_eq!(problem(schema(sets(32, Type::Long))), Problem::TooDeep);
        assert_eq!(read_schema(&schema(sets(31, Type::Record(Vec::new()))).unwrap()), Ok(()));
        assert_eq!(problem(schema(sets(31, Type::record([("a", Type::Long)])))), Problem::TooDeep);
    }
}

/// A condition whose record has this many bytes: calls of 9 bytes, an `&&` of 9 for each, and a name for the rest.
fn sized(bytes: usize) -> Condition {
    let rest = bytes - (5 + 11);
    let mut all = vec![Condition::call(0..1); rest / 18];
    all.push(Condition::tp(0..1, name(rest % 18)));
    while all.len() > 1 {
        let join = |pair: &[Condition]| pair.iter().cloned().reduce(|left, right| Condition::and(0..1, left, right));
        all = all.chunks(2).filter_map(join).collect();
    }
    all.remove(0)
}

#[test]
fn records_of_32768_and_32769_bytes() {
    let encoded = sized(MOST_BYTES).encode().unwrap();
    assert_eq!(encoded.len(), MOST_BYTES);
    assert_eq!(read_condition(&encoded), Ok(()));
    let error = sized(MOST_BYTES + 1).encode().unwrap_err();
    assert_eq!(error.problem(), &Problem::TooLong { bytes: MOST_BYTES + 1 });
    assert_eq!(error.to_string(), "the record has 32769 bytes, and at most 32768 are read");
}

/// What would be written as something else is an error.
#[test]
fn nothing_in_place_of_a_name() {
    let targets = Targets::new().target(Target::in_namespace("", "view"));
    assert_eq!(problem(targets.encode()), Problem::OutsideClass { text: String::new(), class: Class::PathName });
    let binder = Binder { slot: Slot::from("v"), annotation: Annotation::Named(Vec::new()) };
    let error = Condition::exists(3..9, binder, Condition::call(0..1)).encode().unwrap_err();
    assert_eq!(error.problem(), &Problem::NoSegments);
    assert_eq!(error.to_string(), "at 3..9: in binder `v`: a type annotation has no name");
}

/// An aggregate is named by its array's place.
#[test]
fn aggregates_below_arrays() {
    let array = Term::array([Term::arith(Term::Integer, Term::aggregate(Aggregate::call(7..8)))]);
    let error = Condition::comparison(2..9, Operator::Eq, array, Term::Integer).encode().unwrap_err();
    assert_eq!(error.to_string(), "at 2..9: a sum or count stands inside an array, where none may stand");
}

#[test]
fn errors_name_the_offender() {
    let home = Type::record([("town", Type::String), ("town", Type::Long)]);
    let user = EntityType::new("User").attribute("home", home);
    let error = Schema::new().entity_type(user).encode().unwrap_err();
    assert_eq!(error.to_string(), "in entity type `User`, attribute `home`: `town` is given twice");
    let view = || Action::new("Action", "view");
    let error = Schema::new().action(view()).action(view()).encode().unwrap_err();
    assert_eq!(error.to_string(), "`Action::\"view\"` is given twice");
    let error = Schema::new().action(view().resource("Box").resource("1st")).encode().unwrap_err();
    let start = "in action `Action::\"view\"`, the resources: `1st` is not a path name";
    assert!(error.to_string().starts_with(start), "{error}");
    let argument = Argument::new("input.größe", Term::Integer);
    let error = Condition::predicate(1..2, ["Action"], "view", [argument]).encode().unwrap_err();
    let start = "at 1..2: in argument `input.größe`: `input.größe` is not a plain string";
    assert!(error.to_string().starts_with(start), "{error}");
    let error = Path::principal(["two\nlines"], 0).encode().unwrap_err();
    assert!(error.to_string().starts_with("in the segments: `two\\nlines` is not a plain string"), "{error}");
    let error = Path::principal([name(300)], 0).encode().unwrap_err();
    let sentence = format!("in the segments: `{}…` has 300 bytes, and a text has at most 255", name(60));
    assert_eq!(error.to_string(), sentence);
}
