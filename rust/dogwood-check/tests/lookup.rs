//! The five answers of a lookup, and the decoder of its output.

use dogwood_check::*;

/// A reader has a name, a home and a year of birth, a clerk another one; a guest is not declared.
fn schema() -> Vec<u8> {
    let home = || Type::record([("town", Type::set(Type::String))]);
    Schema::new()
        .entity_type(EntityType::new("App::Reader").attribute("born", Type::Long).attribute("home", home()))
        .entity_type(EntityType::new("Clerk").attribute("born", Type::String).attribute("home", home()))
        .action(Action::new("Action", "view").principal("Clerk").principal("App::Reader").resource("App::Reader"))
        .action(Action::new("Action", "visit").principal("Guest"))
        .encode()
        .unwrap()
}

fn found(principal: Narrowing, path: Path) -> ScopePath {
    let targets = Targets::new()
        .principal(principal)
        .target(Target::new("view"))
        .target(Target::new("visit"))
        .target(Target::new("lost"));
    lookup(&schema(), &targets.encode().unwrap(), &path.encode().unwrap()).unwrap()
}

fn strings(all: &[&str]) -> Vec<String> {
    all.iter().map(|text| text.to_string()).collect()
}

#[test]
fn resolved() {
    let town = found(Narrowing::None, Path::principal(["home", "town"], 0));
    assert_eq!(town, ScopePath::Resolved("array<string>".to_string()));
    let born = found(Narrowing::is_type("Clerk"), Path::principal(["born"], 0));
    assert_eq!(born, ScopePath::Resolved("string".to_string()));
    // the principal's narrowing says nothing of resources
    let born = found(Narrowing::is_type("Clerk"), Path::resource(["born"], 0));
    assert_eq!(born, ScopePath::Resolved("int".to_string()));
}

/// Each type of the schema, in the words of the check.
#[test]
fn resolved_types() {
    let cases = [
        (Type::Long, "int"),
        (Type::String, "string"),
        (Type::Bool, "boolean"),
        (Type::extension("decimal"), "decimal"),
        (Type::datetime(), "datetime"),
        (Type::duration(), "duration"),
        (Type::extension("App::duration"), "duration"),
        (Type::extension("Datetime"), "string"),
        (Type::extension("datetime::ipaddr"), "string"),
        (Type::extension("ipaddr"), "string"),
        (Type::set(Type::datetime()), "array<datetime>"),
        (Type::set(Type::set(Type::Long)), "array<array<int>>"),
        (Type::AnySet, "array"),
        (Type::record([("a", Type::Long)]), "object"),
        (Type::entity("App::Reader"), "entity:Reader"),
        (Type::SeveralEntities, "entity"),
        (Type::AnyEntity, "entity"),
        (Type::Never, "never"),
    ];
    for (ty, word) in cases {
        let schema = Schema::new()
            .entity_type(EntityType::new("User").attribute("it", ty))
            .action(Action::new("App::Action", "view").resource("User"));
        let targets = Targets::new().target(Target::in_namespace("App", "view"));
        let path = Path::resource(["it"], 0);
        let answer = lookup(&schema.encode().unwrap(), &targets.encode().unwrap(), &path.encode().unwrap());
        assert_eq!(answer, Ok(ScopePath::Resolved(word.to_string())));
    }
}

#[test]
fn missing() {
    let answer = found(Narrowing::None, Path::principal(["age"], 0));
    assert_eq!(answer, ScopePath::Missing { segment: "age".to_string(), entities: strings(&["App::Reader", "Clerk"]) });
}

#[test]
fn not_a_record() {
    let answer = found(Narrowing::None, Path::principal(["born", "year", "day"], 0));
    assert_eq!(answer, ScopePath::NonRecord("year".to_string()));
}

#[test]
fn ambiguous() {
    assert_eq!(found(Narrowing::None, Path::principal(["born"], 0)), ScopePath::Ambiguous(strings(&["int", "string"])));
}

#[test]
fn unknown() {
    assert_eq!(found(Narrowing::None, Path::principal(["born"], 1)), ScopePath::Unknown);
    assert_eq!(found(Narrowing::None, Path::principal(["born"], 2)), ScopePath::Unknown);
    assert_eq!(found(Narrowing::None, Path::principal([""; 0], 0)), ScopePath::Unknown);
    assert_eq!(found(Narrowing::is_type("Letter"), Path::principal(["born"], 0)), ScopePath::Unknown);
}

/// More than the space that a call begins with: 100 entity types of 250 bytes.
#[test]
fn space_grows() {
    let names: Vec<String> = (0..100).map(|number| format!("E{number:0249}")).collect();
    let entity_types = (0..100).map(|number| EntityType::new(format!("E{number:0249}"))).collect();
    let view = Action { principals: names.clone(), ..Action::new("Action", "view") };
    let mut schema = Schema { entity_types, actions: vec![view] };
    // the names twice are too long for a record
    assert!(matches!(schema.encode().unwrap_err().problem(), Problem::TooLong { .. }));
    schema.entity_types.truncate(60);
    schema.actions[0].principals.truncate(60);
    let targets = Targets::new().target(Target::new("view")).encode().unwrap();
    let path = Path::principal(["age"], 0).encode().unwrap();
    let answer = lookup(&schema.encode().unwrap(), &targets, &path).unwrap();
    assert_eq!(answer, ScopePath::Missing { segment: "age".to_string(), entities: names[..60].to_vec() });
}

#[test]
fn the_decoder_takes_whole_outputs_alone() {
    let missing = [[1, 0, 2, 0, 1].as_slice(), b"a", &[0, 2], b"ab"].concat();
    let answer = ScopePath::Missing { segment: "a".to_string(), entities: strings(&["ab"]) };
    assert_eq!(ScopePath::decode(&missing), Ok(answer));
    for cut in 0..missing.len() {
        assert_eq!(ScopePath::decode(&missing[..cut]), Err(DecodeError::ScopePath));
    }
    let wrong: [&[u8]; 8] = [
        &[0, 0, 0],
        &[0, 0, 2, 0, 0, 0, 0],
        &[1, 0, 0],
        &[2, 0, 0],
        &[4, 0, 1, 0, 0],
        &[4, 0, 0, 0],
        &[5, 0, 0],
        &[0, 0, 1, 0, 1, 0xFF],
    ];
    for output in wrong {
        assert_eq!(ScopePath::decode(output), Err(DecodeError::ScopePath));
    }
    assert_eq!(ScopePath::decode(&[3, 0, 0]), Ok(ScopePath::Ambiguous(Vec::new())));
    assert_eq!(ScopePath::decode(&[4, 0, 0]), Ok(ScopePath::Unknown));
    assert_eq!(DecodeError::ScopePath.to_string(), "these bytes are not the output of a lookup");
}
