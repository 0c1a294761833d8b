//! The types `datetime` and `duration` put into a scene, and names that are nearly theirs: other letters, the word as a
//! namespace, entities called like the types.

use super::{mutations, Scene};
use crate::pieces::{self, byte, entity, exists, integer, kind_of, named, term, text, texts, var, Piece, Sort};
use crate::rng::Rng;

const EXTENSIONS: [&str; 10] = [
    "datetime",
    "datetime",
    "datetime",
    "duration",
    "duration",
    "App::datetime",
    "A::B::duration",
    "Datetime",
    "datetime::ipaddr",
    "duration::Datetime",
];

const ANNOTATIONS: [&[&str]; 10] = [
    &["datetime"],
    &["datetime"],
    &["datetime"],
    &["duration"],
    &["duration"],
    &["App", "datetime"],
    &["A", "B", "duration"],
    &["datetime", "Long"],
    &["Datetime"],
    &["duration", "User"],
];

/// Entity types that are called like the types.
const ENTITIES: [&str; 4] = ["datetime", "App::duration", "Datetime", "datetime::User"];

/// A schema with extensions of these names. Where it is `alone` no type of it is a decimal or a Bool.
pub fn in_schema(rng: &mut Rng, schema: &Piece, alone: bool) -> Piece {
    let mut timed = schema.clone();
    timed.each_node(Sort::Type, &mut |parts| match kind_of(parts) {
        2 | 3 if alone || rng.chance(1, 2) => *parts = vec![byte(3), text(rng.one(&EXTENSIONS))],
        0 | 1 if rng.chance(1, 3) => *parts = vec![byte(3), text(rng.one(&EXTENSIONS))],
        7 if rng.chance(1, 6) => parts[1] = text(rng.one(&ENTITIES)),
        _ => {}
    });
    timed
}

/// A condition of version 1 with annotations of these words. Where it is `alone` no type of it is a decimal or a Bool.
pub fn in_condition(rng: &mut Rng, condition: &Piece, alone: bool) -> Piece {
    let mut timed = condition.clone();
    timed.each_node(Sort::Annotation, &mut |parts| {
        if alone && ALONE.iter().any(|last| ends_with(parts, last)) || rng.chance(2, 5) {
            *parts = vec![texts(rng.one(&ANNOTATIONS))];
        }
    });
    timed.each_node(Sort::Term, &mut |parts| match kind_of(parts) {
        3 | 5 if alone => *parts = parts_of(if rng.chance(1, 2) { integer() } else { term(4, vec![]) }),
        1 if rng.chance(1, 3) => *parts = parts_of(entity(rng.one(&ENTITIES))),
        _ => {}
    });
    timed
}

/// The same condition below two variables that are declared by these words and stand in the place of every other literal.
pub fn with_variables(rng: &mut Rng, condition: &Piece) -> Piece {
    const VARIABLES: [&str; 2] = ["d", "e"];
    let mut timed = condition.clone();
    timed.each_node(Sort::Term, &mut |parts| {
        if (2..=5).contains(&kind_of(parts)) && rng.chance(1, 2) {
            *parts = parts_of(var(rng.one(&VARIABLES)));
        }
    });
    let declared = |body, name| exists((0, 0), named(name, rng.one(&ANNOTATIONS)), body);
    pieces::with_root(timed, |root| VARIABLES.into_iter().fold(root, declared))
}

/// Entity types of a scene called like the types, wherever they stand: each new name has the old one's place in the order.
pub fn with_entity_types(scene: &mut Scene) {
    for (old, new) in
        [("entity", "datetime"), ("in", "duration")].map(|pair| (text(pair.0).bytes(), text(pair.1).bytes()))
    {
        for record in [&mut scene.schema, &mut scene.condition, &mut scene.targets] {
            mutations::renamed(record, &old, &new);
        }
    }
}

/// The last segments of the annotations that are decimals and Bools.
const ALONE: [&str; 4] = ["decimal", "Decimal", "Bool", "Boolean"];

/// Whether these are the parts of an annotation with this last segment.
fn ends_with(parts: &[Piece], last: &str) -> bool {
    matches!(parts, [Piece::List(_, segments)] if segments.last() == Some(&text(last)))
}

fn parts_of(node: Piece) -> Vec<Piece> {
    match node {
        Piece::Node(_, parts) => parts,
        other => vec![other],
    }
}
