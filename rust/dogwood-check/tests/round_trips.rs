//! Random trees: what `encode` accepts the proved readers accept, and it has the bytes that the tree says; where one rule is
//! broken, `encode` says which, and the reader refuses those bytes by the same cause.

mod common;

use common::generate::Trees;
use common::parts::{Part, Tree};
use common::rng::Rng;
use common::spell;
use dogwood_check::*;
use std::collections::BTreeMap;

const TREES: u64 = 3000;

/// A record's tree, its two writers and its proved reader.
struct Kind<T> {
    tree: fn(&mut Trees) -> T,
    encode: fn(&T) -> Result<Vec<u8>, EncodeError>,
    spell: fn(&T) -> Vec<u8>,
    read: fn(&[u8]) -> Result<(), Cause>,
}

const SCHEMAS: Kind<Schema> =
    Kind { tree: Trees::schema, encode: Schema::encode, spell: spell::schema, read: read_schema };
const CONDITIONS: Kind<Condition> = Kind {
    tree: Trees::condition_record,
    encode: Condition::encode,
    spell: spell::condition_record,
    read: read_condition,
};
const TARGETS: Kind<Targets> =
    Kind { tree: Trees::targets, encode: Targets::encode, spell: spell::targets, read: read_targets };
const PATHS: Kind<Path> = Kind { tree: Trees::path, encode: Path::encode, spell: spell::path, read: read_path };

impl<T: Tree + Clone> Kind<T> {
    /// Random trees that were encoded: nearly all, but for a few that are too long.
    fn accepted(&self) -> Vec<T> {
        let trees = (0..TREES).map(|seed| (self.tree)(&mut Trees::new(seed)));
        let accepted: Vec<T> = trees.filter(|tree| self.is_accepted(tree)).collect();
        assert!(accepted.len() as u64 > TREES * 9 / 10);
        accepted
    }

    fn is_accepted(&self, tree: &T) -> bool {
        match (self.encode)(tree) {
            Ok(bytes) => {
                assert_eq!(bytes, (self.spell)(tree));
                assert_eq!((self.read)(&bytes), Ok(()));
                true
            }
            Err(error) => {
                assert!(matches!(error.problem(), Problem::TooLong { .. }), "{error}");
                assert_eq!((self.read)(&(self.spell)(tree)), Err(Cause::TooLong));
                false
            }
        }
    }

    /// Breaks one rule of each tree, whichever it has a place for, and counts the problems found.
    fn damaged(&self) -> BTreeMap<String, usize> {
        let mut found = BTreeMap::new();
        for (seed, tree) in self.accepted().into_iter().enumerate() {
            let mut rng = Rng::new(seed as u64);
            let damage = *rng.pick(&Damage::ALL);
            if let Some(tree) = damage.done_to(tree, &mut rng) {
                let error = (self.encode)(&tree).expect_err("the tree was damaged");
                assert!(damage.is_named_by(error.problem()), "{damage:?}: {error}");
                if let Some(cause) = error.cause() {
                    assert_eq!((self.read)(&(self.spell)(&tree)), Err(cause), "{error}");
                }
                *found.entry(format!("{damage:?}")).or_default() += 1;
            }
        }
        found
    }

    /// Each of these kinds of damage was done at least so many times, and no other.
    fn finds(&self, wanted: &[Damage], times: usize) {
        let found = self.damaged();
        for damage in Damage::ALL {
            let count = found.get(&format!("{damage:?}")).copied().unwrap_or(0);
            assert_eq!(count >= times, wanted.contains(&damage), "{damage:?}: {count} of {found:?}");
        }
    }
}

/// A way to break one rule.
#[derive(Clone, Copy, Debug, PartialEq)]
enum Damage {
    /// A text of 256 bytes.
    LongText,
    /// A text outside its class.
    OtherClass,
    /// A list of 256 entries.
    LongList,
    /// Something at level 33.
    Deep,
    /// A name twice.
    Twice,
    /// An aggregate below an array.
    AggregateInArray,
    /// An annotation without segments.
    NoSegments,
    /// A window that is negative, or too long by one of its unit.
    OtherWindow,
    /// A window beside a condition that has none, or none beside one that has.
    OneWindow,
    /// A value beside a literal that has none, or none beside one that has.
    OneValue,
}

impl Damage {
    const ALL: [Damage; 10] = [
        Damage::LongText,
        Damage::OtherClass,
        Damage::LongList,
        Damage::Deep,
        Damage::Twice,
        Damage::AggregateInArray,
        Damage::NoSegments,
        Damage::OtherWindow,
        Damage::OneWindow,
        Damage::OneValue,
    ];

    fn is_named_by(self, problem: &Problem) -> bool {
        match self {
            Damage::LongText => matches!(problem, Problem::TextTooLong { text } if text.len() == 256),
            Damage::OtherClass => matches!(problem, Problem::OutsideClass { .. }),
            Damage::LongList => matches!(problem, Problem::TooMany { count: 256, most: 255, .. }),
            Damage::Deep => *problem == Problem::TooDeep,
            Damage::Twice => matches!(problem, Problem::Repeated { .. }),
            Damage::AggregateInArray => *problem == Problem::AggregateBelowArray,
            Damage::NoSegments => *problem == Problem::NoSegments,
            Damage::OtherWindow => matches!(problem, Problem::WindowOutOfRange { .. }),
            Damage::OneWindow => *problem == Problem::WindowMissing,
            // with a value the windows of the tree may be missing too
            Damage::OneValue => matches!(problem, Problem::ValueMissing | Problem::WindowMissing),
        }
    }

    /// Whether this can be done to the part.
    fn fits(self, part: &Part) -> bool {
        match self {
            Damage::LongText | Damage::OtherClass => matches!(part, Part::Text(..) | Part::Namespace(_)),
            Damage::LongList => !matches!(
                part,
                Part::Text(..)
                    | Part::Namespace(_)
                    | Part::EntityTypes(_)
                    | Part::Actions(_)
                    | Part::Type(..)
                    | Part::Condition(..)
                    | Part::Term(..)
                    | Part::Window(_)
            ),
            Damage::Deep => matches!(part, Part::Type(..) | Part::Condition(..) | Part::Term(..)),
            Damage::Twice => match part {
                Part::Names(all) => (1..255).contains(&all.len()),
                Part::Attributes(all) => (1..255).contains(&all.len()),
                Part::EntityTypes(all) => !all.is_empty(),
                Part::Actions(all) => !all.is_empty(),
                _ => false,
            },
            // an array there, arithmetic in it, and the aggregate in that, at level 32 at most
            Damage::AggregateInArray => matches!(part, Part::Term(..31, _)),
            Damage::NoSegments => matches!(part, Part::Segments(_)),
            Damage::OtherWindow => matches!(part, Part::Window(Some(_))),
            Damage::OneWindow | Damage::OneValue => matches!(part, Part::Condition(..31, _)),
        }
    }

    /// The tree with this done to one of the parts that it fits, if there are any.
    fn done_to<T: Tree>(self, mut tree: T, rng: &mut Rng) -> Option<T> {
        let mut places = 0;
        tree.visit(&mut |part| places += usize::from(self.fits(&part)));
        if places == 0 {
            return None;
        }
        let valued = has_values(&mut tree);
        let mut chosen = Some(rng.below(places));
        tree.visit(&mut |part| {
            if chosen.is_some() && self.fits(&part) {
                if chosen == Some(0) {
                    self.hit(part, valued, rng);
                }
                chosen = chosen.and_then(|until| until.checked_sub(1));
            }
        });
        Some(tree)
    }

    /// Does this to a part of a tree that has values, or has none.
    fn hit(self, part: Part, valued: bool, rng: &mut Rng) {
        match self {
            Damage::LongText => lengthen(part),
            Damage::OtherClass => replace_text(part, rng),
            Damage::LongList => fill(part),
            Damage::Deep => deepen(part, valued, rng),
            Damage::Twice => repeat(part),
            Damage::AggregateInArray => put_aggregate(part, valued, rng),
            Damage::NoSegments => clear(part),
            Damage::OtherWindow => put_window(part, rng),
            Damage::OneWindow => put_two(part, rng),
            Damage::OneValue => put_literals(part, rng),
        }
    }
}

fn has_values<T: Tree>(tree: &mut T) -> bool {
    let mut found = false;
    tree.visit(&mut |part| found |= matches!(part, Part::Term(_, Term::Value(_) | Term::Computed(..))));
    found
}

/// An arithmetic, which in a tree with values has its operator.
fn arith(valued: bool, left: Term, right: Term) -> Term {
    match valued {
        true => Term::computed(ArithOp::Sub, left, right),
        false => Term::arith(left, right),
    }
}

fn lengthen(part: Part) {
    match part {
        Part::Text(_, text) => *text = "a".repeat(256),
        Part::Namespace(namespace) => *namespace = Some("a".repeat(256)),
        _ => unreachable!(),
    }
}

fn replace_text(part: Part, rng: &mut Rng) {
    const NO_PATH_NAME: [&str; 9] = ["", "1a", "a b", "a:b", "a::", "::a", "a:::b", "a-b", "Österreich"];
    const NO_IDENTIFIER: [&str; 5] = ["", "9", "a::b", "a b", "é"];
    const NO_PLAIN: [&str; 7] = ["\"", "it's", "a\\b", "\n", "\u{7f}", "\0", "naïve"];
    match part {
        Part::Text(Class::PathName, text) => *text = rng.pick(&NO_PATH_NAME).to_string(),
        Part::Text(Class::Identifier, text) => *text = rng.pick(&NO_IDENTIFIER).to_string(),
        Part::Text(_, text) => *text = rng.pick(&NO_PLAIN).to_string(),
        // an empty namespace would be written as none, which the reader accepts: see `limits.rs`
        Part::Namespace(namespace) => *namespace = Some(rng.pick(&NO_PATH_NAME[1..]).to_string()),
        _ => unreachable!(),
    }
}

/// A list of 256 entries, all different where that matters.
fn fill(part: Part) {
    let names = || (0..256).map(|number| format!("n{number}"));
    match part {
        Part::Texts(all) | Part::Names(all) | Part::Segments(all) => *all = names().collect(),
        Part::Attributes(all) => *all = names().map(|name| Attribute { name, ty: Type::Long }).collect(),
        Part::Arguments(all) => *all = names().map(|name| Argument::new(name, Term::Integer)).collect(),
        Part::Binders(all) => *all = names().map(|name| Binder::new(name, "Long")).collect(),
        Part::Elements(all) => *all = vec![Term::Integer; 256],
        Part::Targets(all) => *all = names().map(Target::new).collect(),
        _ => unreachable!(),
    }
}

/// Something at level 33 below the part.
fn deepen(part: Part, valued: bool, rng: &mut Rng) {
    match part {
        Part::Type(level, ty) => {
            *ty = (level..33).fold(Type::Long, |inner, _| match rng.below(2) {
                0 => Type::set(inner),
                _ => Type::record([("a", inner)]),
            });
        }
        Part::Condition(level, condition) => {
            *condition = (level..33).fold(Condition::call(0..0), |inner, _| match rng.below(3) {
                0 => Condition::negation(0..0, inner),
                1 => Condition::and(0..0, Condition::call(0..0), inner),
                _ => Condition::exists(0..0, Binder::new("v", "Long"), inner),
            });
        }
        Part::Term(level, term) => {
            *term = (level..33).fold(Term::Wildcard, |inner, _| match rng.below(3) {
                0 => Term::array([inner]),
                1 => arith(valued, Term::Wildcard, inner),
                _ => arith(valued, inner, Term::Wildcard),
            });
        }
        _ => unreachable!(),
    }
}

/// The first entry of a list once more.
fn repeat(part: Part) {
    match part {
        Part::Names(all) => all.push(all[0].clone()),
        Part::Attributes(all) => all.push(all[0].clone()),
        Part::EntityTypes(all) => all.push(all[0].clone()),
        Part::Actions(all) => all.push(all[0].clone()),
        _ => unreachable!(),
    }
}

fn put_aggregate(part: Part, valued: bool, rng: &mut Rng) {
    let Part::Term(_, term) = part else { unreachable!() };
    let call = Term::aggregate(Aggregate::call(3..4));
    *term = match rng.below(3) {
        0 => Term::array([Term::Wildcard, call]),
        1 => Term::array([Term::array([call])]),
        _ => Term::array([arith(valued, call, Term::Wildcard)]),
    };
}

fn clear(part: Part) {
    let Part::Segments(segments) = part else { unreachable!() };
    segments.clear();
}

fn put_window(part: Part, rng: &mut Rng) {
    let Part::Window(window) = part else { unreachable!() };
    let unit = *rng.pick(&TimeUnit::ALL);
    let amount = match (unit, rng.below(2)) {
        (TimeUnit::Seconds, _) | (_, 0) => *rng.pick(&[-1, i64::MIN]),
        _ => i64::MAX / unit.seconds() + 1,
    };
    *window = Some(Window::Within { amount, unit });
}

/// Two conditions that look back, one with a window and one without.
fn put_two(part: Part, rng: &mut Rng) {
    let Part::Condition(_, condition) = part else { unreachable!() };
    let call = || Condition::call(0..0);
    let (one, other) = (Condition::previous(0..0, call()), Condition::formerly_within(0..0, Window::ParamRef, call()));
    *condition = match rng.below(2) {
        0 => Condition::and(0..0, one, other),
        _ => Condition::and(0..0, other, one),
    };
}

/// Two terms of which one has a value and one has none.
fn put_literals(part: Part, rng: &mut Rng) {
    let Part::Condition(_, condition) = part else { unreachable!() };
    let without = match rng.below(4) {
        0 => Term::Integer,
        1 => Term::Bool,
        2 => Term::entity("U"),
        _ => Term::arith(Term::Wildcard, Term::Wildcard),
    };
    let with = match rng.below(4) {
        0 => Term::string(""),
        1 => Term::integer(0),
        2 => Term::uid("U", ""),
        _ => Term::computed(ArithOp::Mul, Term::Wildcard, Term::Wildcard),
    };
    *condition = match rng.below(2) {
        0 => Condition::comparison(0..0, Operator::Eq, with, without),
        _ => Condition::comparison(0..0, Operator::Eq, without, with),
    };
}

#[test]
fn schemas_are_read() {
    SCHEMAS.accepted();
}

#[test]
fn conditions_are_read() {
    CONDITIONS.accepted();
}

#[test]
fn targets_are_read() {
    TARGETS.accepted();
}

#[test]
fn paths_are_read() {
    PATHS.accepted();
}

#[test]
fn damaged_schemas_are_errors() {
    SCHEMAS.finds(&[Damage::LongText, Damage::OtherClass, Damage::LongList, Damage::Deep, Damage::Twice], 200);
}

#[test]
fn damaged_conditions_are_errors() {
    let wanted = [
        Damage::LongText,
        Damage::OtherClass,
        Damage::LongList,
        Damage::Deep,
        Damage::AggregateInArray,
        Damage::NoSegments,
        Damage::OtherWindow,
        Damage::OneWindow,
        Damage::OneValue,
    ];
    CONDITIONS.finds(&wanted, 80);
}

#[test]
fn damaged_targets_are_errors() {
    TARGETS.finds(&[Damage::LongText, Damage::OtherClass, Damage::LongList], 200);
}

#[test]
fn damaged_paths_are_errors() {
    PATHS.finds(&[Damage::LongText, Damage::OtherClass, Damage::LongList], 200);
}

/// The trees go to the last level and have records of every size, else the tests above would say little.
#[test]
fn trees_are_varied() {
    let conditions = CONDITIONS.accepted();
    let depths: Vec<u8> = conditions.iter().cloned().map(depth).collect();
    assert!(depths.iter().filter(|depth| **depth == 32).count() > 50);
    assert!(depths.iter().filter(|depth| **depth < 5).count() > 50);
    let sizes: Vec<usize> = conditions.iter().map(|tree| spell::condition_record(tree).len()).collect();
    assert!(sizes.iter().any(|size| *size > 5000) && sizes.iter().any(|size| *size < 20));
    for version in 1..=3 {
        let of = |tree: &&Condition| spell::condition_record(tree)[4] == version;
        assert!(conditions.iter().filter(of).count() > 200);
    }
}

fn depth(mut tree: Condition) -> u8 {
    let mut deepest = 0;
    tree.visit(&mut |part| {
        if let Part::Condition(level, _) | Part::Term(level, _) = part {
            deepest = deepest.max(level);
        }
    });
    deepest
}
