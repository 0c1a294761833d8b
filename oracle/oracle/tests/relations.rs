//! The laws of the two tests of types, tried on the published Rust itself: all types of up to two layers over twelve bases.
//! What is proved of the definitions (crates/types/specs/Relations.antt) so holds of the code that they were taken from.

use dogwood_rust::extension::temporal::schema_info::{ArrayElem, RichType};

fn array_of(element: RichType) -> RichType {
    RichType::Array(ArrayElem::Of(Box::new(element)))
}

fn entity(tag: Option<&str>) -> RichType {
    RichType::Entity(tag.map(String::from))
}

fn all() -> Vec<RichType> {
    use RichType::*;
    let bases = vec![
        Long,
        String,
        Decimal,
        Bool,
        Timepoint,
        Record,
        Never,
        entity(None),
        entity(Some("A")),
        entity(Some("B")),
        Array(ArrayElem::Unknown),
        Array(ArrayElem::Mixed),
    ];
    let once: Vec<_> = bases.iter().cloned().map(array_of).collect();
    let twice: Vec<_> = once.iter().cloned().map(array_of).collect();
    [bases, once, twice].concat()
}

fn base(t: &RichType) -> &RichType {
    match t {
        RichType::Array(ArrayElem::Of(element)) => base(element),
        other => other,
    }
}

/// No array of unknown elements, at any layer.
fn is_known(t: &RichType) -> bool {
    *base(t) != RichType::Array(ArrayElem::Unknown)
}

/// No untagged entity, at any layer.
fn is_tagged(t: &RichType) -> bool {
    *base(t) != RichType::Entity(None)
}

#[test]
fn of_one_type_and_of_two() {
    for t in all() {
        assert!(t.accepts(&t) && t.compatible(&t), "{t}");
        for u in all() {
            assert_eq!(t.accepts(&u), u.accepts(&t), "{t} {u}");
            assert_eq!(t.compatible(&u), u.compatible(&t), "{t} {u}");
            assert!(!t.accepts(&u) || t.compatible(&u), "{t} {u}");
            if [&t, &u].iter().all(|v| is_known(v) && is_tagged(v)) {
                assert_eq!(t.accepts(&u), t == u, "{t} {u}");
            }
        }
    }
}

#[test]
fn compatibility_goes_through_a_type_without_unknown_array() {
    for between in all().into_iter().filter(is_known) {
        let fitting: Vec<_> = all().into_iter().filter(|t| t.compatible(&between)).collect();
        for (t, u) in fitting.iter().flat_map(|t| fitting.iter().map(move |u| (t, u))) {
            assert!(t.compatible(u), "{t} {between} {u}");
        }
    }
}

#[test]
fn what_does_not_hold() {
    let (any, mixed) = (RichType::Array(ArrayElem::Unknown), RichType::Array(ArrayElem::Mixed));
    let (longs, truths) = (array_of(RichType::Long), array_of(RichType::Bool));
    assert!(longs.compatible(&any) && any.compatible(&truths) && !longs.compatible(&truths));
    let [mixed_inside, any_inside, longs_inside] = [mixed.clone(), any.clone(), longs].map(array_of);
    assert!(mixed_inside.compatible(&any_inside) && any_inside.compatible(&longs_inside));
    assert!(!mixed_inside.compatible(&longs_inside));
    let [untagged, a, b] = [None, Some("A"), Some("B")].map(entity);
    assert!(a.accepts(&untagged) && untagged.accepts(&b) && !a.accepts(&b) && a.compatible(&b));
    assert!(any.accepts(&mixed) && any != mixed && untagged != a);
}
