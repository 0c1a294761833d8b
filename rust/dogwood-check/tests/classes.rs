//! The classes of strings, byte by byte: a text is encoded exactly where the proved reader accepts it.

use dogwood_check::*;

/// A record with a text of one class, by the builder and in bytes, and its reader.
struct Place {
    class: Class,
    encode: fn(&str) -> Result<Vec<u8>, EncodeError>,
    around: (&'static [u8], &'static [u8]),
    read: fn(&[u8]) -> Result<(), Cause>,
}

const CALL: &[u8] = b"\x0B\0\0\0\0\0\0\0\0";

const PLACES: [Place; 3] = [
    Place {
        class: Class::Plain,
        encode: |text| Condition::tp(0..0, text).encode(),
        around: (b"DWC\0\x01\x0A\0\0\0\0\0\0\0\0\0", b""),
        read: read_condition,
    },
    Place {
        class: Class::PathName,
        encode: |text| Targets::new().principal(Narrowing::is_type(text)).encode(),
        around: (b"DWT\0\x01\x02", b"\0\0"),
        read: read_targets,
    },
    Place {
        class: Class::Identifier,
        encode: |text| {
            let annotation = Annotation::Named(vec![text.to_string()]);
            let binder = Binder { slot: Slot::ParamRef, annotation };
            Condition::exists(0..0, binder, Condition::call(0..0)).encode()
        },
        around: (b"DWC\0\x01\x09\0\0\0\0\0\0\0\0\x01\x01", CALL),
        read: read_condition,
    },
];

fn agree(place: &Place, text: &str) -> bool {
    let length = [text.len() as u8];
    let bytes = [place.around.0, &length, text.as_bytes(), place.around.1].concat();
    let accepted = place.class.holds(text);
    match (place.encode)(text) {
        Ok(encoded) => {
            assert!(accepted);
            assert_eq!(encoded, bytes);
            assert_eq!((place.read)(&bytes), Ok(()), "{text:?}");
        }
        Err(error) => {
            assert!(!accepted);
            assert_eq!(error.problem(), &Problem::OutsideClass { text: text.to_string(), class: place.class });
            assert_eq!((place.read)(&bytes), Err(Cause::OutsideClass), "{text:?}");
        }
    }
    accepted
}

/// How many of the texts that `text` makes of each character up to U+00FF are accepted.
fn accepted(place: &Place, text: fn(char) -> String) -> usize {
    (0..=255u8).filter(|byte| agree(place, &text(char::from(*byte)))).count()
}

#[test]
fn every_character_in_every_place() {
    let [plain, path_name, identifier] = &PLACES;
    let letters = 2 * 26 + 1;
    assert_eq!(accepted(plain, |c| c.to_string()), 95 - 3);
    assert_eq!(accepted(plain, |c| format!("a{c}")), 95 - 3);
    for names in [path_name, identifier] {
        assert_eq!(accepted(names, |c| c.to_string()), letters);
        assert_eq!(accepted(names, |c| format!("a{c}")), letters + 10);
        assert_eq!(accepted(names, |c| format!("{c}a")), letters);
        assert_eq!(accepted(names, |c| format!("a{c}a")), letters + 10);
    }
    assert_eq!(accepted(path_name, |c| format!("a::{c}")), letters);
    assert_eq!(accepted(path_name, |c| format!("a:{c}b")), 1);
    assert_eq!(accepted(identifier, |c| format!("a::{c}")), 0);
}

#[test]
fn the_colons_of_a_path_name() {
    let path_name = &PLACES[1];
    for text in ["a::b", "a::b::c", "_::_1"] {
        assert!(agree(path_name, text));
    }
    for text in ["", ":", "::", "a:", "a::", "::a", "a:::b", "a::::b", "a::b:", "a:b::c"] {
        assert!(!agree(path_name, text));
    }
    assert!(agree(&PLACES[0], ""));
    assert!(!agree(&PLACES[2], ""));
}
