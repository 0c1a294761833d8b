//! Records of a given length, valid but for their length: strings are stretched until it is met.

use crate::pieces::*;

const NONE: [&str; 0] = [];

/// Fills of at most 255 bytes for `places` strings, whose lengths add up to `total`.
fn fills(places: usize, total: usize) -> Vec<String> {
    assert!(total <= places * 255, "{places} strings hold no {total} bytes");
    let mut left = total;
    (0..places)
        .map(|_| {
            let length = left.min(255);
            left -= length;
            "a".repeat(length)
        })
        .collect()
}

/// The record that `build` makes of the fills, at exactly `total` bytes.
fn stretched(places: usize, total: usize, build: impl Fn(&[String]) -> Piece) -> Piece {
    let bare = build(&fills(places, 0)).bytes().len();
    let record = build(&fills(places, total - bare));
    assert_eq!(record.bytes().len(), total);
    record
}

/// Targets with long ids.
pub fn targets_of(total: usize) -> Piece {
    stretched(200, total, |ids| targets(byte(0), byte(1), ids.iter().map(|id| target("", id)).collect()))
}

/// A path of long segments.
pub fn path_of(total: usize) -> Piece {
    stretched(200, total, |segments| path(1, segments, 0))
}

/// A predicate with many arguments, in the body of an `exists`.
pub fn condition_of(total: usize) -> Piece {
    stretched(200, total, |names| {
        let arguments = names.iter().map(|name| argument(name, &NONE, integer())).collect();
        condition_record(exists((0, 9), named("v", &["Long"]), predicate((1, 2), (3, 4), &NONE, "view", arguments)))
    })
}

/// Actions with long principals, told apart by their ids.
pub fn schema_of(total: usize) -> Piece {
    stretched(200, total, |fills| {
        let actions = fills.iter().enumerate().map(|(i, fill)| {
            let principal = format!("a{}", &fill[fill.len().min(1)..]);
            let resource = if fill.is_empty() { "b" } else { "bb" };
            action("Action", &format!("{i:03}"), &[principal.as_str()], &[resource], ty(0, vec![]))
        });
        schema(vec![], actions.collect())
    })
}
