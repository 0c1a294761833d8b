//! Names that are nearly alike: lengths around one, two and many words of eight bytes, the first difference at each place.
//! Behind it the two names differ the other way round, so that the first difference alone decides.
//!
//! Order is seen where a reader wants attributes to ascend, equality where a context field is found or not.

use crate::cases::{Case, Draft, Operation};
use crate::pieces::*;
use crate::rng::Rng;

const LENGTHS: [usize; 9] = [0, 1, 7, 8, 9, 15, 16, 17, 255];

/// Where two names of these lengths may first differ: at each place of the shorter one. Beside a name of 255 bytes only its
/// ends, and of two such names only places around the ends of words; the rows of many names have all of these.
fn places(left: usize, right: usize) -> Vec<usize> {
    match (left.min(right), left.max(right)) {
        (255, _) => vec![0, 1, 6, 7, 8, 9, 15, 16, 17, 127, 128, 239, 246, 247, 248, 253, 254],
        (0, _) => vec![],
        (1, _) => vec![0],
        (shorter, 255) => vec![0, shorter - 1],
        (shorter, _) => (0..shorter).collect(),
    }
}

/// A name of so many bytes, which is the lower or the upper one at a place.
fn name(length: usize, place: usize, there: char, behind: char) -> String {
    (0..length).map(|i| if i < place { 'm' } else { [there, behind][usize::from(i > place)] }).collect()
}

/// Two names of these lengths that first differ at a place: the lower one, then the upper one.
fn differing(lower: usize, upper: usize, place: usize) -> (String, String) {
    (name(lower, place, 'b', 'y'), name(upper, place, 'y', 'b'))
}

/// Two names of these lengths of which one begins with the other.
fn alike(left: usize, right: usize) -> (String, String) {
    ("m".repeat(left), "m".repeat(right))
}

/// A schema that is read where the first name stands before the second.
fn ascending(names: &[String]) -> Piece {
    let context = record_type(names.iter().map(|name| (name.as_str(), ty(0, vec![]))).collect());
    schema(vec![], vec![action("Action", "view", &[""; 0], &[""; 0], context)])
}

/// Records whose check has a report just where the two names are the same.
fn found((declared, asked): (String, String)) -> Vec<Piece> {
    let compared = comparison((0, 9), 4, context_field(&[asked]), term(4, vec![]));
    vec![ascending(&[declared]), condition_record(compared), targets(byte(0), byte(0), vec![target("", "view")])]
}

/// The order of two names, of each length, at each place.
pub fn ordered() -> Vec<Case> {
    let mut pairs = Vec::new();
    for (left, right) in LENGTHS.iter().flat_map(|left| LENGTHS.map(|right| (*left, right))) {
        pairs.push(alike(left, right));
        for place in places(left, right) {
            pairs.push(differing(left, right, place));
            let (lower, upper) = differing(right, left, place);
            pairs.push((upper, lower));
        }
    }
    let two = pairs.into_iter().map(|(first, second)| ascending(&[first, second]));
    let records = two.chain(staircases()).map(|record| record.bytes());
    records.map(|bytes| Case { operation: Operation::ReadSchema, records: vec![bytes], size: 0 }).collect()
}

/// Names of 255 bytes in a row, of which each two neighbours first differ one place earlier: every place is met.
fn staircases() -> Vec<Piece> {
    let step = |place: usize| name(255, place, 'y', 'b');
    [0..120, 119..200, 199..256].map(|places| ascending(&places.rev().map(step).collect::<Vec<_>>())).to_vec()
}

/// The equality of two names, of each length, at each place.
pub fn equal() -> Vec<Case> {
    let mut pairs = Vec::new();
    for (left, right) in LENGTHS.iter().flat_map(|left| LENGTHS.map(|right| (*left, right))) {
        pairs.push(alike(left, right));
        if left == right {
            pairs.extend(places(left, right).into_iter().map(|place| differing(left, right, place)));
        }
    }
    let records = pairs.into_iter().map(|pair| found(pair).iter().map(Piece::bytes).collect());
    records.map(|records| Case { operation: Operation::Check, records, size: 200 }).collect()
}

/// A draft about two names that begin alike, for the operations that see order or equality; else none.
pub fn draft(rng: &mut Rng, operation: Operation) -> Option<Draft> {
    let length = rng.one(&[8, 20, 40, 255]);
    let (common, left, right) = (rng.below(length), rng.below(length + 1), rng.below(length + 1));
    let letters: Vec<char> = (0..length).map(|_| rng.one(&['a', 'b', '~'])).collect();
    let mut name = |length: usize| {
        let own = |(i, c): (usize, &char)| if i < common { *c } else { rng.one(&['a', 'b', '~']) };
        letters[..length].iter().enumerate().map(own).collect::<String>()
    };
    let pair = (name(left), name(right));
    let records = match operation {
        Operation::ReadSchema => vec![ascending(&[pair.0, pair.1])],
        Operation::Check => found(pair),
        _ => return None,
    };
    Some(Draft { operation, records, size: 200 })
}

#[cfg(test)]
mod tests {
    use super::*;
    use crate::cases::Outcome;

    /// Two names in ascending order are read, others are refused by 8; the rows with every place are read.
    #[test]
    fn neighbours_are_told_apart() {
        let answer = |names: [&str; 2]| {
            let bytes = ascending(&names.map(String::from)).bytes();
            Case { operation: Operation::ReadSchema, records: vec![bytes], size: 0 }.outcome()
        };
        let numbers = [["mmmmmmmby", "mmmmmmmyb"], ["mmmmmmmyb", "mmmmmmmby"], ["m", "m"]].map(answer);
        assert_eq!(numbers, [0, 8, 8].map(|number| Some(Outcome::Number(number))));
        for row in staircases() {
            let bytes = row.bytes();
            assert!(bytes.len() <= crate::records::LONGEST);
            let case = Case { operation: Operation::ReadSchema, records: vec![bytes], size: 0 };
            assert_eq!(case.outcome(), Some(Outcome::Number(0)));
        }
    }

    /// A field is found under its own name alone.
    #[test]
    fn a_field_is_found_by_its_name() {
        let reports = |case: &Case| match case.outcome() {
            Some(Outcome::Answered(answer, _)) => answer.count,
            _ => panic!("the records are accepted"),
        };
        assert_eq!(equal().iter().map(reports).sum::<usize>(), LENGTHS.len());
    }
}
