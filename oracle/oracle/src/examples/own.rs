//! Examples of binders in their own bodies, from the readings of the request: each condition with what is reported of it
//! where names have one scope, as in the Rust, and where each binder has its own body.

use crate::answers::{self, Answer};
use crate::cases::{Case, Operation, Outcome, FILL};
use crate::hex;

pub struct Bound {
    pub shows: &'static str,
    /// Check or Sums.
    pub operation: Operation,
    pub records: Vec<Vec<u8>>,
    pub visits: usize,
    /// What is reported, at 0 to 0.
    pub flat: Option<&'static str>,
    pub own: Option<&'static str>,
}

const EMPTY_SCHEMA: &str = "44 57 53 00 01 00 00 00 00";
const ONE_TARGET: &str = "44 57 54 00 01 00 00 01 00 04 76 69 65 77";

/// A line: the letter of the operation, `S` and the schema, `C` and the condition, `=>`, the visits, after `|` what is
/// reported in one scope, after another what is reported in own bodies, each `-` for nothing, after `;` what it shows. A
/// schema that is not given has no entries; the target is `view`.
const TABLE: &str = "
k C 44 57 43 00 01 01 00 00 00 00 00 00 00 00 09 00 00 00 00 00 00 00 00 00 01 76 01 04 4C 6F 6E 67 0B 00 00 00 00 00 00 00 00 08 00 00 00 00 00 00 00 00 04 08 01 76 04 => 4 | equality requires both sides to have the same type, got `int` and `string` | - ; outside the body of an Exists a name is untyped
k C 44 57 43 00 01 08 00 00 00 00 00 00 00 00 04 0B 02 00 00 00 00 00 00 00 00 01 00 01 76 01 06 53 74 72 69 6E 67 0B 00 00 00 00 00 00 00 00 08 01 76 => 2 | equality requires both sides to have the same type, got `int` and `string` | - ; the other operand is outside of an aggregate's body
k C 44 57 43 00 01 08 00 00 00 00 00 00 00 00 04 0B 02 00 00 00 00 00 00 00 00 01 00 01 76 01 06 53 74 72 69 6E 67 08 00 00 00 00 00 00 00 00 04 08 01 76 02 0B 02 00 00 00 00 00 00 00 00 01 00 01 76 01 04 4C 6F 6E 67 0B 00 00 00 00 00 00 00 00 => 3 | - | equality requires both sides to have the same type, got `string` and `int` ; each aggregate has its own list
k C 44 57 43 00 01 09 00 00 00 00 00 00 00 00 00 01 76 01 04 4C 6F 6E 67 01 00 00 00 00 00 00 00 00 09 00 00 00 00 00 00 00 00 00 01 76 01 06 53 74 72 69 6E 67 0B 00 00 00 00 00 00 00 00 08 00 00 00 00 00 00 00 00 04 08 01 76 02 => 5 | equality requires both sides to have the same type, got `string` and `int` | - ; beside an inner body the outer binder counts
k C 44 57 43 00 01 09 00 00 00 00 00 00 00 00 00 01 76 01 04 4C 6F 6E 67 09 00 00 00 00 00 00 00 00 00 01 76 01 06 53 74 72 69 6E 67 08 00 00 00 00 00 00 00 00 04 08 01 76 02 => 3 | equality requires both sides to have the same type, got `string` and `int` | equality requires both sides to have the same type, got `string` and `int` ; in the inner body the inner binder counts
k C 44 57 43 00 01 08 00 00 00 00 00 00 00 00 04 02 0B 02 00 00 00 00 00 00 00 00 02 00 01 76 01 04 4C 6F 6E 67 00 01 76 01 06 53 74 72 69 6E 67 08 00 00 00 00 00 00 00 00 04 08 01 76 02 => 2 | equality requires both sides to have the same type, got `string` and `int` | equality requires both sides to have the same type, got `string` and `int` ; of one list the last
k S 44 57 53 00 01 00 00 00 01 06 41 63 74 69 6F 6E 04 76 69 65 77 00 00 06 01 05 69 6E 70 75 74 06 01 01 76 01 C 44 57 43 00 01 01 00 00 00 00 00 00 00 00 09 00 00 00 00 00 00 00 00 00 01 76 01 04 4C 6F 6E 67 0B 00 00 00 00 00 00 00 00 08 00 00 00 00 00 00 00 00 04 08 01 76 02 => 4 | - | equality requires both sides to have the same type, got `string` and `int` ; outside every body the field of the input
k C 44 57 43 00 01 01 00 00 00 00 00 00 00 00 09 00 00 00 00 00 00 00 00 00 01 74 01 04 4C 6F 6E 67 0B 00 00 00 00 00 00 00 00 0A 00 00 00 00 00 00 00 00 00 01 74 => 4 | `tp(t)` binds `t` to the current timepoint, but `t` is declared `int`; a `tp` variable must be declared `Timepoint` | - ; the name of tp is a use
k C 44 57 43 00 01 09 00 00 00 00 00 00 00 00 00 01 74 01 04 4C 6F 6E 67 0A 00 00 00 00 00 00 00 00 00 01 74 => 2 | `tp(t)` binds `t` to the current timepoint, but `t` is declared `int`; a `tp` variable must be declared `Timepoint` | `tp(t)` binds `t` to the current timepoint, but `t` is declared `int`; a `tp` variable must be declared `Timepoint` ; in the body too
k C 44 57 43 00 01 09 00 00 00 00 00 00 00 00 00 01 76 01 04 4C 6F 6E 67 09 00 00 00 00 00 00 00 00 01 01 06 53 74 72 69 6E 67 08 00 00 00 00 00 00 00 00 04 08 01 76 04 => 3 | equality requires both sides to have the same type, got `int` and `string` | equality requires both sides to have the same type, got `int` and `string` ; a binder without a name hides nothing
k C 44 57 43 00 01 09 00 00 00 00 00 00 00 00 00 01 76 01 04 4C 6F 6E 67 08 00 00 00 00 00 00 00 00 04 0A 01 08 01 76 0A 01 02 => 2 | equality requires both sides to have the same type, got `mixed-type array` and `array<int>` | equality requires both sides to have the same type, got `mixed-type array` and `array<int>` ; in an array a name has no type
k C 44 57 43 00 01 09 00 00 00 00 00 00 00 00 00 01 76 01 06 53 74 72 69 6E 67 08 00 00 00 00 00 00 00 00 04 0C 08 01 76 02 02 => 2 | arithmetic operates only on `Long` values, but this operand has type `string` | arithmetic operates only on `Long` values, but this operand has type `string` ; below arithmetic it has
m C 44 57 43 00 01 01 00 00 00 00 00 00 00 00 08 00 00 00 00 00 00 00 00 04 02 0B 01 00 00 00 00 00 00 00 00 00 01 76 01 00 01 76 01 04 4C 6F 6E 67 0B 00 00 00 00 00 00 00 00 09 00 00 00 00 00 00 00 00 00 01 76 01 06 53 74 72 69 6E 67 0B 00 00 00 00 00 00 00 00 => 0 | cannot sum `v`: sum requires a `Long` summand, but `v` is `String`. | - ; a summand is bound by its aggregate's own list
m C 44 57 43 00 01 09 00 00 00 00 00 00 00 00 00 01 76 01 06 53 74 72 69 6E 67 08 00 00 00 00 00 00 00 00 04 02 0B 01 00 00 00 00 00 00 00 00 00 01 76 00 0B 00 00 00 00 00 00 00 00 => 0 | cannot sum `v`: sum requires a `Long` summand, but `v` is `String`. | cannot sum `v`: sum requires a `Long` summand, but `v` is `String`. ; else by the innermost binder around
m C 44 57 43 00 01 08 00 00 00 00 00 00 00 00 04 02 0B 01 00 00 00 00 00 00 00 00 00 01 76 00 09 00 00 00 00 00 00 00 00 00 01 76 01 06 53 74 72 69 6E 67 0B 00 00 00 00 00 00 00 00 => 0 | cannot sum `v`: sum requires a `Long` summand, but `v` is `String`. | - ; a binder in the body does not cover the summand
m C 44 57 43 00 01 08 00 00 00 00 00 00 00 00 04 0B 02 00 00 00 00 00 00 00 00 01 00 01 76 01 06 53 74 72 69 6E 67 0B 00 00 00 00 00 00 00 00 0B 01 00 00 00 00 00 00 00 00 00 01 76 00 0B 00 00 00 00 00 00 00 00 => 0 | cannot sum `v`: sum requires a `Long` summand, but `v` is `String`. | - ; nor does the list of another aggregate
m C 44 57 43 00 01 07 00 00 00 00 00 00 00 00 00 00 00 00 00 00 00 00 00 00 01 00 00 0B 01 00 00 00 00 00 00 00 00 00 01 76 01 00 01 76 01 06 53 74 72 69 6E 67 0B 00 00 00 00 00 00 00 00 => 0 | - | cannot sum `v`: sum requires a `Long` summand, but `v` is `String`. ; in an argument the own list counts for the summand
m C 44 57 43 00 01 07 00 00 00 00 00 00 00 00 00 00 00 00 00 00 00 00 00 00 01 00 00 0B 02 00 00 00 00 00 00 00 00 00 08 00 00 00 00 00 00 00 00 04 02 0B 01 00 00 00 00 00 00 00 00 00 01 76 01 00 01 76 01 06 53 74 72 69 6E 67 0B 00 00 00 00 00 00 00 00 => 0 | - | - ; and the body there is not entered
";

pub fn all() -> Vec<Bound> {
    TABLE.lines().filter(|line| !line.is_empty()).map(example).collect()
}

impl Bound {
    /// What is answered, in one scope and in own bodies: the operation, and the message.
    pub fn answered(&self) -> [(Operation, Option<&'static str>); 2] {
        let own = self.operation.with_own_bodies().expect("an example is of Check or of Sums");
        [(self.operation, self.flat), (own, self.own)]
    }

    /// The case of one of the two operations with a buffer of this size.
    pub fn case(&self, operation: Operation, size: usize) -> Case {
        Case { operation, records: self.records.clone(), size }
    }

    /// The outcome in a buffer of this size, which holds all.
    pub fn outcome(&self, message: Option<&str>, size: usize) -> Outcome {
        let mut buffer = vec![FILL; size];
        let answer = answers::write_all(message.into_iter().map(report), &mut buffer);
        Outcome::Answered(Answer { visits: self.visits, ..answer }, buffer)
    }
}

/// A report at 0 to 0.
pub fn report(message: &str) -> Vec<u8> {
    let length = u16::try_from(message.len()).expect("a message is shorter than that");
    [&[0; 8][..], &length.to_be_bytes(), message.as_bytes()].concat()
}

fn example(line: &'static str) -> Bound {
    let (given, rest) = line.split_once(" => ").expect("a line has =>");
    let (answer, shows) = rest.rsplit_once(" ; ").expect("a line says what it shows");
    let mut parts = answer.split(" | ");
    let mut next = || parts.next().expect("a line has the visits and two answers");
    let (visits, [flat, own]) = (next().parse().expect("a number"), [next(), next()].map(message));
    let record =
        |letter: &str, otherwise: &str| hex::decode(part(given, letter).unwrap_or(otherwise)).expect("hexadecimal");
    let (operation, records) = match given.chars().next() {
        Some('m') => (Operation::Sums, vec![record(" C ", "")]),
        _ => (Operation::Check, vec![record(" S ", EMPTY_SCHEMA), record(" C ", ""), record(" T ", ONE_TARGET)]),
    };
    Bound { shows, operation, records, visits, flat, own }
}

fn message(said: &'static str) -> Option<&'static str> {
    (said != "-").then_some(said)
}

/// What follows a record's letter, up to the next one.
fn part<'a>(given: &'a str, letter: &str) -> Option<&'a str> {
    let (_, behind) = given.split_once(letter)?;
    Some(behind.split_once(" C ").map_or(behind, |(part, _)| part))
}
