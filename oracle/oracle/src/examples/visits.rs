//! Examples of the number of visits: whole answers of checks, of which the published Rust gives all but that number.

use crate::answers::Answer;
use crate::cases::{Case, Operation};
use crate::pieces::*;

/// Records, the size of the lent buffer, and the answer.
pub struct Visited {
    pub shows: &'static str,
    pub schema: Piece,
    pub condition: Piece,
    /// In bytes, of which one example cuts some off.
    pub targets: Vec<u8>,
    pub size: usize,
    pub answer: Answer,
}

impl Visited {
    pub fn case(&self) -> Case {
        let records = vec![self.schema.bytes(), self.condition.bytes(), self.targets.clone()];
        Case { operation: Operation::Check, records, size: self.size }
    }
}

const NOWHERE: (u32, u32) = (0, 0);
const EQ: u8 = 4;

fn call() -> Piece {
    condition(11, NOWHERE, vec![])
}

fn both(left: Piece, right: Piece) -> Piece {
    condition(1, NOWHERE, vec![left, right])
}

/// `1 == "s"`, whose report has 84 bytes.
fn breach(at: (u32, u32)) -> Piece {
    comparison(at, EQ, integer(), term(4, vec![]))
}

fn under(ids: &[&str]) -> Vec<u8> {
    narrowed(0, ids)
}

/// With a narrowing of the principal.
fn narrowed(principal: u8, ids: &[&str]) -> Vec<u8> {
    targets(byte(principal), byte(0), ids.iter().map(|id| target("", id)).collect()).bytes()
}

/// A condition under the target `view`, in a buffer of this size: number, count and visits.
fn visited(shows: &'static str, root: Piece, size: usize, [number, count, visits]: [usize; 3]) -> Visited {
    Visited {
        shows,
        schema: schema(vec![], vec![]),
        condition: condition_record(root),
        targets: under(&["view"]),
        size,
        answer: Answer { number: number as u8, record: 0, count, visits },
    }
}

pub fn all() -> Vec<Visited> {
    let nothing: [&str; 0] = [];
    let no_principal = action("Action", "view", &nothing, &nothing, record_type(vec![]));
    let counting = || count(NOWHERE, vec![], call());
    let asking = predicate(NOWHERE, NOWHERE, &nothing, "", vec![argument("", &nothing, counting())]);
    vec![
        visited("one condition under one target", call(), 4_096, [0, 0, 1]),
        Visited {
            targets: under(&["v", "v"]),
            ..visited("a target listed twice", condition(3, NOWHERE, vec![call()]), 4_096, [0, 0, 4])
        },
        Visited { targets: under(&[]), ..visited("no target", call(), 4_096, [0, 0, 0]) },
        Visited {
            schema: schema(vec![], vec![no_principal]),
            targets: narrowed(1, &["view", "edit"]),
            ..visited("one is skipped, one is not declared", call(), 4_096, [0, 0, 1])
        },
        visited("an aggregate in an argument is not entered", asking, 4_096, [0, 0, 1]),
        visited("one in an operand is", comparison(NOWHERE, EQ, integer(), counting()), 4_096, [0, 0, 2]),
        visited("nine bytes for each", both(call(), call()), 4_096, [0, 0, 3]),
        visited("the visit that fails is counted", both(call(), breach(NOWHERE)), 0, [11, 0, 3]),
        visited("the second does not fit", both(breach((1, 0)), breach((2, 0))), 90, [11, 1, 3]),
        visited("the first does not fit", both(breach((1, 0)), breach((2, 0))), 83, [11, 0, 2]),
        visited("a repeat never fails to fit", both(breach((1, 0)), breach((1, 9))), 85, [0, 1, 3]),
        Visited { targets: under(&["v", "w"]), ..visited("no target behind it", breach(NOWHERE), 0, [11, 0, 1]) },
        Visited {
            targets: b"DWT\0\x01\0\0\x01".to_vec(),
            answer: Answer { number: 2, record: 3, count: 0, visits: 0 },
            ..visited("a record that is cut", call(), 4_096, [0, 0, 0])
        },
    ]
}
