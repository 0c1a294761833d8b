//! Examples of the strict check, for which the Rust is no judge: the reports stand here, as its definition gives them.
//! Those of the plain check of the same records stand beside them, and are the Rust's.

use super::rules::{equality, numeric, Checked};
use crate::answers::{self, Answer};
use crate::pieces::*;

/// A check's reports (start, end, message).
type Said = Vec<(u32, u32, String)>;

/// Records with what the plain check and the strict one report of them.
pub struct Compared {
    pub shows: &'static str,
    pub schema: Piece,
    pub condition: Piece,
    pub plain: Said,
    pub strict: Said,
    /// The visits of the strict check with space for all reports, and with a byte too little.
    pub visits: [usize; 2],
}

impl Compared {
    /// The plain check, for the Rust to judge.
    pub fn plainly(self) -> Checked {
        let targets = self.targets();
        let Compared { shows, schema, condition, plain, .. } = self;
        Checked { shows, schema, condition, targets, reports: plain }
    }

    pub fn targets(&self) -> Piece {
        targets(byte(0), byte(0), vec![target("", "view")])
    }

    pub fn records(&self) -> Vec<Vec<u8>> {
        [&self.schema, &self.condition, &self.targets()].map(Piece::bytes).to_vec()
    }
}

/// The strict check of an example's records, with a lent buffer; none where the records are those of no example.
pub fn check(records: &[Vec<u8>], buffer: &mut [u8]) -> Option<Answer> {
    let example = all().into_iter().find(|e| e.records() == records)?;
    let reports = example.strict.iter().map(|(start, end, message)| bytes_of(*start, *end, message));
    let answer = answers::write_all(reports, buffer);
    let [whole, stopped] = example.visits;
    Some(Answer { visits: if answer.number == 0 { whole } else { stopped }, ..answer })
}

fn bytes_of(start: u32, end: u32, message: &str) -> Vec<u8> {
    let length = u16::try_from(message.len()).expect("a message is shorter than that");
    [&start.to_be_bytes()[..], &end.to_be_bytes(), &length.to_be_bytes(), message.as_bytes()].concat()
}

const LT: u8 = 1;
const EQ: u8 = 4;
const NOT_EQ: u8 = 5;

/// A comparison at (0, 0) that the two checks judge so.
fn compared(
    shows: &'static str,
    operator: u8,
    left: Piece,
    right: Piece,
    [plain, strict]: [Vec<String>; 2],
) -> Compared {
    let at_zero = |messages: Vec<String>| messages.into_iter().map(|message| (0, 0, message)).collect();
    Compared {
        shows,
        schema: schema(vec![], vec![]),
        condition: condition_record(comparison((0, 0), operator, left, right)),
        plain: at_zero(plain),
        strict: at_zero(strict),
        visits: [1, 1],
    }
}

pub fn all() -> Vec<Compared> {
    let (u, g) = (|| entity("U"), || entity("G"));
    let only = |item: Piece| array(vec![item]);
    let alone = |message: String| [vec![], vec![message]];
    let both = |message: String| [vec![message.clone()], vec![message]];
    let neither = || [vec![], vec![]];
    let mixed = "mixed-type array";
    let nothing: [&str; 0] = [];
    let several = action("Action", "view", &["G", "U"], &nothing, record_type(vec![]));
    vec![
        compared("known, different tags", EQ, u(), g(), alone(equality("U", "G"))),
        compared("unequal is an equality too", NOT_EQ, u(), g(), alone(equality("U", "G"))),
        compared("a tag is the simple name", EQ, entity("A::U"), entity("B::U"), neither()),
        Compared {
            schema: schema(vec![], vec![several]),
            ..compared("two principals have no tag", EQ, scope_field(&["principal"]), entity("D"), neither())
        },
        compared("inside arrays also", EQ, only(u()), only(g()), alone(equality("array<U>", "array<G>"))),
        compared("at every layer", EQ, only(only(u())), only(only(g())), {
            alone(equality("array<array<U>>", "array<array<G>>"))
        }),
        compared("the empty array fits", EQ, only(u()), array(vec![]), neither()),
        compared("mixed with mixed", EQ, array(vec![u(), g()]), array(vec![g(), u()]), neither()),
        compared("mixed with one type", EQ, array(vec![u(), g()]), only(u()), both(equality(mixed, "array<U>"))),
        compared("order wants numbers", LT, u(), g(), both(numeric("U", "G"))),
        Compared {
            condition: condition_record(condition(
                1,
                (0, 0),
                vec![comparison((3, 4), EQ, u(), entity("string")), comparison((3, 9), EQ, u(), term(4, vec![]))],
            )),
            plain: vec![(3, 9, equality("U", "string"))],
            strict: vec![(3, 4, equality("U", "string"))],
            visits: [3, 2],
            ..compared("of one message and start the first end stays", EQ, u(), u(), neither())
        },
    ]
}
