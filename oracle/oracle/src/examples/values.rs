//! Examples of version 3: where values stand in a condition, and what is wrong with them.

use crate::cases::{Case, Operation};
use crate::hex;
use crate::pieces::{self, byte, target};

/// A condition, checked under one undeclared target without a schema's entries, and what is answered.
pub struct Valued {
    pub shows: &'static str,
    pub condition: Vec<u8>,
    pub number: u8,
    pub record: u8,
    /// The reports: start, end, message.
    pub reports: Vec<(u32, u32, String)>,
}

/// A line: `C` and the condition, `=>`, number, record and count, after `:` the report, after `;` what it shows.
const TABLE: &str = "
C 44 57 43 00 03 08 00 00 00 00 00 00 00 00 04 01 01 55 01 78 01 01 55 00 => 0 0 0 ; an id, and an empty one
C 44 57 43 00 03 08 00 00 00 00 00 00 00 00 04 02 80 00 00 00 00 00 00 00 02 7F FF FF FF FF FF FF FF => 0 0 0 ; the least and the largest number
C 44 57 43 00 03 08 00 00 00 00 00 00 00 00 04 05 00 05 01 => 0 0 0 ; both truths
C 44 57 43 00 03 08 00 00 00 00 00 00 00 00 04 04 01 61 03 03 31 2E 35 => 0 0 1 : 0 0 equality requires both sides to have the same type, got `string` and `decimal` ; the texts of a string and a decimal
C 44 57 43 00 03 08 00 00 00 00 00 00 00 00 04 0C 02 02 00 00 00 00 00 00 00 01 02 00 00 00 00 00 00 00 02 0A 01 02 00 00 00 00 00 00 00 03 => 0 0 1 : 0 0 equality requires both sides to have the same type, got `int` and `array<int>` ; an operator, and numbers below it and in an array
C 44 57 43 00 03 04 00 00 00 00 00 00 00 00 01 0B 00 00 00 00 00 00 00 00 => 0 0 0 ; version 3 has the windows of version 2
C 44 57 43 00 03 04 00 00 00 00 00 00 00 00 0B 00 00 00 00 00 00 00 00 => 5 2 0 ; so that one which is missing shows
C 44 57 43 00 02 08 00 00 00 00 00 00 00 00 04 02 02 => 0 0 0 ; version 2 has no values
C 44 57 43 00 03 08 00 00 00 00 00 00 00 00 04 01 01 55 => 2 2 0 ; an id that is missing
C 44 57 43 00 03 08 00 00 00 00 00 00 00 00 04 01 01 55 01 22 => 6 2 0 ; an id with a quote
C 44 57 43 00 03 08 00 00 00 00 00 00 00 00 04 02 00 00 00 00 00 00 00 => 2 2 0 ; a number that is cut
C 44 57 43 00 03 08 00 00 00 00 00 00 00 00 04 05 02 => 5 2 0 ; a truth that is undefined
C 44 57 43 00 03 08 00 00 00 00 00 00 00 00 04 0C 03 => 5 2 0 ; an operator that is undefined: the left term is not asked for
C 44 57 43 00 03 08 00 00 00 00 00 00 00 00 04 0C 02 0F => 5 2 0 ; the operator before the left term
C 44 57 43 00 03 08 00 00 00 00 00 00 00 00 04 0A 01 0C 00 0B => 9 2 0 ; an aggregate below an array, through arithmetic
C 44 57 43 00 03 08 00 00 00 00 00 00 00 00 04 03 04 31 2E => 2 2 0 ; a decimal's text that is cut
C 44 57 43 00 03 08 00 00 00 00 00 00 00 00 04 03 02 31 22 => 6 2 0 ; a quote comes before what is malformed
C 44 57 43 00 03 08 00 00 00 00 00 00 00 00 04 03 02 B1 2E => 6 2 0 ; so does a byte beyond ASCII
C 44 57 43 00 03 08 00 00 00 00 00 00 00 00 04 03 1A 39 39 39 39 39 39 39 39 39 39 39 39 39 39 39 39 39 39 39 39 2E 30 30 30 30 30 => 15 2 0 ; malformed and huge is malformed
C 44 57 43 00 03 08 00 00 00 00 00 00 00 00 04 03 16 39 39 39 39 39 39 39 39 39 39 39 39 39 39 39 39 39 39 39 39 2E 30 => 16 2 0 ; well formed and huge
C 44 57 43 00 03 08 00 00 00 00 00 00 00 00 04 03 00 => 15 2 0 ; an empty text is malformed
C 44 57 43 00 03 08 00 00 00 00 00 00 00 00 04 03 04 2D 30 2E 30 03 20 30 30 30 30 30 30 30 30 30 30 30 30 30 30 30 30 30 30 30 30 30 30 30 30 30 30 30 30 30 31 2E 35 => 0 0 0 ; no value but 0 behind a minus, and leading zeros
C 44 57 43 00 03 08 00 00 00 00 00 00 00 00 04 03 04 2B 31 2E 30 => 15 2 0 ; a plus
C 44 57 43 00 03 08 00 00 00 00 00 00 00 00 04 03 02 2E 35 => 15 2 0 ; no digit before the point
C 44 57 43 00 03 08 00 00 00 00 00 00 00 00 04 03 03 2D 2E 35 => 15 2 0 ; nor behind a minus
C 44 57 43 00 03 08 00 00 00 00 00 00 00 00 04 03 02 35 2E => 15 2 0 ; no digit after the point
C 44 57 43 00 03 08 00 00 00 00 00 00 00 00 04 03 01 35 => 15 2 0 ; no point
C 44 57 43 00 03 08 00 00 00 00 00 00 00 00 04 03 07 31 2E 30 30 30 30 30 => 15 2 0 ; five digits after the point, the last one 0
C 44 57 43 00 03 08 00 00 00 00 00 00 00 00 04 03 05 31 2E 30 2E 30 => 15 2 0 ; two points
C 44 57 43 00 03 08 00 00 00 00 00 00 00 00 04 03 04 20 31 2E 30 => 15 2 0 ; a blank
C 44 57 43 00 03 08 00 00 00 00 00 00 00 00 04 03 05 2D 2D 31 2E 30 => 15 2 0 ; two minus signs
C 44 57 43 00 03 08 00 00 00 00 00 00 00 00 04 03 14 39 32 32 33 33 37 32 30 33 36 38 35 34 37 37 2E 35 38 30 37 03 15 2D 39 32 32 33 33 37 32 30 33 36 38 35 34 37 37 2E 35 38 30 38 => 0 0 0 ; the largest and the least decimal
C 44 57 43 00 03 08 00 00 00 00 00 00 00 00 04 03 14 39 32 32 33 33 37 32 30 33 36 38 35 34 37 37 2E 35 38 30 38 => 16 2 0 ; one ten-thousandth more
C 44 57 43 00 03 08 00 00 00 00 00 00 00 00 04 03 15 2D 39 32 32 33 33 37 32 30 33 36 38 35 34 37 37 2E 35 38 30 39 => 16 2 0 ; one less
C 44 57 43 00 03 08 00 00 00 00 00 00 00 00 04 03 11 39 32 32 33 33 37 32 30 33 36 38 35 34 37 38 2E 30 => 16 2 0 ; beyond by its whole part
C 44 57 43 00 03 07 00 00 00 00 00 00 00 00 00 00 00 00 00 00 00 00 00 00 01 00 00 03 01 78 => 15 2 0 ; in an argument too
C 44 57 43 00 01 0B 00 00 00 00 00 00 00 00 => 0 0 0 ; version 1 is still read
C 44 57 43 00 02 0B 00 00 00 00 00 00 00 00 => 0 0 0 ; and version 2
C 44 57 43 00 03 0B 00 00 00 00 00 00 00 00 => 0 0 0 ; version 3
C 44 57 43 00 00 0B 00 00 00 00 00 00 00 00 => 4 2 0 ; there is no version 0
C 44 57 43 00 04 0B 00 00 00 00 00 00 00 00 => 4 2 0 ; version 4 is not known
C 44 57 43 01 02 0B 00 00 00 00 00 00 00 00 => 4 2 0 ; nor is one whose first byte is not 0
";

pub fn all() -> Vec<Valued> {
    TABLE.lines().filter(|line| !line.is_empty()).map(example).collect()
}

impl Valued {
    /// The schema, the condition and the targets.
    pub fn records(&self) -> Vec<Vec<u8>> {
        let schema = pieces::schema(vec![], vec![]).bytes();
        let targets = pieces::targets(byte(0), byte(0), vec![target("", "view")]).bytes();
        vec![schema, self.condition.clone(), targets]
    }

    /// The condition for a reader of it alone, for sums and for a listing in sweeps of a minute.
    pub fn other_cases(&self) -> [Case; 3] {
        let case = |operation, records, size| Case { operation, records, size };
        let condition = || self.condition.clone();
        let period = super::windows::period_bytes(60);
        [
            case(Operation::ReadCondition, vec![condition()], 0),
            case(Operation::Sums, vec![condition()], 100),
            case(Operation::Windows, vec![condition(), period], 100),
        ]
    }
}

fn example(line: &'static str) -> Valued {
    let (given, rest) = line.split_once("=>").expect("a line has =>");
    let (answer, shows) = rest.split_once(';').expect("a line says what it shows");
    let (numbers, report) = answer.split_once(':').unwrap_or((answer, ""));
    let numbers: Vec<u8> = numbers.split_whitespace().map(|n| n.parse().expect("a number")).collect();
    let reports: Vec<_> = report_of(report.trim()).into_iter().collect();
    assert_eq!(usize::from(numbers[2]), reports.len(), "{line}");
    let condition = given.trim().strip_prefix("C ").expect("a line has a condition");
    Valued {
        shows: shows.trim(),
        condition: hex::decode(condition).expect("hexadecimal"),
        number: numbers[0],
        record: numbers[1],
        reports,
    }
}

/// Start, end and message, where there is a report.
fn report_of(text: &str) -> Option<(u32, u32, String)> {
    let mut words = text.splitn(3, ' ');
    let start = words.next()?.parse().ok()?;
    let end = words.next()?.parse().ok()?;
    Some((start, end, words.next()?.to_string()))
}
