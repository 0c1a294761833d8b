//! Examples of the types `datetime` and `duration`, which the Rust does not know: what is answered stands here, as the
//! readings of the request give it, and beside it what the Rust says of some of the same records.

use crate::answers::{self, Answer, Found};
use crate::cases::{Case, Operation, Outcome, FILL};
use crate::hex;
use std::sync::LazyLock;

/// Whose answer a line has.
#[derive(Debug, Clone, Copy, PartialEq, Eq)]
pub enum Judge {
    /// The rules here, of records with one of the two types.
    Here,
    /// The published Rust, of such records.
    Rust,
    /// Both, of records without them, or of sums.
    Both,
}

pub struct Timed {
    pub shows: &'static str,
    pub judge: Judge,
    pub operation: Operation,
    pub records: Vec<Vec<u8>>,
    /// The answer in a buffer that holds the whole output.
    pub answer: Answer,
    /// What is written: each report, or what a lookup finds.
    pub output: Vec<Vec<u8>>,
}

const EMPTY_SCHEMA: &str = "44 57 53 00 01 00 00 00 00";
const ONE_TARGET: &str = "44 57 54 00 01 00 00 01 00 04 76 69 65 77";

/// A line: whose answer it has, the operation's letter, `S` and the schema, `C` and the condition, `P` and the path, `=>`,
/// number, record, count and visits, after `:` a report or what is found, after `;` what it shows. A schema that is not
/// given has no entries; the target is `view`.
const TABLE: &str = "
here l S 44 57 53 00 01 00 01 01 55 00 01 01 61 03 08 64 61 74 65 74 69 6D 65 00 01 06 41 63 74 69 6F 6E 04 76 69 65 77 01 01 55 00 06 00 P 44 57 50 00 01 00 01 01 61 00 => 0 0 13 0 : 0 datetime ; an extension of this name
rust l S 44 57 53 00 01 00 01 01 55 00 01 01 61 03 08 64 61 74 65 74 69 6D 65 00 01 06 41 63 74 69 6F 6E 04 76 69 65 77 01 01 55 00 06 00 P 44 57 50 00 01 00 01 01 61 00 => 0 0 11 0 : 0 string ; to the Rust any extension but decimal is a string
here l S 44 57 53 00 01 00 01 01 55 00 01 01 61 03 0D 41 70 70 3A 3A 64 75 72 61 74 69 6F 6E 00 01 06 41 63 74 69 6F 6E 04 76 69 65 77 01 01 55 00 06 00 P 44 57 50 00 01 00 01 01 61 00 => 0 0 13 0 : 0 duration ; its simple name decides
both l S 44 57 53 00 01 00 01 01 55 00 01 01 61 03 08 44 61 74 65 74 69 6D 65 00 01 06 41 63 74 69 6F 6E 04 76 69 65 77 01 01 55 00 06 00 P 44 57 50 00 01 00 01 01 61 00 => 0 0 11 0 : 0 string ; a capital is another word
both l S 44 57 53 00 01 00 01 01 55 00 01 01 61 07 08 64 61 74 65 74 69 6D 65 00 01 06 41 63 74 69 6F 6E 04 76 69 65 77 01 01 55 00 06 00 P 44 57 50 00 01 00 01 01 61 00 => 0 0 20 0 : 0 entity:datetime ; an entity type of this name is an entity
here l S 44 57 53 00 01 00 01 01 55 00 01 01 61 04 03 08 64 61 74 65 74 69 6D 65 00 01 06 41 63 74 69 6F 6E 04 76 69 65 77 01 01 55 00 06 00 P 44 57 50 00 01 00 01 01 61 00 => 0 0 20 0 : 0 array<datetime> ; in a set
here k C 44 57 43 00 01 09 00 00 00 00 00 00 00 00 00 01 76 01 08 64 61 74 65 74 69 6D 65 08 00 00 00 00 00 00 00 00 04 08 01 76 04 => 0 0 1 2 : 0 0 equality requires both sides to have the same type, got `datetime` and `string` ; an annotation of this word
here k C 44 57 43 00 01 09 00 00 00 00 00 00 00 00 00 01 76 02 03 41 70 70 08 64 61 74 65 74 69 6D 65 08 00 00 00 00 00 00 00 00 01 08 01 76 08 01 76 => 0 0 0 2 ; its last segment decides: two of them are ordered
both k C 44 57 43 00 01 09 00 00 00 00 00 00 00 00 00 01 76 02 08 64 61 74 65 74 69 6D 65 04 4C 6F 6E 67 08 00 00 00 00 00 00 00 00 01 08 01 76 02 => 0 0 0 2 ; so one with the word in front is what its last segment says
both k C 44 57 43 00 01 09 00 00 00 00 00 00 00 00 00 01 76 01 08 44 61 74 65 74 69 6D 65 08 00 00 00 00 00 00 00 00 04 08 01 76 01 01 55 => 0 0 0 2 ; a capital is another word: an entity
here k C 44 57 43 00 01 09 00 00 00 00 00 00 00 00 00 01 76 01 08 64 61 74 65 74 69 6D 65 08 00 00 00 00 00 00 00 00 04 08 01 76 01 08 64 61 74 65 74 69 6D 65 => 0 0 1 2 : 0 0 equality requires both sides to have the same type, got `datetime` and `datetime` ; an entity of this name is shown like the type and is none of it
rust k C 44 57 43 00 01 09 00 00 00 00 00 00 00 00 00 01 76 01 08 64 61 74 65 74 69 6D 65 08 00 00 00 00 00 00 00 00 04 08 01 76 01 08 64 61 74 65 74 69 6D 65 => 0 0 0 2 ; to the Rust both are entities
here k S 44 57 53 00 01 00 00 00 01 06 41 63 74 69 6F 6E 04 76 69 65 77 00 00 06 01 05 69 6E 70 75 74 06 03 01 64 03 08 64 61 74 65 74 69 6D 65 01 65 03 08 64 75 72 61 74 69 6F 6E 01 73 01 C 44 57 43 00 01 08 00 00 00 00 00 00 00 00 01 06 02 05 69 6E 70 75 74 01 64 06 02 05 69 6E 70 75 74 01 64 => 0 0 0 1 ; two datetimes are ordered
rust k S 44 57 53 00 01 00 00 00 01 06 41 63 74 69 6F 6E 04 76 69 65 77 00 00 06 01 05 69 6E 70 75 74 06 03 01 64 03 08 64 61 74 65 74 69 6D 65 01 65 03 08 64 75 72 61 74 69 6F 6E 01 73 01 C 44 57 43 00 01 08 00 00 00 00 00 00 00 00 01 06 02 05 69 6E 70 75 74 01 64 06 02 05 69 6E 70 75 74 01 64 => 0 0 1 1 : 0 0 comparison requires numeric operands on both sides, got `string` and `string` ; to the Rust they are strings
here k S 44 57 53 00 01 00 00 00 01 06 41 63 74 69 6F 6E 04 76 69 65 77 00 00 06 01 05 69 6E 70 75 74 06 03 01 64 03 08 64 61 74 65 74 69 6D 65 01 65 03 08 64 75 72 61 74 69 6F 6E 01 73 01 C 44 57 43 00 01 08 00 00 00 00 00 00 00 00 01 06 02 05 69 6E 70 75 74 01 64 06 02 05 69 6E 70 75 74 01 65 => 0 0 1 1 : 0 0 comparison requires numeric operands on both sides, got `datetime` and `duration` ; a datetime and a duration are not
here k S 44 57 53 00 01 00 00 00 01 06 41 63 74 69 6F 6E 04 76 69 65 77 00 00 06 01 05 69 6E 70 75 74 06 03 01 64 03 08 64 61 74 65 74 69 6D 65 01 65 03 08 64 75 72 61 74 69 6F 6E 01 73 01 C 44 57 43 00 01 08 00 00 00 00 00 00 00 00 01 06 02 05 69 6E 70 75 74 01 64 02 => 0 0 1 1 : 0 0 comparison requires numeric operands on both sides, got `datetime` and `int` ; nor a datetime and a number
here k C 44 57 43 00 01 09 00 00 00 00 00 00 00 00 00 01 76 01 08 64 61 74 65 74 69 6D 65 08 00 00 00 00 00 00 00 00 04 08 01 76 02 => 0 0 1 2 : 0 0 equality requires both sides to have the same type, got `datetime` and `int` ; it is no number in an equality either
here k C 44 57 43 00 01 09 00 00 00 00 00 00 00 00 00 01 76 01 08 64 61 74 65 74 69 6D 65 08 00 00 00 00 00 00 00 00 01 08 01 76 09 => 0 0 0 2 ; beside a wildcard nothing is judged
here k C 44 57 43 00 01 09 00 00 00 00 00 00 00 00 00 01 76 01 08 64 75 72 61 74 69 6F 6E 08 00 00 00 00 00 00 00 00 01 08 01 77 08 01 76 => 0 0 0 2 ; nor beside a free variable
both k C 44 57 43 00 01 08 00 00 00 00 00 00 00 00 01 02 09 => 0 0 0 1 ; as of a number
here k S 44 57 53 00 01 00 00 00 01 06 41 63 74 69 6F 6E 04 76 69 65 77 00 00 06 01 05 69 6E 70 75 74 06 03 01 64 03 08 64 61 74 65 74 69 6D 65 01 65 03 08 64 75 72 61 74 69 6F 6E 01 73 01 C 44 57 43 00 01 07 00 00 00 00 00 00 00 00 00 00 00 00 00 00 00 00 01 06 41 63 74 69 6F 6E 04 76 69 65 77 01 01 6E 02 05 69 6E 70 75 74 01 64 04 => 0 0 1 1 : 0 0 argument `n` of `view` expects `datetime` but got `string` ; a string is not accepted for a datetime
rust k S 44 57 53 00 01 00 00 00 01 06 41 63 74 69 6F 6E 04 76 69 65 77 00 00 06 01 05 69 6E 70 75 74 06 03 01 64 03 08 64 61 74 65 74 69 6D 65 01 65 03 08 64 75 72 61 74 69 6F 6E 01 73 01 C 44 57 43 00 01 07 00 00 00 00 00 00 00 00 00 00 00 00 00 00 00 00 01 06 41 63 74 69 6F 6E 04 76 69 65 77 01 01 6E 02 05 69 6E 70 75 74 01 64 04 => 0 0 0 1 ; to the Rust it is one string for another
here k S 44 57 53 00 01 00 00 00 01 06 41 63 74 69 6F 6E 04 76 69 65 77 00 00 06 01 05 69 6E 70 75 74 06 01 01 64 04 03 08 64 61 74 65 74 69 6D 65 C 44 57 43 00 01 08 00 00 00 00 00 00 00 00 04 06 02 05 69 6E 70 75 74 01 64 0A 01 04 => 0 0 1 1 : 0 0 equality requires both sides to have the same type, got `array<datetime>` and `array<string>` ; nor does an array of strings fit beside one of datetimes
here k S 44 57 53 00 01 00 00 00 01 06 41 63 74 69 6F 6E 04 76 69 65 77 00 00 06 01 05 69 6E 70 75 74 06 01 01 64 04 03 08 64 61 74 65 74 69 6D 65 C 44 57 43 00 01 08 00 00 00 00 00 00 00 00 04 06 02 05 69 6E 70 75 74 01 64 0A 00 => 0 0 0 1 ; an empty array does
here k C 44 57 43 00 01 09 00 00 00 00 00 00 00 00 00 01 76 01 08 64 75 72 61 74 69 6F 6E 08 00 00 00 00 00 00 00 00 04 0C 08 01 76 02 02 => 0 0 1 2 : 0 0 arithmetic operates only on `Long` values, but this operand has type `duration` ; arithmetic wants a Long
both m C 44 57 43 00 01 08 00 00 00 00 00 00 00 00 04 02 0B 01 00 00 00 00 00 00 00 00 00 01 76 01 00 01 76 02 03 41 70 70 08 64 61 74 65 74 69 6D 65 0B 00 00 00 00 00 00 00 00 => 0 0 1 0 : 0 0 cannot sum `v`: sum requires a `Long` summand, but `v` is `App::datetime`. ; a sum shows the annotation as it is written, as before
here k C 44 57 43 00 01 09 00 00 00 00 00 00 00 00 00 01 74 01 08 64 61 74 65 74 69 6D 65 0A 00 00 00 00 00 00 00 00 00 01 74 => 0 0 1 2 : 0 0 `tp(t)` binds `t` to the current timepoint, but `t` is declared `datetime`; a `tp` variable must be declared `Timepoint` ; a timepoint is another type
here l S 44 57 53 00 01 00 02 01 55 00 01 01 61 03 08 64 61 74 65 74 69 6D 65 01 56 00 01 01 61 01 00 01 06 41 63 74 69 6F 6E 04 76 69 65 77 02 01 55 01 56 00 06 00 P 44 57 50 00 01 00 01 01 61 00 => 0 0 21 0 : 3 datetime string ; two admitted types that part
rust l S 44 57 53 00 01 00 02 01 55 00 01 01 61 03 08 64 61 74 65 74 69 6D 65 01 56 00 01 01 61 01 00 01 06 41 63 74 69 6F 6E 04 76 69 65 77 02 01 55 01 56 00 06 00 P 44 57 50 00 01 00 01 01 61 00 => 0 0 11 0 : 0 string ; to the Rust they agree
";

pub fn all() -> Vec<Timed> {
    TABLE.lines().filter(|line| !line.is_empty()).map(example).collect()
}

/// The outcome of a case whose records are an example's; none of any other.
pub fn outcome(case: &Case) -> Option<Outcome> {
    static HERE: LazyLock<Vec<Timed>> =
        LazyLock::new(|| all().into_iter().filter(|e| e.judge == Judge::Here).collect());
    let example = HERE.iter().find(|e| e.operation == case.operation && e.records == case.records)?;
    Some(example.outcome(case.size))
}

impl Timed {
    /// The example with a buffer of this size.
    pub fn case(&self, size: usize) -> Case {
        Case { operation: self.operation, records: self.records.clone(), size }
    }

    /// How long the whole output is.
    pub fn needed(&self) -> usize {
        self.output.iter().map(Vec::len).sum()
    }

    /// The outcome in a buffer of this size. A run that stops has made all visits: each example has one report at most, and
    /// it is about the last condition that is reached.
    pub fn outcome(&self, size: usize) -> Outcome {
        let mut buffer = vec![FILL; size];
        let written = answers::write_all(self.output.iter().cloned(), &mut buffer);
        let count = if written.number == 0 { self.answer.count } else { 0 };
        Outcome::Answered(Answer { count, visits: self.answer.visits, ..written }, buffer)
    }
}

fn example(line: &'static str) -> Timed {
    let (given, rest) = line.split_once(" => ").expect("a line has =>");
    let (answer, shows) = rest.rsplit_once(" ; ").expect("a line says what it shows");
    let (numbers, said) = answer.split_once(" : ").unwrap_or((answer, ""));
    let (judge, operation) = (judge_of(given), operation_of(given));
    let record = |letter: &str, otherwise: &str| {
        let text = part(given, letter).unwrap_or(otherwise.to_string());
        hex::decode(&text).expect("hexadecimal")
    };
    let (schema, targets) = (record("S", EMPTY_SCHEMA), record("T", ONE_TARGET));
    let (records, output) = match operation {
        Operation::Lookup => (vec![schema, targets, record("P", "")], vec![found(said)]),
        Operation::Sums => (vec![record("C", "")], report(said)),
        _ => (vec![schema, record("C", ""), targets], report(said)),
    };
    Timed { shows, judge, operation, records, answer: answer_of(numbers), output }
}

fn judge_of(line: &str) -> Judge {
    match line.split_whitespace().next() {
        Some("here") => Judge::Here,
        Some("rust") => Judge::Rust,
        _ => Judge::Both,
    }
}

fn operation_of(line: &str) -> Operation {
    match line.split_whitespace().nth(1) {
        Some("l") => Operation::Lookup,
        Some("m") => Operation::Sums,
        _ => Operation::Check,
    }
}

/// What follows a record's letter, up to the next one.
fn part(given: &str, letter: &str) -> Option<String> {
    let is_letter = |word: &str| matches!(word, "S" | "C" | "P");
    let mut words = given.split_whitespace().skip_while(|word| *word != letter);
    words.next()?;
    Some(words.take_while(|word| !is_letter(word)).collect::<Vec<_>>().join(" "))
}

fn answer_of(numbers: &str) -> Answer {
    let all: Vec<usize> = numbers.split_whitespace().map(|word| word.parse().expect("a number")).collect();
    let [number, record, count, visits] = all[..] else { panic!("four numbers: {numbers}") };
    Answer { number: number as u8, record: record as u8, count, visits }
}

/// Start, end and message, where there is a report.
fn report(said: &str) -> Vec<Vec<u8>> {
    let Some((start, rest)) = said.split_once(' ') else { return Vec::new() };
    let (end, message) = rest.split_once(' ').expect("a report has an end");
    let number = |text: &str| text.parse::<u32>().expect("a number").to_be_bytes();
    let length = (message.len() as u16).to_be_bytes();
    vec![[&number(start)[..], &number(end), &length, message.as_bytes()].concat()]
}

/// The case of a lookup and its strings.
fn found(said: &str) -> Vec<u8> {
    let mut words = said.split_whitespace();
    let case = words.next().and_then(|word| word.parse().ok()).expect("a lookup has a case");
    Found { case, strings: words.map(str::to_string).collect() }.bytes()
}
