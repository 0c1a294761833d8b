//! The types `datetime` and `duration`, which the rules here have and the published Rust has not.
//!
//! To the Rust an extension type of these names is a String, and an annotation of these words an entity of that tag. So a
//! case that has one is *marked*: it is not held to what the Rust says of it. The readers, Sums and the listing of windows
//! do not depend on these types, and no case of theirs is marked.
//!
//! The rules treat each of the two as they treat Decimal and Bool: it fits beside itself alone, and is no number. What it
//! has of its own is its word, and that two of it are ordered. So where nothing in a marked case is a decimal, the Rust can
//! be asked about the case with decimals in the place of one of the two, and with Bool in the same way (`Exchange`): in
//! what it answers the words are put back, and what it reports of the order of two alike is left out. Of every other marked
//! case only that part of the outcome is known that does not depend on these types (`common`).

use crate::answers::{self, report_bytes, Answer, Found};
use crate::cases::{Case, Operation, Outcome};
use crate::examples;
use crate::records::{self, Named, Saying, Time, Words};
use crate::visits;

/// The mark: whether an extension type's simple name or an annotation's last segment is one of the two words, in a case
/// whose outcome depends on types.
pub fn is_marked(case: &Case) -> bool {
    words(case).iter().any(|words| !words.times.is_empty())
}

/// The words of each record of a case, none of the records and operations that have no types.
fn words(case: &Case) -> [Words; 3] {
    let r = &case.records;
    match case.operation {
        Operation::Check | Operation::Strict | Operation::Own | Operation::Terms => {
            [records::words_of_schema(&r[0]), records::words_of_condition(&r[1]), Words::default()]
        }
        Operation::Lookup => [records::words_of_schema(&r[0]), Words::default(), Words::default()],
        _ => Default::default(),
    }
}

/// The outcome of a marked case, where it is known: an example's, as its table says; the Rust's with other types in the
/// place of the two; or a refusal, which depends on no type.
pub fn outcome(case: &Case) -> Option<Outcome> {
    let is_refusal = |outcome: &Outcome| matches!(outcome, Outcome::Answered(a, _) if ![0, 11].contains(&a.number));
    examples::times::outcome(case)
        .or_else(|| Exchange::of(case)?.outcome())
        .or_else(|| case.rust_outcome().filter(is_refusal))
}

// ─── Other types in their place ───

/// A type that the rules treat as they treat the two, but for order and its word.
#[derive(Debug, Clone, Copy, PartialEq, Eq)]
enum StandIn {
    Decimal,
    Bool,
}

impl StandIn {
    /// How the type is shown.
    fn word(self) -> &'static str {
        match self {
            StandIn::Decimal => "decimal",
            StandIn::Bool => "boolean",
        }
    }

    fn is_in(self, words: &Words) -> bool {
        match self {
            StandIn::Decimal => words.decimal,
            StandIn::Bool => words.boolean,
        }
    }

    /// The bytes that say the type in a record.
    fn bytes(self, saying: Saying) -> &'static [u8] {
        match (self, saying) {
            (StandIn::Decimal, Saying::Extension) => b"\x03\x07decimal",
            (StandIn::Decimal, Saying::Annotation) => b"\x01\x07decimal",
            (StandIn::Bool, Saying::Extension) => b"\x02",
            (StandIn::Bool, Saying::Annotation) => b"\x01\x04Bool",
        }
    }
}

/// A case with other types in the place of the two.
pub struct Exchange {
    case: Case,
    /// What stands for what.
    places: Vec<(Time, StandIn)>,
}

impl Exchange {
    /// The exchange in a case; none where a type that would be needed stands in it already, or its word, which could then
    /// not be told from a type's in a message.
    pub fn of(case: &Case) -> Option<Exchange> {
        let words = words(case);
        let is_said = |time: &Time| words.iter().flat_map(|w| &w.times).any(|named| named.time == *time);
        let is_free = |other: &StandIn| {
            let shown = other.word().as_bytes();
            let is_shown = |record: &Vec<u8>| record.windows(shown.len()).any(|part| part == shown);
            !words.iter().any(|w| other.is_in(w)) && !case.records.iter().any(is_shown)
        };
        let mut free = [StandIn::Decimal, StandIn::Bool].into_iter().filter(is_free);
        let places: Vec<_> =
            Time::ALL.into_iter().filter(is_said).map(|time| Some((time, free.next()?))).collect::<Option<_>>()?;
        let records = case.records.iter().zip(&words).map(|(record, words)| exchanged(record, &words.times, &places));
        Some(Exchange { case: Case { records: records.collect(), ..case.clone() }, places })
    }

    /// The outcome of the case as it was, by what the Rust says of it with the other types.
    pub fn outcome(&self) -> Option<Outcome> {
        let (r, size) = (&self.case.records, self.case.size);
        Some(match self.case.operation {
            Operation::Check | Operation::Own => self.case.in_buffer(|buffer| {
                let answer = self.check(buffer);
                let binding = self.case.operation.binding();
                visits::counted_saying(binding, answer, r, size, |message| self.message(&message))
            }),
            Operation::Lookup => self.case.in_buffer(|buffer| match answers::look_up(&r[0], &r[1], &r[2]) {
                Ok(found) => self.found(found).write(buffer),
                Err(answer) => answer,
            }),
            Operation::Terms => {
                let types = answers::operand_types(&r[0], &r[1], &r[2], size)?;
                Outcome::Types(types.map(|ty| Some(self.words_put_back(&ty?))))
            }
            _ => return None,
        })
    }

    /// Reports that say the same once the words are put back are one: an entity type may be called as the type is.
    fn check(&self, buffer: &mut [u8]) -> Answer {
        let r = &self.case.records;
        match answers::check_errors(self.case.operation.binding(), [&r[0], &r[1], &r[2]]) {
            Ok(errors) => {
                let amended = errors.into_iter().filter_map(|mut error| {
                    error.message = self.message(&error.message)?;
                    Some(error)
                });
                let reports = answers::each_once(amended.collect());
                answers::write_all(reports.iter().map(report_bytes), buffer)
            }
            Err(answer) => answer,
        }
    }

    /// What is reported where the Rust says this; nothing where two alike are ordered.
    fn message(&self, message: &str) -> Option<String> {
        let unordered = |(_, other): &(Time, StandIn)| {
            let word = other.word();
            message == format!("comparison requires numeric operands on both sides, got `{word}` and `{word}`")
        };
        (!self.places.iter().any(unordered)).then(|| self.words_put_back(message))
    }

    /// The types of an Ambiguous path stand in the order of their words.
    fn found(&self, found: Found) -> Found {
        let mut strings = found.strings;
        if [answers::RESOLVED, answers::AMBIGUOUS].contains(&found.case) {
            strings = strings.iter().map(|ty| self.words_put_back(ty)).collect();
            strings.sort();
        }
        Found { strings, ..found }
    }

    fn words_put_back(&self, text: &str) -> String {
        self.places.iter().fold(text.to_string(), |text, (time, other)| text.replace(other.word(), time.word()))
    }
}

/// A record with other types at these places.
fn exchanged(record: &[u8], named: &[Named], places: &[(Time, StandIn)]) -> Vec<u8> {
    let mut bytes = record.to_vec();
    for name in named.iter().rev() {
        let place = places.iter().find(|(time, _)| *time == name.time);
        let (_, other) = place.expect("each type that is said has another in its place");
        bytes.splice(name.place.clone(), other.bytes(name.saying).iter().copied());
    }
    bytes
}

// ─── What does not depend on them ───

/// The part of an outcome, in a buffer that holds all, that is the same whatever the two types are: with them as types of
/// their own, as strings or as entities.
#[derive(Debug, Clone, PartialEq, Eq)]
pub struct Common {
    number: u8,
    record: u8,
    visits: usize,
    /// Of a check the reports that have none of the words by which the two types are shown, here or by the Rust; of a
    /// lookup the output, unless it has types.
    output: Vec<Vec<u8>>,
}

/// None where the outcome is no answer, or the buffer was too short.
pub fn common(operation: Operation, outcome: &Outcome) -> Option<Common> {
    let Outcome::Answered(answer, buffer) = outcome else { return None };
    if answer.number == 11 {
        return None;
    }
    let output = match operation {
        Operation::Lookup if answer.number == 0 => {
            let typed = [answers::RESOLVED, answers::AMBIGUOUS].contains(&buffer[0]);
            Vec::from_iter((!typed).then(|| buffer[..answer.count].to_vec()))
        }
        Operation::Lookup => Vec::new(),
        _ => answers::reports(answer.count, buffer).into_iter().filter(|report| !mentions(report)).collect(),
    };
    Some(Common { number: answer.number, record: answer.record, visits: answer.visits, output })
}

fn mentions(report: &[u8]) -> bool {
    ["string", "datetime", "duration"].iter().any(|word| report.windows(word.len()).any(|part| part == word.as_bytes()))
}

/// The same case with a buffer that holds the output of most.
pub fn amply(case: &Case) -> Case {
    Case { size: 1 << 20, ..case.clone() }
}

#[cfg(test)]
mod tests {
    use super::*;
    use crate::pieces::*;

    const NONE: [&str; 0] = [];

    fn extension(name: &str) -> Piece {
        ty(3, vec![text(name)])
    }

    fn call() -> Piece {
        condition(11, (0, 0), vec![])
    }

    fn with_context(ty: Piece) -> Piece {
        schema(vec![], vec![action("Action", "view", &NONE, &NONE, ty)])
    }

    fn under(ids: &[&str]) -> Piece {
        targets(byte(0), byte(0), ids.iter().map(|id| target("", id)).collect())
    }

    fn checked(schema: Piece, root: Piece, targets: Piece) -> Case {
        let records = [schema, condition_record(root), targets].map(|piece| piece.bytes());
        amply(&Case { operation: Operation::Check, records: records.to_vec(), size: 0 })
    }

    /// What stands for what in a check of this context and condition.
    fn places(context: Piece, root: Piece) -> Option<Vec<(Time, StandIn)>> {
        Exchange::of(&checked(with_context(context), root, under(&["view"]))).map(|exchange| exchange.places)
    }

    #[test]
    fn each_place_is_exchanged() {
        let types =
            |one: Piece, other: Piece| with_context(record_type(vec![("a", set_type(one)), ("b", other.clone())]));
        let root = |one: &[&str], other: &[&str]| {
            let named_alike = comparison((0, 0), 4, integer(), entity("datetime"));
            exists((0, 0), named("v", one), exists((0, 0), named("w", other), named_alike))
        };
        let given = checked(
            types(extension("App::datetime"), extension("duration")),
            root(&["duration"], &["A", "datetime"]),
            under(&["view"]),
        );
        let wanted =
            checked(types(extension("decimal"), ty(2, vec![])), root(&["Bool"], &["decimal"]), under(&["view"]));
        assert_eq!(Exchange::of(&given).map(|exchange| exchange.case), Some(wanted));
    }

    #[test]
    fn only_free_types_stand_for_others() {
        let beside = |word: &str, other: Piece| record_type(vec![("a", extension(word)), ("b", other)]);
        let [decimal, boolean] = [StandIn::Decimal, StandIn::Bool];
        let both = beside("datetime", extension("duration"));
        assert_eq!(places(both, call()), Some(vec![(Time::Datetime, decimal), (Time::Duration, boolean)]));
        assert_eq!(places(extension("duration"), call()), Some(vec![(Time::Duration, decimal)]));
        assert_eq!(places(beside("duration", ty(2, vec![])), call()), Some(vec![(Time::Duration, decimal)]));
        assert_eq!(places(beside("datetime", extension("decimal")), call()), Some(vec![(Time::Datetime, boolean)]));
        assert_eq!(places(beside("datetime", beside("duration", ty(2, vec![]))), call()), None);
        let declaring = |word: &str| count((0, 0), vec![named("v", &[word])], call());
        for used in [term(3, vec![]), entity("decimal"), var("a decimal"), declaring("Decimal")] {
            let root = comparison((0, 0), 4, array(vec![]), used);
            assert_eq!(places(extension("datetime"), root), Some(vec![(Time::Datetime, boolean)]));
        }
        for used in [term(5, vec![]), entity("boolean"), declaring("Bool"), declaring("Boolean")] {
            let root = comparison((0, 0), 4, term(3, vec![]), used);
            assert_eq!(places(extension("datetime"), root), None);
        }
    }

    /// The words are put back, and the order of two alike is let pass.
    #[test]
    fn what_the_rust_says_is_amended() {
        let exchange = Exchange::of(&checked(with_context(extension("datetime")), call(), under(&["view"]))).unwrap();
        let numeric = |left: &str, right: &str| {
            format!("comparison requires numeric operands on both sides, got `{left}` and `{right}`")
        };
        assert_eq!(exchange.message(&numeric("decimal", "decimal")), None);
        assert_eq!(exchange.message(&numeric("decimal", "int")), Some(numeric("datetime", "int")));
        let arrays = |word: &str| numeric(&format!("array<{word}>"), &format!("array<{word}>"));
        assert_eq!(exchange.message(&arrays("decimal")), Some(arrays("datetime")));
        assert_eq!(exchange.message(&numeric("boolean", "boolean")), Some(numeric("boolean", "boolean")));
        let found = |case, strings: [&str; 2]| Found { case, strings: strings.map(String::from).to_vec() };
        let ambiguous = exchange.found(found(answers::AMBIGUOUS, ["date", "decimal"]));
        assert_eq!(ambiguous, found(answers::AMBIGUOUS, ["date", "datetime"]));
        assert_eq!(exchange.found(found(1, ["decimal", "A"])), found(1, ["decimal", "A"]));
    }

    #[test]
    fn an_entity_that_is_called_like_the_type_gives_the_same_report() {
        let own = |id: &str, ty: Piece| action("Action", id, &NONE, &NONE, record_type(vec![("x", ty)]));
        let actions = vec![own("a", extension("datetime")), own("b", ty(7, vec![text("datetime")]))];
        let root = comparison((3, 7), 4, context_field(&["x"]), integer());
        let Some(Outcome::Answered(answer, buffer)) =
            checked(schema(vec![], actions), root, under(&["a", "b"])).outcome()
        else {
            panic!("nothing is a decimal there")
        };
        assert_eq!((answer.number, answer.count, answer.visits), (0, 1, 2));
        let shown = "equality requires both sides to have the same type, got `datetime` and `int`";
        assert_eq!(&buffer[10..10 + shown.len()], shown.as_bytes());
    }
}
