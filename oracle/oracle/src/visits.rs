//! How many visits a check begins. The published Rust has no such count: it is made here of its own `walk`, of its test
//! whether a target is checked, and of its breaches, visit by visit up to the one whose report does not fit.

use crate::answers::Answer;
use crate::own::Binding;
use crate::records;
use dogwood_rust::extension::temporal::schema_info::SchemaInfo;
use dogwood_rust::extension::temporal::validate;
use std::collections::{HashMap, HashSet};

/// The answer of a check of these records, lent a buffer of this size, with its visits.
pub fn counted(binding: Binding, answer: Answer, records: &[Vec<u8>], size: usize) -> Answer {
    counted_saying(binding, answer, records, size, Some)
}

/// The same where a breach is reported by another message than the Rust's, or by none.
pub fn counted_saying(
    binding: Binding,
    answer: Answer,
    records: &[Vec<u8>],
    size: usize,
    said: impl Fn(String) -> Option<String>,
) -> Answer {
    Answer { visits: begun(binding, records, size, said).unwrap_or(0), ..answer }
}

/// None where a record is refused.
fn begun(binding: Binding, r: &[Vec<u8>], size: usize, said: impl Fn(String) -> Option<String>) -> Option<usize> {
    let schema = records::read_schema(&r[0]).ok()?;
    let starts = validate::oracle_starts(&records::read_condition(&r[1]).ok()?.condition);
    let read = records::read_numbered(&r[1]).ok()?;
    let asked = binding.checked(read.condition);
    let numbers = validate::oracle_starts(&asked);
    let targets = records::read_targets(&r[2]).ok()?;
    let info = SchemaInfo::from_validator_schema(&schema);
    let (mut visits, mut used, mut reported) = (0, 0, HashSet::new());
    for target in targets.targets.iter().filter(|t| validate::oracle_is_checked(&info, t, targets.narrowing())) {
        let breaches =
            read.field_paths.in_force(|| validate::oracle_breaches(&asked, &info, target, targets.narrowing()));
        let mut found: HashMap<usize, Vec<String>> = HashMap::new();
        for breach in breaches {
            let number = breach.span.expect("each report of these checks has a span").start;
            found.entry(number).or_default().push(binding.said(breach.message));
        }
        for (number, start) in numbers.iter().zip(&starts) {
            visits += 1;
            for message in found.remove(number).unwrap_or_default().into_iter().filter_map(&said) {
                let long = 10 + message.len();
                if reported.insert((message, *start)) {
                    used += long;
                }
            }
            if used > size {
                return Some(visits);
            }
        }
    }
    Some(visits)
}
