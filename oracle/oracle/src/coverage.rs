//! What a run of cases covered: reports by message, lookups by case, refusals by number and record.

use crate::answers::Answer;
use crate::cases::{Case, Operation, Outcome};
use crate::steps::{Call, Course, History, Stored};
use crate::times;
use std::collections::BTreeMap;

/// A message is known by a part that no other has.
const TEMPLATES: [(&str, &str); 9] = [
    ("cannot sum: Timepoint", "Timepoints are ordinal"),
    ("cannot sum: Decimal", "not decimals"),
    ("cannot sum: another type", "cannot sum `"),
    ("argument: expects .. but got ..", "` expects `"),
    ("tp of what is no Timepoint", "to the current timepoint"),
    ("comparison requires numeric operands", "comparison requires numeric"),
    ("equality requires the same type", "equality requires"),
    ("a wildcard in arithmetic", "a wildcard ("),
    ("arithmetic on what is no Long", "arithmetic operates only"),
];

const LOOKUP_CASES: [&str; 5] = ["Resolved", "Missing", "NonRecord", "Ambiguous", "Unknown"];

#[derive(Debug, Default)]
pub struct Coverage {
    counts: BTreeMap<String, usize>,
}

impl Coverage {
    pub fn note(&mut self, case: &Case, outcome: &Outcome) {
        self.add(format!("cases      {}", case.operation.letter()), 1);
        if times::is_marked(case) {
            self.add(format!("marked     {}, judged whole", case.operation.letter()), 1);
        }
        match outcome {
            Outcome::Number(number) => self.add(format!("number     {} {number:2}", case.operation.letter()), 1),
            Outcome::Answered(answer, buffer) => {
                let name = format!(
                    "answer     {} number {:2} record {}",
                    case.operation.letter(),
                    answer.number,
                    answer.record
                );
                self.add(name, 1);
                if let (Operation::Steps, Some(stored)) = (case.operation, Stored::read(case)) {
                    self.note_calls(&stored.history, &stored.answers);
                    self.note_reports(stored.reports(), buffer);
                }
                self.note_output(case.operation, answer.number, answer.count, buffer);
            }
            Outcome::Types(types) => types.iter().for_each(|t| self.note_type(t)),
        }
    }

    /// A fresh history of a stepping check.
    pub fn note_history(&mut self, history: &History, courses: &[Course]) {
        self.add("histories".to_string(), 1);
        let moved = if history.moves() { ", with a move" } else { "" };
        self.add(format!("histories  by rules {}{moved}", history.rules & 3), 1);
        let answers: Vec<Answer> = courses.iter().map(|course| course.answer).collect();
        self.note_calls(history, &answers);
    }

    /// What the calls of a history answered, the start in front.
    fn note_calls(&mut self, history: &History, answers: &[Answer]) {
        let called = history.calls.iter().map(|call| match call {
            Call::Step => "step",
            Call::Append(_) => "append",
            Call::Withdraw(_) => "withdraw",
            Call::Move => "move",
        });
        for (name, answer) in std::iter::once("start").chain(called).zip(answers) {
            self.add(format!("call       {name} number {:2} record {}", answer.number, answer.record), 1);
        }
    }

    /// A step from a state that no call left.
    pub fn note_state(&mut self, number: u8) {
        self.add(format!("any state  number {number:2}"), 1);
    }

    /// A case with binders in their own bodies, beside the one without.
    pub fn note_own(&mut self, own: &Case, cannot_differ: bool) {
        let letter = own.operation.letter();
        self.add(format!("own bodies {letter}"), 1);
        if cannot_differ {
            self.add(format!("own bodies {letter}, as without: it has to be"), 1);
            return;
        }
        let flat = if own.operation == Operation::Own { Operation::Check } else { Operation::Sums };
        if own.outcome() != (Case { operation: flat, ..own.clone() }).outcome() {
            self.add(format!("own bodies {letter}, otherwise than without"), 1);
        }
    }

    /// A marked case of whose outcome only a part is known.
    pub fn note_in_part(&mut self, case: &Case) {
        self.add(format!("marked     {}, judged in part", case.operation.letter()), 1);
    }

    fn add(&mut self, name: String, times: usize) {
        *self.counts.entry(name).or_default() += times;
    }

    fn note_output(&mut self, operation: Operation, number: u8, count: usize, buffer: &[u8]) {
        match operation {
            Operation::Lookup if number == 0 => self.add(format!("lookup     {}", LOOKUP_CASES[buffer[0] as usize]), 1),
            Operation::Check | Operation::Strict | Operation::Own | Operation::Sums | Operation::OwnSums => {
                self.note_reports(count, buffer)
            }
            Operation::Windows => self.add("windows    listed".to_string(), count),
            _ => {}
        }
    }

    fn note_reports(&mut self, count: usize, buffer: &[u8]) {
        let mut at = 0;
        for _ in 0..count {
            let length = u16::from_be_bytes([buffer[at + 8], buffer[at + 9]]) as usize;
            let message = String::from_utf8_lossy(&buffer[at + 10..at + 10 + length]).to_string();
            let known = TEMPLATES.iter().find(|(_, part)| message.contains(part));
            self.add(format!("report     {}", known.map_or("UNKNOWN", |(name, _)| name)), 1);
            at += 10 + length;
        }
    }

    /// A type by its outermost form and its innermost base.
    fn note_type(&mut self, ty: &Option<String>) {
        let name = match ty {
            None => "none".to_string(),
            Some(text) => match text.split_once("entity:") {
                Some((before, _)) => format!("{before}entity:.."),
                None => text.clone(),
            },
        };
        self.add(format!("type       {name}"), 1);
    }

    pub fn print(&self) {
        for (name, count) in &self.counts {
            println!("{count:7}  {name}");
        }
    }
}
