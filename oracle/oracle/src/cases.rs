//! A case: an operation, its records and the size of the lent buffer; what the oracle answers; the bytes and the line that
//! say both.

use crate::answers::{self, Answer};
use crate::examples::{strict, windows};
use crate::hex;
use crate::own::Binding;
use crate::pieces::Piece;
use crate::records;
use crate::rng::Rng;
use crate::steps::{self, Stored};
use crate::times;
use crate::visits;

/// What a lent buffer holds before each call.
pub const FILL: u8 = 0xA5;

#[derive(Debug, Clone, Copy, PartialEq, Eq)]
pub enum Operation {
    ReadSchema,
    ReadCondition,
    ReadTargets,
    ReadPath,
    Check,
    Sums,
    Lookup,
    /// The listing of windows; its second record is the period.
    Windows,
    Terms,
    /// The strict check, of the examples alone.
    Strict,
    /// The check with binders in their own bodies.
    Own,
    /// The sums with binders in their own bodies.
    OwnSums,
    /// A history of a stepping check; its third record has the list and the calls (`Stored`).
    Steps,
}

impl Operation {
    /// Those that the Rust judges as it is.
    pub const ALL: [Operation; 9] = [
        Operation::ReadSchema,
        Operation::ReadCondition,
        Operation::ReadTargets,
        Operation::ReadPath,
        Operation::Check,
        Operation::Sums,
        Operation::Lookup,
        Operation::Windows,
        Operation::Terms,
    ];

    /// The letter that begins a line.
    pub fn letter(self) -> char {
        match self {
            Operation::ReadSchema => 's',
            Operation::ReadCondition => 'c',
            Operation::ReadTargets => 't',
            Operation::ReadPath => 'p',
            Operation::Check => 'k',
            Operation::Sums => 'm',
            Operation::Lookup => 'l',
            Operation::Windows => 'w',
            Operation::Terms => 'e',
            Operation::Strict => 'x',
            Operation::Own => 'o',
            Operation::OwnSums => 'n',
            Operation::Steps => 'h',
        }
    }

    /// How names are bound.
    pub fn binding(self) -> Binding {
        match self {
            Operation::Own | Operation::OwnSums => Binding::Own,
            _ => Binding::Flat,
        }
    }

    /// The operation with binders in their own bodies, where there is one.
    pub fn with_own_bodies(self) -> Option<Operation> {
        match self {
            Operation::Check => Some(Operation::Own),
            Operation::Sums => Some(Operation::OwnSums),
            _ => None,
        }
    }
}

/// A case whose records are still trees. `size` is the buffer's size; for terms it is the target's position.
#[derive(Debug, Clone, PartialEq, Eq)]
pub struct Draft {
    pub operation: Operation,
    pub records: Vec<Piece>,
    pub size: usize,
}

impl Draft {
    pub fn case(&self) -> Case {
        Case { operation: self.operation, records: self.records.iter().map(Piece::bytes).collect(), size: self.size }
    }

    /// A buffer's size that shows something: large, just large enough, a byte too small, none.
    pub fn size_from(&self, rng: &mut Rng) -> usize {
        if matches!(self.operation, Operation::Terms) {
            return self.size;
        }
        let needed = self.case().bytes_needed();
        match rng.below(8) {
            0 => needed,
            1 => needed.saturating_sub(1),
            2 => rng.below(needed + 1),
            3 => rng.below(12),
            4 => 4_096.max(needed),
            _ => needed + rng.below(40),
        }
    }
}

#[derive(Debug, Clone, PartialEq, Eq)]
pub struct Case {
    pub operation: Operation,
    pub records: Vec<Vec<u8>>,
    pub size: usize,
}

/// What comes out of a case.
#[derive(Debug, Clone, PartialEq, Eq)]
pub enum Outcome {
    /// A reader's number.
    Number(u8),
    /// An answer, and the whole buffer after the call.
    Answered(Answer, Vec<u8>),
    /// The rendered types of a comparison's operands.
    Types([Option<String>; 2]),
}

impl Case {
    /// The oracle's outcome: the Rust's, but of marked cases what `times` knows of them. None for a case about terms whose
    /// records are refused, nor for a strict check of records that are no example's.
    pub fn outcome(&self) -> Option<Outcome> {
        if times::is_marked(self) {
            return times::outcome(self);
        }
        self.rust_outcome()
    }

    /// What the published Rust says, of marked cases too; with own bodies, of the condition whose binders are named apart; of
    /// a history, by a check over the targets that are done; a strict check, which it has not, is an example's.
    pub fn rust_outcome(&self) -> Option<Outcome> {
        let (r, binding) = (&self.records, self.operation.binding());
        Some(match self.operation {
            Operation::ReadSchema => Outcome::Number(answers::read_number(records::read_schema(&r[0]))),
            Operation::ReadCondition => Outcome::Number(answers::read_number(records::read_condition(&r[0]))),
            Operation::ReadTargets => Outcome::Number(answers::read_number(records::read_targets(&r[0]))),
            Operation::ReadPath => Outcome::Number(answers::read_number(records::read_path(&r[0]))),
            Operation::Check | Operation::Own => self.in_buffer(|buffer| {
                let answer = answers::check_by(binding, [&r[0], &r[1], &r[2]], buffer);
                visits::counted(binding, answer, r, self.size)
            }),
            Operation::Sums | Operation::OwnSums => self.in_buffer(|buffer| answers::sums_by(binding, &r[0], buffer)),
            Operation::Lookup => self.in_buffer(|buffer| answers::lookup(&r[0], &r[1], &r[2], buffer)),
            Operation::Windows => self.in_buffer(|buffer| answers::windows(&r[0], windows::period_of(&r[1]), buffer)),
            Operation::Terms => Outcome::Types(answers::operand_types(&r[0], &r[1], &r[2], self.size)?),
            Operation::Strict => {
                let mut buffer = vec![FILL; self.size];
                Outcome::Answered(strict::check(r, &mut buffer)?, buffer)
            }
            Operation::Steps => {
                let stored = Stored::read(self)?;
                stored.outcome(&stored.history.courses(&steps::known)?)?
            }
        })
    }

    /// The outcome of a call with a filled buffer.
    pub fn in_buffer(&self, call: impl FnOnce(&mut [u8]) -> Answer) -> Outcome {
        let mut buffer = vec![FILL; self.size];
        let answer = call(&mut buffer);
        Outcome::Answered(answer, buffer)
    }

    /// How long the whole output is: what a buffer needs for it.
    fn bytes_needed(&self) -> usize {
        const AMPLE: usize = 1 << 20;
        let large = Case { size: AMPLE, ..self.clone() };
        match large.outcome().or_else(|| large.rust_outcome()) {
            Some(Outcome::Answered(_, buffer)) => written(&buffer).len(),
            _ => 0,
        }
    }

    /// The case and its outcome as a stored list has them: one entry, or for terms one for each operand.
    pub fn stored(&self, outcome: &Outcome) -> Vec<u8> {
        let letter = self.operation.letter();
        match outcome {
            Outcome::Number(number) => self.entry(letter, [*number, 0], [0, 0], &[]),
            Outcome::Answered(answer, buffer) => {
                let small = [answer.number, answer.record];
                self.entry(letter, small, [answer.count, answer.visits], written(buffer))
            }
            Outcome::Types([left, right]) => [self.typed('e', left), self.typed('f', right)].concat(),
        }
    }

    fn typed(&self, letter: char, ty: &Option<String>) -> Vec<u8> {
        let text = ty.clone().unwrap_or_default();
        self.entry(letter, [0, 0], [text.len(), 0], text.as_bytes())
    }

    fn entry(&self, letter: char, small: [u8; 2], [count, visits]: [usize; 2], output: &[u8]) -> Vec<u8> {
        let record = |i: usize| self.records.get(i).map_or(&[][..], Vec::as_slice);
        entry(letter, small, [count, self.size, visits], [output, record(0), record(1), record(2)])
    }

    /// The case and its outcome on one line, for people.
    pub fn line(&self, outcome: &Outcome) -> String {
        if let (Operation::Steps, Some(stored)) = (self.operation, Stored::read(self)) {
            return stored.line();
        }
        let mut words = vec![self.operation.letter().to_string()];
        words.extend(self.records.iter().map(|r| hex::encode(r)));
        match outcome {
            Outcome::Number(number) => words.push(number.to_string()),
            Outcome::Answered(answer, buffer) => {
                words.push(self.size.to_string());
                words.extend(
                    [answer.number as usize, answer.record as usize, answer.count, answer.visits]
                        .map(|n| n.to_string()),
                );
                words.push(hex::encode(written(buffer)));
            }
            Outcome::Types(types) => {
                words.push(self.size.to_string());
                words.extend(types.iter().map(|t| t.clone().unwrap_or("-".to_string())));
            }
        }
        words.join(" ")
    }
}

/// An entry of a stored list: a letter, two numbers in a byte each, three in two bytes each, and four fields, each behind its
/// length in two bytes.
pub fn entry(letter: char, small: [u8; 2], large: [usize; 3], fields: [&[u8]; 4]) -> Vec<u8> {
    let mut bytes = vec![letter as u8];
    bytes.extend(small);
    bytes.extend(large.map(u16_of).concat());
    for field in fields {
        bytes.extend(u16_of(field.len()));
        bytes.extend(field);
    }
    bytes
}

fn u16_of(n: usize) -> [u8; 2] {
    u16::try_from(n).expect("a number of a stored case has two bytes").to_be_bytes()
}

/// The buffer up to the last byte that is not as it was before.
fn written(buffer: &[u8]) -> &[u8] {
    let end = buffer.iter().rposition(|b| *b != FILL).map_or(0, |last| last + 1);
    &buffer[..end]
}
