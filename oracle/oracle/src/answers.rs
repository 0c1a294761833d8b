//! Check, Sums, the listing of windows and Lookup: records in, an answer and the bytes of a lent buffer out.

use crate::own::Binding;
use crate::records::{self, Refusal, Scope, TargetsRecord};
use dogwood_rust::extension::temporal::schema_info::{RichType, SchemaInfo, ScopePath};
use dogwood_rust::extension::temporal::validate::{self, LeafError};
use std::collections::HashSet;

/// What an operation returns.
#[derive(Debug, Clone, Copy, PartialEq, Eq)]
pub struct Answer {
    pub number: u8,
    pub record: u8,
    pub count: usize,
    /// Of a check, where they were counted (`visits::counted`), and else 0.
    pub visits: usize,
}

impl Answer {
    pub fn done(count: usize) -> Answer {
        Answer { number: 0, record: 0, count, visits: 0 }
    }

    /// The output is longer than the buffer; `kept` reports are in it.
    pub fn full(kept: usize) -> Answer {
        Answer { number: 11, record: 0, count: kept, visits: 0 }
    }

    pub fn refused(record: u8, refusal: Refusal) -> Answer {
        Answer { number: refusal.0, record, count: 0, visits: 0 }
    }
}

pub const SCHEMA: u8 = 1;
pub const CONDITION: u8 = 2;
pub const TARGETS: u8 = 3;
const PATH: u8 = 4;

/// The number with which a record is refused by itself, 0 for none.
pub fn read_number<T>(read: Result<T, Refusal>) -> u8 {
    read.err().map_or(0, |refusal| refusal.0)
}

pub fn check(schema: &[u8], condition: &[u8], targets: &[u8], reports: &mut [u8]) -> Answer {
    check_by(Binding::Flat, [schema, condition, targets], reports)
}

/// A check in which names are bound so.
pub fn check_by(binding: Binding, records: [&[u8]; 3], reports: &mut [u8]) -> Answer {
    match check_errors(binding, records) {
        Ok(errors) => write_reports(&errors, reports),
        Err(answer) => answer,
    }
}

/// The reports of a check before they are written, or the answer that refuses a record.
pub fn check_errors(binding: Binding, [schema, condition, targets]: [&[u8]; 3]) -> Result<Vec<LeafError>, Answer> {
    let schema = records::read_schema(schema).map_err(|r| Answer::refused(SCHEMA, r))?;
    let read = records::read_condition(condition).map_err(|r| Answer::refused(CONDITION, r))?;
    let targets = records::read_targets(targets).map_err(|r| Answer::refused(TARGETS, r))?;
    let info = SchemaInfo::from_validator_schema(&schema);
    let asked = binding.checked(read.condition);
    let errors = read
        .field_paths
        .in_force(|| validate::oracle_check_types(&asked, &info, &targets.targets, targets.narrowing()));
    Ok(match binding {
        Binding::Flat => errors,
        Binding::Own => each_once(said(binding, errors)),
    })
}

/// What the Rust reports, with the names as they were.
fn said(binding: Binding, errors: Vec<LeafError>) -> Vec<LeafError> {
    errors.into_iter().map(|error| LeafError { message: binding.said(error.message), ..error }).collect()
}

/// The first of each pair of message and start.
pub fn each_once(errors: Vec<LeafError>) -> Vec<LeafError> {
    let mut seen = HashSet::new();
    errors.into_iter().filter(|e| seen.insert((e.message.clone(), e.span.map(|span| span.start)))).collect()
}

pub fn sums(condition: &[u8], reports: &mut [u8]) -> Answer {
    sums_by(Binding::Flat, condition, reports)
}

/// The sums where names are bound so.
pub fn sums_by(binding: Binding, condition: &[u8], reports: &mut [u8]) -> Answer {
    match records::read_condition(condition) {
        Ok(read) => {
            let errors = validate::oracle_check_sum_summands(&binding.summed(read.condition));
            write_reports(&said(binding, errors), reports)
        }
        Err(refusal) => Answer::refused(CONDITION, refusal),
    }
}

/// The listing of windows: 14 for no period, after the record and before 11.
pub fn windows(condition: &[u8], period: u64, output: &mut [u8]) -> Answer {
    match records::read_condition(condition) {
        Ok(_) if period == 0 => Answer { number: 14, record: 0, count: 0, visits: 0 },
        Ok(read) => {
            let windows = validate::oracle_windows(&read.condition);
            write_all(windows.iter().map(|(start, interval)| window_bytes(*start, interval.seconds(), period)), output)
        }
        Err(refusal) => Answer::refused(CONDITION, refusal),
    }
}

/// Start in 32 bits, whole sweeps and the seconds left in 64 each.
fn window_bytes(start: usize, seconds: i64, period: u64) -> Vec<u8> {
    let seconds = u64::try_from(seconds).expect("a window that was read is not negative");
    [&number32(start)[..], &(seconds / period).to_be_bytes(), &(seconds % period).to_be_bytes()].concat()
}

pub fn lookup(schema: &[u8], targets: &[u8], path: &[u8], output: &mut [u8]) -> Answer {
    match look_up(schema, targets, path) {
        Ok(found) => found.write(output),
        Err(answer) => answer,
    }
}

/// What a lookup finds: a case byte, and its strings.
#[derive(Debug, Clone, PartialEq, Eq)]
pub struct Found {
    pub case: u8,
    pub strings: Vec<String>,
}

/// The cases of a lookup whose strings are types.
pub const RESOLVED: u8 = 0;
pub const AMBIGUOUS: u8 = 3;

/// What a lookup finds before it is written, or the answer that refuses a record.
pub fn look_up(schema: &[u8], targets: &[u8], path: &[u8]) -> Result<Found, Answer> {
    let schema = records::read_schema(schema).map_err(|r| Answer::refused(SCHEMA, r))?;
    let targets = records::read_targets(targets).map_err(|r| Answer::refused(TARGETS, r))?;
    let path = records::read_path(path).map_err(|r| Answer::refused(PATH, r))?;
    let target =
        targets.targets.get(path.position).ok_or(Answer { number: 12, record: TARGETS, count: 0, visits: 0 })?;
    let info = SchemaInfo::from_validator_schema(&schema);
    let found = match info.action(target.namespace.as_deref(), &target.id) {
        Some(action) => action.resolve_scope_path(path.scope.root(), &path.path, narrowing_of(&targets, path.scope)),
        None => ScopePath::Unknown,
    };
    Ok(Found::of(found))
}

fn narrowing_of(targets: &TargetsRecord, scope: Scope) -> Option<&dogwood_rust::api::ScopeConstraint> {
    match scope {
        Scope::Principal => targets.principal.as_ref(),
        Scope::Resource => targets.resource.as_ref(),
    }
}

impl Found {
    fn of(path: ScopePath) -> Found {
        let (case, strings) = match path {
            ScopePath::Resolved(ty) => (RESOLVED, vec![ty.render()]),
            ScopePath::Missing { entities, segment } => (1, [vec![segment], entities].concat()),
            ScopePath::NonRecord { segment } => (2, vec![segment]),
            ScopePath::Ambiguous { types } => (AMBIGUOUS, types),
            ScopePath::Unknown => (4, Vec::new()),
        };
        Found { case, strings }
    }

    /// A case byte, a 16-bit count of strings, the strings with 16-bit lengths.
    pub fn bytes(&self) -> Vec<u8> {
        let mut bytes = vec![self.case];
        bytes.extend(number16(self.strings.len()));
        for text in &self.strings {
            bytes.extend(number16(text.len()));
            bytes.extend(text.as_bytes());
        }
        bytes
    }

    /// Written whole, or not at all.
    pub fn write(&self, output: &mut [u8]) -> Answer {
        let bytes = self.bytes();
        if bytes.len() > output.len() {
            return Answer::full(0);
        }
        output[..bytes.len()].copy_from_slice(&bytes);
        Answer::done(bytes.len())
    }
}

/// The types of a comparison's operands under the target at `position`, rendered, where all three records are read.
pub fn operand_types(schema: &[u8], condition: &[u8], targets: &[u8], position: usize) -> Option<[Option<String>; 2]> {
    let schema = records::read_schema(schema).ok()?;
    let read = records::read_condition(condition).ok()?;
    let targets = records::read_targets(targets).ok()?;
    let target = targets.targets.get(position)?;
    let info = SchemaInfo::from_validator_schema(&schema);
    let types = validate::oracle_operand_types(&read.condition, &info, target, targets.narrowing())?;
    Some(types.map(|ty| ty.as_ref().map(RichType::render)))
}

fn write_reports(errors: &[LeafError], buffer: &mut [u8]) -> Answer {
    write_all(errors.iter().map(report_bytes), buffer)
}

/// Reports are written whole, in order, until the first that does not fit.
pub fn write_all(reports: impl Iterator<Item = Vec<u8>>, buffer: &mut [u8]) -> Answer {
    let (mut at, mut kept) = (0, 0);
    for report in reports {
        if report.len() > buffer.len() - at {
            return Answer::full(kept);
        }
        buffer[at..at + report.len()].copy_from_slice(&report);
        at += report.len();
        kept += 1;
    }
    Answer::done(kept)
}

/// Start and end, 32 bits each, the message's length, 16 bits, the message.
pub fn report_bytes(error: &LeafError) -> Vec<u8> {
    let span = error.span.expect("each report of these checks has a span");
    let mut bytes = Vec::with_capacity(10 + error.message.len());
    bytes.extend(number32(span.start));
    bytes.extend(number32(span.end));
    bytes.extend(number16(error.message.len()));
    bytes.extend(error.message.as_bytes());
    bytes
}

/// The reports that a buffer begins with.
pub fn reports(count: usize, buffer: &[u8]) -> Vec<Vec<u8>> {
    let mut rest = buffer;
    let mut next = || {
        let (report, behind) = rest.split_at(10 + usize::from(u16::from_be_bytes([rest[8], rest[9]])));
        rest = behind;
        report.to_vec()
    };
    (0..count).map(|_| next()).collect()
}

fn number16(n: usize) -> [u8; 2] {
    u16::try_from(n).expect("a record holds nothing that long").to_be_bytes()
}

fn number32(n: usize) -> [u8; 4] {
    u32::try_from(n).expect("a span is two 32-bit numbers").to_be_bytes()
}
