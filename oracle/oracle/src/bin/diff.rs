//! The differential test: fresh cases against the static library, answers and whole buffers compared with the oracle's.
//!
//! Usage: `diff N [SEED [LETTERS]]`. Without a seed one is taken from the clock; it is printed, so that a run can be had
//! again. LETTERS are those of the operations to be compared; without them all that the library has. Each check is also
//! made with lent workspace of random size and contents and rules of no effect, and held against the one without; and it
//! is made strictly, with space for all reports, where every pair of the plain one has to be among the strict ones, and the
//! visits are as many. As many numbers are written as decimals, and read back.
//!
//! Each check and each sums is made with binders in their own bodies too, and held against what the Rust says of the
//! condition whose binders are named apart (`oracle::own`); and where the two ways of binding cannot differ, against the
//! one without, to the byte, strictly too.
//!
//! For every tenth case a history of a stepping check is made, and each of its answers, with state, list and buffer, is held
//! to one check over the targets that are done (`oracle::steps`): to the Rust's, and by strict rules, which it has not, to the
//! library's own. Then its state, buffer and list are changed into such as no call leaves, and the next step, append,
//! withdrawal and move are held to a model of the definition; they are made twice, and may write only where they should.
//! For every third of these histories there is one more in which the rule is moved to own bodies on the way; the steps
//! behind the move are held to the model, of which the Rust judges the check of each target.
//!
//! A case with the types `datetime` and `duration` is marked, and not held to what the Rust says of it: `oracle::times` has
//! what is known of its outcome, the whole of it where other types can stand for the two, and else a part.

#[path = "../library.rs"]
mod library;

use oracle::answers::Answer;
use oracle::cases::{Case, Draft, Operation, Outcome, FILL};
use oracle::coverage::Coverage;
use oracle::generate::histories;
use oracle::steps::{self, Checked, Course, History, Steps};
use oracle::{decimals, generate, hex, lists, own, rng::Rng, shrink, times, workloads};
use std::collections::BTreeSet;
use std::time::{SystemTime, UNIX_EPOCH};

/// Every operation is compared but that of terms, which the library does not export.
const COMPARED: usize = Operation::ALL.len() - 1;

fn main() {
    let mut words = std::env::args().skip(1);
    let count: usize = words.next().and_then(|w| w.parse().ok()).expect("usage: diff N [SEED]");
    let seed: u64 = words.next().map_or_else(seed_from_clock, |w| w.parse().expect("the seed is a number"));
    let wanted = words.next();
    let mut operations = library::operations();
    operations.retain(|o| wanted.as_ref().is_none_or(|letters| letters.contains(o.letter())));
    let letters: String = operations.iter().map(|o| o.letter()).collect();
    let lends = library::check_with(0, [&[]; 3], &mut [], &mut []).is_some()
        && library::sums_with(0, &[], &mut []).is_some()
        && has_steps()
        && library::write_decimal(0, &mut []).is_some();
    if operations.is_empty() || wanted.is_none() && (operations.len() < COMPARED || !lends) {
        println!("oracle: NOTHING COMPARED, the static library is not there or lacks functions: it has '{letters}'");
        std::process::exit(1);
    }
    println!("oracle: operations {letters}, seed {seed}");
    let stored = compare_stored(&operations);
    let mut coverage = compare_fresh(&operations, count, seed);
    if wanted.is_none() {
        let histories = count.div_ceil(10);
        compare_histories(histories, seed ^ 108, histories::history, &mut coverage);
        compare_histories(histories.div_ceil(3), seed ^ 113, histories::moved_history, &mut coverage);
        compare_decimals(count, seed);
    }
    println!("oracle: {stored} stored and {count} fresh cases agree\n\nThe fresh cases covered:");
    coverage.print();
}

fn seed_from_clock() -> u64 {
    SystemTime::now().duration_since(UNIX_EPOCH).map_or(1, |d| d.as_nanos() as u64)
}

/// The cases of the stored lists and the benchmark's, for the operations that the library has.
fn compare_stored(operations: &[Operation]) -> usize {
    let crowded = [workloads::differing("reports", 200, 20, 1 << 20), workloads::alike("one start", 3, 1 << 20)];
    let names = [workloads::many_principals("principals", 255, 1), workloads::many_actions("actions", 2)];
    let others = workloads::timed().into_iter().chain(workloads::scoped());
    let large = workloads::all().into_iter().chain(crowded).chain(names).chain(others).flat_map(|w| w.cases());
    let all = lists::all().into_iter().flat_map(|list| list.cases).chain(large);
    let has = |operation: Operation| {
        let plain = match operation {
            Operation::Strict | Operation::Own | Operation::Steps => Operation::Check,
            Operation::OwnSums => Operation::Sums,
            other => other,
        };
        operations.contains(&plain)
    };
    let mut compared = 0;
    for case in all.filter(|c| has(c.operation)) {
        if differs(&case) {
            show(&case);
            std::process::exit(1);
        }
        compared += 1;
    }
    compared
}

fn compare_fresh(operations: &[Operation], count: usize, seed: u64) -> Coverage {
    let mut rng = Rng::new(seed);
    let mut coverage = Coverage::default();
    for i in 0..count {
        let operation = operations[i % operations.len()];
        let draft = match rng.below(50) {
            0 => generate::large_draft(&mut rng, operation),
            1 | 2 => generate::compared_draft(&mut rng, operation),
            3..=14 => generate::timed_draft(&mut rng, operation),
            15..=18 => generate::apart_draft(&mut rng, operation),
            19..=24 => generate::again_draft(&mut rng, operation),
            _ => generate::draft(&mut rng, operation),
        };
        let case = draft.case();
        if differs(&case) {
            println!("case {i} differs; made smaller:");
            show(&shrink::smallest(draft, |d: &Draft| differs(&d.case())).case());
            std::process::exit(1);
        }
        match case.outcome() {
            Some(outcome) => coverage.note(&case, &outcome),
            None => coverage.note_in_part(&case),
        }
        if let Some(own) = in_own_bodies(&case) {
            coverage.note_own(&own, cannot_differ(&case));
        }
    }
    coverage
}

/// The case with binders in their own bodies, of a check and of sums.
fn in_own_bodies(case: &Case) -> Option<Case> {
    Some(Case { operation: case.operation.with_own_bodies()?, ..case.clone() })
}

/// The examples and as many random numbers, written by the library into buffers of lengths that show something.
fn compare_decimals(count: usize, seed: u64) {
    let mut rng = Rng::new(seed);
    let examples = decimals::EXAMPLES.map(|(number, length, _, _)| (number, length));
    let fresh = (0..count).map(|_| {
        let number = decimals::number(&mut rng);
        (number, rng.below(decimals::text(number).len() + 4))
    });
    for (number, length) in examples.into_iter().chain(fresh) {
        let [mut ours, mut theirs] = [vec![FILL; length], vec![FILL; length]];
        let answer = library::write_decimal(number, &mut theirs);
        if answer != Some(decimals::write(number, &mut ours)) || ours != theirs {
            println!("the decimal {number} in {length} bytes differs: {answer:?}, {}", hex::encode(&theirs));
            std::process::exit(1);
        }
    }
    println!("oracle: {} decimals agree", decimals::EXAMPLES.len() + count);
}

fn differs(case: &Case) -> bool {
    is_contradicted(case)
        || lent_differs(case)
        || strict_lacks(case)
        || in_own_bodies(case).is_some_and(|own| is_contradicted(&own))
        || bindings_differ(case)
}

/// Whether the binders' bodies make a difference where they cannot, in the plain check, in the strict one or in the sums.
fn bindings_differ(case: &Case) -> bool {
    const RULES: [u8; 2] = [0, library::STRICT];
    cannot_differ(case)
        && RULES
            .into_iter()
            .any(|rules| library::ruled(rules, case) != library::ruled(rules | library::OWN_BODIES, case))
}

fn cannot_differ(case: &Case) -> bool {
    match case.operation {
        Operation::Check => own::checks_are_alike(&case.records[1]),
        Operation::Sums => own::sums_are_alike(&case.records[0]),
        _ => false,
    }
}

/// Whether the library's outcome is not what the oracle knows of it: all of it, or of some marked cases a part.
fn is_contradicted(case: &Case) -> bool {
    let outcome = case.outcome();
    if !times::is_marked(case) {
        return library::outcome(case) != outcome;
    }
    outcome.is_some() && library::outcome(case) != outcome || in_common_differs(&times::amply(case))
}

/// Whether the library says something else than the Rust where the types of a marked case do not matter.
fn in_common_differs(case: &Case) -> bool {
    let common = |outcome: Option<Outcome>| times::common(case.operation, &outcome?);
    match (common(case.rust_outcome()), common(library::outcome(case))) {
        (Some(rust), Some(ours)) => rust != ours,
        _ => false,
    }
}

/// Space for all reports of most cases.
const AMPLE: usize = 1 << 20;

/// Whether the strict check of a case lacks a pair (message, start) of the plain one, or has another beside them that is
/// not about an equality, or makes another number of visits, in either way of binding names. With space for all: where it
/// does not do, nothing is said.
fn strict_lacks(case: &Case) -> bool {
    if case.operation != Operation::Check {
        return false;
    }
    [0, library::OWN_BODIES].into_iter().any(|rules| match (pairs(case, rules), pairs(case, rules | library::STRICT)) {
        (Some((plain, visits)), Some((strict, strict_visits))) => {
            visits != strict_visits
                || !plain.is_subset(&strict)
                || strict.difference(&plain).any(|(message, _)| !message.starts_with(b"equality "))
        }
        _ => false,
    })
}

/// Messages with their starts.
type Pairs = BTreeSet<(Vec<u8>, u32)>;

/// The pairs that a check with these rules reports and the number of its visits, where it answers 0.
fn pairs(case: &Case, rules: u8) -> Option<(Pairs, usize)> {
    let r = &case.records;
    let mut buffer = vec![FILL; AMPLE];
    let mut workspace = vec![0; workloads::workspace_for(AMPLE)];
    let answer = library::check_with(rules, [&r[0], &r[1], &r[2]], &mut buffer, &mut workspace)?;
    let mut rest = &buffer[..];
    let mut pairs = Pairs::new();
    for _ in 0..answer.count {
        let start = u32::from_be_bytes(rest[..4].try_into().expect("a start has four bytes"));
        let length = usize::from(u16::from_be_bytes([rest[8], rest[9]]));
        pairs.insert((rest[10..10 + length].to_vec(), start));
        rest = &rest[10 + length..];
    }
    (answer.number == 0).then_some((pairs, answer.visits))
}

/// Whether the check answers otherwise with workspace than without, or writes to it where a record is refused.
fn lent_differs(case: &Case) -> bool {
    if case.operation != Operation::Check {
        return false;
    }
    let (rules, workspace) = lent_to(case);
    let (outcome, left) = with_workspace(case, rules, &workspace);
    let refused = matches!(&outcome, Some(Outcome::Answered(answer, _)) if (1..=10).contains(&answer.number));
    outcome != library::outcome(case) || refused && left != workspace
}

/// A rules byte without the two bits that have a meaning, and workspace: none, a slot, a few, many, enough for the buffer.
/// The case alone decides, so that one that is made smaller is tried in the same way every time.
fn lent_to(case: &Case) -> (u8, Vec<u32>) {
    let sum: u64 = case.records.iter().flatten().map(|byte| u64::from(*byte)).sum();
    let mut rng = Rng::new(sum ^ (case.size as u64) << 32);
    let slots = match rng.below(5) {
        0 => 0,
        1 => 1,
        2 => rng.below(16),
        3 => rng.below(3_000),
        _ => workloads::workspace_for(case.size),
    };
    let rules = rng.below(256) as u8 & !(library::STRICT | library::OWN_BODIES);
    // places in the buffer are what would do harm, were they believed
    let bound = rng.one(&[1, case.size + 2, 1 << 32]);
    (rules, (0..slots).map(|_| rng.below(bound) as u32).collect())
}

/// The outcome with this workspace, and what is left in it.
fn with_workspace(case: &Case, rules: u8, workspace: &[u32]) -> (Option<Outcome>, Vec<u32>) {
    let (r, mut left) = (&case.records, workspace.to_vec());
    let mut buffer = vec![FILL; case.size];
    let answer = library::check_with(rules, [&r[0], &r[1], &r[2]], &mut buffer, &mut left);
    (answer.map(|answer| Outcome::Answered(answer, buffer)), left)
}

// ─── Steps ───

fn has_steps() -> bool {
    let begun = || Steps::begun(0);
    library::steps_start(0, [&[]; 3]).is_some()
        && library::steps_step([&[]; 3], begun(), &mut []).is_some()
        && library::steps_step_with([&[]; 3], begun(), &mut [], &mut []).is_some()
        && library::steps_append(&mut [], 0, &[]).is_some()
        && library::steps_withdraw(&[], begun(), 0).is_some()
        && library::steps_move(begun()).is_some()
}

/// What a check answers by rules: what the oracle knows, and where it knows nothing what the library says.
fn checked(rules: u8, case: Case) -> Option<Outcome> {
    steps::known(rules, case.clone()).or_else(|| library::ruled(rules, &case))
}

fn compare_histories(count: usize, seed: u64, make: fn(&mut Rng, Checked) -> History, coverage: &mut Coverage) {
    let (mut rng, mut moved) = (Rng::new(seed), 0);
    for i in 0..count {
        let history = make(&mut rng, &checked);
        moved += usize::from(history.moves());
        if history_differs(&history) {
            println!("history {i} differs; with as few calls as do:");
            show_history(&shorter(history));
            std::process::exit(1);
        }
        let Some(courses) = history.courses(&checked) else { continue };
        coverage.note_history(&history, &courses);
        let left = rng.pick(&courses).clone();
        let course = histories::changed(&mut rng, left);
        match state_differs(&mut rng, &history, &course) {
            Ok(number) => coverage.note_state(number),
            Err(what) => {
                println!("history {i}, a state that no call left differs: {what}\n{}\n{course:?}", history.line());
                std::process::exit(1);
            }
        }
    }
    println!(
        "oracle: {count} histories of a stepping check agree, {moved} of them with a move, and as many states that no call left"
    );
}

/// Whether the library answers otherwise at some call, or leaves another state, list or buffer, with workspace and without.
fn history_differs(history: &History) -> bool {
    let Some(wanted) = history.courses(&checked) else { return false };
    let mut rng = Rng::new(wanted.len() as u64);
    let lent = |records: [&[u8]; 3], state: Steps, buffer: &mut [u8]| {
        let (mut workspace, before) = slots(&mut rng, buffer.len());
        let given = library::steps_step_with(records, state, buffer, &mut workspace);
        let refused = given.as_ref().is_some_and(|(answer, _)| ![0, 11].contains(&answer.number));
        given.filter(|_| !refused || workspace == before)
    };
    let ours = [library::courses(history, library::steps_step), library::courses(history, lent)];
    ours.iter().any(|courses| courses.as_ref() != Some(&wanted))
}

/// Workspace of any number of slots that hold anything, and a copy of it.
fn slots(rng: &mut Rng, size: usize) -> (Vec<u32>, Vec<u32>) {
    let count = rng.one(&[0, 1, 2, 9, 300, workloads::workspace_for(size)]);
    let bound = rng.one(&[1, size + 2, 1 << 32]);
    let slots: Vec<u32> = (0..count).map(|_| rng.below(bound) as u32).collect();
    (slots.clone(), slots)
}

/// The same history without calls that it does not need to differ.
fn shorter(mut history: History) -> History {
    let mut at = 0;
    while at < history.calls.len() {
        let mut other = history.clone();
        other.calls.remove(at);
        if history_differs(&other) {
            history = other;
        } else {
            at += 1;
        }
    }
    history
}

fn show_history(history: &History) {
    println!("{}", history.line());
    let ours = library::courses(history, library::steps_step).unwrap_or_default();
    let wanted = history.courses(&checked).unwrap_or_default();
    for (at, (ours, wanted)) in ours.iter().zip(&wanted).enumerate() {
        println!("  {at}: wanted {:?}\n      ours {:?}", wanted.answer, ours.answer);
        println!("      state {}, list {}, buffer {}", ours.state == wanted.state, ours.list == wanted.list, {
            ours.buffer == wanted.buffer
        });
    }
}

/// Bytes before and behind what is lent.
const AROUND: usize = 64;

/// A call with a copy of these bytes lent, and what is then there; an error where bytes around them were written to.
fn lent<T>(bytes: &[u8], call: impl FnOnce(&mut [u8]) -> Option<T>) -> Result<(T, Vec<u8>), &'static str> {
    let around = [FILL; AROUND];
    let mut all = [&around, bytes, &around].concat();
    let given = call(&mut all[AROUND..AROUND + bytes.len()]).ok_or("a function is missing")?;
    let (before, rest) = all.split_at(AROUND);
    let (inside, behind) = rest.split_at(bytes.len());
    if [before, behind].iter().any(|part| **part != around) {
        return Err("bytes around what is lent were written to");
    }
    Ok((given, inside.to_vec()))
}

/// Looks whether a step, an append, a withdrawal and a move from any state are as the model has them, each time that they are
/// made; the number of the step.
fn state_differs(rng: &mut Rng, history: &History, course: &Course) -> Result<u8, &'static str> {
    let targets = course.targets().to_vec();
    let records = history.records_with(&targets);
    let mut wanted = course.clone();
    let answer = steps::step(records, &mut wanted.state, &mut wanted.buffer, &checked);
    let Some(answer) = answer else { return Ok(255) };
    let wanted = ((answer, wanted.state), wanted.buffer);
    for _ in 0..2 {
        let (mut workspace, _) = slots(rng, course.buffer.len());
        let own = lent(&course.buffer, |buffer| library::steps_step(records, course.state.clone(), buffer))?;
        let with = |buffer: &mut [u8]| library::steps_step_with(records, course.state.clone(), buffer, &mut workspace);
        if own != wanted || lent(&course.buffer, with)? != wanted {
            return Err("a step");
        }
    }
    append_differs(rng, course)?;
    for position in [0, 1, rng.below(256) as u8] {
        let mut state = course.state.clone();
        let wanted = steps::withdraw(&targets, &mut state, position);
        if library::steps_withdraw(&targets, course.state.clone(), position) != Some((wanted, state)) {
            return Err("a withdrawal");
        }
    }
    let mut state = course.state.clone();
    steps::move_to_own_bodies(&mut state);
    if library::steps_move(course.state.clone()) != Some(state) {
        return Err("a move");
    }
    Ok(answer.number)
}

/// A list of any length and with a byte changed, and a target of a few bytes.
fn append_differs(rng: &mut Rng, course: &Course) -> Result<(), &'static str> {
    let mut list = course.list.clone();
    if let (Some(at), true) = (list.len().checked_sub(1), rng.chance(1, 3)) {
        let at = rng.below(at + 1);
        list[at] = rng.one(&[0, 1, 2, 5, 0x22, 0x41, 0xFF]);
    }
    let length = rng.one(&[course.length, course.length, course.length + 1, 0, usize::MAX, list.len()]);
    let target: Vec<u8> = (0..rng.below(6)).map(|_| rng.one(&[0, 0, 1, 2, 0x22, 0x41])).collect();
    let mut wanted = list.clone();
    let answer: Answer = steps::append(&mut wanted, length, &target);
    for _ in 0..2 {
        if lent(&list, |list| library::steps_append(list, length, &target))? != (answer, wanted.clone()) {
            return Err("an append");
        }
    }
    Ok(())
}

fn show(case: &Case) {
    println!("operation {}, size {}", case.operation.letter(), case.size);
    for record in &case.records {
        println!("  record  {}", hex::encode(record));
    }
    println!("  the Rust: {}", shown(case.rust_outcome()));
    if times::is_marked(case) {
        println!("  which is marked; wanted: {}", shown(case.outcome()));
    }
    println!("  ours:     {}", shown(library::outcome(case)));
    if let Some(own) = in_own_bodies(case) {
        println!("  own bodies, wanted: {}", shown(own.outcome()));
        println!("  own bodies, ours:   {}", shown(library::outcome(&own)));
    }
    if case.operation == Operation::Check {
        let (rules, workspace) = lent_to(case);
        println!(
            "  with {} slots, rules {rules}: {}",
            workspace.len(),
            shown(with_workspace(case, rules, &workspace).0)
        );
    }
}

fn shown(outcome: Option<Outcome>) -> String {
    match outcome {
        Some(Outcome::Answered(answer, buffer)) => {
            format!(
                "number {} record {} count {} visits {} buffer {}\n            {}",
                answer.number,
                answer.record,
                answer.count,
                answer.visits,
                hex::encode(&buffer),
                String::from_utf8_lossy(&buffer).replace(|c: char| c.is_control(), ".")
            )
        }
        other => format!("{other:?}"),
    }
}
