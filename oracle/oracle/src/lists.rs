//! The stored lists of cases, with the oracle's answers. The same seed gives the same bytes.

use crate::cases::{self, Case, Draft, Operation, Outcome};
use crate::coverage::Coverage;
use crate::examples::{
    bytes, own as bound_examples, rules, steps as stepped_examples, strict, times as timed_examples, values, visits,
    windows,
};
use crate::generate::{self, boundaries, compared, histories};
use crate::pieces::{self, Piece};
use crate::rng::Rng;
use crate::steps::{self, Call, Checked, History, Stored};
use crate::times;

/// The seed of the stored lists.
pub const SEED: u64 = 20_261_115;

/// One stored file.
pub struct List {
    pub file: &'static str,
    /// What the letters and numbers of its cases mean, for the file's heading.
    pub form: &'static str,
    pub cases: Vec<Case>,
}

pub fn all() -> Vec<List> {
    vec![
        List {
            file: "readers.cases",
            form: "s, c, t, p (schema, condition, targets, path). NUMBER is what the first record is refused with.",
            cases: readers(),
        },
        List {
            file: "check.cases",
            form: "k (schema, condition, targets). SIZE is the lent buffer's size; it is filled with A5 before the \
                   call, and OUTPUT is what its first bytes are after it, all others being A5. VISITS is the number of \
                   visits, which the Rust does not say: it was counted by its own walk and breaches.",
            cases: checks(),
        },
        List {
            file: "strict.cases",
            form: "x (schema, condition, targets), with the strict check's answers, which are not the Rust's: each \
                   was worked out from the definition. SIZE, OUTPUT and VISITS as for k in check.cases.",
            cases: stricts(),
        },
        List { file: "sums.cases", form: "m (condition). SIZE and OUTPUT as for k in check.cases.", cases: sums() },
        List {
            file: "lookup.cases",
            form: "l (schema, targets, path). SIZE and OUTPUT as for k in check.cases.",
            cases: lookups(),
        },
        List {
            file: "windows.cases",
            form: "w (condition, and the period in eight bytes). SIZE and OUTPUT as for k in check.cases.",
            cases: listings(),
        },
        List {
            file: "values.cases",
            form: "c (condition), k (schema, condition, targets), m (condition) and w (condition, period), as in the lists \
                   of these letters. The conditions are of version 3, but for those that tell versions apart.",
            cases: valued(),
        },
        List {
            file: "times.cases",
            form: "k (schema, condition, targets), l (schema, targets, path), m (condition), e and f (schema, condition, \
                   targets), as in the lists of these letters. Nearly all have the types datetime and duration, which the \
                   Rust does not know. The answers of the examples, in front, were worked out from the definition; of the \
                   others the Rust was asked with decimal and Bool in the place of the two types: its words were exchanged, \
                   and what it reports of the order of two alike was left out.",
            cases: timed(),
        },
        List {
            file: "own.cases",
            form: "k and o (schema, condition, targets), m and n (condition). k and m as in the lists of these letters; o and \
                   n are the same operations with binders in their own bodies, which the Rust has not: it was asked with \
                   the binders named apart, and the names were put back in what it says.",
            cases: bound(),
        },
        List {
            file: "steps.cases",
            form: "h (schema, condition, history): a stepping check, by rules without the strict one. The history is: the \
                   rules (a byte), the space of the list (two bytes), the list at the start and at the end, then the calls. A \
                   call begins as a case does: a letter (b start, s step, a append, w withdraw, m move to own bodies), NUMBER, \
                   RECORD, COUNT, a SIZE of 0 and VISITS, which are zeros of a move; behind them stands an argument (a target, \
                   or a position). Lists and arguments have their lengths before them, in two bytes. SIZE and OUTPUT of the \
                   case are of the reports' buffer, and its numbers those of the last call; the list's buffer is filled with A5 \
                   behind the list. The Rust has no such check: after each step it was asked for one check over the targets \
                   that are done, and after a step behind a move for the check of its target, whose new reports were put behind \
                   the others.",
            cases: stepped(),
        },
        List {
            file: "terms.cases",
            form: "e and f (schema, condition, targets). OUTPUT is the rendered type of the comparison's left (e) or \
                   right (f) operand under the target at the position SIZE, COUNT its length, 0 for no type.",
            cases: terms(),
        },
    ]
}

impl List {
    /// The file's whole bytes; what it covers is noted on the way.
    pub fn bytes(&self, coverage: &mut Coverage) -> Vec<u8> {
        let mut bytes = self.heading();
        for case in &self.cases {
            let Some(outcome) = case.outcome() else { continue };
            coverage.note(case, &outcome);
            bytes.extend(case.stored(&outcome));
        }
        bytes
    }

    /// The same cases as lines, for people.
    pub fn lines(&self) -> Vec<String> {
        let heading = format!("# {}: {}", self.file, self.form);
        let cases = self.cases.iter().filter_map(|case| Some(case.line(&case.outcome()?)));
        std::iter::once(heading).chain(cases).collect()
    }

    /// What stands at the front of the file, as the output of an entry with the letter `#`.
    fn heading(&self) -> Vec<u8> {
        let text = format!(
            "\n\
             Cases with the answers of the published Rust (repository dogwood-policy/dogwood 929f49e730) over a\n\
             reader of the records. Made by `oracle/run replay-list`, seed {SEED}; made again it has the same\n\
             bytes. `oracle/run replay-list --lines` prints the cases.\n\
             A case: a letter, NUMBER and RECORD (a byte each), COUNT, SIZE and VISITS (two bytes each), then OUTPUT and\n\
             three records, each of them two bytes with its length and then its bytes. Numbers are big-endian.\n\
             Here: {}\n",
            self.form
        );
        cases::entry('#', [0, 0], [0, 0, 0], [text.as_bytes(), &[], &[], &[]])
    }
}

fn case(operation: Operation, records: Vec<Vec<u8>>, size: usize) -> Case {
    Case { operation, records, size }
}

/// Random cases of an operation.
fn random(seed: u64, operation: Operation, count: usize) -> Vec<Case> {
    drafted(seed, operation, count, generate::draft)
}

/// Cases of an operation, as they are drafted, that are not marked. Of those that show little only every fourth is kept.
fn drafted(seed: u64, operation: Operation, count: usize, draft: fn(&mut Rng, Operation) -> Draft) -> Vec<Case> {
    kept(seed, operation, count, draft, |case| !times::is_marked(case), shows_little)
}

/// Cases that may be kept, as they are drafted. Of those that show little only every fourth is.
fn kept(
    seed: u64,
    operation: Operation,
    count: usize,
    draft: fn(&mut Rng, Operation) -> Draft,
    may_be: fn(&Case) -> bool,
    shows_little: impl Fn(&Case) -> bool,
) -> Vec<Case> {
    let mut rng = Rng::new(seed ^ operation.letter() as u64);
    let mut cases = Vec::new();
    while cases.len() < count {
        let case = draft(&mut rng, operation).case();
        if may_be(&case) && (!shows_little(&case) || rng.chance(1, 4)) {
            cases.push(case);
        }
    }
    cases
}

/// An accepted input that gives no report, a lookup that is Unknown, an operand without a type.
fn shows_little(case: &Case) -> bool {
    match case.outcome() {
        Some(Outcome::Answered(answer, buffer)) if answer.number == 0 => match case.operation {
            Operation::Lookup => buffer[0] == 4,
            _ => answer.count == 0,
        },
        Some(Outcome::Types(types)) => types.contains(&None),
        _ => false,
    }
}

/// Each case once, in the order of its first place.
fn once(cases: Vec<Case>) -> Vec<Case> {
    let mut seen = std::collections::HashSet::new();
    cases.into_iter().filter(|c| seen.insert(format!("{c:?}"))).collect()
}

fn readers() -> Vec<Case> {
    let mut cases = Vec::new();
    for e in bytes::all() {
        cases.push(case(Operation::ReadSchema, vec![e.schema], 0));
        cases.push(case(Operation::ReadCondition, vec![e.condition], 0));
        cases.push(case(Operation::ReadTargets, vec![e.targets], 0));
        cases.extend(e.path.map(|path| case(Operation::ReadPath, vec![path], 0)));
    }
    cases.extend(boundaries::all());
    cases.extend(compared::ordered());
    for (operation, count) in [
        (Operation::ReadSchema, 60),
        (Operation::ReadCondition, 120),
        (Operation::ReadTargets, 60),
        (Operation::ReadPath, 40),
    ] {
        cases.extend(random(SEED, operation, count));
    }
    once(cases)
}

fn checks() -> Vec<Case> {
    let mut cases = Vec::new();
    for e in bytes::all().into_iter().filter(|e| e.path.is_none()) {
        cases.push(case(Operation::Check, vec![e.schema, e.condition, e.targets], 300));
    }
    for e in rules::checked() {
        let records = [&e.schema, &e.condition, &e.targets].map(Piece::bytes).to_vec();
        cases.extend(at_three_sizes(Operation::Check, records, &e.reports));
    }
    for e in windowed('k') {
        let schema = pieces::schema(vec![], vec![]).bytes();
        let targets = pieces::targets(pieces::byte(0), pieces::byte(0), vec![pieces::target("", "view")]).bytes();
        cases.push(case(Operation::Check, vec![schema, e.condition, targets], e.size.min(300)));
    }
    cases.extend(compared::equal());
    cases.extend(visits::all().iter().map(visits::Visited::case));
    cases.extend(random(SEED, Operation::Check, 520));
    once(cases)
}

fn stricts() -> Vec<Case> {
    strict::all().iter().flat_map(|e| at_three_sizes(Operation::Strict, e.records(), &e.strict)).collect()
}

fn sums() -> Vec<Case> {
    let mut cases = Vec::new();
    for e in bytes::all() {
        cases.push(case(Operation::Sums, vec![e.condition], 100));
    }
    for e in rules::summed() {
        cases.extend(at_three_sizes(Operation::Sums, vec![e.condition.bytes()], &e.reports));
    }
    cases.extend(windowed('m').map(|e| case(Operation::Sums, vec![e.condition], e.size.min(300))));
    cases.push(long_annotation());
    cases.extend(random(SEED, Operation::Sums, 330));
    once(cases)
}

/// A summand whose annotation is longer than any message of Check can be.
fn long_annotation() -> Case {
    use crate::pieces::*;
    let segments: Vec<String> = (0..120).map(|i| format!("S{i:03}")).collect();
    let total = sum((1, 2), slot(Some("v"), 0), vec![named("v", &segments)], condition(11, (0, 0), vec![]));
    case(Operation::Sums, vec![condition_record(comparison((0, 9), 1, total, integer())).bytes()], 4_000)
}

fn lookups() -> Vec<Case> {
    let mut cases = Vec::new();
    for e in bytes::all() {
        let path = e.path.unwrap_or_else(|| crate::pieces::path(0, &["id"], 0).bytes());
        cases.push(case(Operation::Lookup, vec![e.schema, e.targets, path], 40));
    }
    for e in rules::looked() {
        let records = [&e.schema, &e.targets, &e.path].map(Piece::bytes).to_vec();
        let needed = 3 + e.strings.iter().map(|s| 2 + s.len()).sum::<usize>();
        cases.extend([200, needed, needed - 1, 0].map(|size| case(Operation::Lookup, records.clone(), size)));
    }
    cases.extend(random(SEED, Operation::Lookup, 340));
    once(cases)
}

/// The examples of windows of one operation.
fn windowed(letter: char) -> impl Iterator<Item = windows::Windowed> {
    windows::all().into_iter().filter(move |e| e.letter == letter)
}

fn listings() -> Vec<Case> {
    let mut cases = Vec::new();
    for e in windowed('w') {
        cases.push(case(Operation::Windows, vec![e.condition, windows::period_bytes(e.period)], e.size.min(300)));
    }
    for e in bytes::all() {
        cases.push(case(Operation::Windows, vec![e.condition, windows::period_bytes(60)], 100));
    }
    cases.extend(random(SEED, Operation::Windows, 300));
    once(cases)
}

/// The examples of version 3, read, checked, summed and listed, and random cases of each of these.
fn valued() -> Vec<Case> {
    let mut cases = Vec::new();
    for e in values::all() {
        cases.extend(at_three_sizes(Operation::Check, e.records(), &e.reports));
        cases.extend(e.other_cases());
    }
    for (operation, count) in
        [(Operation::ReadCondition, 120), (Operation::Check, 160), (Operation::Sums, 80), (Operation::Windows, 80)]
    {
        cases.extend(drafted(SEED ^ 3 << 32, operation, count, generate::valued_draft));
    }
    once(cases)
}

/// The examples of the types that the Rust does not know, and random cases with them of which an outcome is known. Where
/// the Rust says the same of these types as they are, a case shows little.
fn timed() -> Vec<Case> {
    let mut cases = Vec::new();
    for e in timed_examples::all().iter().filter(|e| e.judge != timed_examples::Judge::Rust) {
        let sizes = [e.needed() + 500, e.needed()].into_iter().chain(e.needed().checked_sub(1));
        cases.extend(sizes.map(|size| e.case(size)));
    }
    for (operation, count) in [(Operation::Check, 200), (Operation::Lookup, 100), (Operation::Terms, 80)] {
        let is_judged = |case: &Case| times::is_marked(case) && case.outcome().is_some();
        let says_the_same = |case: &Case| case.outcome() == case.rust_outcome();
        cases.extend(kept(SEED, operation, count, generate::timed_draft, is_judged, says_the_same));
    }
    once(cases)
}

/// The examples of binders in their own bodies, each beside the same operation without, and random cases. Where the bodies
/// make no difference, a case shows little.
fn bound() -> Vec<Case> {
    let mut cases = Vec::new();
    for e in bound_examples::all() {
        for (operation, message) in e.answered() {
            let reports: Vec<_> = message.into_iter().map(|message| (0, 0, message.to_string())).collect();
            cases.extend(at_three_sizes(operation, e.records.clone(), &reports));
        }
    }
    for (operation, flat, count) in
        [(Operation::Own, Operation::Check, 200), (Operation::OwnSums, Operation::Sums, 120)]
    {
        let says_the_same = |case: &Case| case.outcome() == Case { operation: flat, ..case.clone() }.outcome();
        cases.extend(kept(
            SEED,
            operation,
            count,
            generate::again_draft,
            |case| !times::is_marked(case),
            says_the_same,
        ));
    }
    once(cases)
}

/// Histories of the stepping check: those without a move, and behind them those with one.
fn stepped() -> Vec<Case> {
    let (moved, others): (Vec<History>, Vec<History>) =
        stepped_examples::all().into_iter().map(|e| e.history).partition(History::moves);
    let has_reports = |stored: &Stored| stored.reports() > 0;
    let mut cases = stored_histories(others, 300, b'h', histories::history, has_reports, 4);
    cases.extend(stored_histories(moved, 100, b'm', histories::moved_history, shows_its_move, 40));
    once(cases)
}

/// Whether the reports would be others without the moves.
fn shows_its_move(stored: &Stored) -> bool {
    let mut without = stored.history.clone();
    without.calls.retain(|call| *call != Call::Move);
    let buffer = |history: &History| Some(history.courses(&steps::known)?.last()?.buffer.clone());
    buffer(&stored.history) != buffer(&without)
}

/// So many histories: the examples, but for those of lists so long that a case does not hold them, and random ones that show
/// something. Of the others one in `rarely` is kept.
fn stored_histories(
    examples: Vec<History>,
    count: usize,
    letter: u8,
    make: fn(&mut Rng, Checked) -> History,
    shows: fn(&Stored) -> bool,
    rarely: usize,
) -> Vec<Case> {
    const LONGEST_STORED: usize = 8_192;
    let stored = |history: History| {
        let courses = history.courses(&steps::known)?;
        Some(Stored::of(history, &courses).case())
    };
    let is_short = |history: &History| history.space <= LONGEST_STORED && history.size <= LONGEST_STORED;
    let mut cases = Vec::new();
    for history in examples.into_iter().filter(|history| history.records[2].len() < LONGEST_STORED) {
        let space = history.space.min(LONGEST_STORED);
        cases.extend(stored(History { space, ..history }));
    }
    let mut rng = Rng::new(SEED ^ u64::from(letter));
    while cases.len() < count {
        let mut history = make(&mut rng, &steps::known);
        history.rules &= !steps::STRICT;
        let Some(case) = is_short(&history).then(|| stored(history)).flatten() else { continue };
        if Stored::read(&case).is_some_and(|stored| shows(&stored)) || rng.chance(1, rarely) {
            cases.push(case);
        }
    }
    cases
}

fn terms() -> Vec<Case> {
    let mut cases = Vec::new();
    for e in rules::checked() {
        cases.push(case(Operation::Terms, [&e.schema, &e.condition, &e.targets].map(Piece::bytes).to_vec(), 0));
    }
    cases.extend(random(SEED, Operation::Terms, 350));
    once(cases.into_iter().filter(|c| c.outcome().is_some()).collect())
}

/// A large buffer, one just large enough, one a byte too small.
fn at_three_sizes(operation: Operation, records: Vec<Vec<u8>>, reports: &[(u32, u32, String)]) -> Vec<Case> {
    let needed: usize = reports.iter().map(|(_, _, message)| 10 + message.len()).sum();
    let mut sizes = vec![needed + 500, needed];
    sizes.extend(needed.checked_sub(1));
    sizes.into_iter().map(|size| case(operation, records.clone(), size)).collect()
}
