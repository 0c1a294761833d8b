//! The library's operations: in a lent buffer, and with space of their own.

use std::collections::hash_map::RandomState;
use std::hash::{BuildHasher, Hasher};

use crate::{
    ffi, Answer, Cause, CheckAnswer, Findings, ListedWindow, ListedWindows, Refusal, Reports, Rules, ScopePath,
};

/// The space that [`check`], [`sums`] and [`lookup`] begin with: 64 KiB, which hold hundreds of reports.
pub(crate) const FIRST_SPACE: usize = 64 << 10;

/// How much more space there is at the next try. So a call is made three times at most.
pub(crate) const GROWTH: usize = 16;

/// The most space that [`check`], [`sums`] and [`lookup`] take for an answer: 16 MiB. Whoever wants another bound
/// lends a buffer to [`check_into`], [`sums_into`] or [`lookup_into`].
pub const MOST_SPACE: usize = FIRST_SPACE * GROWTH * GROWTH;

/// The bytes of the shortest report of a check.
pub(crate) const LEAST_REPORT: usize = 51;

/// So many reports are found again without workspace: the library has a table for them on its stack.
const OWN_REPORTS: usize = 1_536;

fn read(number: u8) -> Result<(), Cause> {
    Cause::answered(number).map_or(Ok(()), Err)
}

/// Whether bytes are a schema record, or the first thing that is wrong with them.
///
/// ```
/// use dogwood_check::{read_schema, Cause};
///
/// assert_eq!(read_schema(b"DWS\0\x01\0\0\0\0"), Ok(()));
/// assert_eq!(read_schema(b"DWS\0\x01"), Err(Cause::Cut));
/// ```
pub fn read_schema(bytes: &[u8]) -> Result<(), Cause> {
    read(ffi::read_schema(bytes))
}

/// Whether bytes are a condition record, or the first thing that is wrong with them.
pub fn read_condition(bytes: &[u8]) -> Result<(), Cause> {
    read(ffi::read_condition(bytes))
}

/// Whether bytes are a targets record, or the first thing that is wrong with them.
pub fn read_targets(bytes: &[u8]) -> Result<(), Cause> {
    read(ffi::read_targets(bytes))
}

/// Whether bytes are a path record, or the first thing that is wrong with them.
pub fn read_path(bytes: &[u8]) -> Result<(), Cause> {
    read(ffi::read_path(bytes))
}

/// Checks the types of a condition under each target of a rule, with a lent buffer for the reports.
///
/// Without refusal the buffer begins with [`count`](Answer::count) reports, which [`Reports`] decodes. After
/// [`Cause::NoSpace`] it begins with the `count` reports before the first that does not fit. After any other refusal,
/// and behind the reports, the buffer is as it was. Where the records and the buffer have room for more than 1,535
/// reports, workspace is allocated as [`workspace_for`] says, with a random key, so that time is linear in the reports;
/// [`check_with`] allocates nothing.
///
/// ```
/// use dogwood_check::{check_into, Reports};
///
/// let schema = b"DWS\0\x01\0\0\0\0";
/// let condition = b"DWC\0\x01\x08\0\0\0\0\0\0\0\x08\x01\x05\x02"; // `true < 1`
/// let targets = b"DWT\0\x01\0\0\x01\0\x04view";
/// let mut buffer = [0; 1024];
/// let answer = check_into(schema, condition, targets, &mut buffer);
/// assert_eq!((answer.refusal, answer.count), (None, 1));
/// for report in Reports::new(&buffer, answer.count)? {
///     assert_eq!((report.start, report.end), (0, 8));
/// }
/// # Ok::<(), dogwood_check::DecodeError>(())
/// ```
pub fn check_into(schema: &[u8], condition: &[u8], targets: &[u8], reports: &mut [u8]) -> CheckAnswer {
    let most = most_reports(condition, targets, reports.len());
    if most < OWN_REPORTS {
        return CheckAnswer::new(ffi::check(schema, condition, targets, reports));
    }
    let mut workspace = vec![0; slots_for(most)];
    workspace[0] = random_key();
    check_with(Rules::plain(), schema, condition, targets, reports, &mut workspace)
}

/// The check of [`check_into`] with [`Rules`] that the caller chooses, and with workspace lent too, in which repeated
/// reports are found. Nothing is allocated.
///
/// The answer and the buffer are the same for every workspace: it may have any number of slots and hold anything.
/// [`workspace_for`] says how many slots make time linear in the reports; with fewer, further reports are compared with
/// all before them. Where a record is refused the workspace is as it was, else its contents mean nothing afterwards.
///
/// The first slot is the key of the hash that chooses the slots. Whoever knows the key can make a request in which the
/// reports are compared with all before them after all. Where requests come from strangers, put a random number there
/// before each call, as [`check_into`] does.
///
/// ```
/// use dogwood_check::{check_with, workspace_for, Reports, Rules};
///
/// let schema = b"DWS\0\x01\0\0\0\0";
/// let condition = b"DWC\0\x01\x08\0\0\0\0\0\0\0\x08\x01\x05\x02"; // `true < 1`
/// let targets = b"DWT\0\x01\0\0\x01\0\x04view";
/// let mut buffer = [0; 1024];
/// let mut workspace = vec![0; workspace_for(buffer.len())];
/// let answer = check_with(Rules::plain(), schema, condition, targets, &mut buffer, &mut workspace);
/// assert_eq!((answer.refusal, answer.count), (None, 1));
///
/// let mut other = [0; 1024];
/// assert_eq!(check_with(Rules::plain(), schema, condition, targets, &mut other, &mut []), answer);
/// assert_eq!(other, buffer);
/// ```
pub fn check_with(
    rules: Rules,
    schema: &[u8],
    condition: &[u8],
    targets: &[u8],
    reports: &mut [u8],
    workspace: &mut [u32],
) -> CheckAnswer {
    CheckAnswer::new(ffi::check_with(rules.bits(), [schema, condition, targets], reports, workspace))
}

/// How many slots of workspace make [`check_with`] linear in the reports of a buffer of so many bytes, whatever the
/// records are.
///
/// ```
/// assert_eq!(dogwood_check::workspace_for(1 << 20), 27_415);
/// ```
pub fn workspace_for(space: usize) -> usize {
    slots_for(space / LEAST_REPORT)
}

/// Slots for so many reports: the key, and behind it a table that takes three for every four slots, and has to have one
/// place left.
pub(crate) fn slots_for(reports: usize) -> usize {
    1 + reports + reports / 3 + 1
}

/// A number that nobody who made a request knows: the standard library's hashers have random keys.
pub(crate) fn random_key() -> u32 {
    let number = RandomState::new().build_hasher().finish();
    (number >> 32) as u32
}

/// No more reports than this come of these records and fit: under each target a report is about a byte of the condition
/// that no other one is about, and a target has two bytes at least. Were there more, the check would only be slower.
fn most_reports(condition: &[u8], targets: &[u8], space: usize) -> usize {
    (space / LEAST_REPORT).min(condition.len() * (targets.len() / 2))
}

/// Checks the sums of a condition, with a lent buffer for the reports. The buffer is filled as by [`check_into`].
pub fn sums_into(condition: &[u8], reports: &mut [u8]) -> Answer {
    Answer::new(ffi::sums(condition, reports))
}

/// The sums of [`sums_into`] with [`Rules`] that the caller chooses. Only [`Rules::own_bodies`] makes a difference: the
/// binder of a summand is then the last of its name in the sum's own list, else the innermost around the sum, and where
/// there is none the sum is not reported.
///
/// ```
/// use dogwood_check::{sums_with, Aggregate, Binder, Condition, Operator, Rules, Term};
///
/// // 1 == (sum v for (v: Long). where ..) && exists (v: String). ..
/// let sum = Aggregate::sum(5..35, "v", [Binder::new("v", "Long")], Condition::call(30..34));
/// let left = Condition::comparison(0..35, Operator::Eq, Term::Integer, Term::aggregate(sum));
/// let right = Condition::exists(39..60, Binder::new("v", "String"), Condition::call(56..60));
/// let condition = Condition::and(0..60, left, right).encode()?;
/// let mut buffer = [0; 1024];
///
/// assert_eq!(sums_with(Rules::plain(), &condition, &mut buffer).count, 1);
/// assert_eq!(sums_with(Rules::own_bodies(), &condition, &mut buffer).count, 0);
/// # Ok::<(), dogwood_check::EncodeError>(())
/// ```
pub fn sums_with(rules: Rules, condition: &[u8], reports: &mut [u8]) -> Answer {
    Answer::new(ffi::sums_with(rules.bits(), condition, reports))
}

/// Lists the windows of a condition in sweeps of a period of so many seconds, with a lent buffer for the entries.
///
/// Without refusal the buffer begins with [`count`](Answer::count) entries, which [`ListedWindows`] decodes. After
/// [`Cause::NoSpace`] it begins with the `count` entries before the first that does not fit. After any other refusal,
/// and behind the entries, the buffer is as it was. A period of 0 is [`Cause::NoPeriod`], once the condition was read.
pub fn windows_into(condition: &[u8], period: u64, output: &mut [u8]) -> Answer {
    Answer::new(ffi::windows(condition, period, output))
}

/// Looks a path up for one target, with a lent buffer for the output.
///
/// Without refusal the buffer begins with [`count`](Answer::count) bytes, which [`ScopePath::decode`] takes apart,
/// and is as it was behind them. After any refusal the whole buffer is as it was.
pub fn lookup_into(schema: &[u8], targets: &[u8], path: &[u8], output: &mut [u8]) -> Answer {
    Answer::new(ffi::lookup(schema, targets, path, output))
}

/// Writes a number of ten-thousandths as the text of a decimal, with a lent buffer for the text.
///
/// Without refusal the buffer begins with [`count`](Answer::count) bytes of ASCII, and is as it was behind them. Where
/// the text is longer than the buffer it is as it was; [`MOST_DECIMAL`](crate::MOST_DECIMAL) bytes are always enough.
pub fn write_decimal_into(value: i64, output: &mut [u8]) -> Answer {
    Answer::new(ffi::write_decimal(value, output))
}

/// Checks the types of a condition under each target of a rule: a report for each different pair of message and start.
/// The condition breaks no rule where the findings [are clean](Findings::is_clean).
///
/// The call takes 64 KiB for the reports and, where they do not fit, is repeated with 1 MiB and then with
/// [`MOST_SPACE`], workspace being in proportion ([`workspace_for`]). Only a condition made to have very many reports has
/// more than that: the findings then [say so](Findings::more), beside the reports that fit. Time is linear in the
/// reports.
///
/// An empty list of targets has nothing to check and gives no report. An undeclared target gives reports only for what
/// can be judged without its action, and a field that does not resolve has no type and is not reported.
///
/// ```
/// use dogwood_check::{check, Condition, Operator, Schema, Target, Targets, Term};
///
/// let schema = Schema::new().encode()?;
/// let condition = Condition::comparison(0..8, Operator::Lt, Term::Bool, Term::Integer).encode()?;
/// let targets = Targets::new().target(Target::new("view")).encode()?;
/// let found = check(&schema, &condition, &targets)?;
/// assert!(!found.is_clean() && !found.more);
/// assert_eq!(
///     found.reports[0].to_string(),
///     "0..8: comparison requires numeric operands on both sides, got `boolean` and `int`"
/// );
/// # Ok::<(), Box<dyn std::error::Error>>(())
/// ```
pub fn check(schema: &[u8], condition: &[u8], targets: &[u8]) -> Result<Findings, Refusal> {
    findings(in_space(|buffer| check_into(schema, condition, targets, buffer).answer))
}

/// Checks the sums of a condition: a report for each whose summand is declared as something else than `Long`.
///
/// Space is taken as by [`check`]; no condition needs more than [`MOST_SPACE`].
///
/// ```
/// use dogwood_check::{sums, Aggregate, Binder, Condition, Operator, Term};
///
/// // sum v for (v: String). where ..
/// let sum = Aggregate::sum(0..20, "v", [Binder::new("v", "String")], Condition::call(15..20));
/// let condition = Condition::comparison(0..25, Operator::Gt, Term::aggregate(sum), Term::Integer);
/// let found = sums(&condition.encode()?)?;
/// assert_eq!(found.reports[0].message, "cannot sum `v`: sum requires a `Long` summand, but `v` is `String`.");
/// # Ok::<(), Box<dyn std::error::Error>>(())
/// ```
pub fn sums(condition: &[u8]) -> Result<Findings, Refusal> {
    findings(in_space(|buffer| sums_into(condition, buffer)))
}

/// Lists the windows of a condition in sweeps of a period of so many seconds, in the order in which a check visits the
/// conditions. Windows that are a macro's parameter are left out, and so are those that no check visits, in an aggregate
/// that is a predicate's argument. A condition of version 1 has none.
///
/// ```
/// use dogwood_check::{windows, Condition, ListedWindow, Window};
///
/// // formerly within 90m f(), swept every hour
/// let condition = Condition::formerly_within(0..23, Window::minutes(90), Condition::call(20..23)).encode()?;
/// assert_eq!(windows(&condition, 3_600)?, [ListedWindow { start: 0, sweeps: 1, rest: 1_800 }]);
/// # Ok::<(), Box<dyn std::error::Error>>(())
/// ```
pub fn windows(condition: &[u8], period: u64) -> Result<Vec<ListedWindow>, Refusal> {
    let (buffer, answer) = in_space(|buffer| windows_into(condition, period, buffer));
    let count = answer.into_result()?;
    Ok(ListedWindows::new(&buffer, count).expect("the library writes whole entries").collect())
}

/// Says how a path under principal or resource resolves for one target.
///
/// Space is taken as by [`check`]; no lookup needs more than [`MOST_SPACE`].
///
/// ```
/// use dogwood_check::{lookup, Action, EntityType, Path, Schema, ScopePath, Target, Targets, Type};
///
/// let schema = Schema::new()
///     .entity_type(EntityType::new("User").attribute("born", Type::Long))
///     .action(Action::new("Action", "view").principal("User"))
///     .encode()?;
/// let targets = Targets::new().target(Target::new("view")).encode()?;
/// let born = lookup(&schema, &targets, &Path::principal(["born"], 0).encode()?)?;
/// assert_eq!(born, ScopePath::Resolved("int".to_string()));
/// # Ok::<(), Box<dyn std::error::Error>>(())
/// ```
pub fn lookup(schema: &[u8], targets: &[u8], path: &[u8]) -> Result<ScopePath, Refusal> {
    let (buffer, answer) = in_space(|buffer| lookup_into(schema, targets, path, buffer));
    let count = answer.into_result()?;
    Ok(ScopePath::decode(&buffer[..count]).expect("the library writes a whole output"))
}

/// Makes a call in more and more space until its output fits or there is no more: the buffer, and the last answer.
fn in_space(mut call: impl FnMut(&mut [u8]) -> Answer) -> (Vec<u8>, Answer) {
    let mut space = FIRST_SPACE;
    loop {
        let mut buffer = vec![0; space];
        let answer = call(&mut buffer);
        if !answer.is_cut() || space >= MOST_SPACE {
            return (buffer, answer);
        }
        space *= GROWTH;
    }
}

fn findings((buffer, answer): (Vec<u8>, Answer)) -> Result<Findings, Refusal> {
    let more = answer.is_cut();
    if let (Some(refusal), false) = (answer.refusal, more) {
        return Err(refusal);
    }
    let reports = Reports::new(&buffer, answer.count).expect("the library writes whole reports");
    Ok(Findings { reports: reports.map(|report| report.to_report()).collect(), more })
}
