//! The lent buffer of check and sums, the decoder of reports, and the calls that take their own space.

mod common;

use common::{report, rng::Rng, wrong_comparison, MESSAGE, SCHEMA, TARGETS};
use dogwood_check::*;

/// The bytes of a report with the example's message.
const ONE: usize = 10 + MESSAGE.len();

/// As many comparisons that are reported, at 0, 10, 20 and so on.
fn wrong(count: u32) -> Vec<u8> {
    joined((0..count).map(|number| wrong_comparison(number * 10)).collect()).encode().unwrap()
}

/// All of these as one condition that is nested as little as can be.
fn joined(mut all: Vec<Condition>) -> Condition {
    while all.len() > 1 {
        let join = |pair: &[Condition]| pair.iter().cloned().reduce(|left, right| Condition::and(0..0, left, right));
        all = all.chunks(2).filter_map(join).collect();
    }
    all.remove(0)
}

#[test]
fn reports_that_fit() {
    let mut buffer = [0xA5; 4 * ONE];
    let answer = check_into(SCHEMA, &wrong(3), TARGETS, &mut buffer);
    assert_eq!(answer, CheckAnswer { answer: Answer { refusal: None, count: 3 }, visits: 5 });
    assert!(buffer[3 * ONE..].iter().all(|byte| *byte == 0xA5));
    let reports: Vec<ReportRef> = Reports::new(&buffer, answer.count).unwrap().collect();
    let expected = [0, 10, 20].map(|start| ReportRef { start, end: start + 8, message: MESSAGE });
    assert_eq!(reports, expected);
}

/// Number 11 keeps and counts the whole reports that fit; behind them the buffer is as it was.
#[test]
fn reports_that_do_not_fit() {
    let condition = wrong(3);
    for space in 0..3 * ONE {
        let mut buffer = [0xA5; 3 * ONE];
        let answer = check_into(SCHEMA, &condition, TARGETS, &mut buffer[..space]);
        let kept = space / ONE;
        assert!(answer.is_cut());
        let refusal = Refusal { cause: Cause::NoSpace, record: None };
        assert_eq!(answer.answer, Answer { refusal: Some(refusal), count: kept });
        assert_eq!(answer.visits, 3 + kept);
        assert_eq!(Reports::new(&buffer, kept).unwrap().len(), kept);
        assert!(buffer[kept * ONE..].iter().all(|byte| *byte == 0xA5));
    }
    let mut exact = [0xA5; 3 * ONE];
    assert_eq!(check_into(SCHEMA, &condition, TARGETS, &mut exact).into_result(), Ok(3));
}

/// What a check answers, and the whole buffer and workspace after it.
fn lent(condition: &[u8], space: usize, workspace: &[u32]) -> (CheckAnswer, Vec<u8>, Vec<u32>) {
    let (mut buffer, mut workspace) = (vec![0xA5; space], workspace.to_vec());
    let answer = check_with(Rules::plain(), SCHEMA, condition, TARGETS, &mut buffer, &mut workspace);
    (answer, buffer, workspace)
}

/// Whatever the workspace is, the answer and the buffer are those of a check without it, where the reports fit and where
/// they do not. The condition has each comparison twice, so that there are repeats to be found.
#[test]
fn any_workspace_gives_the_same() {
    let twice = |count: u32| (0..2 * count).map(|number| wrong_comparison(number % count * 10)).collect();
    let condition = joined(twice(40)).encode().unwrap();
    let mut rng = Rng::new(18);
    for space in [0, ONE - 1, ONE, 17 * ONE + 3, 40 * ONE, 41 * ONE] {
        let mut expected = vec![0xA5; space];
        let answer = check_into(SCHEMA, &condition, TARGETS, &mut expected);
        assert_eq!((answer.count, answer.is_cut()), ((space / ONE).min(40), space < 40 * ONE));
        for slots in [0, 1, 2, 3, 4, 5, 20, 39, 40, 41, 53, 54, workspace_for(space), 5_000] {
            let garbage = (0..slots).map(|_| rng.number32()).collect();
            let places = (0..slots).map(|_| rng.below(space + 2) as u32).collect();
            for workspace in [vec![0; slots], vec![1; slots], vec![u32::MAX; slots], garbage, places] {
                let (other, buffer, _) = lent(&condition, space, &workspace);
                assert_eq!((other, &buffer), (answer, &expected), "{slots} slots, {space} bytes");
            }
        }
    }
}

/// Whatever stands in the first slot, which is the key of the hash: the same reports, and the repeats among them found.
#[test]
fn any_key_gives_the_same() {
    let condition = joined((0..600).map(|number| wrong_comparison(number % 300 * 10)).collect()).encode().unwrap();
    let space = 300 * ONE;
    let mut workspace = vec![0; workspace_for(space)];
    let (answer, expected, _) = lent(&condition, space, &workspace);
    assert_eq!(answer, CheckAnswer { answer: Answer { refusal: None, count: 300 }, visits: 1_199 });
    let mut rng = Rng::new(19);
    for key in [1, 2, 1 << 31, u32::MAX].into_iter().chain((0..200).map(|_| rng.number32())) {
        workspace[0] = key;
        let (other, buffer, _) = lent(&condition, space, &workspace);
        assert_eq!((other, &buffer), (answer, &expected), "key {key}");
    }
}

/// The reports of an equality of two terms with these rules.
fn of_equality(rules: Rules, left: Term, right: Term) -> Vec<Report> {
    let condition = Condition::comparison(3..9, Operator::Eq, left, right).encode().unwrap();
    let (mut buffer, mut workspace) = ([0; 1024], [0; 27]);
    let answer = check_with(rules, SCHEMA, &condition, TARGETS, &mut buffer, &mut workspace);
    assert_eq!(answer.refusal, None);
    Reports::new(&buffer, answer.count).unwrap().map(|found| found.to_report()).collect()
}

/// Strict rules report known, different tags, inside arrays too, and nothing that plain rules do not report beside them.
#[test]
fn strict_rules() {
    let said = |left: &str, right: &str| {
        report(3, 9, &format!("equality requires both sides to have the same type, got `{left}` and `{right}`"))
    };
    let (clerk, register) = (|| Term::entity("A::Clerk"), || Term::entity("Register"));
    assert_eq!(of_equality(Rules::plain(), clerk(), register()), []);
    assert_eq!(of_equality(Rules::strict(), clerk(), register()), [said("Clerk", "Register")]);
    let arrays = (Term::array([clerk()]), Term::array([register()]));
    assert_eq!(of_equality(Rules::strict(), arrays.0, arrays.1), [said("array<Clerk>", "array<Register>")]);
    assert_eq!(of_equality(Rules::strict(), clerk(), Term::entity("B::Clerk")), []);
    assert_eq!(of_equality(Rules::strict(), Term::array([clerk()]), Term::array([])), []);
    for rules in [Rules::plain(), Rules::strict()] {
        assert_eq!(of_equality(rules, clerk(), Term::String), [said("Clerk", "string")]);
    }
    assert_eq!(Rules::default(), Rules::plain());
}

#[test]
fn a_refusal_leaves_the_workspace() {
    let workspace = [7; 100];
    let (answer, buffer, after) = lent(b"DWC\0\x01\x0e", 1000, &workspace);
    assert_eq!((answer.number(), answer.record(), answer.count), (5, 2, 0));
    assert_eq!((&buffer[..], &after[..]), ([0xA5; 1000].as_slice(), workspace.as_slice()));
}

/// More reports than the library's own table takes, each twice: in one buffer with workspace and without it.
#[test]
fn more_reports_than_the_own_table() {
    let actions = 3;
    let (schema, condition, targets) = crowd(600, actions, |number| format!("N{number}"));
    let targets = targets.list.clone().into_iter().chain(targets.list).fold(Targets::new(), Targets::target);
    let (schema, condition, targets) =
        (schema.encode().unwrap(), condition.encode().unwrap(), targets.encode().unwrap());
    let (mut with, mut without) = (vec![0; 1 << 20], vec![0; 1 << 20]);
    let answer = check_into(&schema, &condition, &targets, &mut with);
    assert_eq!(answer.into_result(), Ok(600 * usize::from(actions)));
    assert_eq!(check_with(Rules::plain(), &schema, &condition, &targets, &mut without, &mut []), answer);
    assert!(with == without);
}

#[test]
fn sums_that_do_not_fit() {
    let sum = Aggregate::sum(3..7, "v", [Binder::new("v", "String")], Condition::call(0..0));
    let both = Term::arith(Term::aggregate(sum.clone()), Term::aggregate(sum));
    let condition = Condition::comparison(0..9, Operator::Eq, both, Term::Integer).encode().unwrap();
    let reports = sums(&condition).unwrap().reports;
    let one = 10 + reports[0].message.len();
    assert_eq!((reports.len(), &reports[0]), (2, &reports[1]));
    let mut buffer = vec![0xA5; 2 * one - 1];
    let answer = sums_into(&condition, &mut buffer);
    assert_eq!((answer.number(), answer.record(), answer.count), (11, 0, 1));
    assert_eq!(Reports::new(&buffer, 1).unwrap().next().map(ReportRef::to_report), Some(reports[0].clone()));
    assert!(buffer[one..].iter().all(|byte| *byte == 0xA5));
}

/// More than the space that a call begins with: 1,000 reports have 85,000 bytes.
#[test]
fn space_grows() {
    let found = check(SCHEMA, &wrong(1000), TARGETS).unwrap();
    assert_eq!((found.reports.len(), found.more), (1000, false));
    assert_eq!(found.reports[999], report(9990, 9998, MESSAGE));
}

/// A name of 255 bytes.
fn long_name(number: u8) -> String {
    format!("N{number:03}{}", "n".repeat(251))
}

/// So many comparisons, each of which is reported for each of so many actions, in whose contexts the compared field is an
/// entity of the name that belongs to the action.
fn crowd(comparisons: u32, actions: u8, name: impl Fn(u8) -> String) -> (Schema, Condition, Targets) {
    let action = |number: u8| {
        let context = Type::record([("a", Type::entity(name(number)))]);
        Action::new("Action", number.to_string()).context(context)
    };
    let schema = Schema { entity_types: Vec::new(), actions: (0..actions).map(action).collect() };
    let compared = |at: u32| Condition::comparison(at..at, Operator::Lt, Term::context(["a"]), Term::context(["a"]));
    let condition = joined((0..comparisons).map(compared).collect());
    let targets = (0..actions).fold(Targets::new(), |all, number| all.target(Target::new(number.to_string())));
    (schema, condition, targets)
}

/// Reports in words of 590 bytes.
#[test]
fn more_than_all_space() {
    let (comparisons, actions) = (1200, 25);
    let (schema, condition, targets) = crowd(comparisons, actions, long_name);
    let (schema, condition, targets) =
        (schema.encode().unwrap(), condition.encode().unwrap(), targets.encode().unwrap());
    let found = check(&schema, &condition, &targets).unwrap();
    let one = 10 + found.reports[0].message.len();
    assert!(one * comparisons as usize * actions as usize > MOST_SPACE);
    assert_eq!((found.reports.len(), found.more), (MOST_SPACE / one, true));
    assert!(!found.is_clean());
    assert!(found.to_string().ends_with("those shown fill the 16 MiB that a call takes at most."));
}

/// A span that is no part of the rule's text has no excerpt, and does no harm.
#[test]
fn excerpts() {
    let text = "jahrüber < 1900";
    for (start, end, part) in [
        (0, 9, Some("jahrüber")),
        (12, 16, Some("1900")),
        (3, 3, Some("")),
        (16, 16, Some("")),
        (5, 3, None),
        (12, 17, None),
        (17, 17, None),
        (0, 5, None),
        (5, 9, None),
        (0, u32::MAX, None),
        (u32::MAX, 0, None),
    ] {
        let condition = Condition::comparison(start..end, Operator::Lt, Term::Bool, Term::Integer).encode().unwrap();
        let found = check(SCHEMA, &condition, TARGETS).unwrap();
        assert_eq!(found.reports[0].excerpt(text), part, "{start}..{end}");
        assert_eq!(ReportRef { start, end, message: "" }.excerpt(text), part);
    }
}

/// Sums whose messages are as long as a record allows; they need some ten millions of bytes, and there is room for them.
#[test]
fn sums_have_space_for_the_worst() {
    let annotation = Annotation::Named(vec!["n".repeat(63); 255]);
    let sum = || Term::aggregate(Aggregate::sum(0..1, "v", [], Condition::call(0..0)));
    let mut terms: Vec<Term> = (0..670).map(|_| sum()).collect();
    while terms.len() > 1 {
        let join = |pair: &[Term]| pair.iter().cloned().reduce(Term::arith);
        terms = terms.chunks(2).filter_map(join).collect();
    }
    let comparison = Condition::comparison(0..1, Operator::Eq, terms.remove(0), Term::Integer);
    let condition = Condition::exists(0..1, Binder { slot: Slot::from("v"), annotation }, comparison).encode().unwrap();
    assert!(condition.len() > 32_000);
    let reports = sums(&condition).unwrap().reports;
    assert_eq!(reports.len(), 670);
    assert!(reports.iter().map(|report| report.message.len()).sum::<usize>() > 10_000_000);
}

#[test]
fn the_decoder_takes_whole_reports_alone() {
    let two = [[0, 0, 0, 1, 0, 0, 0, 2, 0, 3].as_slice(), "né".as_bytes(), &[255; 8], &[0, 0]].concat();
    let mut reports = Reports::new(&two, 2).unwrap();
    assert_eq!(reports.len(), 2);
    assert_eq!(reports.next(), Some(ReportRef { start: 1, end: 2, message: "né" }));
    assert_eq!(reports.next(), Some(ReportRef { start: u32::MAX, end: u32::MAX, message: "" }));
    assert_eq!((reports.len(), reports.next(), reports.next()), (0, None, None));

    assert_eq!(Reports::new(&[], 0).unwrap().count(), 0);
    assert_eq!(Reports::new(&two, 1).unwrap().count(), 1);
    assert_eq!(Reports::new(&two, 3).unwrap_err(), DecodeError::Report { index: 2 });
    for cut in 0..two.len() {
        let index = usize::from(cut >= 13);
        assert_eq!(Reports::new(&two[..cut], 2).unwrap_err(), DecodeError::Report { index });
    }
    let not_text = [0, 0, 0, 1, 0, 0, 0, 2, 0, 1, 0xFF];
    let error = Reports::new(&not_text, 1).unwrap_err();
    assert_eq!(error.to_string(), "no whole report stands behind the first 0");
}

/// Any number of threads at a time on the deepest conditions, each with 64 KiB of stack, of which the thread takes some for
/// itself.
#[test]
fn threads_with_little_stack() {
    let arith = (0..30).fold(Term::Wildcard, |inner, _| Term::arith(inner, Term::Bool));
    let array = (0..30).fold(Term::Integer, |inner, _| Term::array([inner]));
    let terms = Condition::comparison(0..1, Operator::Lt, arith, array).encode().unwrap();
    let mut deep = wrong_comparison(0);
    for _ in 0..15 {
        let count = Aggregate::count(0..1, [Binder::new("v", "Long")], deep);
        deep = Condition::comparison(0..1, Operator::Eq, Term::aggregate(count), Term::Integer);
    }
    let conditions = &[terms, deep.encode().unwrap()];
    type Call = fn(&[u8], &mut [u8]);
    let checked: Call = |condition, buffer| assert!(check_into(SCHEMA, condition, TARGETS, buffer).count > 0);
    let summed: Call = |condition, buffer| assert_eq!(sums_into(condition, buffer).number(), 0);
    std::thread::scope(|scope| {
        for call in [checked, summed].into_iter().cycle().take(8) {
            let work = move || conditions.iter().for_each(|condition| call(condition, &mut [0; 1024]));
            std::thread::Builder::new().stack_size(64 << 10).spawn_scoped(scope, work).unwrap();
        }
    });
}
