//! A check in steps: after each step it answers as one check over the targets that are done, whatever was appended and
//! withdrawn between them; and where it moved to own bodies, as a check of the targets done before it and one of those since.

mod common;

use common::{report, rng::Rng, wrong_comparison, CONDITION, MESSAGE, SCHEMA};
use dogwood_check::*;
use std::collections::BTreeSet;

/// The bytes of a report with the example's message.
const ONE: usize = 10 + MESSAGE.len();

/// A list of these actions without narrowing.
fn list(ids: &[&str]) -> Vec<u8> {
    ids.iter().fold(Targets::new(), |all, id| all.target(Target::new(*id))).encode().unwrap()
}

/// A target by itself.
fn bytes(id: &str) -> Vec<u8> {
    Target::new(id).encode().unwrap()
}

/// A check of the example's condition, which has one report under each target.
fn started(ids: &[&str]) -> Stepping<'static> {
    Stepping::start(Rules::plain(), SCHEMA, CONDITION, &list(ids)).unwrap()
}

fn refused(cause: Cause, record: Option<RecordKind>) -> Refusal {
    Refusal { cause, record }
}

fn full() -> Refusal {
    refused(Cause::ListFull, None)
}

fn not_pending() -> Result<(), Refusal> {
    Err(refused(Cause::NotPending, None))
}

#[test]
fn one_target_at_each_step() {
    let mut check = started(&["view", "edit"]);
    assert_eq!((check.count(), check.visits(), check.answer().count), (2, 0, 0));
    assert_eq!(check.pending().collect::<Vec<u8>>(), [0, 1]);
    assert_eq!(check.step(), Some(0));
    assert_eq!((check.pending().collect::<Vec<u8>>(), check.done().collect::<Vec<u8>>()), (vec![1], vec![0]));
    assert_eq!(check.answer(), CheckAnswer { answer: Answer { refusal: None, count: 1 }, visits: 1 });
    assert_eq!(check.step(), Some(1));
    assert_eq!(check.findings(), Findings { reports: vec![report(0, 8, MESSAGE)], more: false });
    assert_eq!(check.visits(), 2);
    // nothing is pending
    assert_eq!(check.step(), None);
    assert_eq!((check.visits(), check.answer().count), (2, 1));
    assert_eq!(check.progress(2), None);
}

#[test]
fn what_is_appended_is_done_after_the_others() {
    let mut check = started(&[]);
    assert_eq!((check.step(), check.count()), (None, 0));
    assert_eq!(check.append(&bytes("view")), Ok(0));
    assert_eq!(check.append(&Target::in_namespace("App", "edit").encode().unwrap()), Ok(1));
    let both = Targets::new().target(Target::new("view")).target(Target::in_namespace("App", "edit"));
    assert_eq!(check.targets(), both.encode().unwrap());
    assert_eq!([check.step(), check.step(), check.step()], [Some(0), Some(1), None]);
    // behind the last step too
    assert_eq!(check.append(&bytes("copy")), Ok(2));
    assert_eq!([check.step(), check.step()], [Some(2), None]);
    assert_eq!((check.visits(), check.answer().count), (3, 1));
}

/// The count of targets stands behind the narrowings.
#[test]
fn a_narrowed_list_grows_too() {
    let narrowed = |ids: &[&str]| {
        let targets = Targets::new().principal(Narrowing::is_type("App::User")).resource(Narrowing::Any);
        ids.iter().fold(targets, |all, id| all.target(Target::new(*id))).encode().unwrap()
    };
    let mut check = Stepping::start(Rules::plain(), SCHEMA, CONDITION, &narrowed(&["a"])).unwrap();
    assert_eq!((check.append(&bytes("b")), check.count()), (Ok(1), 2));
    assert_eq!(check.targets(), narrowed(&["a", "b"]));
}

#[test]
fn only_what_is_pending_is_withdrawn() {
    let mut check = started(&["view", "edit"]);
    assert_eq!(check.withdraw(0), Ok(()));
    assert_eq!(
        (check.withdraw(0), check.withdraw(2), check.withdraw(255)),
        (not_pending(), not_pending(), not_pending())
    );
    assert_eq!(check.step(), Some(1));
    assert_eq!(check.withdraw(1), not_pending());
    assert_eq!((check.progress(0), check.progress(1)), (Some(Progress::Withdrawn), Some(Progress::Done)));
    assert_eq!(check.withdrawn().collect::<Vec<u8>>(), [0]);
    // the same action again, at a position of its own
    assert_eq!(check.append(&bytes("view")), Ok(2));
    assert_eq!([check.step(), check.step()], [Some(2), None]);
    assert_eq!(check.visits(), 2);
}

/// A target that a check skips takes a step, and no visit.
#[test]
fn a_skipped_target_is_done() {
    let schema = Schema::new().action(Action::new("Action", "view")).encode().unwrap();
    let targets = Targets::new().principal(Narrowing::Any).target(Target::new("view")).target(Target::new("edit"));
    let mut check = Stepping::start(Rules::plain(), &schema, CONDITION, &targets.encode().unwrap()).unwrap();
    assert_eq!((check.step(), check.visits(), check.answer().count), (Some(0), 0, 0));
    assert_eq!(check.withdraw(0), not_pending());
    assert_eq!((check.step(), check.visits(), check.answer().count), (Some(1), 1, 1));
}

/// The target whose report does not fit is done, and after it nothing is.
#[test]
fn a_report_that_does_not_fit_stops_the_check() {
    let condition = Condition::and(0..0, wrong_comparison(0), wrong_comparison(10)).encode().unwrap();
    for most in 0..2 * ONE {
        let mut check =
            Stepping::start_within(most, Rules::plain(), SCHEMA, &condition, &list(&["view", "edit"])).unwrap();
        assert_eq!(check.step(), Some(0));
        let stopped = CheckAnswer {
            answer: Answer { refusal: Some(refused(Cause::NoSpace, None)), count: most / ONE },
            visits: 2 + most / ONE,
        };
        assert_eq!((check.answer(), check.has_stopped()), (stopped, true));
        assert_eq!((check.withdraw(0), check.append(&bytes("copy"))), (not_pending(), Ok(2)));
        assert_eq!((check.step(), check.answer()), (None, stopped));
        assert_eq!((check.withdraw(1), check.step(), check.answer()), (Ok(()), None, stopped));
        assert_eq!((check.reports().len(), check.findings().more), (most / ONE, true));
    }
    let mut check = Stepping::start_within(2 * ONE, Rules::plain(), SCHEMA, &condition, &list(&["view"])).unwrap();
    assert_eq!((check.step(), check.has_stopped(), check.answer().count), (Some(0), false, 2));
}

#[test]
fn records_are_refused_at_the_start() {
    let start = |schema, condition, targets| Stepping::start(Rules::plain(), schema, condition, targets);
    let refusal = |record| refused(Cause::OtherMark, Some(record));
    let targets = list(&["view"]);
    assert_eq!(start(b"XXX".as_slice(), b"XXX".as_slice(), b"XXX").unwrap_err(), refusal(RecordKind::Schema));
    assert_eq!(start(SCHEMA, b"XXX", b"XXX").unwrap_err(), refusal(RecordKind::Condition));
    assert_eq!(start(SCHEMA, CONDITION, b"XXX").unwrap_err(), refusal(RecordKind::Targets));
    assert!(start(SCHEMA, CONDITION, &targets).is_ok());
}

#[test]
fn what_is_no_target_is_refused() {
    let mut check = started(&["view"]);
    let before = check.targets().to_vec();
    for (bytes, cause) in [
        (b"".as_slice(), Cause::Cut),
        (b"\0", Cause::Cut),
        (b"\x01 ", Cause::OutsideClass),
        (b"\0\x01\"", Cause::OutsideClass),
        (b"\0\x02\"", Cause::Cut),
        (b"\0\0\0", Cause::BytesAfter),
        (&[0; 100_000], Cause::BytesAfter),
    ] {
        assert_eq!(check.append(bytes), Err(refused(cause, Some(RecordKind::Targets))));
        assert_eq!(check.targets(), before);
    }
    assert_eq!(check.append(b"\0\0"), Ok(1));
    let error = Target::in_namespace("no name", "view").encode().unwrap_err();
    assert!(error.to_string().starts_with("in target `view`: `no name` is not a path name"), "{error}");
}

/// 255 targets and 32,768 bytes, those withdrawn included.
#[test]
fn a_full_list_takes_no_more() {
    let mut check = started(&["view"]);
    for position in 1..=254 {
        assert_eq!(check.append(b"\0\0"), Ok(position));
    }
    assert_eq!(check.withdraw(254), Ok(()));
    assert_eq!((check.append(b"\0\0"), check.count()), (Err(full()), 255));
    assert_eq!(check.append(b"\0"), Err(refused(Cause::Cut, Some(RecordKind::Targets))));
    assert_eq!(
        full().to_string(),
        "the list of targets is full: it has at most 255 targets, withdrawn ones included, in 32,768 bytes"
    );

    let mut check = started(&[]);
    let long = Target::in_namespace("A".repeat(255), "B".repeat(255)).encode().unwrap();
    for _ in 0..63 {
        check.append(&long).unwrap();
    }
    let left = MOST_BYTES - check.targets().len();
    assert_eq!(left, 504);
    let rest = |bytes: usize| Target::in_namespace("A".repeat(252), "B".repeat(bytes - 254)).encode().unwrap();
    assert_eq!(check.append(&rest(left + 1)), Err(full()));
    assert_eq!((check.append(&rest(left)), check.targets().len()), (Ok(63), MOST_BYTES));
    assert_eq!(check.append(b"\0\0"), Err(full()));
}

#[test]
fn a_withdrawal_says_why_not() {
    let refusal = started(&[]).withdraw(0).unwrap_err();
    assert_eq!((refusal.cause.number(), refusal.record), (19, None));
    assert_eq!(
        refusal.to_string(),
        "the target cannot be withdrawn: it is done or withdrawn already, or not in the list"
    );
}

/// A schema and a condition that are given away are kept, and a clone goes on by itself.
#[test]
fn owned_and_cloned() {
    let mut check = Stepping::start(Rules::plain(), SCHEMA.to_vec(), CONDITION.to_vec(), &list(&["a", "b"])).unwrap();
    check.step();
    let mut other = check.clone();
    assert_eq!((other.step(), other.visits()), (Some(1), 2));
    assert_eq!((check.visits(), check.progress(1)), (1, Some(Progress::Pending)));
    assert!(format!("{check:?}").contains("[Some(Done), Some(Pending)]"));
}

/// Reports that take more space than the first that is taken: the step that needs it is made again, and nothing is lost.
#[test]
fn more_space_is_taken_as_it_is_needed() {
    let wrong: Vec<Condition> = (0..1_200).map(|number| wrong_comparison(number * 10)).collect();
    let mut all = wrong;
    while all.len() > 1 {
        let join = |pair: &[Condition]| pair.iter().cloned().reduce(|left, right| Condition::and(0..0, left, right));
        all = all.chunks(2).filter_map(join).collect();
    }
    let condition = all.remove(0).encode().unwrap();
    let mut check = Stepping::start(Rules::plain(), SCHEMA, &condition, &list(&["a", "b"])).unwrap();
    assert_eq!([check.step(), check.step(), check.step()], [Some(0), Some(1), None]);
    assert_eq!(check.findings(), dogwood_check::check(SCHEMA, &condition, &list(&["a", "b"])).unwrap());
    assert_eq!((check.answer().count, check.visits()), (1_200, 2 * 2_399));
}

// ─── A move to own bodies ───

/// `(exists (v: Long). ..) && v == "a"`: one report in one scope, and none in own bodies.
fn bound() -> Vec<u8> {
    let inside = Condition::exists(0..0, Binder::new("v", "Long"), Condition::call(0..0));
    let outside = Condition::comparison(3..9, Operator::Eq, Term::var("v"), Term::String);
    Condition::and(0..9, inside, outside).encode().unwrap()
}

/// Before the first step it gives the check with own bodies; what was done before stays.
#[test]
fn what_is_done_keeps_its_reports() {
    let condition = bound();
    let start = |rules, ids: &[&str]| Stepping::start(rules, SCHEMA, &condition, &list(ids)).unwrap();
    let mut check = start(Rules::plain(), &["view", "edit"]);
    check.move_to_own_bodies();
    assert_eq!((check.step(), check.answer().count), (Some(0), 0));
    check.move_to_own_bodies();
    assert_eq!((check.step(), check.answer().count, check.visits()), (Some(1), 0, 8));

    let mut check = start(Rules::plain(), &["view"]);
    check.step();
    let before = (check.answer(), check.findings(), check.targets().to_vec(), check.progress(0));
    assert_eq!(before.0.count, 1);
    check.move_to_own_bodies();
    assert_eq!((check.answer(), check.findings(), check.targets().to_vec(), check.progress(0)), before);
    assert_eq!((check.step(), check.answer()), (None, before.0));
    assert_eq!((check.append(&bytes("copy")), check.step(), check.answer().count), (Ok(1), Some(1), 1));

    let mut check = start(Rules::own_bodies(), &["view"]);
    check.move_to_own_bodies();
    assert_eq!((check.step(), check.answer().count), (Some(0), 0));
}

/// A pair that was reported by the one rule is no report by the other.
#[test]
fn repeats_are_dropped_across_a_move() {
    let mut check = started(&["view", "edit"]);
    assert_eq!((check.step(), check.answer().count), (Some(0), 1));
    check.move_to_own_bodies();
    assert_eq!((check.step(), check.answer().count, check.visits()), (Some(1), 1, 2));
}

#[test]
fn a_move_starts_nothing_anew() {
    let mut check =
        Stepping::start_within(ONE - 1, Rules::plain(), SCHEMA, CONDITION, &list(&["view", "edit"])).unwrap();
    assert_eq!((check.step(), check.has_stopped()), (Some(0), true));
    let stopped = check.answer();
    check.move_to_own_bodies();
    assert_eq!((check.step(), check.has_stopped(), check.answer()), (None, true, stopped));
    assert_eq!((check.withdraw(0), check.withdraw(1)), (not_pending(), Ok(())));
}

// ─── Random histories ───

const IDS: [&str; 6] = ["a", "b", "c", "d", "e", "undeclared"];
const TYPES: [fn() -> Type; 4] = [|| Type::Long, || Type::String, || Type::entity("User"), || Type::entity("Group")];

/// Actions whose inputs have the same fields in different types; one has no principal and is skipped under any.
fn schema(rng: &mut Rng) -> Schema {
    let users = Schema::new().entity_type(EntityType::new("User")).entity_type(EntityType::new("Group"));
    IDS[..5].iter().fold(users, |all, id| {
        let field = |name: &'static str, rng: &mut Rng| (name, rng.pick(&TYPES)());
        let input = Type::record([field("n", rng), field("m", rng)]);
        let action = Action::new("Action", *id).context(Type::record([("input", input)]));
        all.action(if rng.once_in(3) { action } else { action.principal("User") })
    })
}

/// Comparisons that hold under some of the actions, and names that are bound otherwise by the rules of own bodies.
fn condition(rng: &mut Rng) -> Condition {
    let field = |name: &str| Term::context(["input", name]);
    let term = |rng: &mut Rng| match rng.below(7) {
        0 => Term::Integer,
        1 => Term::String,
        2 => Term::entity("User"),
        3 => Term::entity("Group"),
        4 => Term::var("v"),
        5 => field("m"),
        _ => field("n"),
    };
    let one = |rng: &mut Rng| {
        let (start, operator) = (rng.below(4) as u32, *rng.pick(&[Operator::Eq, Operator::Lt]));
        let compared = Condition::comparison(start..start + 9, operator, term(rng), term(rng));
        match rng.below(3) {
            0 => Condition::exists(0..9, Binder::new("v", *rng.pick(&["Long", "String", "User"])), compared),
            _ => compared,
        }
    };
    let first = one(rng);
    (0..rng.below(6)).fold(first, |left, _| Condition::and(0..9, left, one(rng)))
}

fn rules(rng: &mut Rng) -> Rules {
    let either = |rules: Rules, rng: &mut Rng| if rng.once_in(2) { rules } else { Rules::plain() };
    either(Rules::strict(), rng).and(either(Rules::own_bodies(), rng))
}

/// What a check over these targets answers in so much space, and its reports.
fn at_once(rules: Rules, records: [&[u8]; 2], targets: &Targets, space: usize) -> (CheckAnswer, Vec<Report>) {
    let (mut buffer, mut workspace) = (vec![0; space], vec![0; workspace_for(space)]);
    let targets = targets.encode().unwrap();
    let answer = check_with(rules, records[0], records[1], &targets, &mut buffer, &mut workspace);
    (answer, Reports::new(&buffer, answer.count).unwrap().map(ReportRef::to_report).collect())
}

#[test]
fn every_history_answers_as_one_check() {
    let mut rng = Rng::new(108);
    let (mut steps, mut reports, mut stops, mut withdrawals) = (0, 0, 0, 0);
    for _ in 0..1_500 {
        let (schema, condition) = (schema(&mut rng).encode().unwrap(), condition(&mut rng).encode().unwrap());
        let any = |rng: &mut Rng| Target::new(*rng.pick(&IDS));
        let mut all = Targets::new();
        all.principal = rng.pick(&[Narrowing::None, Narrowing::Any, Narrowing::is_type("User")]).clone();
        all.list = (0..rng.below(4)).map(|_| any(&mut rng)).collect();
        let (rules, most) = (rules(&mut rng), *rng.pick(&[MOST_SPACE, 90, 200, 300, 0]));
        let mut check = Stepping::start_within(most, rules, &schema, &condition, &all.encode().unwrap()).unwrap();
        let mut done = Targets { list: Vec::new(), ..all.clone() };
        for _ in 0..12 {
            match rng.below(4) {
                0 => {
                    let target = any(&mut rng);
                    assert_eq!(check.append(&target.encode().unwrap()), Ok(all.list.len() as u8));
                    all.list.push(target);
                }
                1 => {
                    let position = rng.below(all.list.len() + 2) as u8;
                    let pending = check.progress(position) == Some(Progress::Pending);
                    assert_eq!(check.withdraw(position).is_ok(), pending);
                    withdrawals += usize::from(pending);
                }
                _ => {
                    let (first, stopped) =
                        (check.pending().next().filter(|_| !check.has_stopped()), check.has_stopped());
                    assert_eq!(check.step(), first);
                    done.list.extend(first.map(|position| all.list[usize::from(position)].clone()));
                    steps += 1;
                    stops += usize::from(check.has_stopped() && !stopped);
                }
            }
            assert_eq!(check.targets(), all.encode().unwrap());
            let (answer, found) = at_once(rules, [&schema, &condition], &done, most.min(65_536));
            assert_eq!((check.answer(), check.has_stopped()), (answer, answer.is_cut()));
            assert_eq!(check.findings().reports, found);
            reports += found.len();
        }
    }
    assert!(
        steps > 5_000 && reports > 5_000 && stops > 200 && withdrawals > 500,
        "{steps} {reports} {stops} {withdrawals}"
    );
}

/// Comparisons of names that are bound by several binders, and else are fields of the input.
fn bound_condition(rng: &mut Rng) -> Condition {
    const NAMES: [&str; 2] = ["n", "m"];
    let one = |rng: &mut Rng| {
        let (start, operator) = (rng.below(4) as u32, *rng.pick(&[Operator::Eq, Operator::Lt]));
        let (name, literal) =
            (*rng.pick(&NAMES), rng.pick(&[Term::Integer, Term::String, Term::entity("Group")]).clone());
        let compared = Condition::comparison(start..start + 9, operator, Term::var(name), literal);
        match rng.below(3) {
            0 => compared,
            _ => Condition::exists(
                0..9,
                Binder::new(*rng.pick(&NAMES), *rng.pick(&["Long", "String", "User"])),
                compared,
            ),
        }
    };
    let first = one(rng);
    (0..1 + rng.below(5)).fold(first, |left, _| Condition::and(0..9, left, one(rng)))
}

fn pair(report: &Report) -> (String, u32) {
    (report.message.clone(), report.start)
}

fn pairs(reports: &[Report]) -> BTreeSet<(String, u32)> {
    reports.iter().map(pair).collect()
}

/// The reports of a first part and the other ones of a second behind them, up to the first that does not fit; whether all do.
fn one_behind_the_other(first: &[Report], second: &[Report], space: usize) -> (Vec<Report>, bool) {
    let before = pairs(first);
    let new = second.iter().filter(|report| !before.contains(&pair(report)));
    let all: Vec<&Report> = first.iter().chain(new).collect();
    let end = |count: usize| all[..count].iter().map(|report| 10 + report.message.len()).sum::<usize>();
    let kept = (0..=all.len()).rev().find(|count| end(*count) <= space).unwrap_or(0);
    (all[..kept].iter().map(|report| (*report).clone()).collect(), kept == all.len())
}

/// At each split, with space for all, the pairs are those of the targets done before the move, by the rules of the start, and
/// those of the targets done since, with own bodies, each once. The visits are those of one check by either rule.
#[test]
fn the_pairs_of_a_split_are_those_of_both_parts() {
    let mut rng = Rng::new(113);
    let (mut of_first, mut of_second, mut of_both, mut stops) = (0, 0, 0, 0);
    for _ in 0..1_500 {
        let (schema, condition) = (schema(&mut rng).encode().unwrap(), bound_condition(&mut rng).encode().unwrap());
        let records = [schema.as_slice(), &condition];
        let any = |rng: &mut Rng| Target::new(*rng.pick(&IDS));
        let mut all = Targets::new();
        all.principal = rng.pick(&[Narrowing::None, Narrowing::Any, Narrowing::is_type("User")]).clone();
        all.list = (0..rng.below(4)).map(|_| any(&mut rng)).collect();
        let (rules, most) = (rules(&mut rng), *rng.pick(&[MOST_SPACE, MOST_SPACE, 90, 200, 300]));
        let (amply, moved_rules) = (1 << 14, rules.and(Rules::own_bodies()));
        let mut check = Stepping::start_within(most, rules, &schema, &condition, &all.encode().unwrap()).unwrap();
        let none = Targets { list: Vec::new(), ..all.clone() };
        let (mut first, mut second, mut moved) = (none.clone(), none.clone(), false);
        for _ in 0..12 {
            match rng.below(7) {
                0 => {
                    let target = any(&mut rng);
                    check.append(&target.encode().unwrap()).unwrap();
                    all.list.push(target);
                }
                1 => drop(check.withdraw(rng.below(all.list.len() + 1) as u8)),
                2 => {
                    check.move_to_own_bodies();
                    moved = true;
                }
                _ => {
                    let done = check.step().map(|position| all.list[usize::from(position)].clone());
                    if moved { &mut second } else { &mut first }.list.extend(done);
                }
            }
            let (before, reported) = at_once(rules, records, &first, amply);
            let (since, reported_since) = at_once(moved_rules, records, &second, amply);
            let (wanted, fit) = one_behind_the_other(&reported, &reported_since, most);
            assert_eq!((check.findings().reports, check.has_stopped()), (wanted, !fit));
            if !fit {
                continue;
            }
            let (found, in_first, in_second) =
                (pairs(&check.findings().reports), pairs(&reported), pairs(&reported_since));
            assert_eq!(found, in_first.union(&in_second).cloned().collect());
            assert_eq!(found.len(), check.answer().count);
            let done = Targets { list: [first.list.clone(), second.list.clone()].concat(), ..none.clone() };
            assert_eq!(check.visits(), before.visits + since.visits);
            assert_eq!(check.visits(), at_once(rules, records, &done, amply).0.visits);
            of_first += in_first.difference(&in_second).count();
            of_second += in_second.difference(&in_first).count();
            of_both += in_first.intersection(&in_second).count();
        }
        stops += usize::from(check.has_stopped() && moved);
    }
    assert!(
        of_first > 1_000 && of_second > 1_000 && of_both > 1_000 && stops > 50,
        "{of_first} {of_second} {of_both} {stops}"
    );
}
