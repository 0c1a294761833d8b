//! Records for the benchmark: small everyday ones, a condition of 32 KB with 255 targets, a schema of hundreds of names,
//! deep arrays, very many reports.

use crate::against;
use crate::cases::{Case, Operation};
use crate::pieces::*;
use crate::records::LONGEST;

const NONE: [&str; 0] = [];

/// The records of one row of the table.
pub struct Workload {
    pub name: String,
    /// Whether its rows are those of reading, sums and lookup too, or of the check alone.
    pub reads: bool,
    pub schema: Vec<u8>,
    pub condition: Vec<u8>,
    pub targets: Vec<u8>,
    pub path: Vec<u8>,
    /// Schema, condition, targets and path, before they were written as bytes.
    pub trees: [Piece; 4],
    /// The bytes of the lent buffer.
    pub space: usize,
    /// Whether our check is lent workspace beside the buffer, or has only its own.
    pub lends: bool,
}

/// The lent buffer, where nothing else is said.
const SPACE: usize = 65_536;

fn workload(name: &str, reads: bool, schema: Piece, condition: Piece, targets: Piece, path: Piece) -> Workload {
    Workload {
        name: name.to_string(),
        reads,
        schema: schema.bytes(),
        condition: condition.bytes(),
        targets: targets.bytes(),
        path: path.bytes(),
        trees: [schema, condition, targets, path],
        space: SPACE,
        lends: false,
    }
}

/// Slots of workspace that are enough for every report of a buffer, as `DOGWOOD_WORKSPACE` of include/dogwood.h has it.
pub fn workspace_for(space: usize) -> usize {
    space / 38 + 2
}

pub fn all() -> Vec<Workload> {
    let age = || path(0, &["profile", "age"], 0);
    let mut all = vec![
        workload("everyday", true, shop(2, 4), condition_record(everyday()), view_targets(2), age()),
        workload("everyday, 3 reports", false, shop(2, 4), condition_record(mistaken()), view_targets(2), age()),
        workload("32 KB condition, 1 target", false, shop(2, 4), condition_of(LONGEST), view_targets(1), age()),
        workload("32 KB condition, 255 targets", true, shop(2, 255), condition_of(LONGEST), view_targets(255), age()),
        workload("32 KB of binders, 255 targets", false, shop(2, 255), bound_condition(), view_targets(255), age()),
        workload("one tree of variables, 255 targets", false, shop(2, 255), variable_tree(), view_targets(255), age()),
        workload(
            "hundreds of names, 1 target",
            false,
            shop(300, 280),
            condition_record(everyday()),
            view_targets(1),
            age(),
        ),
        workload(
            "hundreds of names, 255 targets",
            true,
            shop(300, 280),
            condition_record(everyday()),
            view_targets(255),
            age(),
        ),
    ];
    for depth in [2, 4, 8, 12, 16] {
        let name = format!("array of depth {depth}");
        all.push(workload(&name, false, shop(2, 4), condition_record(deep_array(depth)), view_targets(1), age()));
    }
    all
}

/// Conditions of version 2 for the listing: the everyday one, and as many windows as fit, one beside the other.
pub fn windowed() -> Vec<Workload> {
    let looks = |_: usize| condition(4, (0, 9), vec![window(1, 90), condition(11, (0, 0), vec![])]);
    let of = |count: usize| windowed_record(joined((0..count).map(looks).collect()));
    let own =
        |name: &str, condition: Piece| workload(name, false, shop(2, 4), condition, view_targets(1), path(0, &NONE, 0));
    vec![
        own("everyday, with a window", windowed_record(everyday_within())),
        own("32 KB of windows", of(most(LONGEST, of))),
    ]
}

/// Conditions of version 3: the everyday one, and as many decimals as fit, compared with each other.
pub fn valued() -> Vec<Workload> {
    let price = || term(3, vec![text("922337203685477.5807")]);
    let of =
        |count: usize| valued_record(joined((0..count).map(|_| comparison((0, 9), 4, price(), price())).collect()));
    let value = |kind: u8| match kind {
        2 => number64(1_000),
        _ => panic!("the everyday condition has whole numbers alone"),
    };
    let everyday = with_values(&windowed_record(everyday_within()), value);
    let own =
        |name: &str, condition: Piece| workload(name, false, shop(2, 4), condition, view_targets(2), path(0, &NONE, 0));
    vec![own("everyday, with values", everyday), own("32 KB of decimals", of(most(LONGEST, of)))]
}

/// As many orders as fit of two fields of a type: of Long, and of datetime, of which the Rust has a report, since it takes
/// them for strings.
pub fn timed() -> Vec<Workload> {
    let field = || context_field(&["input", "at"]);
    let of =
        |count: usize| condition_record(joined((0..count).map(|_| comparison((0, 9), 1, field(), field())).collect()));
    let condition = of(most(LONGEST, of));
    let own = |name: &str, at: Piece| {
        let input = record_type(vec![("at", at)]);
        let view = action("App::Action", "view000", &["App::User"], &["App::Bot"], record_type(vec![("input", input)]));
        workload(name, false, schema(vec![], vec![view]), condition.clone(), view_targets(1), path(0, &NONE, 0))
    };
    let datetime = ty(3, vec![text("datetime")]);
    vec![own("32 KB of orders of Long", ty(0, vec![])), own("32 KB of orders of datetime", datetime)]
}

/// Names in scopes, for both ways of binding them: uses below many binders of one name each, many bodies one beside the
/// other, and what is worst for a search that goes outwards, uses that pass all of some long lists.
pub fn scoped() -> Vec<Workload> {
    let own = |name: &str, targets: usize, condition: Piece| {
        let age = path(0, &["profile", "age"], 0);
        let w = workload(name, false, shop(2, targets.max(4)), condition, view_targets(targets), age);
        Workload { lends: true, ..w }
    };
    vec![
        own("nested binders, 255 targets", 255, nested_binders()),
        own("sibling binders, 255 targets", 255, sibling_binders()),
        own("sibling sums, 255 targets", 255, sibling_sums()),
        own("variables in nested lists, 1 target", 1, nested_lists(|_| "w".into())),
        own("variables in nested lists of 255 names, 1 target", 1, nested_lists(pair)),
    ]
}

/// Checks that are made in steps, one target after the other, beside the same at once: the everyday one, a condition of 32 KB
/// under 255 targets, and very many reports, over which every further step has to go.
pub fn stepped() -> Vec<Workload> {
    let age = || path(0, &["profile", "age"], 0);
    vec![
        workload("2 steps, everyday", false, shop(2, 4), condition_record(everyday()), view_targets(2), age()),
        workload("255 steps, 32 KB condition", false, shop(2, 255), condition_of(LONGEST), view_targets(255), age()),
        differing("100 steps, 136,000 reports", 1_360, 100, 16 << 20),
    ]
}

/// Conditions of growing size under one target.
pub fn sizes() -> Vec<Workload> {
    let sized = |power: u32| {
        let condition = condition_of(LONGEST >> (7 - power));
        workload("size", false, shop(2, 4), condition, view_targets(1), path(0, &NONE, 0))
    };
    (0..8).map(sized).collect()
}

/// Target lists of growing length, for a condition of 4 KB.
pub fn target_counts() -> Vec<(usize, Workload)> {
    let counts = [1, 2, 4, 8, 16, 32, 64, 128, 255];
    let counted =
        |count| workload("targets", false, shop(2, 255), condition_of(4096), view_targets(count), path(0, &NONE, 0));
    counts.into_iter().map(|count| (count, counted(count))).collect()
}

/// Requests with very many reports, in one buffer or another: what is worst for telling repeats.
pub fn crowded() -> Vec<Workload> {
    vec![
        differing("136,000 reports: 1,360 comparisons, 100 targets", 1_360, 100, 16 << 20),
        differing("346,800 reports, in 16 MiB: 255 targets", 1_360, 255, 16 << 20),
        alike("one start, 26 long names, 255 times, in 1 MiB", 26, 1 << 20),
        alike("one start, 10 long names, 255 times, in 64 KiB", 10, 64 << 10),
        three_each("500,310 reports: 654 comparisons, 255 targets", 654, 255, 64 << 20),
        chosen("136,000 reports, chosen against key 0", 1_360, 100, 32 << 20),
    ]
}

/// Requests without a report that are worst for finding names: what the search for slow requests is about.
pub fn searching() -> Vec<Workload> {
    vec![
        many_principals("255 principals of 2,000 entity types, 1 target", 2_000, 1),
        many_actions("an action behind 1,700 others, 255 targets", 255),
        behind_a_large_type("an attribute behind a large type, 255 targets", 255),
    ]
}

/// Schemas of 32 KB of entity types, for reading alone: long names that begin alike, short names, everyday ones. And one in
/// which each of many actions is looked for among others whose ids begin as its own does.
pub fn naming() -> (Vec<Workload>, Workload) {
    let own = |name: &str, schema: Piece| crowd(name, schema, condition_record(everyday()), vec![], SPACE);
    let named = |name: &str, word: fn(usize) -> String| {
        let of = |count: usize| schema((0..count).map(|i| bare(&word(i))).collect(), vec![]);
        own(name, of(most(LONGEST, of)))
    };
    let read = vec![
        named("names of 254 bytes that share 250", |i| format!("{}{i:04}", "n".repeat(250))),
        named("names of 5 bytes", |i| format!("n{i:04x}")),
        named("everyday names", |i| format!("App::Kind{i:04}")),
    ];
    (read, long_ids("an action among 120 of ids that share 250 bytes, 120 targets", 120))
}

/// An entity type without ancestors and attributes.
fn bare(name: &str) -> Piece {
    entity_type(name, &NONE, attributes(vec![]))
}

/// As many targets as actions, each of its own.
fn long_ids(name: &str, count: usize) -> Workload {
    let id = |i: usize| format!("{}{i:04}", "v".repeat(250));
    let own = |i: usize| action("Action", &id(i), &NONE, &NONE, record_type(vec![("a", ty(0, vec![]))]));
    let compared = comparison((0, 9), 1, context_field(&["a"]), integer());
    let all = (0..count).map(|i| target("", &id(i))).collect();
    crowd(name, schema(vec![], (0..count).map(own).collect()), condition_record(compared), all, SPACE)
}

/// Growing numbers of reports, from 1,360 on, for the plot. The buffer grows with them, and so does the workspace, which is
/// cleared in each call.
pub fn report_counts() -> Vec<(usize, Workload)> {
    let counted = |targets: usize| {
        let reports = 1_360 * targets;
        (reports, differing("reports", 1_360, targets, reports * 96))
    };
    [1, 2, 4, 8, 16, 32, 64, 128, 255].map(counted).into()
}

/// What takes the most stack: 32 levels of conditions, of terms and of types.
pub fn deep() -> Vec<Workload> {
    let nested =
        |outer: &dyn Fn(Piece) -> Piece, inner: Piece, times: usize| (0..times).fold(inner, |piece, _| outer(piece));
    let age = || path(0, &["profile", "age"], 0);
    let sum = |body: Piece| comparison((0, 9), 1, count((1, 2), vec![named("t", &NONE)], body), integer());
    let typed = |t: Piece| schema(vec![], vec![action("App::Action", "view000", &NONE, &NONE, t)]);
    let sets = nested(&set_type, ty(0, vec![]), 31);
    let arrays = nested(&|t| array(vec![t]), integer(), 30);
    let sums = nested(&|t| arith(t, var("v")), var("v"), 30);
    let record = |root| condition_record(root);
    let all = [
        ("conditions in conditions", shop(2, 4), record(nested(&|c| condition(3, (0, 9), vec![c]), deep_array(0), 30))),
        ("counts in counts", shop(2, 4), record(nested(&sum, condition(11, (0, 9), vec![]), 15))),
        ("arithmetic and an array literal", shop(2, 4), record(comparison((0, 9), 4, sums, arrays))),
        ("sets in sets", typed(sets), record(everyday())),
    ];
    all.into_iter().map(|(name, s, c)| workload(name, false, s, c, view_targets(2), age())).collect()
}

impl Workload {
    /// The same records as cases, with a buffer that holds all and one that does not.
    pub fn cases(&self) -> Vec<Case> {
        let (s, c, t, p) = (self.schema.clone(), self.condition.clone(), self.targets.clone(), self.path.clone());
        let runs = [
            (Operation::Check, vec![s.clone(), c.clone(), t.clone()]),
            (Operation::Sums, vec![c]),
            (Operation::Lookup, vec![s, t, p]),
        ];
        let sized = |(operation, records): (Operation, Vec<Vec<u8>>)| {
            [self.space, 200, 5].map(|size| Case { operation, records: records.clone(), size })
        };
        runs.into_iter().flat_map(sized).collect()
    }
}

// ─── Very many reports ───

/// So many comparisons, each with a start of its own, of a field whose type is another one for each target.
pub fn differing(name: &str, comparisons: usize, targets: usize, space: usize) -> Workload {
    let compared = |i: usize| comparison((i as u32, i as u32 + 9), 1, context_field(&["a"]), integer());
    let context = |i: usize| vec![("a", tagged(&format!("T{i:03}")))];
    let condition = condition_record(joined((0..comparisons).map(compared).collect()));
    let all = (0..targets).map(|i| target("", &format!("{i:03}"))).collect();
    crowd(name, contexts(targets, context), condition, all, space)
}

/// The reports of [`differing`] with starts and names for which our table has few first slots under key 0, where the
/// workspace is that of the buffer.
pub fn chosen(name: &str, comparisons: usize, targets: usize, space: usize) -> Workload {
    let front = "comparison requires numeric operands on both sides, got `";
    let names = against::names(front, 7);
    let starts = against::starts(&format!("{front}{}` and `int`", names[0]), comparisons, workspace_for(space) - 1);
    let compared = |start: &u32| comparison((*start, start + 9), 1, context_field(&["a"]), integer());
    let context = |i: usize| vec![("a", tagged(&names[i]))];
    let condition = condition_record(joined(starts.iter().map(compared).collect()));
    let all = (0..targets).map(|i| target("", &format!("{i:03}"))).collect();
    crowd(name, contexts(targets, context), condition, all, space)
}

/// As many comparisons as fit, all at one start, of fields that have types with long names: each pair of names is a
/// message of its own, and all come again for each target, since all targets are one action.
pub fn alike(name: &str, names: usize, space: usize) -> Workload {
    let letter = |i: usize| char::from(b'a' + (i % names) as u8).to_string();
    let compared = |i: usize| {
        let (left, right) = (letter(i), letter(i / names));
        comparison((0, 9), 1, context_field(&[left]), context_field(&[right]))
    };
    let of = |count: usize| condition_record(joined((0..count).map(compared).collect()));
    let fields: Vec<String> = (0..names).map(letter).collect();
    let context = |_| fields.iter().map(|f| (f.as_str(), tagged(&format!("{}{f}", "n".repeat(254))))).collect();
    let all = (0..255).map(|_| target("", "000")).collect();
    crowd(name, contexts(1, context), of(most(LONGEST, of)), all, space)
}

/// Comparisons of a sum with a field, which are reported three times each, all types being others for each target.
fn three_each(name: &str, comparisons: usize, targets: usize, space: usize) -> Workload {
    let compared = |i: usize| {
        let sum = arith(context_field(&["a"]), context_field(&["b"]));
        comparison((i as u32, i as u32 + 9), 1, sum, context_field(&["c"]))
    };
    let context = |i: usize| {
        let typed = |field, letter| (field, tagged(&format!("{letter}{i:03}")));
        vec![typed("a", "A"), typed("b", "B"), typed("c", "C")]
    };
    let condition = condition_record(joined((0..comparisons).map(compared).collect()));
    let all = (0..targets).map(|i| target("", &format!("{i:03}"))).collect();
    crowd(name, contexts(targets, context), condition, all, space)
}

/// As many comparisons as fit, each of a path on the principal, which may be of 255 of so many entity types: what is worst
/// for finding types by name. The path resolves on all of them, and nothing is reported.
pub fn many_principals(name: &str, entities: usize, targets: usize) -> Workload {
    let names: Vec<String> = (0..entities).map(|i| format!("T{i:04}")).collect();
    let types = names.iter().map(|n| entity_type(n, &NONE, attributes(vec![("x", ty(0, vec![]))]))).collect();
    let last = &names[entities.saturating_sub(255)..];
    let view = action("Action", "000", last, &[], record_type(vec![]));
    let compared = |_| comparison((0, 9), 1, scope_field(&["principal", "x"]), integer());
    let of = |count: usize| condition_record(joined((0..count).map(compared).collect()));
    let all = (0..targets).map(|_| target("", "000")).collect();
    let own = crowd(name, schema(types, vec![view]), of(most(LONGEST, of)), all, SPACE);
    let x = path(0, &["x"], 0);
    let [s, c, t, _] = own.trees;
    Workload { path: x.bytes(), trees: [s, c, t, x], ..own }
}

/// As many predicates as fit, of the last of as many actions as fit: what is worst for finding an action by name.
pub fn many_actions(name: &str, targets: usize) -> Workload {
    let actions = |count: usize| {
        let one =
            |i: usize| action("Action", &format!("{i:04}"), &NONE, &NONE, record_type(vec![("a", ty(0, vec![]))]));
        schema(vec![], (0..count).map(one).collect())
    };
    let count = most(LONGEST, actions);
    let last = format!("{:04}", count - 1);
    let seen = |_| predicate((0, 9), (0, 9), &NONE, &last, vec![argument("a", &["a"], integer())]);
    let of = |count: usize| condition_record(joined((0..count).map(seen).collect()));
    let all = (0..targets).map(|_| target("", &last)).collect();
    crowd(name, actions(count), of(most(LONGEST, of)), all, SPACE)
}

/// As many comparisons as fit of an attribute that stands behind one whose type fills the record: what is worst for finding
/// an attribute by name.
pub fn behind_a_large_type(name: &str, targets: usize) -> Workload {
    let fields: Vec<String> = (0..200).map(|i| format!("f{i:03}")).collect();
    let wide = || record_type(fields.iter().map(|f| (f.as_str(), ty(0, vec![]))).collect());
    let many: Vec<String> = (0..24).map(|i| format!("g{i:02}")).collect();
    let large = record_type(many.iter().map(|g| (g.as_str(), wide())).collect());
    let context = record_type(vec![("a", large), ("z", ty(0, vec![]))]);
    let compared = |_| comparison((0, 9), 1, context_field(&["z"]), context_field(&["z"]));
    let of = |count: usize| condition_record(joined((0..count).map(compared).collect()));
    let all = (0..targets).map(|_| target("", "000")).collect();
    let schema = schema(vec![], vec![action("Action", "000", &NONE, &NONE, context)]);
    crowd(name, schema, of(most(LONGEST, of)), all, SPACE)
}

fn crowd(name: &str, schema: Piece, condition: Piece, all: Vec<Piece>, space: usize) -> Workload {
    let records = workload(name, false, schema, condition, targets(byte(0), byte(0), all), path(0, &NONE, 0));
    Workload { space, lends: true, ..records }
}

/// Actions `000` and on, each with the context that belongs to its number.
fn contexts<'a>(actions: usize, context: impl Fn(usize) -> Vec<(&'a str, Piece)>) -> Piece {
    let own = |i: usize| action("Action", &format!("{i:03}"), &NONE, &NONE, record_type(context(i)));
    schema(vec![], (0..actions).map(own).collect())
}

fn tagged(name: &str) -> Piece {
    ty(7, vec![text(name)])
}

// ─── Schema ───

/// Entity types `App::User` and others, and actions `view000` and on, all with the same context.
fn shop(entities: usize, actions: usize) -> Piece {
    let user = || record_type(vec![("age", ty(0, vec![])), ("name", ty(1, vec![]))]);
    let mut types = vec![entity_type("App::Bot", &NONE, attributes(vec![("owner", ty(7, vec![text("App::User")]))]))];
    types.extend(
        (2..entities).map(|i| entity_type(&format!("App::Kind{i:03}"), &NONE, attributes(vec![("x", ty(0, vec![]))]))),
    );
    types.push(entity_type("App::User", &["App::Group"], attributes(vec![("profile", user())])));
    let input = || {
        record_type(vec![("amount", ty(0, vec![])), ("mode", ty(1, vec![])), ("who", ty(7, vec![text("App::User")]))])
    };
    let actions = (0..actions).map(|i| {
        action(
            "App::Action",
            &format!("view{i:03}"),
            &["App::User"],
            &["App::Bot"],
            record_type(vec![("input", input())]),
        )
    });
    schema(types, actions.collect())
}

fn view_targets(count: usize) -> Piece {
    targets(narrowing(2, "App::User"), byte(1), (0..count).map(|i| target("App", &format!("view{i:03}"))).collect())
}

// ─── Conditions ───

fn both(left: Piece, right: Piece) -> Piece {
    condition(1, (0, 90), vec![left, right])
}

/// All of these conditions joined.
fn joined(all: Vec<Piece>) -> Piece {
    paired(all, both)
}

/// All of these in pairs, and the pairs in pairs: a tree of little depth.
fn paired(mut all: Vec<Piece>, join: impl Fn(Piece, Piece) -> Piece) -> Piece {
    while all.len() > 1 {
        let mut pairs = all.into_iter();
        let mut next = Vec::new();
        while let Some(left) = pairs.next() {
            next.push(match pairs.next() {
                Some(right) => join(left, right),
                None => left,
            });
        }
        all = next;
    }
    all.pop().expect("one of them at least")
}

fn view(arguments: Vec<Piece>) -> Piece {
    predicate((5, 30), (5, 28), &["App", "Action"], "view000", arguments)
}

/// `exists (n: Long). view{ amount: n, who: principal } && n < 1000 && principal.profile.age >= 18 && ...`
fn everyday() -> Piece {
    everyday_with(vec![])
}

/// The same in version 2: its Formerly looks back a day.
fn everyday_within() -> Piece {
    everyday_with(vec![window(2, 24)])
}

fn everyday_with(within: Vec<Piece>) -> Piece {
    let seen = view(vec![
        argument("input.amount", &["input", "amount"], var("n")),
        argument("input.who", &["input", "who"], scope_field(&["principal"])),
    ]);
    let cheap = comparison((31, 40), 1, var("n"), integer());
    let adult = comparison((41, 60), 2, scope_field(&["principal", "profile", "age"]), integer());
    let former = condition(4, (66, 80), [within, vec![seen.clone()]].concat());
    let rows = both(condition(10, (61, 65), vec![slot(Some("t"), 0)]), former);
    let few = comparison((81, 99), 1, count((82, 90), vec![named("t", &NONE)], rows), integer());
    exists((0, 99), named("n", &["Long"]), joined(vec![seen, cheap, adult, few]))
}

/// The same with three mistakes.
fn mistaken() -> Piece {
    let wrong = comparison((1, 9), 1, scope_field(&["principal", "profile", "name"]), integer());
    let also = view(vec![argument("input.mode", &["input", "mode"], integer())]);
    let third = comparison((10, 19), 4, arith(context_field(&["input", "mode"]), integer()), integer());
    joined(vec![wrong, everyday(), also, third])
}

/// As many small conditions as fit into so many bytes; one in a hundred breaks a rule.
fn condition_of(bytes: usize) -> Piece {
    let of =
        |count: usize| condition_record(exists((0, 9), named("n", &["Long"]), joined((0..count).map(small).collect())));
    of(most(bytes, of))
}

/// A record of 32 KB in which every second condition declares a name, and the others ask for the first one.
fn bound_condition() -> Piece {
    let bound =
        |i: usize| exists((0, 9), named(&format!("v{i}"), &["Long"]), comparison((0, 9), 1, var("v0"), integer()));
    let of = |count: usize| condition_record(joined((0..count).map(bound).collect()));
    of(most(LONGEST, of))
}

/// A record of 32 KB that is one comparison: a tree of variables beside a count that declares the name.
fn variable_tree() -> Piece {
    let leaves = |count: usize| (0..count).map(|_| var("v")).collect();
    let counted = || count((1, 2), vec![named("v", &["Long"])], condition(11, (0, 9), vec![]));
    let of = |count: usize| condition_record(comparison((0, 9), 1, paired(leaves(count), arith), counted()));
    of(most(LONGEST, of))
}

/// A record of 32 KB with 18 binders around all else: comparisons of each of their names, one after the other.
fn nested_binders() -> Piece {
    const DEPTH: usize = 18;
    let name = |i: usize| format!("v{}", i % DEPTH);
    let used = |i: usize| comparison((0, 9), 1, var(&name(i)), integer());
    let of = |count: usize| {
        let uses = joined((0..count).map(used).collect());
        condition_record((0..DEPTH).fold(uses, |body, i| exists((0, 9), named(&name(i), &["Long"]), body)))
    };
    of(most(LONGEST, of))
}

/// A record of 32 KB of binders one beside the other, each with a use in its body.
fn sibling_binders() -> Piece {
    let used = |i: usize| comparison((0, 9), 1, var(&format!("v{i}")), integer());
    let bound = |i: usize| exists((0, 9), named(&format!("v{i}"), &["Long"]), used(i));
    let of = |count: usize| condition_record(joined((0..count).map(bound).collect()));
    of(most(LONGEST, of))
}

/// A record of 32 KB of sums one beside the other, each of a name that its own list declares.
fn sibling_sums() -> Piece {
    let summed = |i: usize| {
        let name = format!("v{i}");
        let body = condition(11, (0, 9), vec![]);
        let total = sum((0, 9), slot(Some(&name), 0), vec![named(&name, &["Long"])], body);
        comparison((0, 9), 1, total, integer())
    };
    let of = |count: usize| condition_record(joined((0..count).map(summed).collect()));
    of(most(LONGEST, of))
}

/// Two letters, another two for each of 255 numbers.
fn pair(i: usize) -> String {
    [i / 16, i % 16].map(|digit| char::from(b'a' + digit as u8)).iter().collect()
}

/// A record of 32 KB: a comparison that is a tree of variables, in eight lists of 255 binders each, and the binder that is
/// meant around them. The names of a list are given by their numbers.
fn nested_lists(name: fn(usize) -> String) -> Piece {
    const LISTS: usize = 8;
    let list = || (0..255).map(|i| named(&name(i), &NONE)).collect();
    let listed = |body: Piece| comparison((0, 9), 1, count((0, 9), list(), body), integer());
    let of = |count: usize| {
        let leaves = (0..count).map(|_| var("v")).collect();
        let uses = comparison((0, 9), 1, paired(leaves, arith), integer());
        let inner = (0..LISTS).fold(uses, |body, _| listed(body));
        condition_record(exists((0, 9), named("v", &["Long"]), inner))
    };
    of(most(LONGEST, of))
}

/// The largest count whose record has no more than so many bytes.
fn most(bytes: usize, of: impl Fn(usize) -> Piece) -> usize {
    let fits = |count: &usize| of(*count).bytes().len() <= bytes;
    let mut above = 2;
    while fits(&above) {
        above *= 2;
    }
    (1..above).collect::<Vec<_>>().partition_point(fits)
}

fn small(i: usize) -> Piece {
    let at = (i as u32, i as u32 + 9);
    match i % 100 {
        99 => comparison(at, 1, context_field(&["input", "mode"]), integer()),
        k if k % 4 == 0 => {
            predicate(at, at, &["App"], "view001", vec![argument("input.amount", &["input", "amount"], var("n"))])
        }
        k if k % 4 == 1 => comparison(at, 1, arith(context_field(&["input", "amount"]), var("n")), integer()),
        k if k % 4 == 2 => comparison(at, 4, scope_field(&["principal", "profile", "age"]), var("amount")),
        _ => comparison(at, 4, context_field(&["input", "who"]), scope_field(&["principal"])),
    }
}

fn deep_array(depth: usize) -> Piece {
    let nested = |inner| (0..depth).fold(inner, |piece, _| array(vec![piece]));
    comparison((0, 9), 4, nested(integer()), nested(integer()))
}

#[cfg(test)]
mod tests {
    use super::*;
    use crate::answers;
    use crate::cases::Outcome;

    /// How many reports a workload has in a buffer of this size.
    fn reported(w: &Workload, space: usize) -> (u8, usize) {
        let answer = answers::check(&w.schema, &w.condition, &w.targets, &mut vec![0; space]);
        (answer.number, answer.count)
    }

    #[test]
    fn crowded_requests_have_the_reports_that_they_say() {
        let all = crowded();
        for (row, count) in [(0, 136_000), (3, 100), (4, 500_310), (5, 136_000)] {
            assert_eq!(reported(&all[row], all[row].space), (0, count));
        }
        assert!(all.iter().all(|w| w.schema.len() + w.condition.len() + w.targets.len() <= 50_000));
    }

    /// The Rust has one report of all orders of datetimes, and the rules here none.
    #[test]
    fn orders_of_datetimes_are_clean_here() {
        let [long, datetime] = <[Workload; 2]>::try_from(timed()).ok().unwrap();
        assert_eq!((reported(&long, SPACE), reported(&datetime, SPACE)), ((0, 0), (0, 1)));
        let [same, ..] = &datetime.cases()[..] else { panic!("a check comes first") };
        assert!(
            matches!(same.outcome(), Some(Outcome::Answered(answer, _)) if answer.count == 0 && answer.visits > 1_000)
        );
    }

    /// Each is read, is long, has no report either way, and is one about which the two ways of binding cannot differ.
    #[test]
    fn names_in_scopes_are_bound() {
        for w in scoped() {
            assert_eq!(answers::read_number(crate::records::read_condition(&w.condition)), 0, "{}", w.name);
            assert!(w.condition.len() > LONGEST - 100, "{}: {}", w.name, w.condition.len());
            assert_eq!(reported(&w, SPACE), (0, 0), "{}", w.name);
            assert!(w.name.contains("nested lists") || crate::own::checks_are_alike(&w.condition), "{}", w.name);
        }
    }

    #[test]
    fn reports_grow_with_the_targets() {
        for (count, w) in report_counts().into_iter().take(3) {
            assert_eq!(reported(&w, w.space), (0, count));
        }
    }
}
