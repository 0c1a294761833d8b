//! Records at the boundaries: each kind cut at each field, each field changed, levels 32 and 33, counts and strings at
//! their ends, the longest record.

use super::large;
use crate::cases::{Case, Operation};
use crate::pieces::{self, *};
use crate::records::LONGEST;

const NONE: [&str; 0] = [];

/// A record and the reader that it is for.
type Record = (Operation, Piece);

pub fn all() -> Vec<Case> {
    let mut cases = Vec::new();
    for (operation, record) in [samples(), kinds(), levels(), counts(), strings()].concat() {
        cases.push(read(operation, record.bytes()));
    }
    for (operation, record) in samples() {
        cases.extend(each_cut(operation, &record.bytes()));
        cases.extend(each_field_changed(operation, &record));
    }
    for (operation, record) in kinds() {
        cases.extend(cut_at_fields(operation, &record));
    }
    for (operation, record) in levels() {
        cases.extend(last_fields_changed(operation, &record));
    }
    cases.extend(lengths());
    cases
}

fn read(operation: Operation, bytes: Vec<u8>) -> Case {
    Case { operation, records: vec![bytes], size: 0 }
}

// ─── Samples: one record of each sort with most of what it can hold ───

pub fn samples() -> Vec<Record> {
    vec![
        (Operation::ReadSchema, sample_schema()),
        (Operation::ReadCondition, sample_condition()),
        (Operation::ReadCondition, sample_windows()),
        (Operation::ReadCondition, sample_values()),
        (Operation::ReadTargets, sample_targets()),
        (Operation::ReadPath, path(0, &["age", "zip"], 3)),
    ]
}

fn sample_schema() -> Piece {
    let entities = vec![
        entity_type(
            "A",
            &["B", "C::D"],
            attributes(vec![("k", ty(3, vec![text("decimal")])), ("m", set_type(ty(5, vec![])))]),
        ),
        entity_type("A::B", &NONE, attributes(vec![])),
    ];
    let context = record_type(vec![("input", record_type(vec![("x", ty(7, vec![text("A")])), ("y", ty(10, vec![]))]))]);
    let actions =
        vec![action("Action", "a", &["A"], &["A", "B"], context), action("Action", "b", &NONE, &NONE, ty(9, vec![]))];
    schema(entities, actions)
}

fn sample_condition() -> Piece {
    let body = predicate(
        (1, 2),
        (3, 4),
        &["App", "Action"],
        "go",
        vec![argument("a.b", &["a", "b"], array(vec![var("v"), wildcard()]))],
    );
    let total = sum((5, 6), slot(Some("v"), 0), vec![named("v", &["App", "Long"]), binder(slot(None, 2), &NONE)], body);
    let tp = condition(10, (7, 8), vec![slot(Some("t"), 0)]);
    let compared = comparison((9, 10), 5, arith(total, entity("A::B")), scope_field(&["principal", "x"]));
    condition_record(condition(6, (11, 12), vec![exists((13, 14), named("t", &NONE), tp), compared]))
}

/// A condition of version 2 with each sort of window.
fn sample_windows() -> Piece {
    let previous = condition(5, (5, 6), vec![parameter_window(), call()]);
    let former = condition(4, (3, 4), vec![window(2, 24), call()]);
    windowed_record(condition(6, (1, 2), vec![window(1, 90), former, previous]))
}

/// A condition of version 3 with each sort of value.
fn sample_values() -> Piece {
    let literals = array(vec![
        term(2, vec![number64(-2)]),
        term(3, vec![text("-0.25")]),
        term(4, vec![text("a b")]),
        term(5, vec![byte(1)]),
    ]);
    let computed = term(12, vec![byte(1), term(1, vec![text("A::B"), text("ann")]), literals]);
    let compared = comparison((3, 4), 4, computed, term(2, vec![number64(1 << 40)]));
    valued_record(condition(5, (1, 2), vec![window(0, 7), compared]))
}

fn sample_targets() -> Piece {
    targets(narrowing(4, "App::Group"), narrowing(2, "Doc"), vec![target("App", "view"), target("", "edit")])
}

// ─── Each kind by itself ───

fn in_condition(root: Piece) -> Record {
    (Operation::ReadCondition, pieces::condition_record(root))
}

fn in_comparison(left: Piece) -> Record {
    in_condition(comparison((0, 1), 4, left, integer()))
}

fn in_schema(context: Piece) -> Record {
    (Operation::ReadSchema, schema(vec![], vec![action("A", "m", &NONE, &NONE, context)]))
}

fn call() -> Piece {
    condition(11, (0, 0), vec![])
}

fn kinds() -> Vec<Record> {
    [condition_kinds(), window_kinds(), term_kinds(), value_kinds(), type_kinds(), target_kinds()].concat()
}

fn condition_kinds() -> Vec<Record> {
    let mut all: Vec<Piece> = [1, 2, 6].map(|kind| condition(kind, (0, 1), vec![call(), call()])).to_vec();
    all.extend([3, 4, 5, 13].map(|kind| condition(kind, (0, 1), vec![call()])));
    all.extend([11, 12].map(|kind| condition(kind, (0, 1), vec![])));
    all.extend([slot(Some("t"), 0), slot(None, 1), slot(None, 2)].map(|s| condition(10, (0, 1), vec![s])));
    all.push(predicate((0, 1), (2, 3), &["N"], "a", vec![argument("x", &["x"], integer())]));
    all.extend((0..6).map(|operator| comparison((0, 1), operator, integer(), integer())));
    all.push(exists((0, 1), named("v", &NONE), call()));
    all.push(exists((0, 1), binder(slot(None, 1), &["A", "Long"]), call()));
    all.into_iter().map(in_condition).collect()
}

/// Each kind that looks back with each unit, and the amounts at the ends of what the unit holds; the other kinds have none.
fn window_kinds() -> Vec<Record> {
    let most = |seconds: i64| i64::MAX / seconds;
    let mut windows = vec![parameter_window()];
    for (unit, seconds) in [1, 60, 3_600, 86_400].into_iter().enumerate() {
        let amounts = [0, 1, most(seconds), most(seconds).saturating_add(1), i64::MAX, -1, -most(seconds), i64::MIN];
        windows.extend(amounts.map(|amount| window(unit as u8, amount)));
    }
    let behind = |w: &Piece, parts: Vec<Piece>| [vec![w.clone()], parts].concat();
    let mut all: Vec<Piece> = windows.iter().map(|w| condition(4, (0, 1), behind(w, vec![call()]))).collect();
    all.extend(windows[..2].iter().map(|w| condition(5, (0, 1), behind(w, vec![call()]))));
    all.extend(windows[..2].iter().map(|w| condition(6, (0, 1), behind(w, vec![call(), call()]))));
    all.extend([1, 2].map(|kind| condition(kind, (0, 1), vec![call(), call()])));
    all.extend([3, 13].map(|kind| condition(kind, (0, 1), vec![call()])));
    all.extend([2, 4, 255].map(|byte_| condition(4, (0, 1), vec![byte(byte_), call()])));
    all.extend([4, 255].map(|unit| condition(4, (0, 1), vec![window(unit, 1), call()])));
    all.into_iter().map(|root| (Operation::ReadCondition, windowed_record(root))).collect()
}

fn term_kinds() -> Vec<Record> {
    let mut all: Vec<Piece> = [2, 3, 4, 5, 9, 13, 14].map(|kind| term(kind, vec![])).to_vec();
    all.extend([
        entity("A::B"),
        var("v"),
        context_field(&["a", "b"]),
        context_field(&NONE),
        scope_field(&["principal"]),
    ]);
    all.extend([array(vec![]), array(vec![integer(), array(vec![wildcard()])]), arith(integer(), var(""))]);
    all.push(sum((0, 1), slot(Some("v"), 0), vec![named("v", &["Long"])], call()));
    all.push(count((0, 1), vec![named("v", &NONE)], call()));
    all.push(aggregate_call((0, 1)));
    all.into_iter().map(in_comparison).collect()
}

/// A term of version 3 as an operand, as an argument, below an array and below arithmetic.
fn in_valued(value: &Piece) -> Vec<Record> {
    let operand = |left: Piece| comparison((0, 1), 4, left, wildcard());
    let argued = predicate((0, 1), (2, 3), &NONE, "a", vec![argument("x", &["x"], value.clone())]);
    let below = term(12, vec![byte(2), wildcard(), value.clone()]);
    let roots = [operand(value.clone()), argued, operand(array(vec![value.clone()])), operand(below)];
    roots.map(|root| (Operation::ReadCondition, valued_record(root))).to_vec()
}

/// Each literal with values at its ends, and the choice bytes and texts next to what they may be.
fn value_kinds() -> Vec<Record> {
    let mut all: Vec<Piece> = [0, 1, -1, i64::MIN, i64::MAX].map(|n| term(2, vec![number64(n)])).to_vec();
    all.extend([0, 1, 2, 255].map(|truth| term(5, vec![byte(truth)])));
    all.extend([0, 1, 2, 3, 255].map(|op| term(12, vec![byte(op), wildcard(), wildcard()])));
    all.extend(["", "x", " ", "~"].map(|id| term(1, vec![text("A"), text(id)])));
    all.extend(["", "x", "string"].map(|content| term(4, vec![text(content)])));
    let zeros = "0".repeat(250);
    all.extend([format!("{zeros}.0001"), format!("{zeros}1.00")].map(|long| term(3, vec![text(&long)])));
    all.extend(DECIMALS.map(|decimal| term(3, vec![text(decimal)])));
    all.iter().flat_map(in_valued).collect()
}

/// Texts at the edges of what a decimal is and of what 64 bits hold.
const DECIMALS: [&str; 30] = [
    "0.0",
    "-0.0",
    "00.5",
    "1.2345",
    "-0.0001",
    "922337203685477.5807",
    "-922337203685477.5808",
    "922337203685477.5808",
    "-922337203685477.5809",
    "922337203685477.58",
    "922337203685477.6",
    "922337203685478.0",
    "999999999999999.9999",
    "1000000000000000.0",
    "18446744073709551616.0",
    "-99999999999999999999.0",
    "99999999999999999999.00000",
    "",
    "-",
    ".",
    "1",
    "1.",
    ".1",
    "-.1",
    "1.00000",
    "1..0",
    "1.0.0",
    "+1.0",
    "--1.0",
    "1.0 ",
];

fn type_kinds() -> Vec<Record> {
    let mut all: Vec<Piece> = [0, 1, 2, 5, 8, 9, 10].map(|kind| ty(kind, vec![])).to_vec();
    all.extend([3, 7].map(|kind| ty(kind, vec![text("A::B")])));
    all.extend([
        set_type(ty(1, vec![])),
        record_type(vec![]),
        record_type(vec![("", ty(0, vec![])), ("b", ty(1, vec![]))]),
    ]);
    let mut records: Vec<Record> = all.iter().cloned().map(in_schema).collect();
    let attribute = |t: Piece| schema(vec![entity_type("E", &["F"], attributes(vec![("k", t)]))], vec![]);
    records.extend(all.into_iter().map(|t| (Operation::ReadSchema, attribute(t))));
    records
}

fn target_kinds() -> Vec<Record> {
    let mut all = Vec::new();
    for kind in 0..5 {
        all.push((Operation::ReadTargets, targets(narrowing(kind, "A::B"), byte(0), vec![])));
        all.push((Operation::ReadTargets, targets(byte(1), narrowing(kind, "C"), vec![target("N", "")])));
    }
    all
}

// ─── Levels ───

/// A way to put a piece into another one, and how many levels deeper it then stands.
type Nesting = (usize, fn(Piece) -> Piece);

/// Ways to put a condition into a condition, one level deeper (an aggregate's body: two levels).
fn condition_nestings() -> Vec<Nesting> {
    vec![
        (1, |c| condition(3, (0, 0), vec![c])),
        (1, |c| condition(4, (0, 0), vec![c])),
        (1, |c| condition(5, (0, 0), vec![c])),
        (1, |c| condition(13, (0, 0), vec![c])),
        (1, |c| condition(1, (0, 0), vec![c, call()])),
        (1, |c| condition(2, (0, 0), vec![call(), c])),
        (1, |c| condition(6, (0, 0), vec![c, call()])),
        (1, |c| condition(6, (0, 0), vec![call(), c])),
        (1, |c| exists((0, 0), named("v", &NONE), c)),
        (2, |c| comparison((0, 0), 4, count((0, 0), vec![], c), integer())),
        (2, |c| comparison((0, 0), 4, integer(), sum((0, 0), slot(None, 1), vec![], c))),
        (2, |c| predicate((0, 0), (0, 0), &NONE, "a", vec![argument("n", &NONE, count((0, 0), vec![], c))])),
        (3, |c| comparison((0, 0), 4, arith(integer(), count((0, 0), vec![], c)), integer())),
    ]
}

fn term_nestings() -> Vec<fn(Piece) -> Piece> {
    vec![|t| array(vec![t]), |t| array(vec![integer(), t]), |t| arith(t, integer()), |t| arith(integer(), t)]
}

fn type_nestings() -> Vec<fn(Piece) -> Piece> {
    vec![set_type, |t| record_type(vec![("k", t)]), |t| record_type(vec![("a", ty(0, vec![])), ("k", t)]), |t| {
        set_type(record_type(vec![("k", t)]))
    }]
}

fn repeated(times: usize, inner: Piece, nest: fn(Piece) -> Piece) -> Piece {
    (0..times).fold(inner, |piece, _| nest(piece))
}

/// Levels 31 to 33 through each way of nesting. Levels behind arrays are read only; Check never sees them.
fn levels() -> Vec<Record> {
    let mut all = Vec::new();
    for (step, nest) in condition_nestings() {
        for times in [31 / step, 31 / step + 1] {
            all.push(in_condition(repeated(times, call(), nest)));
        }
    }
    for nest in term_nestings() {
        for times in [30, 31] {
            all.push(in_comparison(repeated(times, wildcard(), nest)));
            let inner = repeated(times, var("v"), nest);
            all.push(in_condition(predicate((0, 0), (0, 0), &NONE, "a", vec![argument("n", &NONE, inner)])));
        }
    }
    for nest in type_nestings() {
        let step = if nest(ty(0, vec![])).fields().len() > 4 { 2 } else { 1 };
        for times in [31 / step, 31 / step + 1] {
            let deep = repeated(times, ty(1, vec![]), nest);
            all.push(in_schema(deep.clone()));
            all.push((
                Operation::ReadSchema,
                schema(vec![entity_type("E", &NONE, attributes(vec![("k", deep)]))], vec![]),
            ));
        }
    }
    all
}

// ─── Counts and strings at their ends ───

fn numbered(count: usize) -> Vec<String> {
    (0..count).map(|i| format!("n{i:03}")).collect()
}

fn counts() -> Vec<Record> {
    let mut all = Vec::new();
    for count in [0, 1, 255] {
        let names = numbered(count);
        let long = || ty(0, vec![]);
        let typed = || attributes(names.iter().map(|n| (n.as_str(), long())).collect());
        all.push((Operation::ReadSchema, schema(vec![entity_type("E", &names, typed())], vec![])));
        all.push((Operation::ReadSchema, schema(vec![], vec![action("A", "a", &names, &names, ty(6, vec![typed()]))])));
        all.push((Operation::ReadTargets, targets(byte(0), byte(0), names.iter().map(|n| target("", n)).collect())));
        all.push((Operation::ReadPath, path(0, &names, count as u8)));
        all.push(in_comparison(array(vec![integer(); count])));
        all.push(in_comparison(context_field(&names)));
        all.push(in_comparison(pieces::count((0, 0), names.iter().map(|n| named(n, &["Long"])).collect(), call())));
        all.push(in_condition(exists((0, 0), named("v", &names), call())));
        let arguments = names.iter().map(|n| argument(n, &NONE, integer())).collect();
        all.push(in_condition(predicate((0, 0), (0, 0), &names, "a", arguments)));
    }
    let many = numbered(300);
    let entities = many.iter().map(|n| entity_type(n, &NONE, attributes(vec![]))).collect();
    let actions = many.iter().map(|n| action("A", n, &NONE, &NONE, ty(1, vec![]))).collect();
    all.push((Operation::ReadSchema, schema(entities, actions)));
    all
}

/// Strings of each class at 0, 1, 254 and 255 bytes, and with each byte at an edge of its class.
fn strings() -> Vec<Record> {
    let mut all = Vec::new();
    let texts: Vec<String> = [0, 1, 254, 255].iter().map(|n| "q".repeat(*n)).collect();
    let edges = [
        "a::b",
        "a:b",
        "a::",
        "::a",
        "a::::b",
        "a:::b",
        "_",
        "_9",
        "9a",
        "a9",
        "A_z",
        "a b",
        "a-b",
        " ",
        "~",
        "`{@[^]|",
        "a::9",
        "a::_",
        "A::B::C::D",
    ];
    let bytes = ["\x1f", "\x7f", "\"", "'", "\\", "a\u{e9}", "\0", "a\n"];
    for s in texts.iter().map(String::as_str).chain(edges).chain(bytes) {
        all.push((Operation::ReadTargets, targets(byte(0), byte(0), vec![target(s, "id")])));
        all.push((Operation::ReadTargets, targets(byte(0), byte(0), vec![target("", s)])));
        all.push((Operation::ReadTargets, targets(narrowing(3, s), byte(0), vec![])));
        all.push(in_comparison(entity(s)));
        all.push(in_comparison(var(s)));
        all.push((Operation::ReadCondition, valued_record(comparison((0, 1), 4, wildcard(), term(4, vec![text(s)])))));
        let id = term(1, vec![text("A"), text(s)]);
        all.push((Operation::ReadCondition, valued_record(comparison((0, 1), 4, id, wildcard()))));
        all.push(in_condition(exists((0, 0), named("v", &[s]), call())));
        all.push(in_condition(exists((0, 0), named("v", &["Ok", s]), call())));
        all.push(in_condition(predicate((0, 0), (0, 0), &[s], "a", vec![])));
        all.push(in_schema(ty(7, vec![text(s)])));
        all.push(in_schema(record_type(vec![(s, ty(0, vec![]))])));
        all.push((Operation::ReadSchema, schema(vec![entity_type(s, &NONE, attributes(vec![]))], vec![])));
    }
    all
}

// ─── Changes ───

/// The record cut at each byte, and with a byte too many.
fn each_cut(operation: Operation, bytes: &[u8]) -> Vec<Case> {
    let mut cases: Vec<Case> = (0..bytes.len()).map(|end| read(operation, bytes[..end].to_vec())).collect();
    cases.push(read(operation, [bytes, &[0]].concat()));
    cases
}

/// The record cut before each of its fields behind the heading, and within the last byte of each that is longer.
fn cut_at_fields(operation: Operation, record: &Piece) -> Vec<Case> {
    let fields = record.fields();
    let bytes = record.bytes();
    let mut cases = Vec::new();
    let mut end = 0;
    for (i, field) in fields.iter().enumerate() {
        if i >= 2 {
            cases.push(read(operation, bytes[..end].to_vec()));
            if field.len() > 1 {
                cases.push(read(operation, bytes[..end + field.len() - 1].to_vec()));
            }
        }
        end += field.len();
    }
    cases.push(read(operation, [&bytes[..], &[0x0B]].concat()));
    cases
}

/// Each field changed in every way that its shape suggests.
fn each_field_changed(operation: Operation, record: &Piece) -> Vec<Case> {
    let fields = record.fields();
    let mut cases = Vec::new();
    for i in 0..fields.len() {
        for changed in changes(&fields[i]) {
            let mut copy = fields.clone();
            copy[i] = changed;
            cases.push(read(operation, copy.concat()));
        }
    }
    cases
}

/// At the deepest level: the last fields dropped, and the byte that stands there undefined.
fn last_fields_changed(operation: Operation, record: &Piece) -> Vec<Case> {
    let fields = record.fields();
    let mut cases = Vec::new();
    for last in fields.len().saturating_sub(4)..fields.len() {
        cases.push(read(operation, fields[..last].concat()));
        cases.push(read(operation, [fields[..last].concat(), vec![0x63]].concat()));
        cases.push(read(operation, [fields[..last].concat(), vec![0x0B]].concat()));
    }
    cases
}

/// Other bytes for one field: a byte next to its own and at the ends; a string emptied, cut, and with bytes outside
/// each class in its first, a middle and its last place.
fn changes(field: &[u8]) -> Vec<Vec<u8>> {
    match field {
        [b] => [b.wrapping_add(1), b.wrapping_sub(1), 0x0F, 0xFF].iter().map(|b| vec![*b]).collect(),
        [length, rest @ ..] if *length as usize == rest.len() => string_changes(rest),
        _ => [0, field.len() - 1].iter().map(|i| with_byte(field, *i, field[*i] ^ 0x41)).collect(),
    }
}

fn string_changes(bytes: &[u8]) -> Vec<Vec<u8>> {
    let field = |bytes: &[u8]| [&[bytes.len() as u8], bytes].concat();
    let mut all = vec![vec![0], field(&[bytes, b"::"].concat())];
    let mut places = vec![0, bytes.len() / 2, bytes.len() - 1];
    places.dedup();
    for place in places {
        for bad in [b'"', b'-', 0x1F, 0x80] {
            all.push(field(&with_byte(bytes, place, bad)));
        }
    }
    all.push(field(&with_byte(bytes, 0, b'!')));
    all
}

fn with_byte(bytes: &[u8], at: usize, byte: u8) -> Vec<u8> {
    let mut copy = bytes.to_vec();
    copy[at] = byte;
    copy
}

// ─── Lengths ───

/// A reader, and what makes a record for it of a given length.
type Maker = (Operation, fn(usize) -> Piece);

/// The longest record and one byte more, well formed, with a wrong mark, and with a byte after its end.
fn lengths() -> Vec<Case> {
    let makers: [Maker; 4] = [
        (Operation::ReadSchema, large::schema_of),
        (Operation::ReadCondition, large::condition_of),
        (Operation::ReadTargets, large::targets_of),
        (Operation::ReadPath, large::path_of),
    ];
    let mut cases = Vec::new();
    for (operation, make) in makers {
        for length in [LONGEST - 1, LONGEST, LONGEST + 1] {
            cases.push(read(operation, make(length).bytes()));
        }
        cases.push(read(operation, [make(LONGEST - 1).bytes(), vec![0]].concat()));
        cases.push(read(operation, [make(LONGEST).bytes(), vec![0]].concat()));
        cases.push(read(operation, vec![0x58; LONGEST]));
        cases.push(read(operation, vec![0x58; LONGEST + 1]));
        cases.push(read(operation, vec![0; 40_000]));
    }
    cases
}
