//! Examples about the rules: records built from pieces, and the reports or the lookup's answer.

use crate::pieces::*;

/// A check, and its reports (start, end, message).
pub struct Checked {
    pub shows: &'static str,
    pub schema: Piece,
    pub condition: Piece,
    pub targets: Piece,
    pub reports: Vec<(u32, u32, String)>,
}

/// A run of Sums, and its reports.
pub struct Summed {
    pub shows: &'static str,
    pub condition: Piece,
    pub reports: Vec<(u32, u32, String)>,
}

/// A lookup: its case byte and its strings.
pub struct Looked {
    pub shows: &'static str,
    pub schema: Piece,
    pub targets: Piece,
    pub path: Piece,
    pub case: u8,
    pub strings: Vec<&'static str>,
}

const NONE: [&str; 0] = [];
const EQ: u8 = 4;
const LT: u8 = 1;

// ─── Words for the table ───

fn long() -> Piece {
    ty(0, vec![])
}

fn string() -> Piece {
    ty(1, vec![])
}

fn entity_ty(name: &str) -> Piece {
    ty(7, vec![text(name)])
}

fn words() -> Piece {
    term(4, vec![])
}

fn decimal() -> Piece {
    term(3, vec![])
}

fn truth() -> Piece {
    term(5, vec![])
}

fn call() -> Piece {
    condition(11, (0, 0), vec![])
}

fn both(left: Piece, right: Piece) -> Piece {
    condition(1, (0, 99), vec![left, right])
}

/// The two principals and the resource of the example schema; `User` has no attribute `id`, `Bot` has one.
fn people() -> Vec<Piece> {
    vec![
        entity_type("App::Bot", &NONE, attributes(vec![("age", string()), ("id", long())])),
        entity_type(
            "App::User",
            &["App::Group"],
            attributes(vec![
                ("age", long()),
                ("home", record_type(vec![("zip", string())])),
                ("tags", set_type(string())),
            ]),
        ),
        entity_type("Doc", &NONE, attributes(vec![("owner", entity_ty("App::User"))])),
    ]
}

/// The input of the actions: `amount` is a Long or the given type.
fn context(amount: Piece) -> Piece {
    record_type(vec![
        ("a.b", long()),
        (
            "input",
            record_type(vec![
                ("amount", amount),
                ("list", set_type(string())),
                ("price", ty(3, vec![text("decimal")])),
                ("who", entity_ty("App::User")),
            ]),
        ),
    ])
}

/// Two actions of namespace `App` and two without one: `view` for users, `chat` for users and bots, `idle` for nobody,
/// and `edit`, whose amount has another type.
fn shop(edit_amount: Piece) -> Piece {
    let users = ["App::User"];
    let doc = ["Doc"];
    schema(
        people(),
        vec![
            action("Action", "edit", &users, &doc, context(edit_amount)),
            action("Action", "idle", &NONE, &doc, context(long())),
            action("App::Action", "chat", &["App::Bot", "App::User"], &doc, context(long())),
            action("App::Action", "view", &users, &doc, context(long())),
        ],
    )
}

fn on(all: &[(&str, &str)]) -> Piece {
    narrowed(byte(0), byte(0), all)
}

fn narrowed(principal: Piece, resource: Piece, all: &[(&str, &str)]) -> Piece {
    targets(principal, resource, all.iter().map(|(ns, id)| target(ns, id)).collect())
}

pub(super) fn numeric(left: &str, right: &str) -> String {
    format!("comparison requires numeric operands on both sides, got `{left}` and `{right}`")
}

pub(super) fn equality(left: &str, right: &str) -> String {
    format!("equality requires both sides to have the same type, got `{left}` and `{right}`")
}

fn arithmetic(got: &str) -> String {
    format!("arithmetic operates only on `Long` values, but this operand has type `{got}`")
}

fn wild() -> String {
    "a wildcard (`*` / `_`) cannot appear inside an arithmetic expression; it resolves to no value, so the whole guard \
     would be silently false"
        .to_string()
}

fn tp_declared(name: &str, got: &str) -> String {
    format!(
        "`tp({name})` binds `{name}` to the current timepoint, but `{name}` is declared `{got}`; a `tp` variable must \
         be declared `Timepoint`"
    )
}

fn argument_expects(name: &str, action: &str, expected: &str, got: &str) -> String {
    format!("argument `{name}` of `{action}` expects `{expected}` but got `{got}`")
}

/// A comparison at (3, 7) on `App`'s `view`, and the reports' messages.
fn compared(shows: &'static str, operator: u8, left: Piece, right: Piece, messages: Vec<String>) -> Checked {
    Checked {
        shows,
        schema: shop(long()),
        condition: condition_record(comparison((3, 7), operator, left, right)),
        targets: on(&[("App", "view")]),
        reports: messages.into_iter().map(|m| (3, 7, m)).collect(),
    }
}

/// A condition on the shop's schema.
fn held(shows: &'static str, root: Piece, targets: Piece, reports: Vec<(u32, u32, String)>) -> Checked {
    Checked { shows, schema: shop(string()), condition: condition_record(root), targets, reports }
}

pub fn checked() -> Vec<Checked> {
    let plain = super::strict::all().into_iter().map(super::strict::Compared::plainly).collect();
    [operands(), arrays(), scopes(), environment(), targets_and_repeats(), arguments(), surprises(), reordered(), plain]
        .concat_all()
}

/// `concat` for lists whose items cannot be copied.
trait ConcatAll<T> {
    fn concat_all(self) -> Vec<T>;
}

impl<T, const N: usize> ConcatAll<T> for [Vec<T>; N] {
    fn concat_all(self) -> Vec<T> {
        self.into_iter().flatten().collect()
    }
}

fn operands() -> Vec<Checked> {
    vec![
        Checked {
            shows: "the whole run of document 01",
            schema: schema(vec![], vec![]),
            condition: condition_record(comparison((0, 8), LT, truth(), integer())),
            targets: on(&[("", "view")]),
            reports: vec![(0, 8, numeric("boolean", "int"))],
        },
        compared("decimals have no order", LT, decimal(), decimal(), vec![numeric("decimal", "decimal")]),
        compared("decimals are equal or not", EQ, decimal(), decimal(), vec![]),
        compared("any two entities compare", EQ, entity("A"), entity("B"), vec![]),
        compared("entities have no order", LT, entity("A::X"), entity("B"), vec![numeric("X", "B")]),
        compared("a wildcard compares with all", EQ, wildcard(), integer(), vec![]),
        compared("a wildcard is no summand", EQ, arith(wildcard(), integer()), integer(), vec![wild()]),
        compared(
            "arithmetic first, each leaf from the left, both operands",
            LT,
            arith(words(), arith(wildcard(), truth())),
            arith(integer(), decimal()),
            vec![arithmetic("string"), wild(), arithmetic("boolean"), arithmetic("decimal")],
        ),
        compared(
            "arithmetic in an array is not inspected",
            EQ,
            array(vec![arith(words(), wildcard())]),
            array(vec![integer()]),
            vec![],
        ),
        compared("an aggregate Call is a Long", LT, aggregate_call((0, 0)), truth(), vec![numeric("int", "boolean")]),
        compared("a reference to a macro's parameter has no type", LT, term(13, vec![]), truth(), vec![]),
        compared("nor has a fresh binder's", LT, term(14, vec![]), truth(), vec![]),
        compared("they pass in arithmetic too", EQ, arith(term(13, vec![]), term(14, vec![])), integer(), vec![]),
    ]
}

fn arrays() -> Vec<Checked> {
    let ints = || array(vec![integer()]);
    vec![
        compared("an empty array passes against any", EQ, array(vec![]), ints(), vec![]),
        compared("and against a nested one", EQ, array(vec![array(vec![words()])]), array(vec![]), vec![]),
        compared(
            "a wildcard makes an array mixed",
            EQ,
            array(vec![integer(), wildcard()]),
            ints(),
            vec![equality("mixed-type array", "array<int>")],
        ),
        compared(
            "an empty element beside a full one too",
            EQ,
            array(vec![array(vec![]), ints()]),
            array(vec![ints()]),
            vec![equality("mixed-type array", "array<array<int>>")],
        ),
        compared(
            "mixed against mixed is equal by structure",
            EQ,
            array(vec![wildcard()]),
            array(vec![integer(), words()]),
            vec![],
        ),
        compared(
            "a context field in an array has no type",
            EQ,
            array(vec![context_field(&["input", "amount"])]),
            ints(),
            vec![equality("mixed-type array", "array<int>")],
        ),
        compared(
            "two entity types make an array mixed",
            EQ,
            array(vec![entity("A"), entity("B")]),
            array(vec![entity("A")]),
            vec![equality("mixed-type array", "array<A>")],
        ),
        compared("arrays of entities compare", EQ, array(vec![entity("A")]), array(vec![entity("B")]), vec![]),
        compared("an array is not its element", EQ, ints(), integer(), vec![equality("array<int>", "int")]),
    ]
}

fn scopes() -> Vec<Checked> {
    let any = || narrowing(1, "");
    let idle = [("", "idle")];
    let wrong = || comparison((1, 2), LT, truth(), integer());
    let got = || vec![(1, 2, numeric("boolean", "int"))];
    let age = || comparison((1, 2), EQ, scope_field(&["principal", "age"]), truth());
    vec![
        compared(
            "an entity's id is a string where no attribute says otherwise",
            EQ,
            scope_field(&["principal", "id"]),
            integer(),
            vec![equality("string", "int")],
        ),
        compared("its type too", EQ, scope_field(&["principal", "type"]), integer(), vec![equality("string", "int")]),
        compared("and has no fields", EQ, scope_field(&["principal", "id", "z"]), integer(), vec![]),
        compared(
            "a declared attribute",
            EQ,
            scope_field(&["principal", "home", "zip"]),
            integer(),
            vec![equality("string", "int")],
        ),
        compared(
            "a resource's attribute",
            EQ,
            scope_field(&["resource", "owner"]),
            integer(),
            vec![equality("User", "int")],
        ),
        compared("a bare scope", EQ, scope_field(&["principal"]), words(), vec![equality("User", "string")]),
        compared("another root has no type", EQ, scope_field(&["action"]), words(), vec![]),
        compared("an empty scope path neither", EQ, scope_field(&NONE), words(), vec![]),
        held(
            "several principals: no tag",
            comparison((1, 2), EQ, scope_field(&["principal"]), words()),
            on(&[("App", "chat")]),
            vec![(1, 2, equality("entity", "string"))],
        ),
        held("several types of an attribute: none", age(), on(&[("App", "chat")]), vec![]),
        held(
            "narrowed to one by its type",
            age(),
            narrowed(narrowing(2, "App::Bot"), byte(0), &[("App", "chat")]),
            vec![(1, 2, equality("string", "boolean"))],
        ),
        held(
            "narrowed to one by its uid",
            age(),
            narrowed(narrowing(3, "App::User"), byte(0), &[("App", "chat")]),
            vec![(1, 2, equality("int", "boolean"))],
        ),
        held(
            "narrowed to one by membership",
            age(),
            narrowed(narrowing(4, "App::Group"), byte(0), &[("App", "chat")]),
            vec![(1, 2, equality("int", "boolean"))],
        ),
        held(
            "a uid without membership admits no member",
            wrong(),
            narrowed(narrowing(3, "App::Group"), byte(0), &[("App", "chat")]),
            vec![],
        ),
        held("no principals: Any skips", wrong(), narrowed(any(), byte(0), &idle), vec![]),
        held("no principals: no narrowing does not", wrong(), narrowed(byte(0), any(), &idle), got()),
        held(
            "the resource's narrowing skips too",
            wrong(),
            narrowed(byte(0), narrowing(2, "Other"), &[("App", "view")]),
            vec![],
        ),
        held(
            "an undeclared target is checked under any narrowing",
            wrong(),
            narrowed(narrowing(2, "Other"), any(), &[("App", "gone")]),
            got(),
        ),
    ]
}

fn environment() -> Vec<Checked> {
    let v = || var("v");
    let view = || on(&[("App", "view")]);
    vec![
        held(
            "the last binder of a name holds everywhere",
            exists(
                (0, 9),
                named("v", &["Long"]),
                both(
                    comparison((1, 2), EQ, v(), words()),
                    exists((3, 8), named("v", &["String"]), comparison((4, 5), EQ, v(), integer())),
                ),
            ),
            view(),
            vec![(4, 5, equality("string", "int"))],
        ),
        held(
            "an input field's type",
            comparison((1, 2), EQ, var("amount"), truth()),
            view(),
            vec![(1, 2, equality("int", "boolean"))],
        ),
        held(
            "a binder replaces an input field",
            exists((0, 9), named("amount", &["App", "Bool"]), comparison((1, 2), EQ, var("amount"), truth())),
            view(),
            vec![],
        ),
        held(
            "an array of a bound variable is mixed",
            exists((0, 9), named("v", &["Long"]), comparison((1, 2), EQ, array(vec![v()]), array(vec![integer()]))),
            view(),
            vec![(1, 2, equality("mixed-type array", "array<int>"))],
        ),
        held(
            "a slot that is a reference declares nothing",
            exists((0, 9), binder(slot(None, 1), &["Long"]), comparison((1, 2), EQ, v(), words())),
            view(),
            vec![],
        ),
        held(
            "Timepoint is annotated by no segment",
            exists((0, 9), named("t", &NONE), condition(10, (1, 2), vec![slot(Some("t"), 0)])),
            view(),
            vec![],
        ),
        held(
            "a segment `Timepoint` is an entity",
            exists((0, 9), named("t", &["Timepoint"]), condition(10, (1, 2), vec![slot(Some("t"), 0)])),
            view(),
            vec![(1, 2, tp_declared("t", "Timepoint"))],
        ),
        held(
            "a timepoint is no integer",
            exists((0, 9), named("t", &NONE), comparison((1, 2), EQ, var("t"), integer())),
            view(),
            vec![(1, 2, equality("timepoint", "int"))],
        ),
        held(
            "tp of an input field",
            condition(10, (1, 2), vec![slot(Some("amount"), 0)]),
            view(),
            vec![(1, 2, tp_declared("amount", "int"))],
        ),
        held("tp of nothing declared", condition(10, (1, 2), vec![slot(Some("w"), 0)]), view(), vec![]),
        held(
            "an aggregate's binders hold outside it, and its body is reached",
            both(
                comparison((1, 2), EQ, v(), integer()),
                comparison(
                    (3, 4),
                    LT,
                    count((5, 6), vec![named("v", &["String"])], comparison((7, 8), EQ, v(), truth())),
                    integer(),
                ),
            ),
            view(),
            vec![(1, 2, equality("string", "int")), (7, 8, equality("string", "boolean"))],
        ),
        held(
            "the left operand's binders are declared before the right one's, both before the bodies",
            comparison(
                (1, 2),
                LT,
                count(
                    (0, 0),
                    vec![named("v", &["Long"])],
                    exists((0, 0), named("v", &["Bool"]), comparison((3, 4), EQ, v(), words())),
                ),
                count((0, 0), vec![named("v", &["String"])], call()),
            ),
            view(),
            vec![(3, 4, equality("boolean", "string"))],
        ),
        held(
            "a Refine's base is reached",
            condition(13, (0, 9), vec![comparison((1, 2), LT, truth(), integer())]),
            view(),
            vec![(1, 2, numeric("boolean", "int"))],
        ),
        held(
            "a Not's inner too",
            condition(3, (0, 9), vec![comparison((1, 2), LT, truth(), integer())]),
            view(),
            vec![(1, 2, numeric("boolean", "int"))],
        ),
    ]
}

fn targets_and_repeats() -> Vec<Checked> {
    let amount = || comparison((1, 2), EQ, var("amount"), truth());
    let wrong = |at| comparison(at, LT, truth(), integer());
    let mut named_string = held(
        "an entity `string` and the String type give one message",
        amount(),
        on(&[("", "edit"), ("App", "view")]),
        vec![(1, 2, equality("string", "boolean"))],
    );
    named_string.schema = schema(
        people(),
        vec![
            action("Action", "edit", &["App::User"], &["Doc"], context(string())),
            action("App::Action", "view", &["App::User"], &["Doc"], context(entity_ty("Ns::string"))),
        ],
    );
    vec![
        held("no targets, no reports", wrong((1, 2)), on(&[]), vec![]),
        held(
            "each target has its own types",
            amount(),
            on(&[("App", "view"), ("", "edit")]),
            vec![(1, 2, equality("int", "boolean")), (1, 2, equality("string", "boolean"))],
        ),
        held(
            "a repeat is dropped across targets",
            wrong((1, 2)),
            on(&[("App", "view"), ("", "edit"), ("", "gone")]),
            vec![(1, 2, numeric("boolean", "int"))],
        ),
        held(
            "repeats are told by message and start; the first one's end stays",
            both(wrong((1, 2)), both(wrong((1, 5)), wrong((2, 5)))),
            on(&[("", "gone")]),
            vec![(1, 2, numeric("boolean", "int")), (2, 5, numeric("boolean", "int"))],
        ),
        named_string,
        held(
            "an empty namespace is the bare Action",
            amount(),
            on(&[("", "edit")]),
            vec![(1, 2, equality("string", "boolean"))],
        ),
        held("a namespace that ends with Action is one more name", amount(), on(&[("App::Action", "view")]), vec![]),
    ]
}

fn arguments() -> Vec<Checked> {
    let view = || on(&[("App", "view")]);
    let said = |namespaces: &[&str], action, arguments| predicate((0, 9), (2, 4), namespaces, action, arguments);
    let amount = ["input", "amount"];
    vec![
        held(
            "an argument is reported at the predicate's own span",
            said(&["App", "Action"], "view", vec![argument("input.amount", &amount, words())]),
            view(),
            vec![(2, 4, argument_expects("input.amount", "view", "int", "string"))],
        ),
        held(
            "the path is resolved, the name is shown",
            said(&["App"], "view", vec![argument("shown", &amount, words())]),
            view(),
            vec![(2, 4, argument_expects("shown", "view", "int", "string"))],
        ),
        held(
            "an empty path resolves nowhere",
            said(&["App"], "view", vec![argument("input.amount", &NONE, words())]),
            view(),
            vec![],
        ),
        held(
            "a segment may hold a dot",
            said(&["App"], "view", vec![argument("", &["a.b"], words())]),
            view(),
            vec![(2, 4, argument_expects("", "view", "int", "string"))],
        ),
        held(
            "one name, two paths, one message",
            said(&["App"], "view", vec![argument("n", &amount, words()), argument("n", &["a.b"], words())]),
            view(),
            vec![(2, 4, argument_expects("n", "view", "int", "string"))],
        ),
        held(
            "a last name `App::Action` is dropped whole",
            said(&["App::Action"], "edit", vec![argument("n", &amount, integer())]),
            view(),
            vec![(2, 4, argument_expects("n", "edit", "string", "int"))],
        ),
        held(
            "an undeclared action's arguments are not judged",
            said(&["App"], "gone", vec![argument("n", &amount, words())]),
            view(),
            vec![],
        ),
        held(
            "a whole group is an object",
            said(&["App"], "view", vec![argument("n", &["input"], words())]),
            view(),
            vec![(2, 4, argument_expects("n", "view", "object", "string"))],
        ),
        held(
            "equal tags are wanted of an argument",
            said(&["App"], "view", vec![argument("n", &["input", "who"], entity("Other"))]),
            view(),
            vec![(2, 4, argument_expects("n", "view", "User", "Other"))],
        ),
        held(
            "a tag is the simple name",
            said(&["App"], "view", vec![argument("n", &["input", "who"], entity("Ns::User"))]),
            view(),
            vec![],
        ),
        held(
            "an untagged entity passes",
            said(&["App"], "view", vec![argument("n", &["input", "who"], scope_field(&["principal"]))]),
            on(&[("App", "chat")]),
            vec![],
        ),
        held(
            "an empty array passes as an argument",
            said(&["App"], "view", vec![argument("n", &["input", "list"], array(vec![]))]),
            view(),
            vec![],
        ),
        held(
            "arithmetic is not inspected in an argument",
            said(&["App"], "view", vec![argument("n", &amount, arith(wildcard(), words()))]),
            view(),
            vec![],
        ),
        held(
            "an aggregate in an argument is not entered",
            said(
                &["App"],
                "view",
                vec![argument("n", &amount, count((0, 0), vec![], comparison((5, 6), LT, truth(), truth())))],
            ),
            view(),
            vec![],
        ),
    ]
}

/// What holds when a comparison is reordered and what does not; docs/DIFFERENCES.md has these.
fn reordered() -> Vec<Checked> {
    let list = |item| array(vec![item]);
    let mixed = || array(vec![integer(), words()]);
    let view = || on(&[("App", "view")]);
    let given = |value| predicate((0, 9), (2, 4), &["App"], "view", vec![argument("w", &["input", "who"], value)]);
    let asking = || count((1, 2), vec![named("v", &["Long"])], comparison((5, 6), EQ, var("v"), integer()));
    let other = || count((1, 2), vec![named("v", &["String"])], call());
    vec![
        compared("an equality", EQ, truth(), integer(), vec![equality("boolean", "int")]),
        compared("swapped: the words change places", EQ, integer(), truth(), vec![equality("int", "boolean")]),
        compared("an order", LT, truth(), integer(), vec![numeric("boolean", "int")]),
        compared("the order that says the same", 3, integer(), truth(), vec![numeric("int", "boolean")]),
        compared(
            "arithmetic comes first, that of the left operand before that of the right",
            EQ,
            arith(words(), integer()),
            arith(truth(), integer()),
            vec![arithmetic("string"), arithmetic("boolean")],
        ),
        compared(
            "swapped: in the other order",
            EQ,
            arith(truth(), integer()),
            arith(words(), integer()),
            vec![arithmetic("boolean"), arithmetic("string")],
        ),
        compared("an empty array fits on the left", EQ, list(integer()), array(vec![]), vec![]),
        compared("and on the right", EQ, array(vec![]), list(truth()), vec![]),
        compared(
            "what fits beside it does not fit",
            EQ,
            list(integer()),
            list(truth()),
            vec![equality("array<int>", "array<boolean>")],
        ),
        compared("an empty array in an array", EQ, list(mixed()), list(array(vec![])), vec![]),
        compared("fits beside either", EQ, list(array(vec![])), list(list(integer())), vec![]),
        compared(
            "and the two do not fit",
            EQ,
            list(mixed()),
            list(list(integer())),
            vec![equality("array<mixed-type array>", "array<array<int>>")],
        ),
        compared("mixed arrays fit each other", EQ, mixed(), array(vec![wildcard()]), vec![]),
        compared("entities of two tags compare", EQ, entity("App::User"), entity("App::Bot"), vec![]),
        held(
            "and are not accepted for each other",
            given(entity("App::Bot")),
            view(),
            vec![(2, 4, argument_expects("w", "view", "User", "Bot"))],
        ),
        held(
            "an untagged entity is accepted for either",
            given(scope_field(&["principal"])),
            on(&[("App", "chat")]),
            vec![],
        ),
        held(
            "the last binder of a name counts in the whole condition",
            comparison((3, 7), EQ, asking(), other()),
            view(),
            vec![(5, 6, equality("string", "int"))],
        ),
        held("so that a swap may change what is reported", comparison((3, 7), EQ, other(), asking()), view(), vec![]),
    ]
}

/// What the Rust does where a reader may expect something else; docs/DIFFERENCES.md has these.
fn surprises() -> Vec<Checked> {
    let view = || on(&[("App", "view")]);
    let t = || var("t");
    vec![
        held(
            "timepoints have no order",
            exists((0, 9), named("t", &NONE), comparison((1, 2), LT, t(), t())),
            view(),
            vec![(1, 2, numeric("timepoint", "timepoint"))],
        ),
        held(
            "nor are they added",
            exists((0, 9), named("t", &NONE), comparison((1, 2), EQ, arith(t(), integer()), integer())),
            view(),
            vec![(1, 2, arithmetic("timepoint"))],
        ),
        compared("an entity called as a scalar is shown", EQ, entity("int"), integer(), vec![equality("int", "int")]),
        compared(
            "any two records are alike",
            EQ,
            context_field(&["input"]),
            scope_field(&["principal", "home"]),
            vec![],
        ),
        compared(
            "an empty array passes within an array",
            EQ,
            array(vec![array(vec![])]),
            array(vec![array(vec![words()])]),
            vec![],
        ),
        compared(
            "a scope in an array has no type",
            EQ,
            array(vec![scope_field(&["principal"])]),
            array(vec![entity("User")]),
            vec![equality("mixed-type array", "array<User>")],
        ),
        compared(
            "a path does not go on through an entity",
            EQ,
            context_field(&["input", "who", "age"]),
            truth(),
            vec![],
        ),
        compared(
            "a declared id is not the projection",
            EQ,
            scope_field(&["resource", "owner", "id"]),
            integer(),
            vec![],
        ),
        held(
            "an entity type called Long cannot be annotated",
            exists((0, 9), named("v", &["App", "Long"]), comparison((1, 2), EQ, var("v"), entity("App::Long"))),
            view(),
            vec![(1, 2, equality("int", "Long"))],
        ),
        held(
            "a sum's ill-typed summand in an argument passes Check",
            predicate(
                (0, 9),
                (2, 4),
                &["App"],
                "view",
                vec![argument(
                    "n",
                    &["input", "amount"],
                    sum(
                        (5, 6),
                        slot(Some("s"), 0),
                        vec![named("s", &["String"])],
                        condition(10, (7, 8), vec![slot(Some("s"), 0)]),
                    ),
                )],
            ),
            view(),
            vec![],
        ),
    ]
}

// ─── Sums ───

fn is_other(name: &str, ty: &str) -> String {
    format!("cannot sum `{name}`: sum requires a `Long` summand, but `{name}` is `{ty}`.")
}

fn is_decimal(name: &str) -> String {
    format!("{} Dogwood arithmetic operates only on `Long` values, not decimals.", is_other(name, "Decimal"))
}

fn is_timepoint(name: &str) -> String {
    format!(
        "{} Timepoints are ordinal positions, not quantities — use a Timepoint in the `for (…)` binders to keep \
         per-timepoint rows, not as the value being summed.",
        is_other(name, "Timepoint")
    )
}

fn summing(shows: &'static str, root: Piece, reports: Vec<(u32, u32, String)>) -> Summed {
    Summed { shows, condition: condition_record(root), reports }
}

fn sum_of_v(at: Span, annotation: &[&str]) -> Piece {
    sum(at, slot(Some("v"), 0), vec![named("v", annotation)], call())
}

pub fn summed() -> Vec<Summed> {
    let above = |left| comparison((0, 9), LT, left, integer());
    vec![
        summing("a Long is summed", above(sum_of_v((1, 2), &["App", "Long"])), vec![]),
        summing("a Timepoint is not", above(sum_of_v((1, 2), &[])), vec![(1, 2, is_timepoint("v"))]),
        summing(
            "a segment Timepoint is shown alike",
            above(sum_of_v((1, 2), &["Timepoint"])),
            vec![(1, 2, is_other("v", "Timepoint"))],
        ),
        summing("a decimal is not", above(sum_of_v((1, 2), &["x", "decimal"])), vec![(1, 2, is_decimal("v"))]),
        summing(
            "the whole annotation is shown",
            above(sum_of_v((1, 2), &["App", "User"])),
            vec![(1, 2, is_other("v", "App::User"))],
        ),
        summing(
            "repeats stay",
            both(above(sum_of_v((1, 2), &["A"])), above(sum_of_v((1, 2), &["A"]))),
            vec![(1, 2, is_other("v", "A")), (1, 2, is_other("v", "A"))],
        ),
        summing(
            "a sum in an argument is looked at, its binders are not",
            predicate((0, 9), (2, 4), &NONE, "view", vec![argument("n", &NONE, sum_of_v((1, 2), &["A"]))]),
            vec![],
        ),
        summing(
            "an argument's sum over a binder that is declared elsewhere",
            exists(
                (0, 9),
                named("v", &["B"]),
                predicate(
                    (0, 9),
                    (2, 4),
                    &NONE,
                    "view",
                    vec![argument("n", &NONE, arith(integer(), sum_of_v((1, 2), &["A"])))],
                ),
            ),
            vec![(1, 2, is_other("v", "B"))],
        ),
        summing(
            "an unknown summand passes",
            above(sum((1, 2), slot(Some("w"), 0), vec![named("v", &["A"])], call())),
            vec![],
        ),
        summing("a reference passes", above(sum((1, 2), slot(None, 2), vec![named("v", &["A"])], call())), vec![]),
        summing(
            "a body is entered after the comparison's own terms",
            comparison(
                (0, 9),
                LT,
                sum(
                    (1, 2),
                    slot(Some("v"), 0),
                    vec![named("v", &["A"])],
                    above(sum((3, 4), slot(Some("v"), 0), vec![], call())),
                ),
                sum((5, 6), slot(Some("v"), 0), vec![], call()),
            ),
            vec![(1, 2, is_other("v", "A")), (5, 6, is_other("v", "A")), (3, 4, is_other("v", "A"))],
        ),
    ]
}

// ─── Lookup ───

fn looking(shows: &'static str, targets: Piece, path: Piece, case: u8, strings: Vec<&'static str>) -> Looked {
    Looked { shows, schema: shop(long()), targets, path, case, strings }
}

pub fn looked() -> Vec<Looked> {
    let chat = || on(&[("App", "view"), ("App", "chat"), ("", "gone")]);
    vec![
        looking("a declared attribute", chat(), path(0, &["age"], 0), 0, vec!["int"]),
        looking("types are rendered with their tag's mark", chat(), path(1, &["owner"], 0), 0, vec!["entity:User"]),
        looking("through a record", chat(), path(0, &["home", "zip"], 0), 0, vec!["string"]),
        looking("missing on one of two", chat(), path(0, &["tags"], 1), 1, vec!["tags", "App::Bot"]),
        looking("missing on both", chat(), path(0, &["gone"], 1), 1, vec!["gone", "App::Bot", "App::User"]),
        looking("they fail in other ways: the first one's is said", chat(), path(0, &["age", "x"], 1), 2, vec!["x"]),
        looking("two types", chat(), path(0, &["age"], 1), 3, vec!["int", "string"]),
        looking(
            "the id is declared on one, a string on the other",
            chat(),
            path(0, &["id"], 1),
            3,
            vec!["int", "string"],
        ),
        looking("an undeclared target", chat(), path(0, &["age"], 2), 4, vec![]),
        looking("an empty path", chat(), path(0, &NONE, 0), 4, vec![]),
        looking("nobody", on(&[("", "idle")]), path(0, &["age"], 0), 4, vec![]),
        looking(
            "an action that admits no environment is looked at all the same",
            narrowed(byte(0), narrowing(2, "Other"), &[("App", "view")]),
            path(0, &["age"], 0),
            0,
            vec!["int"],
        ),
        looking(
            "the asked scope's narrowing applies",
            narrowed(narrowing(2, "Other"), byte(0), &[("App", "view")]),
            path(0, &["age"], 0),
            4,
            vec![],
        ),
        looking(
            "narrowed by membership",
            narrowed(narrowing(4, "App::Group"), byte(0), &[("App", "chat")]),
            path(0, &["age"], 0),
            0,
            vec!["int"],
        ),
    ]
}
