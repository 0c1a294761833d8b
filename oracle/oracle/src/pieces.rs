//! Records as trees of fields, from which the bytes are written. A generator damages a record at its fields, and a
//! failing input is made smaller by dropping pieces, so both need to know where the pieces stand.

/// What a node of the tree is: a smaller node of the same sort may stand in its place.
#[derive(Debug, Clone, Copy, PartialEq, Eq)]
pub enum Sort {
    Condition,
    Term,
    Type,
    Annotation,
}

impl Sort {
    /// The smallest node of this sort, the same in each version of a record.
    fn leaf(self) -> Piece {
        match self {
            Sort::Condition => condition(11, (0, 0), vec![]),
            Sort::Term => wildcard(),
            Sort::Type => ty(0, vec![]),
            Sort::Annotation => annotation::<&str>(&[]),
        }
    }
}

#[derive(Debug, Clone, PartialEq, Eq)]
pub enum Piece {
    /// One field, as document 01 counts fields.
    Field(Vec<u8>),
    /// Pieces one after the other.
    Seq(Vec<Piece>),
    /// A count of this many bytes, then the items.
    List(usize, Vec<Piece>),
    /// A condition, term, type or annotation.
    Node(Sort, Vec<Piece>),
}

impl Piece {
    pub fn bytes(&self) -> Vec<u8> {
        let mut out = Vec::new();
        for field in self.fields() {
            out.extend(field);
        }
        out
    }

    /// The record's fields from left to right.
    pub fn fields(&self) -> Vec<Vec<u8>> {
        let mut out = Vec::new();
        self.push_fields(&mut out);
        out
    }

    fn push_fields(&self, out: &mut Vec<Vec<u8>>) {
        match self {
            Piece::Field(bytes) => out.push(bytes.clone()),
            Piece::Seq(parts) | Piece::Node(_, parts) => parts.iter().for_each(|p| p.push_fields(out)),
            Piece::List(width, items) => {
                let count = (items.len() as u64).to_be_bytes();
                out.push(count[8 - width..].to_vec());
                items.iter().for_each(|p| p.push_fields(out));
            }
        }
    }

    /// Every tree that is this one with one thing made smaller: an item dropped, or a node replaced by one that it
    /// holds, or by the smallest of its sort.
    pub fn smaller(&self) -> Vec<Piece> {
        match self {
            Piece::Field(bytes) => smaller_field(bytes),
            Piece::Seq(parts) => each_part(parts).map(Piece::Seq).collect(),
            Piece::List(width, items) => {
                let dropped = (0..items.len()).map(|i| [&items[..i], &items[i + 1..]].concat());
                dropped.chain(each_part(items)).map(|items| Piece::List(*width, items)).collect()
            }
            Piece::Node(sort, parts) => self.smaller_node(*sort, parts),
        }
    }

    fn smaller_node(&self, sort: Sort, parts: &[Piece]) -> Vec<Piece> {
        let mut out = Vec::new();
        if *self != sort.leaf() {
            out.push(sort.leaf());
        }
        parts.iter().for_each(|p| p.push_nodes(sort, &mut out));
        out.extend(each_part(parts).map(|parts| Piece::Node(sort, parts)));
        out
    }

    /// Changes the parts of each node of a sort, from the outside in.
    pub fn each_node(&mut self, sort: Sort, change: &mut impl FnMut(&mut Vec<Piece>)) {
        match self {
            Piece::Node(own, parts) if *own == sort => change(parts),
            _ => {}
        }
        match self {
            Piece::Field(_) => {}
            Piece::Seq(parts) | Piece::List(_, parts) | Piece::Node(_, parts) => {
                parts.iter_mut().for_each(|part| part.each_node(sort, change))
            }
        }
    }

    /// The outermost nodes of a sort within this piece.
    fn push_nodes(&self, sort: Sort, out: &mut Vec<Piece>) {
        match self {
            Piece::Field(_) => {}
            Piece::Node(s, _) if *s == sort => out.push(self.clone()),
            Piece::Seq(parts) | Piece::Node(_, parts) | Piece::List(_, parts) => {
                parts.iter().for_each(|p| p.push_nodes(sort, out))
            }
        }
    }
}

/// The same parts with one of them made smaller, in every way.
fn each_part(parts: &[Piece]) -> impl Iterator<Item = Vec<Piece>> + '_ {
    parts.iter().enumerate().flat_map(move |(i, part)| {
        part.smaller().into_iter().map(move |smaller| {
            let mut copy = parts.to_vec();
            copy[i] = smaller;
            copy
        })
    })
}

/// A span's number becomes 0; nothing else about a field is made smaller, since a name may be shared.
fn smaller_field(bytes: &[u8]) -> Vec<Piece> {
    if bytes.len() == 4 && bytes.iter().any(|b| *b != 0) && bytes[0] == 0 {
        return vec![Piece::Field(vec![0; 4])];
    }
    Vec::new()
}

// ─── Fields ───

pub fn byte(b: u8) -> Piece {
    Piece::Field(vec![b])
}

/// A string with its length byte.
pub fn text(s: &str) -> Piece {
    let length = u8::try_from(s.len()).expect("a string of a record has at most 255 bytes");
    Piece::Field([&[length], s.as_bytes()].concat())
}

/// A signed number of 64 bits.
pub fn number64(number: i64) -> Piece {
    Piece::Field(number.to_be_bytes().to_vec())
}

pub fn texts<S: AsRef<str>>(all: &[S]) -> Piece {
    Piece::List(1, all.iter().map(|s| text(s.as_ref())).collect())
}

fn heading(mark: &[u8; 3]) -> Vec<Piece> {
    vec![Piece::Field(mark.to_vec()), Piece::Field(vec![0, 1])]
}

fn record(mark: &[u8; 3], parts: Vec<Piece>) -> Piece {
    Piece::Seq([heading(mark), parts].concat())
}

// ─── Record 1 ───

pub fn schema(entity_types: Vec<Piece>, actions: Vec<Piece>) -> Piece {
    record(b"DWS", vec![Piece::List(2, entity_types), Piece::List(2, actions)])
}

pub fn entity_type<S: AsRef<str>>(name: &str, ancestors: &[S], attributes: Piece) -> Piece {
    Piece::Seq(vec![text(name), texts(ancestors), attributes])
}

pub fn action<S: AsRef<str>>(type_name: &str, id: &str, principals: &[S], resources: &[S], context: Piece) -> Piece {
    Piece::Seq(vec![text(type_name), text(id), texts(principals), texts(resources), context])
}

pub fn attributes(entries: Vec<(&str, Piece)>) -> Piece {
    Piece::List(1, entries.into_iter().map(|(name, ty)| Piece::Seq(vec![text(name), ty])).collect())
}

/// A schema type: its byte and what follows it.
pub fn ty(kind: u8, parts: Vec<Piece>) -> Piece {
    Piece::Node(Sort::Type, [vec![byte(kind)], parts].concat())
}

pub fn record_type(entries: Vec<(&str, Piece)>) -> Piece {
    ty(6, vec![attributes(entries)])
}

pub fn set_type(element: Piece) -> Piece {
    ty(4, vec![element])
}

// ─── Record 2 ───

pub type Span = (u32, u32);

fn span(s: Span) -> Vec<Piece> {
    vec![Piece::Field(s.0.to_be_bytes().to_vec()), Piece::Field(s.1.to_be_bytes().to_vec())]
}

pub fn condition_record(root: Piece) -> Piece {
    record(b"DWC", vec![root])
}

/// A condition: its kind, its span, and what follows.
pub fn condition(kind: u8, at: Span, parts: Vec<Piece>) -> Piece {
    Piece::Node(Sort::Condition, [vec![byte(kind)], span(at), parts].concat())
}

/// The window behind a span in version 2: so many of a unit.
pub fn window(unit: u8, amount: i64) -> Piece {
    Piece::Seq(vec![byte(0), byte(unit), number64(amount)])
}

/// The window that is a macro's parameter.
pub fn parameter_window() -> Piece {
    byte(1)
}

/// A record of version 2.
pub fn windowed_record(root: Piece) -> Piece {
    versioned(2, condition_record(root))
}

/// A record of version 3.
pub fn valued_record(root: Piece) -> Piece {
    versioned(3, condition_record(root))
}

/// The same record with another version in its heading.
fn versioned(version: u8, mut record: Piece) -> Piece {
    if let Piece::Seq(parts) = &mut record {
        parts[1] = Piece::Field(vec![0, version]);
    }
    record
}

/// The same condition record with another root, made of its own.
pub fn with_root(mut record: Piece, change: impl FnOnce(Piece) -> Piece) -> Piece {
    if let Piece::Seq(parts) = &mut record {
        let root = parts.pop().expect("a record has a root");
        parts.push(change(root));
    }
    record
}

/// A record of version 1 with a window wherever one stands in version 2.
pub fn with_windows(record: &Piece, mut window: impl FnMut() -> Piece) -> Piece {
    let mut windowed = versioned(2, record.clone());
    windowed.each_node(Sort::Condition, &mut |parts| {
        if matches!(kind_of(parts), 4..=6) {
            parts.insert(3, window());
        }
    });
    windowed
}

/// A record of version 2 with a value wherever one stands in version 3; `value` makes that of a term of this kind.
pub fn with_values(record: &Piece, mut value: impl FnMut(u8) -> Piece) -> Piece {
    let mut valued = versioned(3, record.clone());
    valued.each_node(Sort::Term, &mut |parts| match kind_of(parts) {
        kind @ 1..=5 => parts.push(value(kind)),
        12 => parts.insert(1, value(12)),
        _ => {}
    });
    valued
}

/// The kind of the condition, term or type with these parts.
pub fn kind_of(parts: &[Piece]) -> u8 {
    match &parts[0] {
        Piece::Field(bytes) => bytes[0],
        _ => panic!("a node begins with its kind"),
    }
}

pub fn comparison(at: Span, operator: u8, left: Piece, right: Piece) -> Piece {
    condition(8, at, vec![byte(operator), left, right])
}

pub fn predicate<S: AsRef<str>>(at: Span, own: Span, namespaces: &[S], action: &str, arguments: Vec<Piece>) -> Piece {
    let parts = [span(own), vec![texts(namespaces), text(action), Piece::List(1, arguments)]].concat();
    condition(7, at, parts)
}

pub fn argument<S: AsRef<str>>(name: &str, path: &[S], value: Piece) -> Piece {
    Piece::Seq(vec![text(name), texts(path), value])
}

/// A slot: a name, or one of the two references.
pub fn slot(name: Option<&str>, reference: u8) -> Piece {
    match name {
        Some(name) => Piece::Seq(vec![byte(0), text(name)]),
        None => byte(reference),
    }
}

/// The segments of a declared type; none of them is `Timepoint`.
pub fn annotation<S: AsRef<str>>(segments: &[S]) -> Piece {
    Piece::Node(Sort::Annotation, vec![texts(segments)])
}

pub fn binder<S: AsRef<str>>(slot: Piece, segments: &[S]) -> Piece {
    Piece::Seq(vec![slot, annotation(segments)])
}

/// A binder with a name.
pub fn named<S: AsRef<str>>(name: &str, annotation: &[S]) -> Piece {
    binder(slot(Some(name), 0), annotation)
}

pub fn exists(at: Span, binder: Piece, body: Piece) -> Piece {
    condition(9, at, vec![binder, body])
}

// ─── Terms ───

pub fn term(kind: u8, parts: Vec<Piece>) -> Piece {
    Piece::Node(Sort::Term, [vec![byte(kind)], parts].concat())
}

pub fn integer() -> Piece {
    term(2, vec![])
}

pub fn entity(name: &str) -> Piece {
    term(1, vec![text(name)])
}

pub fn var(name: &str) -> Piece {
    term(8, vec![text(name)])
}

pub fn wildcard() -> Piece {
    term(9, vec![])
}

pub fn context_field<S: AsRef<str>>(path: &[S]) -> Piece {
    term(6, vec![texts(path)])
}

pub fn scope_field<S: AsRef<str>>(path: &[S]) -> Piece {
    term(7, vec![texts(path)])
}

pub fn array(elements: Vec<Piece>) -> Piece {
    term(10, vec![Piece::List(1, elements)])
}

pub fn arith(left: Piece, right: Piece) -> Piece {
    term(12, vec![left, right])
}

pub fn sum(at: Span, summand: Piece, binders: Vec<Piece>, body: Piece) -> Piece {
    term(11, [vec![byte(1)], span(at), vec![summand, Piece::List(1, binders), body]].concat())
}

pub fn count(at: Span, binders: Vec<Piece>, body: Piece) -> Piece {
    term(11, [vec![byte(2)], span(at), vec![Piece::List(1, binders), body]].concat())
}

pub fn aggregate_call(at: Span) -> Piece {
    term(11, [vec![byte(3)], span(at)].concat())
}

// ─── Records 3 and 4 ───

/// A narrowing: its byte, and a name from 2 on.
pub fn narrowing(kind: u8, name: &str) -> Piece {
    match kind {
        0 | 1 => byte(kind),
        _ => Piece::Seq(vec![byte(kind), text(name)]),
    }
}

pub fn targets(principal: Piece, resource: Piece, all: Vec<Piece>) -> Piece {
    record(b"DWT", vec![principal, resource, Piece::List(1, all)])
}

pub fn target(namespace: &str, id: &str) -> Piece {
    Piece::Seq(vec![text(namespace), text(id)])
}

pub fn path<S: AsRef<str>>(scope: u8, segments: &[S], position: u8) -> Piece {
    record(b"DWP", vec![byte(scope), texts(segments), byte(position)])
}
