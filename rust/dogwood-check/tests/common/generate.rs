//! Random trees that keep every rule of the format.

use super::rng::Rng;
use dogwood_check::*;
use std::collections::BTreeSet;

const DEEPEST: u8 = MOST_LEVELS;

/// A source of trees. `left` bounds the nodes of one tree, `deep` is how likely a node has nodes below it.
pub struct Trees {
    pub rng: Rng,
    left: usize,
    deep: usize,
    /// The version of the record: from 2 on the conditions that look back have windows, from 3 on terms have values.
    version: u8,
}

impl Trees {
    pub fn new(seed: u64) -> Trees {
        Trees { rng: Rng::new(seed), left: 0, deep: 0, version: 1 }
    }

    fn begin(&mut self) {
        self.left = 1 + self.rng.below(120);
        self.deep = 1 + self.rng.below(40);
        self.version = *self.rng.pick(&[1, 2, 3]);
    }

    /// Whether the node at this level may have others below it.
    fn goes_on(&mut self, level: u8) -> bool {
        self.left = self.left.saturating_sub(1);
        self.left > 0 && level < DEEPEST && !self.rng.once_in(1 + self.deep)
    }

    // ─── Texts ───

    fn identifier(&mut self) -> String {
        const FIRST: &[u8] = b"abzAZ_";
        const LATER: &[u8] = b"abzAZ_059";
        let length = if self.rng.once_in(200) { 255 } else { 1 + self.rng.below(6) };
        let first = char::from(*self.rng.pick(FIRST));
        std::iter::once(first).chain((1..length).map(|_| char::from(*self.rng.pick(LATER)))).collect()
    }

    fn path_name(&mut self) -> String {
        let parts: Vec<String> = (0..1 + self.rng.below(3)).map(|_| self.identifier()).collect();
        let joined = parts.join("::");
        if joined.len() > MOST_TEXT {
            return parts[0].clone();
        }
        joined
    }

    fn plain(&mut self) -> String {
        const BYTES: &[u8] = b"ab.:z AZ_059~!#$%&()*+,-/;<=>?@[]^`{|}";
        let length = if self.rng.once_in(200) { 255 } else { self.rng.below(8) };
        (0..length).map(|_| char::from(*self.rng.pick(BYTES))).collect()
    }

    fn count(&mut self) -> usize {
        if self.rng.once_in(300) {
            return 255;
        }
        self.rng.below(4)
    }

    fn plains(&mut self) -> Vec<String> {
        (0..self.count()).map(|_| self.plain()).collect()
    }

    /// Different path names, in no order.
    fn names(&mut self) -> Vec<String> {
        let names: BTreeSet<String> = (0..self.count()).map(|_| self.path_name()).collect();
        self.shuffled(names.into_iter().collect())
    }

    fn shuffled<T>(&mut self, mut all: Vec<T>) -> Vec<T> {
        for last in (1..all.len()).rev() {
            all.swap(last, self.rng.below(last + 1));
        }
        all
    }

    fn span(&mut self) -> Span {
        Span { start: self.rng.number32(), end: self.rng.number32() }
    }

    // ─── Record 1 ───

    pub fn schema(&mut self) -> Schema {
        self.begin();
        let entity_types = self.names().into_iter().map(|name| self.entity_type(name)).collect();
        let ids: BTreeSet<(String, String)> = (0..self.count()).map(|_| (self.path_name(), self.plain())).collect();
        let actions = self.shuffled(ids.into_iter().collect());
        let actions = actions.into_iter().map(|(type_name, id)| self.action(type_name, id)).collect();
        Schema { entity_types, actions }
    }

    fn entity_type(&mut self, name: String) -> EntityType {
        EntityType { name, ancestors: self.names(), attributes: self.attributes(0) }
    }

    fn action(&mut self, type_name: String, id: String) -> Action {
        Action { type_name, id, principals: self.names(), resources: self.names(), context: self.ty(1) }
    }

    /// The attributes of what stands at this level.
    fn attributes(&mut self, level: u8) -> Vec<Attribute> {
        if level == DEEPEST {
            return Vec::new();
        }
        let names: BTreeSet<String> = (0..self.count()).map(|_| self.plain()).collect();
        let names = self.shuffled(names.into_iter().collect());
        names.into_iter().map(|name| Attribute { name, ty: self.ty(level + 1) }).collect()
    }

    fn ty(&mut self, level: u8) -> Type {
        if self.goes_on(level) {
            return match self.rng.below(4) {
                0 => Type::Record(self.attributes(level)),
                _ => Type::set(self.ty(level + 1)),
            };
        }
        match self.rng.below(10) {
            0 => Type::Long,
            1 => Type::String,
            2 => Type::Bool,
            3 => Type::Extension(self.path_name()),
            4 => Type::AnySet,
            5 => Type::Record(Vec::new()),
            6 => Type::Entity(self.path_name()),
            7 => Type::SeveralEntities,
            8 => Type::AnyEntity,
            _ => Type::Never,
        }
    }

    // ─── Record 2 ───

    pub fn condition_record(&mut self) -> Condition {
        self.begin();
        self.condition(1)
    }

    fn boxed(&mut self, level: u8) -> Box<Condition> {
        Box::new(self.condition(level))
    }

    fn condition(&mut self, level: u8) -> Condition {
        let span = self.span();
        let kind = if self.goes_on(level) { self.inner_condition(level) } else { self.leaf_condition() };
        Condition { span, kind }
    }

    fn leaf_condition(&mut self) -> ConditionKind {
        match self.rng.below(4) {
            0 => ConditionKind::Call,
            1 => ConditionKind::SigilRef,
            2 => ConditionKind::Tp(self.slot()),
            _ => ConditionKind::Predicate(self.predicate(DEEPEST)),
        }
    }

    fn inner_condition(&mut self, level: u8) -> ConditionKind {
        let below = level + 1;
        match self.rng.below(10) {
            0 => ConditionKind::And(self.boxed(below), self.boxed(below)),
            1 => ConditionKind::Or(self.boxed(below), self.boxed(below)),
            2 => ConditionKind::Not(self.boxed(below)),
            3 => ConditionKind::Formerly(self.window(), self.boxed(below)),
            4 => ConditionKind::Previous(self.window(), self.boxed(below)),
            5 => ConditionKind::Since(self.window(), self.boxed(below), self.boxed(below)),
            6 => ConditionKind::Refine(self.boxed(below)),
            7 => ConditionKind::Exists(self.binder(), self.boxed(below)),
            8 => ConditionKind::Predicate(self.predicate(level)),
            _ => {
                let operators = [Operator::Le, Operator::Lt, Operator::Ge, Operator::Gt, Operator::Eq, Operator::NotEq];
                let operator = *self.rng.pick(&operators);
                ConditionKind::Comparison(operator, self.term(below, false), self.term(below, false))
            }
        }
    }

    /// A window as long as a record holds it, often the longest of its unit; none in a record of version 1.
    fn window(&mut self) -> Option<Window> {
        if self.version < 2 {
            return None;
        }
        if self.rng.once_in(4) {
            return Some(Window::ParamRef);
        }
        let unit = *self.rng.pick(&TimeUnit::ALL);
        let most = i64::MAX / unit.seconds();
        let amount = match self.rng.below(3) {
            0 => most - self.rng.below(2) as i64,
            _ => self.rng.below(1_000) as i64,
        };
        Some(Window::Within { amount, unit })
    }

    /// The predicate of a condition at this level; at the deepest one it has no arguments.
    fn predicate(&mut self, level: u8) -> Predicate {
        let count = if level == DEEPEST { 0 } else { self.count() };
        Predicate {
            span: self.span(),
            namespaces: (0..self.count()).map(|_| self.path_name()).collect(),
            action: self.plain(),
            arguments: (0..count).map(|_| self.argument(level)).collect(),
        }
    }

    fn argument(&mut self, level: u8) -> Argument {
        Argument { name: self.plain(), field: self.plains(), value: self.term(level + 1, false) }
    }

    fn slot(&mut self) -> Slot {
        match self.rng.below(4) {
            0 => Slot::ParamRef,
            1 => Slot::BinderRef,
            _ => Slot::Name(self.plain()),
        }
    }

    fn binder(&mut self) -> Binder {
        let annotation = match self.rng.below(3) {
            0 => Annotation::Timepoint,
            _ => Annotation::Named((0..1 + self.rng.below(3)).map(|_| self.identifier()).collect()),
        };
        Binder { slot: self.slot(), annotation }
    }

    fn binders(&mut self) -> Vec<Binder> {
        (0..self.count()).map(|_| self.binder()).collect()
    }

    fn term(&mut self, level: u8, in_array: bool) -> Term {
        if self.goes_on(level) {
            return match self.rng.below(3) {
                0 => Term::Array((0..self.count()).map(|_| self.term(level + 1, true)).collect()),
                1 if !in_array => Term::Aggregate(Box::new(self.aggregate(level))),
                _ => self.arith(level + 1, in_array),
            };
        }
        match self.rng.below(12) {
            0..=4 if self.version == 3 => Term::Value(self.value()),
            0 => Term::Entity(self.path_name()),
            1 => Term::Integer,
            2 => Term::Decimal,
            3 => Term::String,
            4 => Term::Bool,
            5 => Term::ContextField(self.plains()),
            6 => Term::ScopeField(self.plains()),
            7 => Term::Var(self.plain()),
            8 => Term::Wildcard,
            9 => Term::Array(Vec::new()),
            10 => Term::ParamRef,
            _ => Term::BinderRef,
        }
    }

    /// An arithmetic of two terms at this level.
    fn arith(&mut self, level: u8, in_array: bool) -> Term {
        let (left, right) = (self.term(level, in_array), self.term(level, in_array));
        match self.version {
            3 => Term::computed(*self.rng.pick(&ArithOp::ALL), left, right),
            _ => Term::arith(left, right),
        }
    }

    fn value(&mut self) -> Value {
        match self.rng.below(5) {
            0 => Value::Entity { type_name: self.path_name(), id: self.plain() },
            1 => Value::Integer(self.number64()),
            2 => Value::Decimal(Decimal(self.number64())),
            3 => Value::String(self.plain()),
            _ => Value::Bool(self.rng.once_in(2)),
        }
    }

    /// A number of any length and sign, often one at an end.
    fn number64(&mut self) -> i64 {
        if self.rng.once_in(8) {
            return *self.rng.pick(&[0, -1, i64::MIN, i64::MAX]);
        }
        let bits = u64::from(self.rng.number32()) << 32 | u64::from(self.rng.number32());
        (bits as i64) >> self.rng.below(64)
    }

    fn aggregate(&mut self, level: u8) -> Aggregate {
        let span = self.span();
        let kind = match self.rng.below(5) {
            0 => AggregateKind::Call,
            1 | 2 => AggregateKind::Sum(self.slot(), self.binders(), self.condition(level + 1)),
            _ => AggregateKind::Count(self.binders(), self.condition(level + 1)),
        };
        Aggregate { span, kind }
    }

    // ─── Records 3 and 4 ───

    pub fn targets(&mut self) -> Targets {
        let list = (0..self.count()).map(|_| self.target()).collect();
        Targets { principal: self.narrowing(), resource: self.narrowing(), list }
    }

    fn narrowing(&mut self) -> Narrowing {
        match self.rng.below(5) {
            0 => Narrowing::None,
            1 => Narrowing::Any,
            2 => Narrowing::IsType(self.path_name()),
            3 => Narrowing::Uid(self.path_name()),
            _ => Narrowing::UidIn(self.path_name()),
        }
    }

    fn target(&mut self) -> Target {
        Target { namespace: self.rng.once_in(2).then(|| self.path_name()), id: self.plain() }
    }

    pub fn path(&mut self) -> Path {
        let scope = *self.rng.pick(&[Scope::Principal, Scope::Resource]);
        Path { scope, segments: self.plains(), position: self.rng.below(256) as u8 }
    }
}
