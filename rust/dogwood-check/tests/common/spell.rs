//! Records written as trees say, without any rule: so what `encode` refuses can be shown to the proved readers too. A
//! text or list that its count cannot hold has no such record.

use dogwood_check::*;

/// The bytes of a record so far, and the version that has room for what is in them.
pub struct Bytes(Vec<u8>, u8);

impl Bytes {
    fn begin(mark: &[u8; 3]) -> Bytes {
        Bytes([mark.as_slice(), &[0, 1]].concat(), 1)
    }

    /// Something that the versions from this one on have room for.
    fn needs(&mut self, version: u8) {
        self.1 = self.1.max(version);
    }

    fn byte(&mut self, byte: u8) {
        self.0.push(byte);
    }

    fn count(&mut self, count: usize) {
        self.byte(u8::try_from(count).expect("the count fits"));
    }

    fn count16(&mut self, count: usize) {
        self.0.extend(u16::try_from(count).expect("the count fits").to_be_bytes());
    }

    fn text(&mut self, text: &str) {
        self.count(text.len());
        self.0.extend(text.as_bytes());
    }

    fn texts(&mut self, texts: &[String]) {
        self.count(texts.len());
        texts.iter().for_each(|text| self.text(text));
    }

    fn names(&mut self, names: &[String]) {
        let mut names = names.to_vec();
        names.sort();
        self.texts(&names);
    }

    fn span(&mut self, span: Span) {
        self.0.extend([span.start.to_be_bytes(), span.end.to_be_bytes()].concat());
    }
}

pub fn schema(schema: &Schema) -> Vec<u8> {
    let mut out = Bytes::begin(b"DWS");
    let mut entity_types = schema.entity_types.clone();
    entity_types.sort_by_key(|entity_type| entity_type.name.clone());
    out.count16(entity_types.len());
    for entity_type in &entity_types {
        out.text(&entity_type.name);
        out.names(&entity_type.ancestors);
        attributes(&mut out, &entity_type.attributes);
    }
    let mut actions = schema.actions.clone();
    actions.sort_by_key(|action| (action.type_name.clone(), action.id.clone()));
    out.count16(actions.len());
    for action in &actions {
        out.text(&action.type_name);
        out.text(&action.id);
        out.names(&action.principals);
        out.names(&action.resources);
        ty(&mut out, &action.context);
    }
    out.0
}

fn attributes(out: &mut Bytes, all: &[Attribute]) {
    let mut all = all.to_vec();
    all.sort_by_key(|attribute| attribute.name.clone());
    out.count(all.len());
    for attribute in &all {
        out.text(&attribute.name);
        ty(out, &attribute.ty);
    }
}

fn ty(out: &mut Bytes, ty: &Type) {
    match ty {
        Type::Long => out.byte(0),
        Type::String => out.byte(1),
        Type::Bool => out.byte(2),
        Type::Extension(name) => {
            out.byte(3);
            out.text(name);
        }
        Type::Set(element) => {
            out.byte(4);
            self::ty(out, element);
        }
        Type::AnySet => out.byte(5),
        Type::Record(all) => {
            out.byte(6);
            attributes(out, all);
        }
        Type::Entity(name) => {
            out.byte(7);
            out.text(name);
        }
        Type::SeveralEntities => out.byte(8),
        Type::AnyEntity => out.byte(9),
        Type::Never => out.byte(10),
    }
}

pub fn condition_record(root: &Condition) -> Vec<u8> {
    let mut out = Bytes::begin(b"DWC");
    condition(&mut out, root);
    out.0[4] = out.1;
    out.0
}

fn condition(out: &mut Bytes, it: &Condition) {
    let mut head = |kind: u8| {
        out.byte(kind);
        out.span(it.span);
    };
    match &it.kind {
        ConditionKind::And(left, right) => {
            head(1);
            condition(out, left);
            condition(out, right);
        }
        ConditionKind::Or(left, right) => {
            head(2);
            condition(out, left);
            condition(out, right);
        }
        ConditionKind::Not(inner) => {
            head(3);
            condition(out, inner);
        }
        ConditionKind::Formerly(within, inner) => {
            head(4);
            window(out, within);
            condition(out, inner);
        }
        ConditionKind::Previous(within, inner) => {
            head(5);
            window(out, within);
            condition(out, inner);
        }
        ConditionKind::Since(within, left, right) => {
            head(6);
            window(out, within);
            condition(out, left);
            condition(out, right);
        }
        ConditionKind::Predicate(predicate) => {
            head(7);
            out.span(predicate.span);
            out.texts(&predicate.namespaces);
            out.text(&predicate.action);
            out.count(predicate.arguments.len());
            for argument in &predicate.arguments {
                out.text(&argument.name);
                out.texts(&argument.field);
                term(out, &argument.value);
            }
        }
        ConditionKind::Comparison(operator, left, right) => {
            head(8);
            out.byte(match operator {
                Operator::Le => 0,
                Operator::Lt => 1,
                Operator::Ge => 2,
                Operator::Gt => 3,
                Operator::Eq => 4,
                Operator::NotEq => 5,
            });
            term(out, left);
            term(out, right);
        }
        ConditionKind::Exists(it, body) => {
            head(9);
            binder(out, it);
            condition(out, body);
        }
        ConditionKind::Tp(it) => {
            head(10);
            slot(out, it);
        }
        ConditionKind::Call => head(11),
        ConditionKind::SigilRef => head(12),
        ConditionKind::Refine(inner) => {
            head(13);
            condition(out, inner);
        }
    }
}

fn window(out: &mut Bytes, window: &Option<Window>) {
    if window.is_some() {
        out.needs(2);
    }
    match window {
        None => {}
        Some(Window::ParamRef) => out.byte(1),
        Some(Window::Within { amount, unit }) => {
            out.byte(0);
            out.byte(match unit {
                TimeUnit::Seconds => 0,
                TimeUnit::Minutes => 1,
                TimeUnit::Hours => 2,
                TimeUnit::Days => 3,
            });
            out.0.extend(amount.to_be_bytes());
        }
    }
}

fn slot(out: &mut Bytes, slot: &Slot) {
    match slot {
        Slot::Name(name) => {
            out.byte(0);
            out.text(name);
        }
        Slot::ParamRef => out.byte(1),
        Slot::BinderRef => out.byte(2),
    }
}

fn binder(out: &mut Bytes, binder: &Binder) {
    slot(out, &binder.slot);
    match &binder.annotation {
        Annotation::Timepoint => out.byte(0),
        Annotation::Named(segments) => out.texts(segments),
    }
}

fn term(out: &mut Bytes, it: &Term) {
    match it {
        Term::Entity(name) => {
            out.byte(1);
            out.text(name);
        }
        Term::Integer => out.byte(2),
        Term::Decimal => out.byte(3),
        Term::String => out.byte(4),
        Term::Bool => out.byte(5),
        Term::ContextField(path) => {
            out.byte(6);
            out.texts(path);
        }
        Term::ScopeField(path) => {
            out.byte(7);
            out.texts(path);
        }
        Term::Var(name) => {
            out.byte(8);
            out.text(name);
        }
        Term::Wildcard => out.byte(9),
        Term::Array(elements) => {
            out.byte(10);
            out.count(elements.len());
            elements.iter().for_each(|element| term(out, element));
        }
        Term::Aggregate(it) => {
            out.byte(11);
            aggregate(out, it);
        }
        Term::Arith(left, right) => {
            out.byte(12);
            term(out, left);
            term(out, right);
        }
        Term::ParamRef => out.byte(13),
        Term::BinderRef => out.byte(14),
        Term::Value(it) => {
            out.needs(3);
            value(out, it);
        }
        Term::Computed(op, left, right) => {
            out.needs(3);
            out.byte(12);
            out.byte(match op {
                ArithOp::Add => 0,
                ArithOp::Sub => 1,
                ArithOp::Mul => 2,
            });
            term(out, left);
            term(out, right);
        }
    }
}

fn value(out: &mut Bytes, value: &Value) {
    match value {
        Value::Entity { type_name, id } => {
            out.byte(1);
            out.text(type_name);
            out.text(id);
        }
        Value::Integer(number) => {
            out.byte(2);
            out.0.extend(number.to_be_bytes());
        }
        Value::Decimal(Decimal(number)) => {
            let magnitude = number.unsigned_abs();
            let sign = if *number < 0 { "-" } else { "" };
            out.byte(3);
            out.text(&format!("{sign}{}.{:04}", magnitude / 10_000, magnitude % 10_000));
        }
        Value::String(text) => {
            out.byte(4);
            out.text(text);
        }
        Value::Bool(truth) => {
            out.byte(5);
            out.byte(if *truth { 1 } else { 0 });
        }
    }
}

fn aggregate(out: &mut Bytes, it: &Aggregate) {
    match &it.kind {
        AggregateKind::Sum(summand, binders, body) => {
            out.byte(1);
            out.span(it.span);
            slot(out, summand);
            domain(out, binders, body);
        }
        AggregateKind::Count(binders, body) => {
            out.byte(2);
            out.span(it.span);
            domain(out, binders, body);
        }
        AggregateKind::Call => {
            out.byte(3);
            out.span(it.span);
        }
    }
}

fn domain(out: &mut Bytes, binders: &[Binder], body: &Condition) {
    out.count(binders.len());
    binders.iter().for_each(|it| binder(out, it));
    condition(out, body);
}

pub fn targets(targets: &Targets) -> Vec<u8> {
    let mut out = Bytes::begin(b"DWT");
    narrowing(&mut out, &targets.principal);
    narrowing(&mut out, &targets.resource);
    out.count(targets.list.len());
    for target in &targets.list {
        out.text(target.namespace.as_deref().unwrap_or(""));
        out.text(&target.id);
    }
    out.0
}

fn narrowing(out: &mut Bytes, narrowing: &Narrowing) {
    match narrowing {
        Narrowing::None => out.byte(0),
        Narrowing::Any => out.byte(1),
        Narrowing::IsType(name) => {
            out.byte(2);
            out.text(name);
        }
        Narrowing::Uid(name) => {
            out.byte(3);
            out.text(name);
        }
        Narrowing::UidIn(name) => {
            out.byte(4);
            out.text(name);
        }
    }
}

pub fn path(path: &Path) -> Vec<u8> {
    let mut out = Bytes::begin(b"DWP");
    out.byte(match path.scope {
        Scope::Principal => 0,
        Scope::Resource => 1,
    });
    out.texts(&path.segments);
    out.byte(path.position);
    out.0
}
