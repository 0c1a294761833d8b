//! The parts of a tree, one after the other, so that a test can damage one of them.

use dogwood_check::*;

/// A part that a rule of the format is about. Levels are those of the node itself.
pub enum Part<'t> {
    Text(Class, &'t mut String),
    /// Strings in any order.
    Texts(&'t mut Vec<String>),
    /// Path names of which each stands once.
    Names(&'t mut Vec<String>),
    /// The segments of an annotation, at least one.
    Segments(&'t mut Vec<String>),
    /// A target's namespace.
    Namespace(&'t mut Option<String>),
    Attributes(&'t mut Vec<Attribute>),
    EntityTypes(&'t mut Vec<EntityType>),
    Actions(&'t mut Vec<Action>),
    Arguments(&'t mut Vec<Argument>),
    Binders(&'t mut Vec<Binder>),
    Elements(&'t mut Vec<Term>),
    Targets(&'t mut Vec<Target>),
    Type(u8, &'t mut Type),
    Condition(u8, &'t mut Condition),
    Term(u8, &'t mut Term),
    /// How far back a condition looks, if the record says that.
    Window(&'t mut Option<Window>),
}

/// A tree whose parts can be visited.
pub trait Tree {
    fn visit(&mut self, each: &mut dyn FnMut(Part));
}

fn texts(class: Class, all: &mut Vec<String>, each: &mut dyn FnMut(Part)) {
    each(Part::Texts(all));
    all.iter_mut().for_each(|text| each(Part::Text(class, text)));
}

fn names(all: &mut Vec<String>, each: &mut dyn FnMut(Part)) {
    each(Part::Names(all));
    all.iter_mut().for_each(|name| each(Part::Text(Class::PathName, name)));
}

impl Tree for Schema {
    fn visit(&mut self, each: &mut dyn FnMut(Part)) {
        each(Part::EntityTypes(&mut self.entity_types));
        for entity_type in &mut self.entity_types {
            each(Part::Text(Class::PathName, &mut entity_type.name));
            names(&mut entity_type.ancestors, each);
            attributes(0, &mut entity_type.attributes, each);
        }
        each(Part::Actions(&mut self.actions));
        for action in &mut self.actions {
            each(Part::Text(Class::PathName, &mut action.type_name));
            each(Part::Text(Class::Plain, &mut action.id));
            names(&mut action.principals, each);
            names(&mut action.resources, each);
            ty(1, &mut action.context, each);
        }
    }
}

fn attributes(level: u8, all: &mut Vec<Attribute>, each: &mut dyn FnMut(Part)) {
    each(Part::Attributes(all));
    for attribute in all {
        each(Part::Text(Class::Plain, &mut attribute.name));
        ty(level + 1, &mut attribute.ty, each);
    }
}

fn ty(level: u8, it: &mut Type, each: &mut dyn FnMut(Part)) {
    each(Part::Type(level, it));
    match it {
        Type::Extension(name) | Type::Entity(name) => each(Part::Text(Class::PathName, name)),
        Type::Set(element) => ty(level + 1, element, each),
        Type::Record(all) => attributes(level, all, each),
        _ => {}
    }
}

impl Tree for Condition {
    fn visit(&mut self, each: &mut dyn FnMut(Part)) {
        condition(1, self, each);
    }
}

fn condition(level: u8, it: &mut Condition, each: &mut dyn FnMut(Part)) {
    each(Part::Condition(level, it));
    match &mut it.kind {
        ConditionKind::And(left, right) | ConditionKind::Or(left, right) => {
            condition(level + 1, left, each);
            condition(level + 1, right, each);
        }
        ConditionKind::Since(window, left, right) => {
            each(Part::Window(window));
            condition(level + 1, left, each);
            condition(level + 1, right, each);
        }
        ConditionKind::Not(inner) | ConditionKind::Refine(inner) => condition(level + 1, inner, each),
        ConditionKind::Formerly(window, body) | ConditionKind::Previous(window, body) => {
            each(Part::Window(window));
            condition(level + 1, body, each);
        }
        ConditionKind::Predicate(predicate) => {
            texts(Class::PathName, &mut predicate.namespaces, each);
            each(Part::Text(Class::Plain, &mut predicate.action));
            each(Part::Arguments(&mut predicate.arguments));
            for argument in &mut predicate.arguments {
                each(Part::Text(Class::Plain, &mut argument.name));
                texts(Class::Plain, &mut argument.field, each);
                term(level + 1, &mut argument.value, each);
            }
        }
        ConditionKind::Comparison(_, left, right) => {
            term(level + 1, left, each);
            term(level + 1, right, each);
        }
        ConditionKind::Exists(it, body) => {
            binder(it, each);
            condition(level + 1, body, each);
        }
        ConditionKind::Tp(it) => slot(it, each),
        ConditionKind::Call | ConditionKind::SigilRef => {}
    }
}

fn slot(slot: &mut Slot, each: &mut dyn FnMut(Part)) {
    if let Slot::Name(name) = slot {
        each(Part::Text(Class::Plain, name));
    }
}

fn binder(binder: &mut Binder, each: &mut dyn FnMut(Part)) {
    slot(&mut binder.slot, each);
    if let Annotation::Named(segments) = &mut binder.annotation {
        each(Part::Segments(segments));
        segments.iter_mut().for_each(|segment| each(Part::Text(Class::Identifier, segment)));
    }
}

fn binders(all: &mut Vec<Binder>, each: &mut dyn FnMut(Part)) {
    each(Part::Binders(all));
    all.iter_mut().for_each(|it| binder(it, each));
}

fn term(level: u8, it: &mut Term, each: &mut dyn FnMut(Part)) {
    each(Part::Term(level, it));
    match it {
        Term::Entity(name) => each(Part::Text(Class::PathName, name)),
        Term::ContextField(path) | Term::ScopeField(path) => texts(Class::Plain, path, each),
        Term::Var(name) => each(Part::Text(Class::Plain, name)),
        Term::Array(elements) => {
            each(Part::Elements(elements));
            elements.iter_mut().for_each(|element| term(level + 1, element, each));
        }
        Term::Aggregate(aggregate) => match &mut aggregate.kind {
            AggregateKind::Sum(summand, all, body) => {
                slot(summand, each);
                binders(all, each);
                condition(level + 1, body, each);
            }
            AggregateKind::Count(all, body) => {
                binders(all, each);
                condition(level + 1, body, each);
            }
            AggregateKind::Call => {}
        },
        Term::Value(Value::Entity { type_name, id }) => {
            each(Part::Text(Class::PathName, type_name));
            each(Part::Text(Class::Plain, id));
        }
        Term::Value(Value::String(text)) => each(Part::Text(Class::Plain, text)),
        Term::Arith(left, right) | Term::Computed(_, left, right) => {
            term(level + 1, left, each);
            term(level + 1, right, each);
        }
        _ => {}
    }
}

impl Tree for Targets {
    fn visit(&mut self, each: &mut dyn FnMut(Part)) {
        for narrowing in [&mut self.principal, &mut self.resource] {
            if let Narrowing::IsType(name) | Narrowing::Uid(name) | Narrowing::UidIn(name) = narrowing {
                each(Part::Text(Class::PathName, name));
            }
        }
        each(Part::Targets(&mut self.list));
        for target in &mut self.list {
            each(Part::Namespace(&mut target.namespace));
            each(Part::Text(Class::Plain, &mut target.id));
        }
    }
}

impl Tree for Path {
    fn visit(&mut self, each: &mut dyn FnMut(Part)) {
        texts(Class::Plain, &mut self.segments, each);
    }
}
