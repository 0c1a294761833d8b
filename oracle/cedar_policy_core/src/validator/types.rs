//! Cedar's types, as far as a schema record can say them.

use crate::ast::{EntityType, Name};
use std::collections::BTreeMap;
use std::sync::Arc;

/// Cedar tells `true`, `false` and `Bool` apart; a record does not.
#[derive(Debug, Clone, PartialEq, Eq)]
pub enum BoolType {
    AnyBool,
}

#[derive(Debug, Clone, PartialEq, Eq)]
pub enum Type {
    Never,
    Long,
    String,
    Bool(BoolType),
    ExtensionType { name: Name },
    Set { element_type: Option<Arc<Type>> },
    Record { attrs: Attributes, open: bool },
    Entity(EntityKind),
}

#[derive(Debug, Clone, PartialEq, Eq)]
pub enum EntityKind {
    Entity(EntityLUB),
    AnyEntity,
}

/// One entity type, or several (which ones, a record does not say).
#[derive(Debug, Clone, PartialEq, Eq)]
pub struct EntityLUB {
    single: Option<EntityType>,
}

impl EntityLUB {
    pub fn one(name: EntityType) -> EntityLUB {
        EntityLUB { single: Some(name) }
    }

    pub fn several() -> EntityLUB {
        EntityLUB { single: None }
    }

    pub fn get_single_entity(&self) -> Option<&EntityType> {
        self.single.as_ref()
    }
}

#[derive(Debug, Clone, PartialEq, Eq)]
pub struct AttributeType {
    pub attr_type: Arc<Type>,
}

/// Attributes by name.
#[derive(Debug, Clone, PartialEq, Eq, Default)]
pub struct Attributes {
    by_name: BTreeMap<String, AttributeType>,
}

impl Attributes {
    pub fn new(entries: Vec<(String, Type)>) -> Attributes {
        let by_name = entries.into_iter().map(|(n, t)| (n, AttributeType { attr_type: Arc::new(t) })).collect();
        Attributes { by_name }
    }

    pub fn get_attr(&self, name: &str) -> Option<&AttributeType> {
        self.by_name.get(name)
    }

    pub fn iter(&self) -> impl Iterator<Item = (&String, &AttributeType)> {
        self.by_name.iter()
    }
}
