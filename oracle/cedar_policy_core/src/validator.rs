//! The schema as the validator sees it: entity types and actions, found by equal bytes.

pub mod types;

use crate::ast::{Eid, EntityType, EntityUID};
use std::collections::HashMap;
use std::sync::Arc;
use types::{AttributeType, Attributes, Type};

/// What an entity type is. The records declare standard ones only.
#[derive(Debug, Clone)]
pub enum ValidatorEntityTypeKind {
    Standard(()),
    Enum(Vec<Eid>),
}

/// A declared entity type.
#[derive(Debug, Clone)]
pub struct ValidatorEntityType {
    name: EntityType,
    ancestors: Vec<EntityType>,
    attributes: Attributes,
    pub kind: ValidatorEntityTypeKind,
}

impl ValidatorEntityType {
    pub fn new(name: EntityType, ancestors: Vec<EntityType>, attributes: Attributes) -> ValidatorEntityType {
        ValidatorEntityType { name, ancestors, attributes, kind: ValidatorEntityTypeKind::Standard(()) }
    }

    pub fn name(&self) -> &EntityType {
        &self.name
    }

    pub fn attr(&self, name: &str) -> Option<&AttributeType> {
        self.attributes.get_attr(name)
    }
}

/// A declared action.
#[derive(Debug, Clone)]
pub struct ValidatorActionId {
    name: EntityUID,
    principals: Vec<EntityType>,
    resources: Vec<EntityType>,
    context: Type,
}

impl ValidatorActionId {
    pub fn new(
        name: EntityUID,
        principals: Vec<EntityType>,
        resources: Vec<EntityType>,
        context: Type,
    ) -> ValidatorActionId {
        ValidatorActionId { name, principals, resources, context }
    }

    pub fn name(&self) -> &EntityUID {
        &self.name
    }

    pub fn context(&self) -> &Type {
        &self.context
    }

    pub fn applies_to_principals(&self) -> impl Iterator<Item = &EntityType> {
        self.principals.iter()
    }

    pub fn applies_to_resources(&self) -> impl Iterator<Item = &EntityType> {
        self.resources.iter()
    }
}

/// The entries of one schema record. A copy shares them, so that copying costs nothing in a measurement.
#[derive(Debug, Clone)]
pub struct ValidatorSchema {
    entries: Arc<Entries>,
}

#[derive(Debug)]
struct Entries {
    entity_types: HashMap<EntityType, ValidatorEntityType>,
    actions: HashMap<EntityUID, ValidatorActionId>,
}

impl ValidatorSchema {
    pub fn new(entity_types: Vec<ValidatorEntityType>, actions: Vec<ValidatorActionId>) -> ValidatorSchema {
        let entity_types = entity_types.into_iter().map(|e| (e.name.clone(), e)).collect();
        let actions = actions.into_iter().map(|a| (a.name.clone(), a)).collect();
        ValidatorSchema { entries: Arc::new(Entries { entity_types, actions }) }
    }

    pub fn get_action_id(&self, uid: &EntityUID) -> Option<&ValidatorActionId> {
        self.entries.actions.get(uid)
    }

    pub fn get_entity_type(&self, name: &EntityType) -> Option<&ValidatorEntityType> {
        self.entries.entity_types.get(name)
    }

    pub fn entity_types(&self) -> impl Iterator<Item = &ValidatorEntityType> {
        self.entries.entity_types.values()
    }

    /// The ancestors that the record lists; an undeclared type has none.
    pub fn ancestors<'a>(&'a self, name: &EntityType) -> Option<impl Iterator<Item = &'a EntityType>> {
        self.get_entity_type(name).map(|declared| declared.ancestors.iter())
    }
}
