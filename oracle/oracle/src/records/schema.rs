//! Record 1: entity types, then actions.

use super::fields::{Class, Fields};
use super::*;
use cedar_policy_core::ast::{Eid, EntityType, EntityUID, Name};
use cedar_policy_core::validator::types::{Attributes, BoolType, EntityKind, EntityLUB, Type};
use cedar_policy_core::validator::{ValidatorActionId, ValidatorEntityType, ValidatorSchema};
use std::sync::Arc;

pub fn read_schema(bytes: &[u8]) -> Result<ValidatorSchema, Refusal> {
    Ok(read(bytes)?.0)
}

/// The types that a schema names by a word; none where it is refused.
pub fn words_of_schema(bytes: &[u8]) -> Words {
    read(bytes).map_or(Words::default(), |(_, words)| words)
}

fn read(bytes: &[u8]) -> Result<(ValidatorSchema, Words), Refusal> {
    let mut fields = Fields::open(bytes, b"DWS", 1)?;
    let entity_types = read_entity_types(&mut fields)?;
    let actions = read_actions(&mut fields)?;
    let words = fields.close()?;
    Ok((ValidatorSchema::new(entity_types, actions), words))
}

fn read_entity_types(fields: &mut Fields) -> Result<Vec<ValidatorEntityType>, Refusal> {
    let count = fields.number16()?;
    let mut all = Vec::new();
    let mut before: Option<String> = None;
    for _ in 0..count {
        let name = fields.string_above(Class::PathName, before.as_ref())?;
        let ancestors = entity_names(fields.ascending_path_names()?);
        let attributes = read_attributes(fields, 1)?;
        all.push(ValidatorEntityType::new(EntityType::new(name.clone()), ancestors, attributes));
        before = Some(name);
    }
    Ok(all)
}

fn entity_names(names: Vec<String>) -> Vec<EntityType> {
    names.into_iter().map(EntityType::new).collect()
}

/// The pair of type name and id ascends, and is judged at the id.
fn read_actions(fields: &mut Fields) -> Result<Vec<ValidatorActionId>, Refusal> {
    let count = fields.number16()?;
    let mut all = Vec::new();
    let mut before: Option<(String, String)> = None;
    for _ in 0..count {
        let type_name = fields.string(Class::PathName)?;
        let id = fields.string(Class::Plain)?;
        let pair = (type_name, id);
        if before.as_ref().is_some_and(|b| pair <= *b) {
            return Err(NOT_ASCENDING);
        }
        let principals = entity_names(fields.ascending_path_names()?);
        let resources = entity_names(fields.ascending_path_names()?);
        let context = read_type(fields, 1)?;
        let uid = EntityUID::from_components(EntityType::new(pair.0.clone()), Eid::new(pair.1.clone()), None);
        all.push(ValidatorActionId::new(uid, principals, resources, context));
        before = Some(pair);
    }
    Ok(all)
}

/// Attributes whose types stand at `level`.
fn read_attributes(fields: &mut Fields, level: u32) -> Result<Attributes, Refusal> {
    let count = fields.byte()?;
    let mut entries: Vec<(String, Type)> = Vec::new();
    for _ in 0..count {
        let name = fields.string_above(Class::Plain, entries.last().map(|(n, _)| n))?;
        entries.push((name, read_type(fields, level)?));
    }
    Ok(Attributes::new(entries))
}

fn read_type(fields: &mut Fields, level: u32) -> Result<Type, Refusal> {
    Ok(match fields.choice_at(0, 10, level)? {
        0 => Type::Long,
        1 => Type::String,
        2 => {
            fields.words.boolean = true;
            Type::Bool(BoolType::AnyBool)
        }
        3 => read_extension(fields)?,
        4 => Type::Set { element_type: Some(Arc::new(read_type(fields, level + 1)?)) },
        5 => Type::Set { element_type: None },
        6 => Type::Record { attrs: read_attributes(fields, level + 1)?, open: false },
        7 => Type::Entity(EntityKind::Entity(EntityLUB::one(EntityType::new(fields.string(Class::PathName)?)))),
        8 => Type::Entity(EntityKind::Entity(EntityLUB::several())),
        9 => Type::Entity(EntityKind::AnyEntity),
        _ => Type::Never,
    })
}

/// The extension whose byte was read.
fn read_extension(fields: &mut Fields) -> Result<Type, Refusal> {
    let start = fields.at() - 1;
    let name = Name::new(fields.string(Class::PathName)?);
    fields.words.extension(name.basename().as_ref(), start..fields.at());
    Ok(Type::ExtensionType { name })
}
