//! Record 3: the narrowing of both scopes, then the targets.

use super::fields::{Class, Fields};
use super::*;
use dogwood_rust::api::{ActionRef, ScopeConstraint};
use dogwood_rust::Narrowing;

pub struct TargetsRecord {
    pub principal: Option<ScopeConstraint>,
    pub resource: Option<ScopeConstraint>,
    pub targets: Vec<ActionRef>,
}

impl TargetsRecord {
    pub fn narrowing(&self) -> Narrowing<'_> {
        Narrowing { principal: self.principal.as_ref(), resource: self.resource.as_ref() }
    }
}

pub fn read_targets(bytes: &[u8]) -> Result<TargetsRecord, Refusal> {
    let mut fields = Fields::open(bytes, b"DWT", 1)?;
    let principal = read_narrowing(&mut fields)?;
    let resource = read_narrowing(&mut fields)?;
    let count = fields.byte()?;
    let targets = (0..count).map(|_| read_target(&mut fields)).collect::<Result<_, _>>()?;
    fields.close()?;
    Ok(TargetsRecord { principal, resource, targets })
}

/// A target by itself: its namespace and its id as in the record, and no byte more.
pub fn read_one_target(bytes: &[u8]) -> Result<ActionRef, Refusal> {
    let mut fields = Fields::bare(bytes);
    let target = read_target(&mut fields)?;
    fields.close()?;
    Ok(target)
}

/// A list taken apart: what stands before its count, and the bytes of each target.
pub struct Listed {
    pub front: Vec<u8>,
    pub targets: Vec<Vec<u8>>,
}

impl Listed {
    pub fn of(bytes: &[u8]) -> Result<Listed, Refusal> {
        let mut fields = Fields::open(bytes, b"DWT", 1)?;
        read_narrowing(&mut fields)?;
        read_narrowing(&mut fields)?;
        let front = bytes[..fields.at()].to_vec();
        let mut targets = Vec::new();
        for _ in 0..fields.byte()? {
            let from = fields.at();
            read_target(&mut fields)?;
            targets.push(bytes[from..fields.at()].to_vec());
        }
        fields.close()?;
        Ok(Listed { front, targets })
    }

    /// The list of these positions alone, in this order.
    pub fn of_positions(&self, positions: &[usize]) -> Vec<u8> {
        let count = u8::try_from(positions.len()).expect("a list has no more than 255 positions");
        let chosen = positions.iter().flat_map(|position| self.targets[*position].clone());
        self.front.iter().copied().chain([count]).chain(chosen).collect()
    }
}

fn read_narrowing(fields: &mut Fields) -> Result<Option<ScopeConstraint>, Refusal> {
    Ok(match fields.choice(0, 4)? {
        0 => None,
        1 => Some(ScopeConstraint::Any),
        2 => Some(ScopeConstraint::IsType(fields.string(Class::PathName)?)),
        3 => Some(ScopeConstraint::Uid { entity_type: fields.string(Class::PathName)?, membership: false }),
        _ => Some(ScopeConstraint::Uid { entity_type: fields.string(Class::PathName)?, membership: true }),
    })
}

fn read_target(fields: &mut Fields) -> Result<ActionRef, Refusal> {
    let namespace = fields.string(Class::PathNameOrNone)?;
    let id = fields.string(Class::Plain)?;
    Ok(ActionRef { namespace: (!namespace.is_empty()).then_some(namespace), id })
}
