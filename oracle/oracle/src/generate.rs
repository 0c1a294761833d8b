//! Cases made from a seed: valid records in which rules break and repeats occur, damaged copies, and boundaries.

pub mod boundaries;
pub mod compared;
pub mod conditions;
pub mod damage;
pub mod histories;
pub mod large;
pub mod mutations;
pub mod times;
pub mod values;
pub mod windows;
pub mod worlds;

use crate::cases::{Draft, Operation};
use crate::pieces::Piece;
use crate::rng::Rng;
use worlds::World;

/// A schema, a condition, targets and a path that share their names.
pub struct Scene {
    pub schema: Piece,
    pub condition: Piece,
    pub targets: Piece,
    pub path: Piece,
    pub targets_count: usize,
}

/// A scene for an operation. Each version of a condition is as frequent; of a listing nearly all have windows.
pub fn scene(rng: &mut Rng, operation: Operation) -> Scene {
    let versions: &[u8] = if operation == Operation::Windows { &[1, 2, 2, 2, 2, 3, 3, 3, 3] } else { &[1, 2, 3] };
    let version = *rng.pick(versions);
    scene_in(rng, operation, version)
}

/// A scene with a condition in this version: terms want a comparison, sums want many sums.
pub fn scene_in(rng: &mut Rng, operation: Operation, version: u8) -> Scene {
    let world = World::random(rng);
    let condition = condition_for(rng, operation, &world);
    let condition = in_version(rng, condition, version);
    scene_with(rng, world, condition)
}

/// A condition of version 1 for an operation.
fn condition_for(rng: &mut Rng, operation: Operation, world: &World) -> Piece {
    match operation {
        Operation::Terms => conditions::comparison_record(rng, world),
        Operation::Sums | Operation::OwnSums => conditions::summing_record(rng, world),
        Operation::Windows => conditions::looking_back_record(rng, world),
        _ => conditions::condition_record(rng, world),
    }
}

/// A scene with the types `datetime` and `duration` and names that are nearly theirs, in any version; three of four are
/// without decimals and Bools, so that these can stand for the two.
fn timed_scene(rng: &mut Rng, operation: Operation) -> Scene {
    let world = World::random(rng);
    let (alone, version) = (rng.chance(3, 4), rng.one(&[1, 2, 3]));
    let condition = condition_for(rng, operation, &world);
    let mut condition = times::in_condition(rng, &condition, alone);
    if operation != Operation::Terms {
        // terms want a comparison as their root
        condition = times::with_variables(rng, &condition);
    }
    let condition = in_version(rng, condition, version);
    let mut scene = scene_with(rng, world, condition);
    scene.schema = times::in_schema(rng, &scene.schema, alone);
    if rng.chance(1, 2) {
        times::with_entity_types(&mut scene);
    }
    scene
}

/// A condition of version 1 in this version: with a window wherever one stands, and then with a value.
fn in_version(rng: &mut Rng, condition: Piece, version: u8) -> Piece {
    if version == 1 {
        return condition;
    }
    let windowed = windows::windowed(rng, &condition);
    if version == 2 {
        return windowed;
    }
    values::valued(rng, &windowed)
}

fn scene_with(rng: &mut Rng, world: World, condition: Piece) -> Scene {
    let (targets, targets_count) = world.targets(rng);
    let path = world.path(rng, targets_count);
    Scene { schema: world.schema(), condition, targets, path, targets_count }
}

/// A fresh draft for one operation; every fourth has a damaged record.
pub fn draft(rng: &mut Rng, operation: Operation) -> Draft {
    let scene = scene(rng, operation);
    draft_with(rng, operation, scene)
}

/// A fresh draft with a condition of version 3; every fourth has a damaged record.
pub fn valued_draft(rng: &mut Rng, operation: Operation) -> Draft {
    let scene = scene_in(rng, operation, 3);
    draft_with(rng, operation, scene)
}

/// A fresh draft with the types `datetime` and `duration`; every fourth has a damaged record.
pub fn timed_draft(rng: &mut Rng, operation: Operation) -> Draft {
    let scene = timed_scene(rng, operation);
    draft_with(rng, operation, scene)
}

/// A fresh draft with a condition in which it does not matter how names are bound; every fourth has a damaged record.
pub fn apart_draft(rng: &mut Rng, operation: Operation) -> Draft {
    named_draft(rng, operation, conditions::apart_record)
}

/// A fresh draft with a condition in which it matters much; every fourth has a damaged record.
pub fn again_draft(rng: &mut Rng, operation: Operation) -> Draft {
    named_draft(rng, operation, conditions::again_record)
}

fn named_draft(rng: &mut Rng, operation: Operation, make: fn(&mut Rng, &World) -> Piece) -> Draft {
    if operation == Operation::Terms {
        // terms want a comparison as their root
        return draft(rng, operation);
    }
    let (world, version) = (World::random(rng), rng.one(&[1, 2, 3]));
    let condition = make(rng, &world);
    let condition = in_version(rng, condition, version);
    let scene = scene_with(rng, world, condition);
    draft_with(rng, operation, scene)
}

fn draft_with(rng: &mut Rng, operation: Operation, scene: Scene) -> Draft {
    let mut draft = draft_of(rng, operation, scene);
    if operation != Operation::Terms && rng.chance(1, 4) {
        // a listing's second record is a number, which cannot be damaged
        let which = if operation == Operation::Windows { 0 } else { rng.below(draft.records.len()) };
        draft.records[which] = Piece::Field(damage::damaged(rng, &draft.records[which]));
    }
    draft.size = draft.size_from(rng);
    draft
}

/// A fresh draft with a large condition, undamaged.
pub fn large_draft(rng: &mut Rng, operation: Operation) -> Draft {
    let world = World::random(rng);
    let (condition, version) = (conditions::large_record(rng, &world), rng.one(&[1, 2, 3]));
    let condition = in_version(rng, condition, version);
    let scene = scene_with(rng, world, condition);
    let mut draft = draft_of(rng, operation, scene);
    draft.size = draft.size_from(rng);
    draft
}

/// A fresh draft about two names that begin alike, where the operation sees their order or equality.
pub fn compared_draft(rng: &mut Rng, operation: Operation) -> Draft {
    compared::draft(rng, operation).unwrap_or_else(|| draft(rng, operation))
}

fn draft_of(rng: &mut Rng, operation: Operation, scene: Scene) -> Draft {
    let Scene { schema, condition, targets, path, targets_count } = scene;
    let records = match operation {
        Operation::ReadSchema => vec![schema],
        Operation::ReadCondition | Operation::Sums | Operation::OwnSums => vec![condition],
        Operation::Windows => vec![condition, Piece::Field(windows::period(rng))],
        Operation::ReadTargets => vec![targets],
        Operation::ReadPath => vec![path],
        Operation::Check | Operation::Own | Operation::Terms | Operation::Strict | Operation::Steps => {
            vec![schema, condition, targets]
        }
        Operation::Lookup => vec![schema, targets, path],
    };
    let size = match operation {
        Operation::Terms => rng.below(targets_count.max(1)),
        _ => 0,
    };
    Draft { operation, records, size }
}
