//! A random schema, kept as a model so that conditions, targets and paths can speak of what it declares.
//!
//! Names come from small pools, so that they are shared, clash and repeat: entity types called as a scalar is shown, an
//! attribute `id`, a name with a dot, an empty one.

use crate::pieces::*;
use crate::rng::Rng;

pub const ENTITY_NAMES: [&str; 16] = [
    "A::B::User",
    "App::Bot",
    "App::Group",
    "App::User",
    "Bot",
    "Doc",
    "Group",
    "Long",
    "Ns::string",
    "User",
    "_x1",
    "array",
    "entity",
    "in",
    "int",
    "string",
];

pub const ATTRIBUTE_NAMES: [&str; 14] =
    ["", "a.b", "age", "id", "list", "n", "name", "t", "type", "v", "x", "y", "z", "~ok (1)"];

/// Entity types have few attributes to choose from, so that several declare the same one.
const ENTITY_ATTRIBUTES: [&str; 5] = ["age", "id", "list", "n", "x"];

const ACTION_TYPES: [&str; 6] = ["A::B::Action", "Action", "App::Action", "App::Action::Action", "Ns::Action", "Odd"];

const ACTION_IDS: [&str; 6] = ["", "a b", "chat", "edit", "string", "view"];

/// None of these is a type that the Rust does not know; `times` puts such in.
const EXTENSIONS: [&str; 5] = ["decimal", "App::decimal", "Datetime", "ipaddr", "Decimal"];

/// A schema type.
#[derive(Debug, Clone)]
pub enum Ty {
    Plain(u8),
    Extension(&'static str),
    Set(Box<Ty>),
    Record(Vec<(String, Ty)>),
    Entity(&'static str),
}

impl Ty {
    fn random(rng: &mut Rng, depth: usize) -> Ty {
        match rng.below(if depth == 0 { 9 } else { 12 }) {
            0 | 1 => Ty::Plain(0),
            2 => Ty::Plain(1),
            3 => Ty::Plain(2),
            4 => Ty::Extension(rng.one(&EXTENSIONS)),
            5 | 6 => Ty::Entity(rng.one(&ENTITY_NAMES)),
            7 => Ty::Plain(rng.one(&[5, 8, 9, 10])),
            8 => Ty::Plain(rng.one(&[0, 1, 2, 5])),
            9 | 10 => Ty::Set(Box::new(Ty::random(rng, depth - 1))),
            _ => Ty::record(rng, depth - 1),
        }
    }

    fn record(rng: &mut Rng, depth: usize) -> Ty {
        Ty::Record(attributes_of(rng, depth, 3))
    }

    pub fn piece(&self) -> Piece {
        match self {
            Ty::Plain(kind) => ty(*kind, vec![]),
            Ty::Extension(name) => ty(3, vec![text(name)]),
            Ty::Set(element) => ty(4, vec![element.piece()]),
            Ty::Record(entries) => ty(6, vec![attribute_list(entries)]),
            Ty::Entity(name) => ty(7, vec![text(name)]),
        }
    }

    /// A path into a record, mostly one that resolves.
    fn path_into(&self, rng: &mut Rng, out: &mut Vec<String>) {
        let Ty::Record(entries) = self else {
            if rng.chance(1, 8) {
                out.push(rng.one(&ATTRIBUTE_NAMES).to_string());
            }
            return;
        };
        if entries.is_empty() || rng.chance(1, 8) {
            if rng.chance(1, 2) {
                out.push(rng.one(&ATTRIBUTE_NAMES).to_string());
            }
            return;
        }
        let (name, inner) = rng.pick(entries);
        out.push(name.clone());
        inner.path_into(rng, out);
    }
}

fn attribute_list(entries: &[(String, Ty)]) -> Piece {
    attributes(entries.iter().map(|(name, ty)| (name.as_str(), ty.piece())).collect())
}

/// About `wanted` attributes, in ascending order.
fn attributes_of(rng: &mut Rng, depth: usize, wanted: usize) -> Vec<(String, Ty)> {
    let names = rng.some(&ATTRIBUTE_NAMES, wanted, ATTRIBUTE_NAMES.len());
    names.into_iter().map(|name| (name.to_string(), Ty::random(rng, depth))).collect()
}

struct EntityModel {
    name: &'static str,
    ancestors: Vec<&'static str>,
    attributes: Vec<(String, Ty)>,
}

struct ActionModel {
    type_name: &'static str,
    id: &'static str,
    principals: Vec<&'static str>,
    resources: Vec<&'static str>,
    context: Ty,
}

impl ActionModel {
    /// The name before `::Action`, with which a target asks for it.
    fn namespace(&self) -> &'static str {
        self.type_name.strip_suffix("::Action").unwrap_or("")
    }
}

/// The first action made is in focus: targets and paths mostly speak of it, so that they meet.
pub struct World {
    entities: Vec<EntityModel>,
    actions: Vec<ActionModel>,
    focus: usize,
}

impl World {
    pub fn random(rng: &mut Rng) -> World {
        let names = rng.some(&ENTITY_NAMES, 3, ENTITY_NAMES.len());
        let entities: Vec<EntityModel> = names.into_iter().map(|name| World::entity(rng, name)).collect();
        let mut pairs = Vec::new();
        for type_name in ACTION_TYPES {
            for id in rng.some(&ACTION_IDS, 1, 14) {
                pairs.push((type_name, id));
            }
        }
        let actions: Vec<ActionModel> = pairs.into_iter().map(|(t, id)| World::action(rng, &entities, t, id)).collect();
        let focus = rng.below(actions.len().max(1));
        World { entities, actions, focus }
    }

    /// The action in focus, or sometimes another; none where the schema has none.
    fn some_action(&self, rng: &mut Rng) -> Option<&ActionModel> {
        if self.actions.is_empty() {
            return None;
        }
        match rng.below(4) {
            0 => Some(rng.pick(&self.actions)),
            _ => Some(&self.actions[self.focus]),
        }
    }

    /// The declared entity types that the action in focus lists.
    fn entities_in_focus(&self) -> Vec<&EntityModel> {
        let Some(action) = self.actions.get(self.focus) else {
            return Vec::new();
        };
        let listed = |e: &&EntityModel| action.principals.contains(&e.name) || action.resources.contains(&e.name);
        self.entities.iter().filter(listed).collect()
    }

    fn entity(rng: &mut Rng, name: &'static str) -> EntityModel {
        let ancestors = rng.some(&ENTITY_NAMES, 1, 12);
        let attributes = rng.some(&ENTITY_ATTRIBUTES, 1, 2);
        let attributes = attributes.into_iter().map(|n| (n.to_string(), Ty::random(rng, 2))).collect();
        EntityModel { name, ancestors, attributes }
    }

    fn action(rng: &mut Rng, entities: &[EntityModel], type_name: &'static str, id: &'static str) -> ActionModel {
        let principals = World::scope(rng, entities);
        let resources = World::scope(rng, entities);
        ActionModel { type_name, id, principals, resources, context: World::context(rng) }
    }

    /// Mostly declared entity types: one, several, none; sometimes undeclared ones.
    fn scope(rng: &mut Rng, entities: &[EntityModel]) -> Vec<&'static str> {
        let declared: Vec<&'static str> = entities.iter().map(|e| e.name).collect();
        match rng.below(12) {
            0 => Vec::new(),
            1 => rng.some(&ENTITY_NAMES, 2, ENTITY_NAMES.len()),
            2..=6 => rng.some(&declared, 2, declared.len().max(2)),
            _ if declared.is_empty() => Vec::new(),
            _ => vec![rng.one(&declared)],
        }
    }

    /// Mostly a record with a record `input`; sometimes another type.
    fn context(rng: &mut Rng) -> Ty {
        if rng.chance(1, 12) {
            return Ty::random(rng, 1);
        }
        let mut entries = Vec::new();
        if rng.chance(1, 3) {
            entries.push(("a.b".to_string(), Ty::random(rng, 1)));
        }
        if rng.chance(7, 8) {
            entries.push(("input".to_string(), Ty::Record(attributes_of(rng, 2, 5))));
        }
        if rng.chance(1, 4) {
            entries.push(("principal".to_string(), Ty::random(rng, 1)));
        }
        if rng.chance(1, 4) {
            entries.push(("system".to_string(), Ty::record(rng, 1)));
        }
        Ty::Record(entries)
    }

    pub fn schema(&self) -> Piece {
        let entities = self.entities.iter().map(|e| entity_type(e.name, &e.ancestors, attribute_list(&e.attributes)));
        let actions =
            self.actions.iter().map(|a| action(a.type_name, a.id, &a.principals, &a.resources, a.context.piece()));
        schema(entities.collect(), actions.collect())
    }

    /// The targets record, and how many targets it has.
    pub fn targets(&self, rng: &mut Rng) -> (Piece, usize) {
        let count = rng.one(&[0, 1, 1, 1, 2, 2, 3, 4, 6]);
        let all = (0..count).map(|_| self.target(rng)).collect();
        (targets(self.narrowing(rng), self.narrowing(rng), all), count)
    }

    pub fn target(&self, rng: &mut Rng) -> Piece {
        match self.some_action(rng) {
            Some(action) if rng.chance(9, 10) => target(action.namespace(), action.id),
            _ => target(rng.one(&["", "App", "App::Action", "Gone"]), rng.one(&ACTION_IDS)),
        }
    }

    fn narrowing(&self, rng: &mut Rng) -> Piece {
        match rng.below(10) {
            0..=4 => narrowing(0, ""),
            5 | 6 => narrowing(1, ""),
            kind => narrowing([2, 3, 4][kind - 7], self.narrowing_name(rng)),
        }
    }

    /// Mostly a name that some action lists, or an ancestor of one.
    fn narrowing_name(&self, rng: &mut Rng) -> &'static str {
        let listed: Vec<&'static str> = self.entities_in_focus().iter().map(|e| e.name).collect();
        let ancestors: Vec<&'static str> =
            self.entities_in_focus().iter().flat_map(|e| e.ancestors.iter().copied()).collect();
        match rng.below(5) {
            0..=2 if !listed.is_empty() => rng.one(&listed),
            3 if !ancestors.is_empty() => rng.one(&ancestors),
            _ => rng.one(&ENTITY_NAMES),
        }
    }

    pub fn path(&self, rng: &mut Rng, targets_count: usize) -> Piece {
        let position = match rng.below(12) {
            0 => rng.below(256),
            _ => rng.below(targets_count.max(1)),
        };
        path(rng.below(2) as u8, &self.entity_path(rng), position as u8)
    }

    /// A path below an entity, mostly one that some entity type declares.
    pub fn entity_path(&self, rng: &mut Rng) -> Vec<String> {
        let mut segments = Vec::new();
        let entities = self.entities_in_focus();
        if entities.is_empty() || rng.chance(1, 5) {
            segments.push(rng.one(&["id", "type", "age", "x", "gone"]).to_string());
        } else {
            Ty::Record(rng.pick(&entities).attributes.clone()).path_into(rng, &mut segments);
        }
        segments
    }

    /// A path into some action's context.
    pub fn context_path(&self, rng: &mut Rng) -> Vec<String> {
        let mut segments = Vec::new();
        match self.some_action(rng) {
            Some(action) if rng.chance(9, 10) => action.context.path_into(rng, &mut segments),
            _ => segments.extend(["input", "x"].iter().take(rng.below(3)).map(|s| s.to_string())),
        }
        segments
    }

    /// Some action's namespaces and id as a predicate says them, and a path into its context.
    pub fn predicate_of(&self, rng: &mut Rng) -> (Vec<String>, String, Vec<Vec<String>>) {
        let Some(action) = self.some_action(rng) else {
            return (vec!["Gone".to_string()], "view".to_string(), vec![self.context_path(rng)]);
        };
        let mut namespaces: Vec<String> = match action.namespace() {
            "" => Vec::new(),
            "A::B" if rng.chance(1, 2) => vec!["A".to_string(), "B".to_string()],
            whole => vec![whole.to_string()],
        };
        match rng.below(6) {
            0 | 1 => namespaces.push("Action".to_string()),
            2 => namespaces.push("App::Action".to_string()),
            3 if rng.chance(1, 3) => namespaces.push("Gone".to_string()),
            _ => {}
        }
        let paths = (0..4).map(|_| {
            let mut path = Vec::new();
            action.context.path_into(rng, &mut path);
            path
        });
        (namespaces, action.id.to_string(), paths.collect())
    }
}
