//! A random condition over a world: rules break in it, spans repeat, binders shadow each other and the input's fields.

use super::worlds::{World, ENTITY_NAMES};
use crate::pieces::{self, *};
use crate::rng::Rng;

const VARIABLES: [&str; 8] = ["", "age", "n", "t", "v", "w", "x", "y"];

/// Few names, which an input may have too.
const AGAIN: [&str; 3] = ["age", "n", "v"];

const ANNOTATIONS: [&[&str]; 14] = [
    &[],
    &[],
    &["Long"],
    &["Long"],
    &["String"],
    &["Bool"],
    &["Boolean"],
    &["decimal"],
    &["Decimal"],
    &["App", "Long"],
    &["Timepoint"],
    &["string"],
    &["App", "User"],
    &["A", "B", "int"],
];

/// Nested arrays go no deeper than this, since the Rust takes time 2^depth for them.
const DEEPEST_ARRAY: usize = 8;

pub fn condition_record(rng: &mut Rng, world: &World) -> Piece {
    let mut maker = Maker { budget: 4 + rng.below(20), rng, world, summing: false, names: Names::Any };
    let root = maker.conjunction(5);
    pieces::condition_record(root)
}

/// A condition with many sums in it.
pub fn summing_record(rng: &mut Rng, world: &World) -> Piece {
    let mut maker = Maker { budget: 4 + rng.below(12), rng, world, summing: true, names: Names::Any };
    let root = maker.conjunction(3);
    pieces::condition_record(root)
}

/// A condition in which much looks back.
pub fn looking_back_record(rng: &mut Rng, world: &World) -> Piece {
    let mut maker = Maker { budget: 4 + rng.below(12), rng, world, summing: true, names: Names::Any };
    let root = maker.conjunction(3);
    let deeper = (0..maker.rng.below(6)).fold(root, |inner, _| {
        let at = maker.span();
        match maker.rng.below(3) {
            0 => condition(6, at, vec![inner, maker.condition(1)]),
            1 => condition(6, at, vec![maker.condition(1), inner]),
            _ => condition(maker.rng.one(&[4, 5]), at, vec![inner]),
        }
    });
    pieces::condition_record(deeper)
}

/// A condition of many nodes, often deep enough to pass the last level.
pub fn large_record(rng: &mut Rng, world: &World) -> Piece {
    let mut maker = Maker { budget: 100 + rng.below(400), rng, world, summing: false, names: Names::Any };
    let root = maker.conjunction(20);
    let deeper = (0..rng.below(30)).fold(root, |inner, _| condition(rng.one(&[3, 4, 5, 13]), (0, 0), vec![inner]));
    pieces::condition_record(deeper)
}

/// A condition in which each name is declared once and used in the body of its binder, or declared by none, and an
/// aggregate stands in no argument: it does not matter how names are bound.
pub fn apart_record(rng: &mut Rng, world: &World) -> Piece {
    named_record(rng, world, Names::Apart { made: 0, around: Vec::new() })
}

/// A condition in which three names are declared again and again, and used in their bodies and outside: it matters much.
pub fn again_record(rng: &mut Rng, world: &World) -> Piece {
    named_record(rng, world, Names::Again)
}

fn named_record(rng: &mut Rng, world: &World, names: Names) -> Piece {
    let (budget, summing) = (8 + rng.below(24), rng.chance(1, 2));
    let mut maker = Maker { budget, rng, world, summing, names };
    let root = maker.conjunction(6);
    pieces::condition_record(root)
}

pub fn comparison_record(rng: &mut Rng, world: &World) -> Piece {
    let mut maker = Maker { budget: 4 + rng.below(16), rng, world, summing: false, names: Names::Any };
    let root = maker.comparison(4);
    pieces::condition_record(root)
}

struct Maker<'a> {
    rng: &'a mut Rng,
    world: &'a World,
    /// How many nodes may still be made; after that only leaves.
    budget: usize,
    /// Every other term that may be an aggregate is one.
    summing: bool,
    names: Names,
}

/// Which names are declared, and which are used.
enum Names {
    /// Any of `VARIABLES`.
    Any,
    /// Each is declared once; those around are used, and such as none declares.
    Apart { made: usize, around: Vec<String> },
    /// Any of `AGAIN`, and often.
    Again,
}

/// What a term may be, by where it stands.
#[derive(Clone, Copy)]
struct Room {
    depth: usize,
    arrays: usize,
    aggregates: bool,
}

impl Maker<'_> {
    fn spend(&mut self) -> bool {
        let left = self.budget > 0;
        self.budget = self.budget.saturating_sub(1);
        left
    }

    /// Starts are few, so that messages meet again at the same one.
    fn span(&mut self) -> Span {
        match self.rng.below(12) {
            0 => (u32::MAX, 0),
            _ => (self.rng.below(4) as u32, self.rng.below(300) as u32),
        }
    }

    /// One condition, or up to four of them joined.
    fn conjunction(&mut self, depth: usize) -> Piece {
        let first = self.condition(depth);
        (0..self.rng.below(4)).fold(first, |all, _| {
            let (kind, at) = (self.rng.one(&[1, 1, 2, 6]), self.span());
            condition(kind, at, vec![all, self.condition(depth)])
        })
    }

    fn condition(&mut self, depth: usize) -> Piece {
        if depth == 0 || !self.spend() {
            return self.leaf();
        }
        let at = self.span();
        match self.rng.below(20) {
            0..=2 => {
                let kind = self.rng.one(&[1, 1, 2, 6]);
                let parts = vec![self.condition(depth - 1), self.condition(depth - 1)];
                condition(kind, at, parts)
            }
            3 | 4 => {
                let kind = self.rng.one(&[3, 4, 5, 13]);
                let inner = self.condition(depth - 1);
                condition(kind, at, vec![inner])
            }
            5..=7 => {
                let outside = self.around();
                let binder = self.binder();
                let body = self.condition(depth - 1);
                self.leave(outside);
                exists(at, binder, body)
            }
            8..=10 => self.predicate(depth),
            11..=17 => self.comparison(depth),
            18 => condition(10, at, vec![self.slot()]),
            _ => self.leaf(),
        }
    }

    fn leaf(&mut self) -> Piece {
        let at = self.span();
        match self.rng.below(6) {
            0 => condition(11, at, vec![]),
            1 => condition(12, at, vec![]),
            2 => condition(10, at, vec![self.slot()]),
            _ => self.comparison(0),
        }
    }

    fn comparison(&mut self, depth: usize) -> Piece {
        let at = self.span();
        let room = Room { depth, arrays: 0, aggregates: true };
        let (left, right) = (self.term(room), self.term(room));
        comparison(at, self.rng.below(6) as u8, left, right)
    }

    fn predicate(&mut self, depth: usize) -> Piece {
        let (at, own) = (self.span(), self.span());
        let (namespaces, action, paths) = self.world.predicate_of(self.rng);
        let count = self.rng.below(4);
        let room = Room { depth: depth.saturating_sub(1), arrays: 0, aggregates: !self.is_apart() };
        let arguments = (0..count)
            .map(|i| {
                let path = &paths[i % paths.len()];
                let name = match self.rng.below(3) {
                    0 => "shown".to_string(),
                    _ => path.join("."),
                };
                argument(&name, path, self.term(room))
            })
            .collect();
        predicate(at, own, &namespaces, &action, arguments)
    }

    /// A use.
    fn slot(&mut self) -> Piece {
        match self.rng.below(10) {
            0 => slot(None, 1),
            1 => slot(None, 2),
            _ => slot(Some(&self.used()), 0),
        }
    }

    fn used(&mut self) -> String {
        match &self.names {
            Names::Apart { around, .. } if !around.is_empty() && self.rng.chance(7, 8) => self.rng.pick(around).clone(),
            Names::Again => self.rng.one(&AGAIN).to_string(),
            _ => self.rng.one(&VARIABLES).to_string(),
        }
    }

    fn declared(&mut self) -> String {
        match &mut self.names {
            Names::Any => self.rng.one(&VARIABLES).to_string(),
            Names::Apart { made, around } => {
                *made += 1;
                around.push(format!("b{made}"));
                format!("b{made}")
            }
            Names::Again => self.rng.one(&AGAIN).to_string(),
        }
    }

    fn is_apart(&self) -> bool {
        matches!(self.names, Names::Apart { .. })
    }

    fn binder(&mut self) -> Piece {
        let slot = match self.rng.below(10) {
            0 => slot(None, 1),
            1 => slot(None, 2),
            _ => slot(Some(&self.declared()), 0),
        };
        binder(slot, self.rng.one(&ANNOTATIONS))
    }

    /// How many names are around, where it is kept.
    fn around(&self) -> usize {
        match &self.names {
            Names::Apart { around, .. } => around.len(),
            _ => 0,
        }
    }

    /// Behind the body of some binders.
    fn leave(&mut self, outside: usize) {
        if let Names::Apart { around, .. } = &mut self.names {
            around.truncate(outside);
        }
    }

    fn binders(&mut self) -> Vec<Piece> {
        let count = self.rng.below(4);
        (0..count).map(|_| self.binder()).collect()
    }

    fn term(&mut self, room: Room) -> Piece {
        if self.summing && room.aggregates && room.depth > 0 && self.rng.chance(1, 2) {
            return self.aggregate(room.depth);
        }
        if room.depth > 0 && self.rng.chance(2, 5) && self.spend() {
            return self.branch(room);
        }
        if !matches!(self.names, Names::Any) && self.rng.chance(2, 5) {
            return var(&self.used());
        }
        match self.rng.below(16) {
            0 | 1 => integer(),
            2 => term(3, vec![]),
            3 => term(4, vec![]),
            4 => term(5, vec![]),
            5 | 6 => var(&self.used()),
            7..=9 => context_field(&self.world.context_path(self.rng)),
            10..=12 => scope_field(&self.scope_path()),
            13 => wildcard(),
            14 => entity(self.rng.one(&ENTITY_NAMES)),
            _ => term(self.rng.one(&[13, 14]), vec![]),
        }
    }

    /// A term that holds others.
    fn branch(&mut self, room: Room) -> Piece {
        let inner = Room { depth: room.depth - 1, ..room };
        match self.rng.below(8) {
            0..=2 if room.arrays < DEEPEST_ARRAY => self.array(inner),
            3 | 4 => {
                let (left, right) = (self.term(inner), self.term(inner));
                arith(left, right)
            }
            5..=7 if room.aggregates => self.aggregate(room.depth),
            _ => array(vec![]),
        }
    }

    /// An array; every other time its elements are alike, so that it is not mixed. Rarely an aggregate slips in.
    fn array(&mut self, inner: Room) -> Piece {
        let slip = self.rng.chance(1, 100);
        let inner = Room { arrays: inner.arrays + 1, aggregates: slip, ..inner };
        let count = self.rng.below(4);
        if self.rng.chance(1, 2) {
            let element = self.term(inner);
            return array(vec![element; count]);
        }
        array((0..count).map(|_| self.term(inner)).collect())
    }

    fn aggregate(&mut self, depth: usize) -> Piece {
        let (at, outside) = (self.span(), self.around());
        let aggregate = match self.rng.below(8) {
            0 => aggregate_call(at),
            1..=3 => {
                let binders = self.binders();
                count(at, binders, self.condition(depth - 1))
            }
            _ if self.is_apart() => {
                let mut binders = self.binders();
                binders.push(self.binder());
                let summand = self.slot();
                sum(at, summand, binders, self.condition(depth - 1))
            }
            _ => {
                let (summand, mut binders) = (self.slot(), self.binders());
                if self.rng.chance(2, 3) {
                    binders.push(binder(summand.clone(), self.rng.one(&ANNOTATIONS)));
                }
                sum(at, summand, binders, self.condition(depth - 1))
            }
        };
        self.leave(outside);
        aggregate
    }

    fn scope_path(&mut self) -> Vec<String> {
        let root = self.rng.one(&["principal", "principal", "principal", "resource", "resource", "action"]);
        let mut path = vec![root.to_string()];
        match self.rng.below(6) {
            0 => {}
            1 if self.rng.chance(1, 4) => path.clear(),
            _ => path.extend(self.world.entity_path(self.rng)),
        }
        path
    }
}
