//! A search for slow requests: the slowest found so far are changed, and the slowest of those are kept.

use crate::cases::{Draft, Operation};
use crate::generate::{self, mutations};
use crate::pieces::Piece;
use crate::rng::Rng;

/// No request has more bytes than this.
pub const MOST_BYTES: usize = 100_000;

/// Arrays nested deeper than this are not given to the Rust, whose time doubles with each level.
pub const DEEPEST: usize = 8;

/// So many of the worst are kept by each measure.
const KEPT: usize = 16;

/// What a call took, in seconds.
#[derive(Debug, Clone, Copy, PartialEq)]
pub struct Taken {
    pub ours: f64,
    /// None where the Rust was not asked.
    pub rust: Option<f64>,
}

/// A request and what it took.
#[derive(Debug, Clone)]
pub struct Find {
    pub draft: Draft,
    pub bytes: usize,
    pub targets: usize,
    pub taken: Taken,
}

impl Find {
    /// How many times the Rust's time ours is.
    pub fn ratio(&self) -> f64 {
        self.taken.rust.map_or(0.0, |rust| self.taken.ours / rust)
    }

    pub fn for_a_byte(&self) -> f64 {
        self.taken.ours / self.bytes as f64
    }

    pub fn for_a_byte_and_target(&self) -> f64 {
        self.for_a_byte() / self.targets.max(1) as f64
    }
}

/// The measures by which finds are kept.
pub const MEASURES: [fn(&Find) -> f64; 3] = [Find::ratio, Find::for_a_byte, Find::for_a_byte_and_target];

/// The worst finds of one operation, the worst one first, for each measure.
pub struct Search {
    operation: Operation,
    worst: [Vec<Find>; 3],
}

impl Search {
    pub fn new(operation: Operation) -> Search {
        Search { operation, worst: [Vec::new(), Vec::new(), Vec::new()] }
    }

    /// Tries a request, unless it is too large.
    pub fn try_one(&mut self, draft: Draft, taken: impl FnOnce(&Draft) -> Taken) {
        let lengths: Vec<usize> = draft.records.iter().map(|record| record.bytes().len()).collect();
        let bytes = lengths.iter().sum();
        if bytes > MOST_BYTES || lengths.iter().any(|length| *length > crate::records::LONGEST) {
            return;
        }
        let targets = if self.operation == Operation::Check { targets_in(&draft.records[2]) } else { 1 };
        let taken = taken(&draft);
        self.keep(Find { draft, bytes, targets, taken });
    }

    fn keep(&mut self, find: Find) {
        for (worst, measure) in self.worst.iter_mut().zip(MEASURES) {
            let place = worst.partition_point(|other| measure(other) >= measure(&find));
            worst.insert(place, find.clone());
            worst.truncate(KEPT);
        }
    }

    /// The next request: a fresh one, or one of the worst, changed.
    pub fn next_draft(&self, rng: &mut Rng) -> Draft {
        let kept: Vec<&Find> = self.worst.iter().flatten().collect();
        if kept.is_empty() || rng.chance(1, 5) {
            return self.fresh(rng);
        }
        let other = if rng.chance(1, 3) { self.fresh(rng) } else { rng.pick(&kept).draft.clone() };
        let one = rng.pick(&kept);
        mutations::mutated(rng, &one.draft, &other)
    }

    fn fresh(&self, rng: &mut Rng) -> Draft {
        let draft = match rng.below(3) {
            0 => generate::large_draft(rng, self.operation),
            _ => generate::draft(rng, self.operation),
        };
        Draft { size: rng.one(&[64 << 10, 1 << 20]), ..draft }
    }

    /// The worst find by each measure, once something was found.
    pub fn worst(&self) -> Option<[&Find; 3]> {
        let [ratio, byte, target] = &self.worst;
        Some([ratio.first()?, byte.first()?, target.first()?])
    }
}

/// How many targets a record lists: its last list's count, where it is one.
fn targets_in(record: &Piece) -> usize {
    match record {
        Piece::Seq(parts) => match parts.last() {
            Some(Piece::List(_, items)) => items.len(),
            _ => 1,
        },
        _ => 1,
    }
}

#[cfg(test)]
mod tests {
    use super::*;

    /// What is measured as slower stays, by each measure, and large requests are not tried.
    #[test]
    fn the_worst_are_kept() {
        let mut rng = Rng::new(3);
        let mut search = Search::new(Operation::Check);
        for i in 1..=40 {
            let draft = search.next_draft(&mut rng);
            search.try_one(draft, |_| Taken { ours: f64::from(i % 20), rust: Some(1.0) });
        }
        let [ratio, byte, target] = search.worst().unwrap();
        assert_eq!(ratio.ratio(), 19.0);
        assert!(byte.for_a_byte() > 0.0 && target.for_a_byte_and_target() > 0.0);
        let large =
            Draft { operation: Operation::Check, records: vec![Piece::Field(vec![0; MOST_BYTES + 1])], size: 0 };
        search.try_one(large, |_| panic!("too large"));
    }
}
