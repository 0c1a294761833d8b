//! Values put into a condition: a record of version 2 becomes one of version 3 with a value wherever one stands.

use crate::decimals;
use crate::pieces::{self, byte, number64, text, Piece};
use crate::rng::Rng;

/// Ids and texts, among them words of messages.
const TEXTS: [&str; 6] = ["", "ann", "string", "1.5", "a b", "~"];

/// The record with values; in one record of three every second decimal is malformed or beyond 64 bits.
pub fn valued(rng: &mut Rng, record: &Piece) -> Piece {
    let spoilt = rng.chance(1, 3);
    pieces::with_values(record, |kind| value(rng, kind, spoilt))
}

/// The value of a term of this kind.
fn value(rng: &mut Rng, kind: u8, spoilt: bool) -> Piece {
    match kind {
        2 => number64(decimals::number(rng)),
        3 => text(&decimal(rng, spoilt)),
        5 => byte(rng.below(2) as u8),
        12 => byte(rng.below(3) as u8),
        _ => text(rng.one(&TEXTS)),
    }
}

fn decimal(rng: &mut Rng, spoilt: bool) -> String {
    match rng.below(4) {
        0 if spoilt => decimals::malformed(rng),
        1 if spoilt => decimals::beyond(rng),
        _ => decimals::well_formed(rng),
    }
}
