//! Windows put into a condition: a record of version 1 becomes one of version 2 with a window wherever one stands.

use crate::examples::windows::period_bytes;
use crate::pieces::{self, Piece};
use crate::rng::Rng;

/// The seconds of the units.
const UNITS: [i64; 4] = [1, 60, 3_600, 86_400];

/// The record with windows, some of them a macro's parameter; one record in six has one that is out of range.
pub fn windowed(rng: &mut Rng, record: &Piece) -> Piece {
    let spoilt = rng.chance(1, 6);
    pieces::with_windows(record, || window(rng, spoilt))
}

fn window(rng: &mut Rng, spoilt: bool) -> Piece {
    if rng.chance(1, 5) {
        return pieces::parameter_window();
    }
    let unit = rng.below(4);
    let most = i64::MAX / UNITS[unit];
    let amount = match rng.below(10) {
        0 if spoilt => rng.one(&[-1, i64::MIN, -1_000]),
        1 | 2 if spoilt => most.saturating_add(1 + rng.below(3) as i64),
        0..=2 => most - rng.below(3) as i64,
        3 => 0,
        4 => rng.below(1 << 40) as i64,
        _ => rng.below(200) as i64,
    };
    pieces::window(unit as u8, amount)
}

/// A period: small ones, those about a unit, the largest, and rarely none.
pub fn period(rng: &mut Rng) -> Vec<u8> {
    period_bytes(match rng.below(12) {
        0 => 0,
        1 => rng.one(&[u64::MAX, 1 << 63, (1 << 63) - 1, (1 << 63) + 1]),
        2 => rng.below(1 << 40) as u64,
        3 | 4 => rng.one(&[59, 60, 61, 3_599, 3_600, 3_601, 86_399, 86_400, 86_401]),
        _ => 1 + rng.below(100) as u64,
    })
}
