//! A failing draft made smaller, as long as it still fails.

use crate::cases::Draft;
use crate::pieces::Piece;

/// No more attempts than this.
const ATTEMPTS: usize = 20_000;

/// The smallest draft found that still fails.
pub fn smallest(draft: Draft, fails: impl Fn(&Draft) -> bool) -> Draft {
    let mut best = draft;
    let mut attempts = 0;
    'again: loop {
        for candidate in smaller(&best) {
            attempts += 1;
            if attempts > ATTEMPTS {
                return best;
            }
            if fails(&candidate) {
                best = candidate;
                continue 'again;
            }
        }
        return best;
    }
}

/// Every draft with one record made smaller, and one with an ample buffer.
fn smaller(draft: &Draft) -> Vec<Draft> {
    let mut out = Vec::new();
    for (i, record) in draft.records.iter().enumerate() {
        for smaller in smaller_record(record) {
            let mut copy = draft.clone();
            copy.records[i] = smaller;
            out.push(copy);
        }
    }
    out
}

/// A damaged record is bytes alone, of which parts are dropped.
fn smaller_record(record: &Piece) -> Vec<Piece> {
    match record {
        Piece::Field(bytes) => without_parts(bytes).into_iter().map(Piece::Field).collect(),
        tree => tree.smaller(),
    }
}

fn without_parts(bytes: &[u8]) -> Vec<Vec<u8>> {
    let mut out = Vec::new();
    let mut length = bytes.len() / 2;
    while length > 0 {
        for start in (0..=bytes.len() - length).step_by(length) {
            out.push([&bytes[..start], &bytes[start + length..]].concat());
        }
        length /= 2;
    }
    out
}
