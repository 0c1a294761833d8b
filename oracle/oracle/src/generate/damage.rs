//! Damaged copies of a record: cut, a byte changed, bytes put in, bytes after the end, fields moved about.

use crate::pieces::Piece;
use crate::rng::Rng;

pub fn damaged(rng: &mut Rng, record: &Piece) -> Vec<u8> {
    let mut bytes = record.bytes();
    for _ in 0..1 + rng.below(2) {
        damage(rng, record, &mut bytes);
    }
    bytes
}

fn damage(rng: &mut Rng, record: &Piece, bytes: &mut Vec<u8>) {
    let at = rng.below(bytes.len().max(1));
    match rng.below(9) {
        0 => bytes.truncate(at),
        1 | 2 if !bytes.is_empty() => bytes[at] ^= 1 << rng.below(8),
        3 | 4 if !bytes.is_empty() => {
            bytes[at] = rng.one(&[0, 1, 2, 5, 9, 10, 11, 14, 15, 0x22, 0x3A, 0x61, 0x7F, 0xFF])
        }
        5 => bytes.insert(at, rng.below(256) as u8),
        6 => bytes.push(rng.below(256) as u8),
        7 if !bytes.is_empty() => {
            bytes.remove(at);
        }
        _ => *bytes = fields_moved(rng, record),
    }
}

/// A field is dropped, doubled, or two are exchanged.
fn fields_moved(rng: &mut Rng, record: &Piece) -> Vec<u8> {
    let mut fields = record.fields();
    if fields.is_empty() {
        return Vec::new();
    }
    let (one, other) = (rng.below(fields.len()), rng.below(fields.len()));
    match rng.below(3) {
        0 => drop(fields.remove(one)),
        1 => fields.insert(one, fields[other].clone()),
        _ => fields.swap(one, other),
    }
    fields.concat()
}
