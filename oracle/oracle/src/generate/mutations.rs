//! Requests changed so that they stay well formed and become larger or worse: parts repeated and exchanged, names made
//! longer, spans made alike or unlike, targets listed again. What is refused all the same is refused quickly.

use crate::cases::Draft;
use crate::pieces::{condition, Piece, Sort};
use crate::rng::Rng;

/// Sizes of the lent buffer.
const SPACES: [usize; 4] = [4_096, 64 << 10, 1 << 20, 16 << 20];

/// A copy with a few changes; parts of `other` may come in.
pub fn mutated(rng: &mut Rng, draft: &Draft, other: &Draft) -> Draft {
    let mut copy = draft.clone();
    for _ in 0..1 + rng.below(4) {
        match rng.below(10) {
            0 => copy.size = rng.one(&SPACES),
            1 | 2 => longer_name(rng, &mut copy.records),
            3 => spans(rng, &mut copy.records),
            4 | 5 => at_random(rng, &mut copy.records, is_list, repeated),
            6 | 7 => at_random(rng, &mut copy.records, is_condition, doubled),
            _ => exchanged(rng, &mut copy.records, other),
        }
    }
    copy
}

fn is_list(piece: &Piece) -> bool {
    matches!(piece, Piece::List(_, items) if !items.is_empty())
}

fn is_condition(piece: &Piece) -> bool {
    matches!(piece, Piece::Node(Sort::Condition, _))
}

fn parts(piece: &Piece) -> &[Piece] {
    match piece {
        Piece::Field(_) => &[],
        Piece::Seq(parts) | Piece::List(_, parts) | Piece::Node(_, parts) => parts,
    }
}

fn parts_mut(piece: &mut Piece) -> &mut [Piece] {
    match piece {
        Piece::Field(_) => &mut [],
        Piece::Seq(parts) | Piece::List(_, parts) | Piece::Node(_, parts) => parts,
    }
}

fn count(piece: &Piece, wanted: &impl Fn(&Piece) -> bool) -> usize {
    usize::from(wanted(piece)) + parts(piece).iter().map(|part| count(part, wanted)).sum::<usize>()
}

/// The wanted piece with this number, from the outside in and from the left; else how many were passed.
fn nth<'a>(piece: &'a mut Piece, wanted: &impl Fn(&Piece) -> bool, left: &mut usize) -> Option<&'a mut Piece> {
    if wanted(piece) {
        if *left == 0 {
            return Some(piece);
        }
        *left -= 1;
    }
    parts_mut(piece).iter_mut().find_map(|part| nth(part, wanted, left))
}

/// Changes one of the wanted pieces of one of the records.
fn at_random(
    rng: &mut Rng,
    records: &mut [Piece],
    wanted: impl Fn(&Piece) -> bool,
    change: impl FnOnce(&mut Rng, &mut Piece),
) {
    let record = rng.below(records.len());
    let there = count(&records[record], &wanted);
    if there > 0 {
        let mut left = rng.below(there);
        if let Some(piece) = nth(&mut records[record], &wanted, &mut left) {
            change(rng, piece);
        }
    }
}

/// An item of a list stands there again, up to as often as the count can say.
fn repeated(rng: &mut Rng, list: &mut Piece) {
    let Piece::List(_, items) = list else { return };
    let item = rng.pick(items).clone();
    let times = rng.one(&[1, 2, 10, 100, 255]);
    let room = 255_usize.saturating_sub(items.len());
    items.extend(vec![item; times.min(room)]);
}

/// A condition becomes itself beside a copy of itself, several times.
fn doubled(rng: &mut Rng, node: &mut Piece) {
    for _ in 0..rng.one(&[1, 1, 2, 4, 8]) {
        let (left, mut right) = (node.clone(), node.clone());
        let mut start = rng.below(1 << 20) as u32;
        if rng.chance(1, 2) {
            renumber(&mut right, &mut |_| {
                start += 1;
                start
            });
        }
        *node = condition(1, (0, 9), vec![left, right]);
    }
}

/// Gives each condition of a tree the start that belongs to the one it has.
fn renumber(piece: &mut Piece, start: &mut impl FnMut(u32) -> u32) {
    if let Piece::Node(Sort::Condition, parts) = piece {
        if let Some(Piece::Field(bytes)) = parts.get_mut(1) {
            if let Ok(old) = <[u8; 4]>::try_from(&bytes[..]) {
                *bytes = start(u32::from_be_bytes(old)).to_be_bytes().to_vec();
            }
        }
    }
    parts_mut(piece).iter_mut().for_each(|part| renumber(part, start));
}

/// All conditions start at one place, or each at its own.
fn spans(rng: &mut Rng, records: &mut [Piece]) {
    let alike = rng.chance(1, 2);
    let mut next = 0;
    for record in records {
        renumber(record, &mut |_| {
            next += u32::from(!alike);
            next
        });
    }
}

/// A name becomes longer wherever it stands, in all records.
fn longer_name(rng: &mut Rng, records: &mut [Piece]) {
    let all: Vec<Vec<u8>> = records.iter().flat_map(Piece::fields).filter(|field| is_name(field)).collect();
    if all.is_empty() {
        return;
    }
    let old = rng.pick(&all).clone();
    let length = rng.one(&[old.len(), 40, 254]).max(old.len() - 1).min(255);
    let mut new = old.clone();
    new.resize(length + 1, b'n');
    new[0] = length as u8;
    records.iter_mut().for_each(|record| renamed(record, &old, &new));
}

fn is_name(field: &[u8]) -> bool {
    field.len() > 1 && usize::from(field[0]) == field.len() - 1 && field[1..].iter().all(u8::is_ascii_graphic)
}

/// Gives a field of these bytes others, wherever it stands.
pub fn renamed(piece: &mut Piece, old: &[u8], new: &[u8]) {
    match piece {
        Piece::Field(bytes) if bytes == old => *bytes = new.to_vec(),
        other => parts_mut(other).iter_mut().for_each(|part| renamed(part, old, new)),
    }
}

/// A condition, term or type becomes one of its sort that stands elsewhere.
fn exchanged(rng: &mut Rng, records: &mut [Piece], other: &Draft) {
    let sort = rng.one(&[Sort::Condition, Sort::Condition, Sort::Term, Sort::Type]);
    let wanted = |piece: &Piece| matches!(piece, Piece::Node(s, _) if *s == sort);
    let mut source = rng.pick(&other.records).clone();
    let there = count(&source, &wanted);
    if there > 0 {
        let mut left = rng.below(there);
        let Some(found) = nth(&mut source, &wanted, &mut left).map(|piece| piece.clone()) else { return };
        at_random(rng, records, wanted, |_, node| *node = found);
    }
}

/// How deep arrays stand in arrays; the Rust's time doubles with each level.
pub fn array_depth(piece: &Piece) -> usize {
    let own = matches!(piece, Piece::Node(Sort::Term, parts) if parts.first() == Some(&Piece::Field(vec![10])));
    usize::from(own) + parts(piece).iter().map(array_depth).max().unwrap_or(0)
}

#[cfg(test)]
mod tests {
    use super::*;
    use crate::cases::Operation;
    use crate::generate;
    use crate::pieces::{array, integer};

    /// Most changed requests are read in full.
    #[test]
    fn mutated_requests_are_mostly_well_formed() {
        let mut rng = Rng::new(7);
        let mut accepted = 0;
        for _ in 0..200 {
            let scenes = [(); 2].map(|_| {
                let scene = generate::scene(&mut rng, Operation::Check);
                Draft {
                    operation: Operation::Check,
                    records: vec![scene.schema, scene.condition, scene.targets],
                    size: 0,
                }
            });
            let case = mutated(&mut rng, &scenes[0], &scenes[1]).case();
            if let Some(crate::cases::Outcome::Answered(answer, _)) = case.outcome() {
                accepted += usize::from([0, 11].contains(&answer.number));
            }
        }
        assert!(accepted > 100, "{accepted} of 200");
    }

    #[test]
    fn depth_of_arrays() {
        let nested = array(vec![integer(), array(vec![array(vec![])])]);
        assert_eq!((array_depth(&integer()), array_depth(&nested)), (0, 3));
    }
}
