//! Histories of a stepping check, and states that no call left.

use super::{conditions, damage, in_version, worlds::World};
use crate::cases::FILL;
use crate::pieces::{byte, target, targets, Piece};
use crate::records::LONGEST;
use crate::rng::Rng;
use crate::steps::{Call, Checked, Course, History, OWN_BODIES};

/// A fresh history without a move: a world's records, of which one is damaged every tenth time; a few calls, of which most
/// are steps, the others append targets, some of them damaged, or withdraw positions, some of which are not there; buffers
/// that are long enough or not.
pub fn history(rng: &mut Rng, checked: Checked) -> History {
    let makes = [conditions::condition_record, conditions::condition_record, conditions::again_record];
    history_of(rng, checked, makes, calls)
}

/// The same with a move or two among the calls, mostly of a check that begins in one scope, and of a condition whose names
/// are declared again and again.
pub fn moved_history(rng: &mut Rng, checked: Checked) -> History {
    let mut history = history_of(rng, checked, [conditions::again_record; 3], calls_with_moves);
    if rng.chance(7, 8) {
        history.rules &= !OWN_BODIES;
        history.size = 1 << 16;
        history.size = size(rng, &history, checked);
    }
    history
}

/// How a condition is made for a world, and how the calls are, for a world and a list of so many targets.
type Make = fn(&mut Rng, &World) -> Piece;
type MakeCalls = fn(&mut Rng, &World, usize) -> Vec<Call>;

fn history_of(rng: &mut Rng, checked: Checked, makes: [Make; 3], calls: MakeCalls) -> History {
    let (world, version) = (World::random(rng), rng.one(&[1, 2, 3]));
    let make = rng.one(&makes);
    let condition = make(rng, &world);
    let (list, listed) = list(rng, &world);
    let pieces = [world.schema(), in_version(rng, condition, version), list];
    let mut records = pieces.each_ref().map(Piece::bytes);
    if rng.chance(1, 10) {
        let which = rng.below(3);
        records[which] = damage::damaged(rng, &pieces[which]);
    }
    let calls = calls(rng, &world, listed);
    let rules = rng.one(&[0, 1, 2, 3]) | rng.one(&[0, 0, 0, 0xFC]);
    let space = list_space(rng, &records[2], &calls);
    let mut history = History { rules, records, space, size: 1 << 16, calls };
    history.size = size(rng, &history, checked);
    history
}

fn calls(rng: &mut Rng, world: &World, listed: usize) -> Vec<Call> {
    (0..2 + rng.below(10)).map(|_| call(rng, world, listed)).collect()
}

/// A move anywhere among them, mostly with a target that is done before it and others that are done behind it; and every
/// other time a second one.
fn calls_with_moves(rng: &mut Rng, world: &World, listed: usize) -> Vec<Call> {
    let mut all = calls(rng, world, listed);
    let at = rng.below(all.len() + 1);
    let mut append = || Call::Append(world.target(rng).bytes());
    let around = vec![append(), Call::Step, Call::Move, append(), append(), Call::Step, Call::Step];
    let moved = if rng.chance(3, 4) { around } else { vec![Call::Move] };
    all.splice(at..at, moved);
    if rng.chance(1, 2) {
        all.insert(rng.below(all.len() + 1), Call::Move);
    }
    all
}

/// A few targets, or so many that the list is soon full; and how many.
fn list(rng: &mut Rng, world: &World) -> (Piece, usize) {
    if rng.chance(1, 30) {
        let count = 252 + rng.below(4);
        let nameless = (0..count).map(|_| target("", "")).collect();
        return (targets(byte(0), byte(rng.one(&[0, 1])), nameless), count);
    }
    world.targets(rng)
}

fn call(rng: &mut Rng, world: &World, listed: usize) -> Call {
    match rng.below(8) {
        0 | 1 => Call::Append(world.target(rng).bytes()),
        2 if rng.chance(1, 2) => {
            let target = world.target(rng);
            Call::Append(damage::damaged(rng, &target))
        }
        2 | 3 => Call::Withdraw(position(rng, listed)),
        _ => Call::Step,
    }
}

/// Mostly one of the last positions of the list, or of those that were appended since.
fn position(rng: &mut Rng, listed: usize) -> u8 {
    match rng.below(8) {
        0 => rng.below(256) as u8,
        1 | 2 => rng.below(listed + 1).min(255) as u8,
        _ => listed.saturating_sub(2).saturating_add(rng.below(4)).min(255) as u8,
    }
}

/// Enough for all that is appended, or not.
fn list_space(rng: &mut Rng, targets: &[u8], calls: &[Call]) -> usize {
    let appended = |call: &Call| if let Call::Append(target) = call { target.len() } else { 0 };
    let more: usize = calls.iter().map(appended).sum();
    let room = match rng.below(10) {
        0 => more.saturating_sub(1),
        1 => rng.below(more + 1),
        2 => LONGEST,
        _ => more + rng.below(20),
    };
    targets.len() + room
}

/// A buffer for all reports of the history, or for fewer of them.
fn size(rng: &mut Rng, history: &History, checked: Checked) -> usize {
    let used = |courses: Vec<Course>| courses.last().map_or(0, |course| course.state.used);
    let needed = history.courses(checked).map_or(0, used);
    match rng.below(8) {
        0 => needed,
        1 => needed.saturating_sub(1),
        2 => rng.below(needed + 1),
        3 => rng.below(12),
        _ => needed + rng.below(300),
    }
}

/// The same with its state and its buffer changed into others, such as no call leaves.
pub fn changed(rng: &mut Rng, mut course: Course) -> Course {
    for _ in 0..1 + rng.below(3) {
        change(rng, &mut course);
    }
    course
}

fn change(rng: &mut Rng, course: &mut Course) {
    let (state, size) = (&mut course.state, course.buffer.len());
    match rng.below(12) {
        0 => state.used = rng.one(&[0, 1, 9, 10, size, size + 1, usize::MAX, usize::MAX - 9]),
        1 => state.used = rng.below(size + 20),
        2 => state.used = state.used.wrapping_add(rng.below(3)).wrapping_sub(1),
        3 => state.stopped = rng.one(&[0, 0, 1, 2, 255]),
        4 => state.marks.iter_mut().for_each(|mark| *mark = rng.one(&[0, 0, 1, 2, 3, 255])),
        5 => state.marks = [0; 256],
        6 => state.visits = rng.one(&[0, 1, u32::MAX, u32::MAX - 1, u32::MAX - 3]),
        7 => state.rules = rng.below(256) as u8,
        8 => course.buffer.resize(rng.below(size + 200), FILL),
        9 if size > 0 => {
            let at = rng.below(size);
            course.buffer[at] = rng.below(256) as u8;
        }
        10 => {
            // reports of no bytes, as many as there is room
            course.buffer.fill(0);
            state.used = rng.below(size + 1);
        }
        _ => {
            // the length of the first report, so that others are found or none
            let near = rng.below(4);
            course.buffer.iter_mut().skip(8).take(2).for_each(|byte| *byte = byte.wrapping_add(near as u8));
        }
    }
}
