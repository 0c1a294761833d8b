//! Names and starts that are chosen against the hash of the library's table of reports, as someone would choose them who
//! knows its key: all of the reports fall on few slots. The hash is that of crates/reports/specs/Slots.antt under key 0.

use std::collections::HashMap;

const MULTIPLIER: u64 = 2_654_435_761;

fn middle(a: u64, b: u64) -> u64 {
    a * b / 65_536 % (1 << 32)
}

fn mixed(h: u64, n: u64) -> u64 {
    middle((h + n) % (1 << 32), MULTIPLIER)
}

fn number(bytes: &[u8]) -> u64 {
    bytes.iter().fold(0, |n, byte| n * 256 + u64::from(*byte))
}

/// The two numbers of a text's words of eight bytes, one of their first halves and one of their second halves, behind what
/// was mixed before.
fn mixed_words([one, two]: [u64; 2], text: &[u8]) -> [u64; 2] {
    let halves = |[one, two]: [u64; 2], word: &[u8]| [mixed(one, number(&word[..4])), mixed(two, number(&word[4..]))];
    text.chunks_exact(8).fold([one, two], halves)
}

/// The number of a message: of its words, and then of the bytes that are left.
fn hashed_message(message: &[u8]) -> u64 {
    let [one, two] = mixed_words([0, 0], message);
    let left = message.chunks_exact(8).remainder();
    left.iter().fold(mixed(mixed(0, one), two), |h, byte| mixed(h, u64::from(*byte)))
}

fn hashed(h: u64, start: u32) -> u64 {
    let n = mixed(h, u64::from(start));
    middle(n, n)
}

/// Two to the power of `blocks` names that have the same number behind this front of a message. Each block of two words has
/// one of two forms, between which the number does not tell.
pub fn names(front: &str, blocks: usize) -> Vec<String> {
    let even = "T".repeat(8 - front.len() % 8);
    let mut h = mixed_words([0, 0], format!("{front}{even}").as_bytes());
    let mut names = vec![even];
    for _ in 0..blocks {
        let (two, next) = alike(h);
        h = next;
        names = names.iter().flat_map(|name| two.iter().map(move |block| format!("{name}{block}"))).collect();
    }
    names
}

/// A block of two words whose first halves are eight letters that belong to a number.
fn block(count: u64) -> [u8; 16] {
    let mut block = *b"....same....same";
    for i in 0..8 {
        block[i + i / 4 * 4] = b'a' + (count / 26_u64.pow(i as u32) % 26) as u8;
    }
    block
}

/// Two blocks that have the same numbers behind these, and those numbers. They differ in the first halves of their words
/// alone: among some millions there are such.
fn alike(h: [u64; 2]) -> ([String; 2], [u64; 2]) {
    let mut seen = HashMap::new();
    for count in 0_u64.. {
        let next = mixed_words(h, &block(count));
        if let Some(other) = seen.insert(next[0], count) {
            return ([other, count].map(|count| String::from_utf8_lossy(&block(count)).into_owned()), next);
        }
    }
    unreachable!("there are more blocks than numbers")
}

/// The first starts with which a message falls on as many first ones of so many slots.
pub fn starts(message: &str, count: usize, slots: usize) -> Vec<u32> {
    let h = hashed_message(message.as_bytes());
    (0..u32::MAX).filter(|start| hashed(h, *start) % (slots as u64) < count as u64).take(count).collect()
}

#[cfg(test)]
mod tests {
    use super::*;

    #[test]
    fn all_names_and_starts_share_few_slots() {
        let message = |name: &str| format!("got `{name}` and `int`");
        let names = names("got `", 4);
        let starts = starts(&message(&names[0]), 20, 50_000);
        assert_eq!((names.len(), starts.len()), (16, 20));
        for (name, start) in names.iter().flat_map(|name| starts.iter().map(move |start| (name, start))) {
            assert!(hashed(hashed_message(message(name).as_bytes()), *start) % 50_000 < 20);
        }
    }
}
