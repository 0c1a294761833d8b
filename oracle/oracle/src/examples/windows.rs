//! Examples of time windows: where they stand in a condition, what is wrong with them, and how they are listed.

use crate::hex;

/// Records with what is answered: a check or sums without reports, or a listing.
pub struct Windowed {
    pub shows: &'static str,
    /// `k` a check, `m` sums, `w` a listing.
    pub letter: char,
    pub period: u64,
    /// The lent buffer's size.
    pub size: usize,
    pub condition: Vec<u8>,
    /// Number, record and count.
    pub answer: [usize; 3],
    /// The windows that are written, where the line says them: start, sweeps, rest.
    pub entries: Vec<[u64; 3]>,
}

/// A line: letter, period, the buffer's size, `C` and the condition, `=>`, number, record and count, after `:` the windows,
/// after `;` what it shows.
const TABLE: &str = "
w 3600 4096 C 44 57 43 00 02 04 00 00 00 05 00 00 00 06 00 01 00 00 00 00 00 00 00 5A 0B 00 00 00 00 00 00 00 00 => 0 0 1 : 5 1 1800 ; minutes, behind the condition's own span
w 1 4096 C 44 57 43 00 02 06 00 00 00 07 00 00 00 08 00 00 00 00 00 00 00 00 00 02 0B 00 00 00 00 00 00 00 00 0B 00 00 00 00 00 00 00 00 => 0 0 1 : 7 2 0 ; of Since before its left
k 60 4096 C 44 57 43 00 02 06 00 00 00 00 00 00 00 00 0B 00 00 00 00 00 00 00 00 00 00 00 00 00 00 00 00 00 02 0B 00 00 00 00 00 00 00 00 => 5 2 0 ; not behind the left
k 60 4096 C 44 57 43 00 02 03 00 00 00 00 00 00 00 00 0B 00 00 00 00 00 00 00 00 => 0 0 0 ; Not has none
k 60 4096 C 44 57 43 00 01 04 00 00 00 00 00 00 00 00 0B 00 00 00 00 00 00 00 00 => 0 0 0 ; nor has version 1
k 60 4096 C 44 57 43 00 02 04 00 00 00 00 00 00 00 00 => 2 2 0 ; a window that is missing
k 60 4096 C 44 57 43 00 02 04 00 00 00 00 00 00 00 00 02 => 5 2 0 ; an undefined choice
k 60 4096 C 44 57 43 00 02 04 00 00 00 00 00 00 00 00 00 04 => 5 2 0 ; an undefined unit: the amount is not asked for
k 60 4096 C 44 57 43 00 02 04 00 00 00 00 00 00 00 00 00 04 FF FF FF FF FF FF FF FF 0B 00 00 00 00 00 00 00 00 => 5 2 0 ; an undefined unit comes before the amount's range
k 60 4096 C 44 57 43 00 02 04 00 00 00 00 00 00 00 00 00 00 FF FF FF FF FF FF FF => 2 2 0 ; a cut amount comes before its range
k 60 4096 C 44 57 43 00 02 04 00 00 00 00 00 00 00 00 00 00 FF FF FF FF FF FF FF FF => 13 2 0 ; a negative amount: the body is not asked for
k 60 4096 C 44 57 43 00 02 04 00 00 00 00 00 00 00 00 01 0B 00 00 00 00 00 00 00 00 => 0 0 0 ; a parameter: the byte alone
w 1 4096 C 44 57 43 00 02 04 00 00 00 00 00 00 00 00 00 00 7F FF FF FF FF FF FF FF 0B 00 00 00 00 00 00 00 00 => 0 0 1 : 0 9223372036854775807 0 ; the most seconds
w 1 4096 C 44 57 43 00 02 04 00 00 00 00 00 00 00 00 00 01 02 22 22 22 22 22 22 22 0B 00 00 00 00 00 00 00 00 => 0 0 1 : 0 9223372036854775800 0 ; the most minutes
w 1 4096 C 44 57 43 00 02 04 00 00 00 00 00 00 00 00 00 01 02 22 22 22 22 22 22 23 0B 00 00 00 00 00 00 00 00 => 13 2 0 ; a minute more
w 1 4096 C 44 57 43 00 02 04 00 00 00 00 00 00 00 00 00 02 00 09 1A 2B 3C 4D 5E 6F 0B 00 00 00 00 00 00 00 00 => 0 0 1 : 0 9223372036854774000 0 ; the most hours
w 1 4096 C 44 57 43 00 02 04 00 00 00 00 00 00 00 00 00 02 00 09 1A 2B 3C 4D 5E 70 0B 00 00 00 00 00 00 00 00 => 13 2 0 ; an hour more
w 1 4096 C 44 57 43 00 02 04 00 00 00 00 00 00 00 00 00 03 00 00 61 17 22 83 39 44 0B 00 00 00 00 00 00 00 00 => 0 0 1 : 0 9223372036854720000 0 ; the most days
w 1 4096 C 44 57 43 00 02 04 00 00 00 00 00 00 00 00 00 03 00 00 61 17 22 83 39 45 0B 00 00 00 00 00 00 00 00 => 13 2 0 ; a day more
w 1 4096 C 44 57 43 00 02 04 00 00 00 00 00 00 00 00 00 03 7F FF FF FF FF FF FF FF 0B 00 00 00 00 00 00 00 00 => 13 2 0 ; wrapped to 64 bits it would be -86400
w 9 4096 C 44 57 43 00 02 04 00 00 00 00 00 00 00 00 00 03 00 00 00 00 00 00 00 00 0B 00 00 00 00 00 00 00 00 => 0 0 1 : 0 0 0 ; no time is a window
k 60 4096 C 44 57 43 00 02 07 00 00 00 00 00 00 00 00 00 00 00 00 00 00 00 00 00 00 01 00 00 0B 02 00 00 00 00 00 00 00 00 00 05 00 00 00 00 00 00 00 00 00 00 FF FF FF FF FF FF FF FF 0B 00 00 00 00 00 00 00 00 => 13 2 0 ; in an aggregate that is an argument it is read
m 60 4096 C 44 57 43 00 02 07 00 00 00 00 00 00 00 00 00 00 00 00 00 00 00 00 00 00 01 00 00 0B 02 00 00 00 00 00 00 00 00 00 05 00 00 00 00 00 00 00 00 00 00 FF FF FF FF FF FF FF FF 0B 00 00 00 00 00 00 00 00 => 13 2 0 ; by sums too
w 60 4096 C 44 57 43 00 02 07 00 00 00 00 00 00 00 00 00 00 00 00 00 00 00 00 00 00 01 00 00 0B 02 00 00 00 00 00 00 00 00 00 05 00 00 00 00 00 00 00 00 00 00 00 00 00 00 00 00 00 09 0B 00 00 00 00 00 00 00 00 => 0 0 0 ; and not reached
k 60 4096 C 44 57 43 00 02[04 00 00 00 00 00 00 00 00 01]*31 0B 00 00 00 00 00 00 00 00 => 0 0 0 ; a window adds no level: level 32
k 60 4096 C 44 57 43 00 02[04 00 00 00 00 00 00 00 00 01]*32 0B 00 00 00 00 00 00 00 00 => 7 2 0 ; and level 33
w 10 4096 C 44 57 43 00 02 06 00 00 00 01 00 00 00 00 00 00 00 00 00 00 00 00 00 0B 04 00 00 00 02 00 00 00 00 00 00 00 00 00 00 00 00 00 16 0B 00 00 00 00 00 00 00 00 05 00 00 00 03 00 00 00 00 00 00 00 00 00 00 00 00 00 21 0B 00 00 00 00 00 00 00 00 => 0 0 3 : 1 1 1 | 2 2 2 | 3 3 3 ; Since, its left, its right
w 10 4096 C 44 57 43 00 02 08 00 00 00 00 00 00 00 00 04 0B 02 00 00 00 00 00 00 00 00 00 04 00 00 00 04 00 00 00 00 00 00 00 00 00 00 00 00 00 04 0B 00 00 00 00 00 00 00 00 0B 02 00 00 00 00 00 00 00 00 00 04 00 00 00 05 00 00 00 00 00 00 00 00 00 00 00 00 00 05 0B 00 00 00 00 00 00 00 00 => 0 0 2 : 4 0 4 | 5 0 5 ; the left operand's body first
w 10 4096 C 44 57 43 00 02 04 00 00 00 00 00 00 00 00 01 05 00 00 00 06 00 00 00 00 00 00 00 00 00 00 00 00 00 06 0B 00 00 00 00 00 00 00 00 => 0 0 1 : 6 0 6 ; a parameter is left out
w 60 4096 C 44 57 43 00 01 04 00 00 00 00 00 00 00 00 0B 00 00 00 00 00 00 00 00 => 0 0 0 ; none in version 1
w 0 4096 C 44 57 43 00 01 0B 00 00 00 00 00 00 00 00 => 14 0 0 ; no period, and no window
w 0 0 C 44 57 43 00 02 04 00 00 00 00 00 00 00 00 00 00 00 00 00 00 00 00 00 05 0B 00 00 00 00 00 00 00 00 => 14 0 0 ; no period comes before no space
w 0 4096 C 44 57 43 00 02 04 00 00 00 00 00 00 00 00 00 00 FF FF FF FF FF FF FF FF 0B 00 00 00 00 00 00 00 00 => 13 2 0 ; the record comes before the period
w 0 4096 C 44 57 43 00 02 0B 00 00 00 00 00 00 00 00 00 => 10 2 0 ; bytes after the end too
w 18446744073709551615 4096 C 44 57 43 00 02 04 00 00 00 00 00 00 00 00 00 00 7F FF FF FF FF FF FF FF 0B 00 00 00 00 00 00 00 00 => 0 0 1 : 0 0 9223372036854775807 ; a period above every signed number
w 1 39 C 44 57 43 00 02 04 00 00 00 00 00 00 00 00 00 00 00 00 00 00 00 00 00 01 05 00 00 00 00 00 00 00 00 00 00 00 00 00 00 00 00 00 02 0B 00 00 00 00 00 00 00 00 => 11 0 1 : 0 1 0 ; the second does not fit
w 1 40 C 44 57 43 00 02 04 00 00 00 00 00 00 00 00 00 00 00 00 00 00 00 00 00 01 05 00 00 00 00 00 00 00 00 00 00 00 00 00 00 00 00 00 02 0B 00 00 00 00 00 00 00 00 => 0 0 2 ; both fit
k 60 4096 C 44 57 43 00 02 0B 00 00 00 00 00 00 00 00 => 0 0 0 ; version 2
";

pub fn all() -> Vec<Windowed> {
    TABLE.lines().filter(|line| !line.is_empty()).map(example).collect()
}

/// A listing's period as its second record: eight bytes.
pub fn period_bytes(period: u64) -> Vec<u8> {
    period.to_be_bytes().to_vec()
}

/// The period that a record of a listing says; no byte is 0.
pub fn period_of(bytes: &[u8]) -> u64 {
    bytes.iter().take(8).fold(0, |period, byte| period << 8 | u64::from(*byte))
}

fn example(line: &'static str) -> Windowed {
    let (given, rest) = line.split_once("=>").expect("a line has =>");
    let (answer, shows) = rest.split_once(';').expect("a line says what it shows");
    let (numbers, entries) = answer.split_once(':').unwrap_or((answer, ""));
    let (head, condition) = given.split_once(" C ").expect("a line has a condition");
    let mut words = head.split_whitespace();
    let mut word = || words.next().expect("a line begins with a letter, a period and a size");
    Windowed {
        shows: shows.trim(),
        letter: word().chars().next().expect("a word has a letter"),
        period: word().parse().expect("a period"),
        size: word().parse().expect("a size"),
        condition: hex::decode(condition.trim()).expect("hexadecimal"),
        answer: numbers_of(numbers),
        entries: entries.split('|').filter(|text| !text.trim().is_empty()).map(numbers_of).collect(),
    }
}

fn numbers_of<N: std::str::FromStr>(text: &str) -> [N; 3] {
    let all: Vec<N> = text.split_whitespace().filter_map(|word| word.parse().ok()).collect();
    all.try_into().ok().expect("three numbers")
}
