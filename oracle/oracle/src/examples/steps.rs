//! Examples of the stepping check, from the readings of the request: histories with the answer of each call.

use crate::hex;
use crate::steps::{Call, History, OWN_BODIES};

pub struct Stepped {
    pub shows: &'static str,
    pub history: History,
    /// Number, record and count, and in some lines the visits, of the start and of each call; none of a move.
    pub answers: Vec<Vec<usize>>,
}

const EMPTY_SCHEMA: &str = "44 57 53 00 01 00 00 00 00";
const CONDITION: &str = "44 57 43 00 01 08 [00]*8 01 05 02";
const ONE_TARGET: &str = "44 57 54 00 01 00 00 01 00 01 76";

/// A line: `own` where binders have their own bodies, `steps`, then `S`, `C` and `T` with schema, condition and targets, `L`
/// and `B` with the lengths of the list's and of the reports' buffer, after each `|` a call, `=>`, the answers of the start and
/// of each call (`ok` of a move, which answers nothing), after `;` what it shows. A schema that is not given has no entries, the condition is `true < 1`, and the list
/// has the target `v`; the list's buffer has 32,768 bytes, and that of the reports 4,096.
const TABLE: &str = "
steps C 58 58 58 | step => 3 2 0 | 3 2 0 ; a refused record refuses each step
steps S 58 58 58 C 58 58 58 | step | withdraw 0 => 3 1 0 | 3 1 0 | 0 0 0 ; a withdrawal reads the list alone
steps S 44 57 53 00 01 00 00 00 01 06 41 63 74 69 6F 6E 01 76 00 00 06 00 T 44 57 54 00 01 01 00 02 00 01 76 00 01 77 | step | withdraw 0 | step => 0 0 0 | 0 0 0 | 19 0 0 | 0 0 1 ; a skipped target takes a step, and the next one waits
steps T 44 57 54 00 01 00 00 02 00 01 76 00 01 77 | step | step => 0 0 0 | 0 0 1 | 0 0 1 ; the count is that of the check so far
steps | step | step => 0 0 0 | 0 0 1 | 0 0 1 ; where none is pending the last answer comes again
steps T 44 57 54 00 01 00 00 00 | step => 0 0 0 | 0 0 0 ; an empty list
steps T 44 57 54 00 01 00 00 00 | step | append 00 01 76 | step => 0 0 0 | 0 0 0 | 0 0 11 | 0 0 1 ; one that is appended after the end is done
steps T 44 57 54 00 01 00 00 02 00 01 76 00 01 77 B 84 | step | step | withdraw 1 | withdraw 0 | append 00 01 78 | step => 0 0 0 | 11 0 0 | 11 0 0 | 0 0 0 | 19 0 0 | 0 0 17 | 11 0 0 ; after 11 no target is done any more; appending and withdrawing go on
steps B 84 | step | step => 0 0 0 | 11 0 0 | 11 0 0 ; the first report does not fit
steps B 85 | step | step => 0 0 0 | 0 0 1 | 0 0 1 ; it just fits
steps C 44 57 43 00 01 01 [00]*8 08 [00]*8 01 05 02 08 [00 00 00 01]*2 01 05 02 B 169 | step | step => 0 0 0 | 11 0 1 | 11 0 1 ; the second does not fit
steps | append => 0 0 0 | 2 3 0 ; no namespace
steps | append 00 => 0 0 0 | 2 3 0 ; no id
steps | append 01 20 => 0 0 0 | 6 3 0 ; a namespace outside its class, before the id that is missing
steps | append 00 01 22 => 0 0 0 | 6 3 0 ; an id outside its class
steps | append 00 02 22 => 0 0 0 | 2 3 0 ; an id that is cut
steps | append 00 00 00 => 0 0 0 | 10 3 0 ; bytes after
steps | append 00 00 [00]*32767 => 0 0 0 | 10 3 0 ; bytes after, however many
steps | append 00 00 => 0 0 0 | 0 0 13 ; a target of no name
steps T 44 57 54 00 01 00 00 FF [00 00]*255 | append 01 20 00 => 0 0 0 | 6 3 0 ; the target is read before 18
steps T 44 57 54 00 01 00 00 FF [00 00]*255 | withdraw 254 | append 00 00 => 0 0 0 | 0 0 0 | 18 0 0 ; withdrawn ones count among the 255
steps T 44 57 54 00 01 00 00 FE [00 00]*254 | append 00 00 | append 00 00 => 0 0 0 | 0 0 518 | 18 0 0 ; 255 are allowed
steps T 44 57 54 00 01 00 00 40 [FF [41]*255 FF [41]*255]*63 FC [41]*252 F8 [41]*248 | append 00 00 | append 00 00 => 0 0 0 | 0 0 32768 | 18 0 0 ; 32,768 bytes are allowed
steps T 44 57 54 00 01 00 00 40 [FF [41]*255 FF [41]*255]*63 FC [41]*252 FA [41]*250 | withdraw 0 | append 00 00 => 0 0 0 | 0 0 0 | 18 0 0 ; withdrawn ones count among the bytes
steps T 44 57 54 00 01 00 00 02 00 01 76 00 01 77 | withdraw 0 | withdraw 0 | withdraw 2 | step | withdraw 1 => 0 0 0 | 0 0 0 | 19 0 0 | 19 0 0 | 0 0 1 | 19 0 0 ; positions never move
steps | withdraw 0 | step | append 00 01 76 | withdraw 0 | step => 0 0 0 | 0 0 0 | 0 0 0 | 0 0 14 | 19 0 0 | 0 0 1 ; the same action again, at a new position
steps | withdraw 255 => 0 0 0 | 19 0 0 ; no such position
steps L 13 | append 00 00 => 0 0 0 | 0 0 13 ; the list's buffer is just long enough
steps L 12 | append 00 00 | step => 0 0 0 | 11 0 0 | 0 0 1 ; one byte too short, which does not stop the check
steps T 44 57 54 00 01 00 00 FF [00 00]*255 L 518 | append 00 00 => 0 0 0 | 18 0 0 ; 18 before 11
steps L 12 | append 00 01 22 => 0 0 0 | 6 3 0 ; the target before 11
steps T 58 58 58 | append => 3 3 0 | 3 3 0 ; the list before the target
steps T 44 57 54 00 01 02 04 55 73 65 72 01 00 | append 00 01 76 | step => 0 0 0 | 0 0 16 | 0 0 1 ; the count behind a narrowing with a name
steps T 44 57 54 00 01 00 00 02 00 01 76 00 01 77 | step | withdraw 1 | step => 0 0 0 0 | 0 0 1 1 | 0 0 0 0 | 0 0 1 1 ; visits of the targets that are done
steps T 44 57 54 00 01 00 00 02 00 01 76 00 01 77 | step | append 00 | step => 0 0 0 0 | 0 0 1 1 | 2 3 0 0 | 0 0 1 2 ; a refused call answers no visits
steps C 44 57 43 00 01 01 [00]*8 08 [00]*8 01 05 02 08 [00 00 00 01]*2 01 05 02 T 44 57 54 00 01 00 00 02 00 01 76 00 01 77 B 169 | step | step => 0 0 0 0 | 11 0 1 3 | 11 0 1 3 ; after 11 visits stay
steps C 44 57 43 00 01 01 [00]*8 08 [00]*8 01 05 02 08 [00 00 00 01]*2 01 05 02 T 44 57 54 00 01 00 00 02 00 01 76 00 01 77 | step | step => 0 0 0 0 | 0 0 2 3 | 0 0 2 6 ; a repeat is no report, and has its visits
steps C 44 57 43 00 01 01 [00]*8 09 [00]*8 00 01 76 01 06 53 74 72 69 6E 67 0B [00]*8 08 [00]*8 04 08 01 76 02 T 44 57 54 00 01 00 00 02 00 01 76 00 01 77 | step | step => 0 0 0 0 | 0 0 1 4 | 0 0 1 8 ; in one scope
own steps C 44 57 43 00 01 01 [00]*8 09 [00]*8 00 01 76 01 06 53 74 72 69 6E 67 0B [00]*8 08 [00]*8 04 08 01 76 02 T 44 57 54 00 01 00 00 02 00 01 76 00 01 77 | step | step => 0 0 0 0 | 0 0 0 4 | 0 0 0 8 ; the rule of the start holds for every step
steps C 44 57 43 00 01 01 [00]*8 09 [00]*8 00 01 76 01 06 53 74 72 69 6E 67 0B [00]*8 08 [00]*8 04 08 01 76 02 | move | step => 0 0 0 | ok | 0 0 0 ; a move before the first step gives the check with own bodies
steps C 44 57 43 00 01 01 [00]*8 09 [00]*8 00 01 76 01 06 53 74 72 69 6E 67 0B [00]*8 08 [00]*8 04 08 01 76 02 | step | move | step => 0 0 0 | 0 0 1 | ok | 0 0 1 ; what is done keeps its reports
steps B 84 | step | move | step => 0 0 0 | 11 0 0 | ok | 11 0 0 ; after 11 a move starts nothing anew
steps T 44 57 54 00 01 00 00 02 00 01 76 00 01 77 C 44 57 43 00 01 01 [00]*8 09 [00]*8 00 01 76 01 06 53 74 72 69 6E 67 0B [00]*8 08 [00]*8 04 08 01 76 02 | move | step | move | step => 0 0 0 | ok | 0 0 0 | ok | 0 0 0 ; a second move changes nothing
own steps C 44 57 43 00 01 01 [00]*8 09 [00]*8 00 01 76 01 06 53 74 72 69 6E 67 0B [00]*8 08 [00]*8 04 08 01 76 02 | move | step => 0 0 0 | ok | 0 0 0 ; nor does one in a check that was started with own bodies
steps T 44 57 54 00 01 00 00 02 00 01 76 00 01 77 | step | move | step => 0 0 0 | 0 0 1 | ok | 0 0 1 ; a repeat is dropped, whichever rule reported it first
steps T 44 57 54 00 01 00 00 02 00 01 76 00 01 77 C 44 57 43 00 01 01 [00]*8 09 [00]*8 00 01 76 01 06 53 74 72 69 6E 67 0B [00]*8 08 [00]*8 04 08 01 76 02 | step | move | step => 0 0 0 0 | 0 0 1 4 | ok | 0 0 1 8 ; visits do not depend on the rule
steps C 44 57 43 00 01 01 [00]*8 09 [00]*8 00 01 76 01 06 53 74 72 69 6E 67 0B [00]*8 08 [00]*8 04 08 01 76 02 | move | withdraw 0 | append 00 01 77 | move | step => 0 0 0 | ok | 0 0 0 | 0 0 14 | ok | 0 0 0 ; between any two calls
steps C 44 57 43 00 01 01 [00]*8 09 [00]*8 00 01 76 01 06 53 74 72 69 6E 67 0B [00]*8 08 [00]*8 04 08 01 76 02 S 58 58 58 | move | step => 3 1 0 | ok | 3 1 0 ; a move reads no record
";

pub fn all() -> Vec<Stepped> {
    TABLE.lines().filter(|line| !line.is_empty()).map(example).collect()
}

fn example(line: &'static str) -> Stepped {
    let (given, rest) = line.split_once(" => ").expect("a line has =>");
    let (answers, shows) = rest.split_once(" ; ").expect("a line says what it shows");
    let number = |word: &str| word.parse().expect("a number");
    let numbers = |answer: &str| answer.split_whitespace().filter(|word| *word != "ok").map(number).collect();
    let mut parts = given.split(" | ");
    let start = parts.next().expect("a line begins with the start");
    let part = |letter: &str, otherwise: &str| part_of(start, letter).unwrap_or(otherwise.to_string());
    let record = |letter: &str, otherwise: &str| decoded(&part(letter, otherwise));
    let history = History {
        rules: if start.starts_with("own ") { OWN_BODIES } else { 0 },
        records: [record("S", EMPTY_SCHEMA), record("C", CONDITION), record("T", ONE_TARGET)],
        space: number(&part("L", "32768")),
        size: number(&part("B", "4096")),
        calls: parts.map(call).collect(),
    };
    Stepped { shows, history, answers: answers.split(" | ").map(numbers).collect() }
}

/// What follows a letter that stands by itself, up to the next one.
fn part_of(start: &str, letter: &str) -> Option<String> {
    let mut words = start.split_whitespace().skip_while(|word| *word != letter);
    words.next()?;
    Some(
        words.take_while(|word| word.len() > 1 || !word.starts_with(char::is_alphabetic)).collect::<Vec<_>>().join(" "),
    )
}

fn call(words: &str) -> Call {
    match words.split_once(' ').unwrap_or((words, "")) {
        ("step", _) => Call::Step,
        ("append", target) => Call::Append(decoded(target)),
        ("withdraw", position) => Call::Withdraw(position.parse().expect("a position")),
        ("move", _) => Call::Move,
        _ => panic!("no call: {words}"),
    }
}

fn decoded(text: &str) -> Vec<u8> {
    hex::decode(text).expect("hexadecimal")
}
