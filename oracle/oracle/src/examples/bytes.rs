//! Examples about reading: records in hexadecimal, and the number and record that answer.
//!
//! A line says the records (`S` schema, `C` condition, `T` targets, `P` path), the number and record returned, and what
//! it shows. A record that is not given is a schema without entries, the condition Call, one undeclared target. With `P`
//! the operation is Lookup, else Check.

use crate::hex;

pub struct Example {
    pub shows: &'static str,
    pub schema: Vec<u8>,
    pub condition: Vec<u8>,
    pub targets: Vec<u8>,
    pub path: Option<Vec<u8>>,
    pub number: u8,
    pub record: u8,
}

const EMPTY_SCHEMA: &str = "44 57 53 00 01 00 00 00 00";
const CALL: &str = "44 57 43 00 01 0B 00 00 00 00 00 00 00 00";
const ONE_TARGET: &str = "44 57 54 00 01 00 00 01 00 04 76 69 65 77";

/// Records, `=>`, number and record, `;`, what it shows.
const TABLE: &str = "
S 58 58 58 C [00]*32769 => 3 1 ; a record is read to its end before the next one's size is looked at
S 44 57 53 00 01 00 00 00 00 00 C 58 58 58 => 10 1 ; bytes after the end of one record come before the next record
S [00]*32769 => 1 1 ; 32,769 bytes are too many
C [58]*32768 => 3 2 ; 32,768 bytes are not
C 58 => 2 2 ; a mark that is cut
C 58 58 58 => 3 2 ; another mark
C 44 57 43 07 => 2 2 ; a version that is cut
C 44 57 43 00 04 => 4 2 ; another version
C 44 57 43 00 00 => 4 2 ; version 0
C 44 57 43 01 02 => 4 2 ; a version has 16 bits
C - => 2 2 ; an empty record
P 44 57 50 00 01 00 00 00 => 0 0 ; an empty path
P 44 57 50 01 00 00 00 => 4 4 ; the path record's version has 16 bits too
C 44 57 43 00 01 0A 00 00 00 00 00 00 00 00 00 02 22 => 2 2 ; a string that is cut, though a byte is outside its class
C 44 57 43 00 01 0A 00 00 00 00 00 00 00 00 00 01 22 => 6 2 ; a plain string with a quote
S 44 57 53 00 01 00 02 01 62 00 00 01 20 00 00 00 00 => 6 1 ; outside its class before not ascending
S 44 57 53 00 01 00 02 01 62 00 00 01 61 00 00 00 00 => 8 1 ; b, then a
S 44 57 53 00 01 00 02 01 62 00 00 02 61 => 2 1 ; b, then a cut name
S 44 57 53 00 01 00 02 01 62 00 00 02 61 61 00 00 00 00 => 8 1 ; the length byte takes no part in the order
C 44 57 43 00 01 0E => 5 2 ; an undefined kind, nothing behind it
C 44 57 43 00 01 0B => 2 2 ; a kind without its span
C 44 57 43 00 01 09 00 00 00 00 00 00 00 00 01 FF => 2 2 ; an annotation's byte is a count
C 44 57 43 00 01 09 00 00 00 00 00 00 00 00 03 => 5 2 ; an undefined slot
T 44 57 54 00 01 00 05 => 5 3 ; an undefined narrowing
P 44 57 50 00 01 02 => 5 4 ; an undefined scope
C 44 57 43 00 01 [03 00 00 00 00 00 00 00 00]*31 0B 00 00 00 00 00 00 00 00 => 0 0 ; level 32
C 44 57 43 00 01 [03 00 00 00 00 00 00 00 00]*32 => 2 2 ; level 33: the byte is missing
C 44 57 43 00 01 [03 00 00 00 00 00 00 00 00]*32 0E => 5 2 ; level 33: the kind is undefined
C 44 57 43 00 01 [03 00 00 00 00 00 00 00 00]*32 0B => 7 2 ; level 33: no span is asked for
S 44 57 53 00 01 00 00 00 01 01 41 00 00 00 [04]*31 06 00 => 0 0 ; a record at level 32 without attributes
S 44 57 53 00 01 00 00 00 01 01 41 00 00 00 [04]*31 06 01 01 22 => 6 1 ; its attribute's name comes first
S 44 57 53 00 01 00 00 00 01 01 41 00 00 00 [04]*31 06 01 01 61 00 => 7 1 ; then its type at level 33
C 44 57 43 00 01 08 00 00 00 00 00 00 00 00 04 [0A 01]*31 0B => 7 2 ; the level before the aggregate
C 44 57 43 00 01 08 00 00 00 00 00 00 00 00 04 0A 01 0B => 9 2 ; an aggregate below an array, nothing behind it
C 44 57 43 00 01 08 00 00 00 00 00 00 00 00 04 0A 01 0B 63 => 9 2 ; its own byte is not looked at
C 44 57 43 00 01 08 00 00 00 00 00 00 00 00 04 0A 01 0C 02 0B => 9 2 ; through arithmetic
C 44 57 43 00 01 08 00 00 00 00 00 00 00 00 04 0A 01 63 => 5 2 ; an undefined term below an array
S 44 57 53 00 01 00 00 00 02 01 42 01 6D 00 00 00 01 41 => 2 1 ; an action's type name alone is not judged
S 44 57 53 00 01 00 00 00 02 01 42 01 6D 00 00 00 01 41 01 22 => 6 1 ; the id's class before the order
S 44 57 53 00 01 00 00 00 02 01 42 01 6D 00 00 00 01 41 01 7A => 8 1 ; at the id the pair is judged
S 44 57 53 00 01 00 00 00 02 01 42 01 6D 00 00 00 01 42 01 6D => 8 1 ; equal pairs
S 44 57 53 00 01 00 00 00 02 01 42 01 6D 00 00 00 01 42 01 6E 00 00 00 => 0 0 ; equal type names, ids ascend
S 44 57 53 00 01 00 00 00 02 01 42 01 6D 00 00 00 04 42 3A 3A 41 00 00 00 00 => 0 0 ; a prefix comes first
S 44 57 53 00 01 00 01 01 45 02 01 62 01 61 00 00 00 => 8 1 ; ancestors
S 44 57 53 00 01 00 00 00 01 01 41 00 00 00 06 02 01 61 00 01 61 => 8 1 ; attributes
S 44 57 53 00 01 00 00 00 01 01 41 00 00 00 06 02 01 61 06 01 01 61 00 01 62 00 => 0 0 ; an inner record's start anew
T 44 57 54 00 01 00 00 02 00 01 76 00 01 76 => 0 0 ; targets may repeat
S 44 57 53 00 01 00 00 00 01 03 4F 64 64 00 00 00 00 => 0 0 ; an action of any type
S 44 57 53 00 01 00 00 00 01 00 => 6 1 ; an empty type name
T 44 57 54 00 01 02 00 => 6 3 ; a narrowing's empty name
T 44 57 54 00 01 00 00 01 00 00 => 0 0 ; an empty namespace and an empty id
C 44 57 43 00 01 09 00 00 00 00 00 00 00 00 01 01 04 61 3A 3A 62 => 6 2 ; a segment is one identifier
C 44 57 43 00 01 08 00 00 00 00 00 00 00 00 04 01 05 61 3A 3A 3A 62 02 => 6 2 ; three colons
C 44 57 43 00 01 08 00 00 00 00 00 00 00 00 04 01 02 69 6E 02 => 0 0 ; no word is reserved
C 44 57 43 00 01 [03 00 00 00 00 00 00 00 00]*29 08 00 00 00 00 00 00 00 00 04 0B 02 00 00 00 00 00 00 00 00 00 0B 00 00 00 00 00 00 00 00 02 => 0 0 ; an aggregate's body at level 32
C 44 57 43 00 01 [03 00 00 00 00 00 00 00 00]*30 08 00 00 00 00 00 00 00 00 04 0B 02 00 00 00 00 00 00 00 00 00 0B 00 00 00 00 00 00 00 00 02 => 7 2 ; and at level 33
C 44 57 43 00 01 [03 00 00 00 00 00 00 00 00]*30 08 00 00 00 00 00 00 00 00 04 02 02 => 0 0 ; an operand at level 32
C 44 57 43 00 01 [03 00 00 00 00 00 00 00 00]*31 08 00 00 00 00 00 00 00 00 04 02 02 => 7 2 ; and at level 33
C 44 57 43 00 01 0B FF FF FF FF 00 00 00 00 => 0 0 ; a span may end before it starts
S 44 57 53 00 01 00 01 01 45 01 01 45 00 00 00 => 0 0 ; its own ancestor
P 44 57 50 00 01 00 00 01 => 12 3 ; a position beyond the list
P 44 57 50 00 01 00 00 01 00 => 10 4 ; bytes after the end come before the position
T 44 57 54 00 01 00 00 00 P 44 57 50 00 01 00 00 00 => 12 3 ; no position is in an empty list
S 44 57 53 00 01 00 00 00 00 C 44 57 43 00 01 08 00 00 00 00 00 00 00 08 01 05 02 T 44 57 54 00 01 00 00 01 00 04 76 69 65 77 => 0 0 ; the whole run of document 01
";

pub fn all() -> Vec<Example> {
    TABLE.lines().filter(|line| !line.is_empty()).map(example).collect()
}

fn example(line: &'static str) -> Example {
    let (records, rest) = line.split_once("=>").expect("a line has =>");
    let (answer, shows) = rest.split_once(';').expect("a line says what it shows");
    let mut answer = answer.split_whitespace().map(|n| n.parse().expect("a number"));
    let number = answer.next().expect("a number");
    let record = answer.next().expect("a record");
    let given = |letter, otherwise: &str| {
        let text = part(records, letter).unwrap_or(otherwise.to_string());
        hex::decode(text.trim()).expect("hexadecimal")
    };
    Example {
        shows: shows.trim(),
        schema: given('S', EMPTY_SCHEMA),
        condition: given('C', CALL),
        targets: given('T', ONE_TARGET),
        path: part(records, 'P').map(|text| hex::decode(text.trim()).expect("hexadecimal")),
        number,
        record,
    }
}

/// What follows a record's letter, up to the next letter. `C` is a digit too, but never stands alone as one.
fn part(records: &str, letter: char) -> Option<String> {
    let is_letter = |word: &str| matches!(word, "S" | "C" | "T" | "P");
    let mut words = records.split_whitespace().skip_while(|w| *w != letter.to_string());
    words.next()?;
    Some(words.take_while(|w| !is_letter(w)).collect::<Vec<_>>().join(" "))
}
