//! Bytes as text: hexadecimal digits, `[..]*n;` for a part repeated n times, `-` for nothing at all. The semicolon ends the
//! decimal number, since digits may follow it. What is written here is not nested; what is read may be.

/// A part is written as a repetition where that spares at least this many bytes.
const WORTH: usize = 12;

/// The longest part that is looked for.
const LONGEST_PART: usize = 16;

pub fn encode(bytes: &[u8]) -> String {
    if bytes.is_empty() {
        return "-".to_string();
    }
    let mut text = String::new();
    let mut at = 0;
    while at < bytes.len() {
        let (part, times) = best_repetition(&bytes[at..]);
        if part * (times - 1) >= WORTH {
            text.push_str(&format!("[{}]*{times};", digits(&bytes[at..at + part])));
            at += part * times;
        } else {
            text.push_str(&digits(&bytes[at..=at]));
            at += 1;
        }
    }
    text
}

fn digits(bytes: &[u8]) -> String {
    bytes.iter().map(|b| format!("{b:02X}")).collect()
}

/// The length of the part at the front whose repetitions cover most, the shortest of equals, and how often it stands.
fn best_repetition(bytes: &[u8]) -> (usize, usize) {
    let mut best = (1, 1);
    for part in 1..=LONGEST_PART.min(bytes.len()) {
        let times = bytes.chunks_exact(part).take_while(|c| *c == &bytes[..part]).count();
        if part * (times - 1) > best.0 * (best.1 - 1) {
            best = (part, times);
        }
    }
    best
}

/// Reads what `encode` writes. For tables that people write, spaces are let pass, and one may stand for the semicolon.
pub fn decode(text: &str) -> Result<Vec<u8>, String> {
    if text == "-" {
        return Ok(Vec::new());
    }
    let mut bytes = Vec::new();
    let mut rest = text.trim_start();
    while !rest.is_empty() {
        rest = match rest.strip_prefix('[') {
            Some(inner) => decode_repetition(inner, &mut bytes)?,
            None => decode_byte(rest, &mut bytes)?,
        }
        .trim_start();
    }
    Ok(bytes)
}

fn decode_byte<'a>(text: &'a str, bytes: &mut Vec<u8>) -> Result<&'a str, String> {
    let pair = text.get(..2).ok_or("an odd number of digits")?;
    bytes.push(u8::from_str_radix(pair, 16).map_err(|_| format!("no byte: `{pair}`"))?);
    Ok(&text[2..])
}

fn decode_repetition<'a>(text: &'a str, bytes: &mut Vec<u8>) -> Result<&'a str, String> {
    let (part, rest) = split_at_closing(text).ok_or("a `[` without `]*`")?;
    let end = rest.find(|c: char| !c.is_ascii_digit()).unwrap_or(rest.len());
    let times: usize = rest[..end].parse().map_err(|_| "a repetition without a number")?;
    bytes.extend(decode(part)?.repeat(times));
    let rest = &rest[end..];
    Ok(rest.strip_prefix(';').unwrap_or(rest))
}

/// What stands before the bracket that closes, and behind its star.
fn split_at_closing(text: &str) -> Option<(&str, &str)> {
    let mut open = 1;
    let closing = text.find(|c: char| {
        open += i32::from(c == '[') - i32::from(c == ']');
        open == 0
    })?;
    Some((&text[..closing], text[closing..].strip_prefix("]*")?))
}

#[cfg(test)]
mod tests {
    use super::*;

    #[test]
    fn what_is_written_is_read() {
        let cases: [Vec<u8>; 5] = [
            vec![],
            vec![1, 2, 3],
            vec![7; 300],
            [vec![1], [3, 0, 0, 0].repeat(31), vec![9]].concat(),
            vec![0xA5; 65_536],
        ];
        for bytes in cases {
            assert!(decode(&encode(&bytes)).unwrap() == bytes, "{}", encode(&bytes));
        }
    }

    #[test]
    fn repetitions_are_short() {
        assert_eq!(encode(&vec![0; 32_769]), "[00]*32769;");
        assert_eq!(encode(&[1, 2]), "0102");
        assert_eq!(decode("44 [03 00]*2 0B").unwrap(), [0x44, 3, 0, 3, 0, 0x0B]);
        assert_eq!(decode("[01 [02]*2]*2 03").unwrap(), [1, 2, 2, 1, 2, 2, 3]);
        assert!(decode("[01 [02]*2").is_err());
    }
}
