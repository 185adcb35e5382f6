//! The lister's lines made the table again.

use super::body_length;
use crate::hex;
use crate::refusal::TABLE_LIMIT;

/// The most bytes of a text that has all lines of a table.
pub const TEXT_LIMIT: usize = 65_536;

/// The table of a text, or the number of its first bad line. A line for each record, its
/// place in any decimal digits, its kind and its body in hex, with one space between
/// them; then the count, and nothing behind it. Every line has its end, which is among
/// the first bytes of a text up to its limit.
pub fn write_table(input: &[u8]) -> Result<Vec<u8>, usize> {
    let mut table = Vec::new();
    let mut at = 0;
    for number in 1.. {
        let line = line(input, at).ok_or(number)?;
        at += line.len() + 1;
        if line == format!("records {}", number - 1).as_bytes() {
            return match at == input.len() {
                true => Ok(table),
                false => Err(number + 1),
            };
        }
        table.extend(record(line).ok_or(number)?);
        if table.len() > TABLE_LIMIT {
            return Err(number);
        }
    }
    unreachable!("a text has an end")
}

/// What the program prints for a text.
pub fn write_table_output(input: &[u8]) -> Vec<u8> {
    write_table(input).unwrap_or_else(|number| format!("bad line {number}\n").into())
}

/// The line that begins at a place, without its end; none where that is missing.
fn line(input: &[u8], at: usize) -> Option<&[u8]> {
    let text = &input[at..input.len().min(TEXT_LIMIT)];
    let end = text.iter().position(|byte| *byte == b'\n')?;
    Some(&text[..end])
}

/// The record of a line, kind byte first.
fn record(line: &[u8]) -> Option<Vec<u8>> {
    let fields: Vec<&[u8]> = line.split(|byte| *byte == b' ').collect();
    let [place, kind, body] = fields[..] else {
        return None;
    };
    if place.is_empty() || !place.iter().all(u8::is_ascii_digit) {
        return None;
    }
    let (kind, body) = (bytes(kind)?, bytes(body)?);
    match kind[..] {
        [kind] if body_length(kind) == Some(body.len()) => Some([&[kind], &body[..]].concat()),
        _ => None,
    }
}

/// The bytes of lower-case digits.
fn bytes(digits: &[u8]) -> Option<Vec<u8>> {
    let lower = |digit: &u8| matches!(digit, b'0'..=b'9' | b'a'..=b'f');
    let whole = digits.len().is_multiple_of(2) && digits.iter().all(lower);
    let text = std::str::from_utf8(digits).ok().filter(|_| whole)?;
    Some(hex::decode(text))
}

#[cfg(test)]
mod tests;
