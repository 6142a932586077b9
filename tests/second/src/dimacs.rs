//! The reader of DIMACS CNF.

use crate::refusal::{require, Answer};
use crate::sheets::{MAX_CLAUSES, MAX_NUMBERS};
use crate::words::MAX_INPUTS;

/// The most bytes of a text.
pub const MAX_TEXT: usize = 32768;

/// A body token.
#[derive(Clone, Copy, PartialEq, Eq, Debug)]
pub enum Token {
    /// `0`, which closes a clause.
    Close,
    /// A literal in form.
    Literal(i64),
    /// `%`, which ends the text.
    End,
    /// Any other bytes.
    NotInForm,
}

/// A header in form: its two numbers, and where the body begins.
#[derive(Clone, Copy, PartialEq, Eq, Debug)]
pub struct Header {
    pub variables: u32,
    pub clauses: usize,
    pub body: usize,
}

/// What the reader answers: the header's V, and the count of numbers.
#[derive(Clone, Copy, PartialEq, Eq, Debug)]
pub struct Reading {
    pub variables: u32,
    pub count: usize,
}

/// The number that these bytes write in decimal without leading zeros.
fn decimal(bytes: &[u8]) -> Option<u32> {
    let number: u32 = std::str::from_utf8(bytes).ok()?.parse().ok()?;
    if number.to_string().as_bytes() == bytes {
        Some(number)
    } else {
        None
    }
}

/// The header after the comment lines, if it is in form.
pub fn header(text: &[u8]) -> Option<Header> {
    let mut place = 0;
    while text.get(place) == Some(&b'c') {
        place += text[place..].iter().position(|&b| b == b'\n')? + 1;
    }
    let end = (place..text.len()).find(|&i| text[i] == b'\n').unwrap_or(text.len());
    let mut line = &text[place..end];
    line = line.strip_suffix(b"\r").unwrap_or(line);
    while let Some(shorter) = line.strip_suffix(b" ").or(line.strip_suffix(b"\t")) {
        line = shorter;
    }
    let words: Vec<&[u8]> = line.split(|&b| b == b' ').filter(|word| !word.is_empty()).collect();
    if words.len() != 4 || !line.starts_with(b"p") || words[0] != b"p" || words[1] != b"cnf" {
        return None;
    }
    let variables = decimal(words[2]).filter(|v| (1..=MAX_INPUTS).contains(v))?;
    let clauses = decimal(words[3]).filter(|&c| c as usize <= MAX_CLAUSES)?;
    Some(Header { variables, clauses: clauses as usize, body: (end + 1).min(text.len()) })
}

/// Whether the byte parts tokens.
fn parts(byte: u8) -> bool {
    byte == b' ' || byte == b'\t' || byte == b'\r' || byte == b'\n'
}

/// The kind of a token, where literals reach to v.
fn token(v: u32, bytes: &[u8]) -> Token {
    if bytes == b"0" {
        return Token::Close;
    }
    if bytes == b"%" {
        return Token::End;
    }
    let (sign, digits) = match bytes.strip_prefix(b"-") {
        Some(rest) => (-1, rest),
        None => (1, bytes),
    };
    match decimal(digits) {
        Some(number) if (1..=v).contains(&number) => Token::Literal(sign * i64::from(number)),
        _ => Token::NotInForm,
    }
}

/// The first token from the place on and the place just past it, or none if none is left.
pub fn token_step(v: u32, text: &[u8], place: usize) -> Option<(Token, usize)> {
    let start = (place..text.len()).find(|&i| !parts(text[i]))?;
    let end = (start..text.len()).find(|&i| parts(text[i])).unwrap_or(text.len());
    Some((token(v, &text[start..end]), end))
}

/// The numbers of the body, up to a token `%` or the end (refusal 12).
fn body_numbers(v: u32, text: &[u8], body: usize) -> Answer<Vec<i32>> {
    let mut numbers = Vec::new();
    let mut place = body;
    while let Some((token, next)) = token_step(v, text, place) {
        place = next;
        match token {
            Token::Close => numbers.push(0),
            Token::Literal(literal) => numbers.push(literal as i32),
            Token::End => break,
            Token::NotInForm => require(12, false)?,
        }
    }
    Ok(numbers)
}

/// Reads a text: V and the count, and the numbers in the lent run.
pub fn read_dimacs(text: &[u8], numbers: &mut [i32]) -> Answer<Reading> {
    require(10, text.len() <= MAX_TEXT)?;
    let header = header(text);
    require(11, header.is_some())?;
    let Header { variables, clauses, body } = header.unwrap();
    let found = body_numbers(variables, text, body)?;
    let closed = found.iter().filter(|&&x| x == 0).count();
    require(13, closed == clauses && (found.is_empty() || found[found.len() - 1] == 0))?;
    require(15, found.len() <= MAX_NUMBERS && found.len() <= numbers.len())?;
    numbers[..found.len()].copy_from_slice(&found);
    Ok(Reading { variables, count: found.len() })
}
