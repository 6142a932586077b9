//! A call's answer as one number.

use second::dimacs::Token;
use second::refusal::{Answer, Refusal};

/// number * 2^56 + size * 2^52 + second * 2^32 + first, for at most two values.
pub fn pack(number: u32, values: &[u64]) -> u64 {
    let value = |i: usize| values.get(i).copied().unwrap_or(0);
    (u64::from(number) << 56) + ((values.len() as u64) << 52) + (value(1) << 32) + value(0)
}

/// An answer's packed number: 0 and the result's values, or the refusal's number and a collision's setting.
pub fn packed<T>(answer: Answer<T>, values: impl Fn(T) -> Vec<u64>) -> u64 {
    match answer {
        Ok(result) => pack(0, &values(result)),
        Err(Refusal::Collision(setting)) => pack(6, &[u64::from(setting)]),
        Err(Refusal::Number(number)) => pack(number, &[]),
    }
}

/// The first value of a packed answer.
pub fn first(answer: u64) -> u64 {
    answer & 0xffff_ffff
}

/// The second value of a packed answer.
pub fn second_value(answer: u64) -> u64 {
    (answer >> 32) & 0xf_ffff
}

/// How many values a packed answer has.
pub fn size(answer: u64) -> u64 {
    (answer >> 52) & 0xf
}

/// A packed answer's kind: the refusal, or the given name of a result.
pub fn kind(answer: u64, result: &str) -> String {
    refused(answer >> 56, result)
}

/// A host answer's kind: the refusal, or the given name of a result.
pub fn host_kind(answer: u64, result: &str) -> String {
    refused(answer >> 32, result)
}

/// The name of a refusal, or of a result where the number is 0.
fn refused(number: u64, result: &str) -> String {
    match number {
        0 => result.to_string(),
        _ => format!("refused {number}"),
    }
}

/// A token step's number: 0 if no token is left, else kind * 2^61 + the next place * 2^32 + the low bits of a number.
pub fn packed_token(step: Option<(Token, usize)>) -> u64 {
    let Some((token, next)) = step else { return 0 };
    let (kind, bits) = match token {
        Token::Close => (1, 0),
        Token::Literal(literal) => (if literal < 0 { 2 } else { 1 }, literal as u32),
        Token::End => (3, 0),
        Token::NotInForm => (4, 0),
    };
    (kind << 61) + ((next as u64) << 32) + u64::from(bits)
}

/// A token step's kind.
pub fn token_kind(answer: u64) -> &'static str {
    let kinds = ["none left", "number", "number below zero", "percent", "other"];
    kinds.get((answer >> 61) as usize).copied().unwrap_or("no kind")
}

/// The place behind a token.
pub fn token_next(answer: u64) -> u64 {
    answer >> 32 & 0x1fff_ffff
}

/// The number that a token is, if it is one.
pub fn token_number(answer: u64) -> Option<i64> {
    match token_kind(answer) {
        "number" => Some(first(answer) as i64),
        "number below zero" => Some(first(answer) as i64 - (1 << 32)),
        _ => None,
    }
}
