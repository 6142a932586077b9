//! Wrong readers, tokens, writers and outputs are caught.

mod common;

use common::caught;
use compare::answers::{first, pack, second_value, token_kind, token_next};
use compare::calls::Texts;
use compare::itself::TEXTS;
use compare::output::OUTPUT;
use compare::reading::READ;
use compare::tokens::TOKEN;
use compare::writing::WRITE;

/// The reader with one thing wrong.
fn read(wrong: fn(&[u8], &mut [i32]) -> u64) -> String {
    caught(READ, Texts { read: wrong, ..TEXTS })
}

/// The token step with one thing wrong.
fn token(wrong: fn(u32, &[u8], usize) -> u64) -> String {
    caught(TOKEN, Texts { token: wrong, ..TEXTS })
}

/// The writer with one thing wrong.
fn write(wrong: fn(u32, usize, &[u32], &[u32], &mut [u8]) -> u64) -> String {
    caught(WRITE, Texts { write: wrong, ..TEXTS })
}

/// The output with one thing wrong.
fn output(wrong: fn(&[u8], &[u8], &mut [u8]) -> u64) -> String {
    caught(OUTPUT, Texts { output: wrong, ..TEXTS })
}

#[test]
fn a_reader_that_clears_its_run() {
    let words = read(|text, numbers| {
        let answer = (TEXTS.read)(text, numbers);
        if answer >> 56 == 0 {
            numbers[second_value(answer) as usize..].fill(0);
        }
        answer
    });
    assert!(words.contains("is 0, the second program leaves"));
}

#[test]
fn a_reader_that_writes_before_it_refuses() {
    read(|text, numbers| {
        let answer = (TEXTS.read)(text, numbers);
        if answer >> 56 == 13 && !numbers.is_empty() {
            numbers[0] = 0;
        }
        answer
    });
}

#[test]
fn a_reader_that_judges_room_first() {
    read(|text, numbers| match (TEXTS.read)(text, numbers) {
        answer if answer >> 56 == 13 && numbers.is_empty() => pack(15, &[]),
        answer => answer,
    });
}

#[test]
fn a_reader_without_the_limit_of_numbers() {
    let words = read(|text, numbers| match (TEXTS.read)(text, numbers) {
        answer if answer >> 56 == 15 && numbers.len() >= 8193 => pack(0, &[1, 8193]),
        answer => answer,
    });
    assert!(words.contains("room 8193"), "the room is not what is refused");
}

#[test]
fn a_reader_that_takes_one_byte_more() {
    read(|text, numbers| (TEXTS.read)(if text.len() == 32769 { &text[..32768] } else { text }, numbers));
}

#[test]
fn a_token_with_leading_zeros() {
    let words = token(|v, text, at| match text.get(at..) {
        Some([b'0', digit @ b'1'..=b'9', ..]) if u32::from(digit - b'0') <= v => (TEXTS.token)(v, text, at + 1),
        _ => (TEXTS.token)(v, text, at),
    });
    assert!(words.contains("text \"01\""), "two bytes are enough");
}

#[test]
fn a_token_whose_place_is_one_on() {
    token(|v, text, at| match (TEXTS.token)(v, text, at) {
        answer if token_kind(answer) == "percent" => answer + (1 << 32),
        answer => answer,
    });
}

#[test]
fn a_token_that_wraps_around() {
    token(|v, text, at| {
        let answer = (TEXTS.token)(v, text, at);
        let end = token_next(answer) as usize;
        let start = end.saturating_sub(10);
        match text.get(start..end) {
            Some(b"4294967297") if at <= start => (1 << 61) + ((end as u64) << 32) + 1,
            _ => answer,
        }
    });
}

#[test]
fn a_writer_from_the_last_variable() {
    write(|n, count, care, value, text| {
        let answer = (TEXTS.write)(n, count, care, value, text);
        let row = (n as usize) + 3;
        if answer >> 56 == 0 {
            let length = first(answer) as usize;
            let rows = length - 3 - row * count;
            for i in 0..count {
                text[rows + i * row..rows + (i + 1) * row - 3].reverse();
            }
        }
        answer
    });
}

#[test]
fn a_writer_that_ends_in_a_zero_byte() {
    write(|n, count, care, value, text| {
        let answer = (TEXTS.write)(n, count, care, value, text);
        if let Some(byte) = text.get_mut(first(answer) as usize).filter(|_| answer >> 56 == 0) {
            *byte = 0;
        }
        answer
    });
}

#[test]
fn a_writer_that_is_one_byte_short() {
    write(|n, count, care, value, text| match (TEXTS.write)(n, count, care, value, text) {
        answer if answer >> 56 == 0 && first(answer) == text.len() as u64 && count > 2 => pack(15, &[]),
        answer => answer,
    });
}

#[test]
fn a_writer_of_257_rows() {
    write(|n, count, care, value, text| match (TEXTS.write)(n, count, care, value, text) {
        answer if answer >> 56 == 8 && count == 257 && care.len().min(value.len()) >= 257 => pack(15, &[]),
        answer => answer,
    });
}

#[test]
fn an_output_that_reads_off_first() {
    output(|on, off, out| {
        let length = (TEXTS.output)(off, on, out);
        if out.starts_with(b"refused 1") && length == 11 {
            return length;
        }
        (TEXTS.output)(on, off, out)
    });
}

#[test]
fn an_output_that_clears_its_room() {
    output(|on, off, out| {
        out.fill(0);
        (TEXTS.output)(on, off, out)
    });
}

#[test]
fn an_output_whose_setting_is_turned_round() {
    output(|on, off, out| {
        let length = (TEXTS.output)(on, off, out);
        if out.starts_with(b"refused 6 ") {
            out[10..length as usize - 1].reverse();
        }
        length
    });
}

#[test]
fn an_output_that_takes_unequal_headers() {
    output(|on, off, out| {
        let length = (TEXTS.output)(on, off, out);
        if out.starts_with(b"refused 14") {
            out[9] = b'3';
        }
        length
    });
}

#[test]
fn a_token_whose_sign_is_lost() {
    token(|v, text, at| match (TEXTS.token)(v, text, at) {
        answer if token_kind(answer) == "number below zero" => answer - (1 << 61),
        answer => answer,
    });
}

#[test]
fn an_output_that_is_written_without_room() {
    output(|on, off, out| {
        let length = (TEXTS.output)(on, off, out);
        if length == 0 && !out.is_empty() {
            out[0] = b'.';
        }
        length
    });
}
