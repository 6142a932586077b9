//! What the program prints for the two files' texts.

use crate::calls::whole_list;
use crate::dimacs::read_dimacs;
use crate::method::MAX_ROWS;
use crate::pla::{write_pla, MAX_PLA};
use crate::refusal::{require, Answer, Refusal};
use crate::sheets::MAX_NUMBERS;
use crate::words::setting_text;

/// A text's V and its numbers.
fn sheet_of(text: &[u8]) -> Answer<(u32, Vec<i32>)> {
    let mut numbers = vec![0; MAX_NUMBERS];
    let reading = read_dimacs(text, &mut numbers)?;
    numbers.truncate(reading.count);
    Ok((reading.variables, numbers))
}

/// The PLA text for two sheets on n inputs, by the order 1..n.
fn pla_of(n: u32, on: &[i32], off: &[i32]) -> Answer<Vec<u8>> {
    let order: Vec<u32> = (1..=n).collect();
    let mut care = vec![0; MAX_ROWS];
    let mut value = vec![0; MAX_ROWS];
    let count = whole_list(n, &order, on, off, &mut care, &mut value)?;
    let mut text = vec![0; MAX_PLA];
    let length = write_pla(n, count, &care, &value, &mut text)?;
    text.truncate(length);
    Ok(text)
}

/// The line that a refusal prints; n is known where sheets collide.
fn refusal_line(n: u32, refusal: Refusal) -> Vec<u8> {
    match refusal {
        Refusal::Number(number) => format!("refused {number}\n"),
        Refusal::Collision(setting) => format!("refused 6 {}\n", setting_text(n, setting)),
    }
    .into_bytes()
}

/// Both sheets on the n that both headers name.
fn read_both(on_text: &[u8], off_text: &[u8]) -> Answer<(u32, Vec<i32>, Vec<i32>)> {
    let (on_n, on) = sheet_of(on_text)?;
    let (off_n, off) = sheet_of(off_text)?;
    require(14, on_n == off_n)?;
    Ok((on_n, on, off))
}

/// The program's output for the texts of on.cnf and off.cnf; a file that cannot be opened is an empty text.
pub fn output(on_text: &[u8], off_text: &[u8]) -> Vec<u8> {
    match read_both(on_text, off_text) {
        Err(refusal) => refusal_line(0, refusal),
        Ok((n, on, off)) => match pla_of(n, &on, &off) {
            Err(refusal) => refusal_line(n, refusal),
            Ok(text) => text,
        },
    }
}
